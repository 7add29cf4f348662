"""What is left out of a rules text, why, whether that can change an answer, and which way."""

import itertools
import re
from collections.abc import Iterable
from dataclasses import dataclass, field, replace
from typing import Any

from pfplan.common.errors import Status, Trouble
from pfplan.common.limits import OF_RULES
from pfplan.pf.lexer import printable
from pfplan.pf.profiles import Profile
from pfplan.pf.statements import (
    Anchor,
    Antispoof,
    OldAnchor,
    OldTranslation,
    Other,
    Part,
    Rule,
    Setting,
    SourceLine,
    State,
    Statement,
    Unread,
)

# which way pf answers otherwise than what is left
BLOCKS_MORE = "pf blocks more"
PASSES_MORE = "pf passes more"
OTHER_STATES = "pf makes other states"
EITHER_WAY = "pf may block or pass more"
# characters of what is left out that are told
LONGEST = 400
_COUNTS = (*OF_RULES, "adaptive.start", "adaptive.end")
OLD_TRANSLATIONS = ("nat", "rdr", "binat")
# characters of a rule of today that are told of an older one
_LONGEST_RULE = 200
_TAG = re.compile(r' tag ("[^"]*"|\S+)')


@dataclass(frozen=True)
class Leftover:
    """One thing that was left out: where it stands, its text, the reason, whether it can change an answer, and which
    way.

    It `is_missing` where the reason names a word of the command line that gives what is not there.
    """

    file: str
    line: int
    text: str
    reason: str
    changes_answer: bool
    way: str = ""
    is_missing: bool = False

    def to_json(self) -> dict[str, Any]:
        """It for machines."""
        return {
            "file": printable(self.file),
            "line": self.line,
            "text": printable(self.text),
            "reason": self.reason,
            "changes_answer": self.changes_answer,
            "way": self.way,
            "is_missing": self.is_missing,
        }

    def shown(self) -> str:
        """The line that tells it."""
        can = f"can change an answer ({self.way})" if self.changes_answer else "changes no answer"
        return f"{printable(self.file)}: line {self.line}: left out: {self.text}: {can}: {self.reason}"


@dataclass(frozen=True)
class Reason:
    """Why something is left out. A rule `goes` whole where it would match other packets without it.

    `way` is which way pf answers otherwise; where it is empty, that follows from what the statement does. With
    `is_missing` the text says which word of the command line gives what is not there.
    """

    text: str
    changes: bool
    goes: bool = False
    way: str = ""
    is_missing: bool = False


def harmless(text: str) -> Reason:
    """A part without which the rule matches the same packets, and no answer changes."""
    return Reason(text, changes=False)


def telling(text: str, way: str = "", *, is_missing: bool = False) -> Reason:
    """A part without which the rule matches the same packets, and an answer can change."""
    return Reason(text, changes=True, way=way, is_missing=is_missing)


def beyond(text: str, *, is_missing: bool = False) -> Reason:
    """A part without which the rule would match other packets: it goes whole, which can change an answer."""
    return Reason(text, changes=True, goes=True, is_missing=is_missing)


def counts_states(state: State | None) -> bool:
    """Whether a rule counts its states or sources, so that two rules in its place would count apart."""
    return state is not None and any(it.name in _COUNTS for it in state.options)


def way_of(statement: Statement | None) -> str:
    """Which way pf answers otherwise than without a statement, by what it does."""
    if isinstance(statement, Antispoof) or isinstance(statement, Rule) and statement.action == "block":
        return BLOCKS_MORE
    if isinstance(statement, Rule) and statement.action == "pass":
        # what such a rule counts, it also refuses or kills
        return EITHER_WAY if counts_states(statement.filter.state) else PASSES_MORE
    if isinstance(statement, Rule):
        return OTHER_STATES
    if isinstance(statement, Setting) and statement.name == "skip":
        return PASSES_MORE
    return EITHER_WAY


def joined_ways(ways: Iterable[str]) -> str:
    """The way of several together: that of other states counts where no other is among them."""
    found = set(ways) - {""}
    found = found - {OTHER_STATES} or found
    return EITHER_WAY if len(found) > 1 else next(iter(found), "")


class Tags:
    """The tags that rules ask for, and those that rules give: by them it is told which way an answer errs where one is
    not given."""

    def __init__(self, asking: Iterable[Rule] = (), given: Iterable[str] = ()) -> None:
        """Rules that ask for tags, and the tags that some give. A tag with a macro, as labels have them, may be any."""
        self._given = frozenset(given)
        self._is_any_given = any(map(has_macro, self._given))
        self._lacked: dict[str, set[str]] = {}  # by tag, the ways where a packet does not have it here
        self._kept: dict[str, set[str]] = {}  # by way, the tags that a packet may have here alone
        for rule in asking:
            asked, counts = rule.filter.part("tagged"), counts_states(rule.filter.state)
            if asked is not None:
                lacked = way_of_asking(rule.action, counts, holds_here=asked.negated)
                self._lacked.setdefault(asked.value, set()).add(lacked)
                if self.is_given(asked.value):
                    kept = way_of_asking(rule.action, counts, holds_here=not asked.negated)
                    self._kept.setdefault(kept, set()).add(asked.value)
        self._always = {way for tag, ways in self._lacked.items() if has_macro(tag) for way in ways}

    def is_given(self, tag: str) -> bool:
        """Whether some rule may give a tag."""
        return tag in self._given or self._is_any_given or has_macro(tag) and bool(self._given)

    def way_without(self, statement: Statement | None) -> str:
        """Which way pf answers otherwise than without the tag that a statement gives; nothing where it gives none, or
        no answer depends on it.

        The packet has no tag then, or that which it had before.
        """
        tag = tag_of(statement)
        if tag is None:
            return ""
        if has_macro(tag):
            return joined_ways((*self._kept, *itertools.chain.from_iterable(self._lacked.values())))
        kept = (way for way, tags in self._kept.items() if len(tags) > (tag in tags))
        return joined_ways((*self._lacked.get(tag, ()), *self._always, *kept))


def tag_of(statement: Statement | None) -> str | None:
    """The tag that a statement gives; so may a translation of older pf."""
    if isinstance(statement, Unread):
        found = _TAG.search(statement.text)
        return found[1].strip('"') if found else None
    tag = statement.filter.part("tag") if isinstance(statement, Rule | Anchor | OldTranslation) else None
    return tag.value if tag else None


def tags_of(statements: Iterable[Statement], translates: bool) -> Tags:
    """The tags of all statements, those of anchors among them. Rules that a rules text has not ask for none here."""
    every = list(statements)
    rules = [it for it in every if isinstance(it, Rule) and it.filter.part("tagged")]
    given = (tag for it in every if (tag := tag_of(it)) is not None)
    return Tags((it for it in rules if it.action != "match" or is_carried_match(it, translates)), given)


def has_macro(tag: str) -> bool:
    """Whether a tag stands for several."""
    return "$" in tag


def way_of_asking(action: str, counts: bool, *, holds_here: bool) -> str:
    """Which way pf answers otherwise where what a rule asks holds here alone, or in pf alone. What a rule `counts`, it
    also refuses or kills."""
    if action == "match" or counts:
        return EITHER_WAY
    return PASSES_MORE if (action == "block") == holds_here else BLOCKS_MORE


ELSEWHERE = telling("the packet goes another way", OTHER_STATES)
# what a trace lacks of every TCP packet is told with the windows (docs/DIFFERENCES.md), not of each text
TIMESTAMPS = harmless("it asks for timestamps, which a trace does not have, as it has no windows (docs/DIFFERENCES.md)")
ORDERS = "it orders or marks packets that pass"
SCRUBS = "it changes fragments and options, which a trace does not have"
TRANSLATED = "addresses are translated, and a trace has those of one side"
ICMP = Reason("ICMP is answered by skip", changes=False, goes=True)
_NOT_CARRIED = ("user", "group", "os", "tos", "prio", "fragment")
MARKS = ("tag", "tagged", "received-on")  # what a rules text has behind the hosts of a rule
_REASONS = {
    "answer": harmless("it says what the sender is told"),
    "label": harmless("it neither passes nor blocks"),
    "queue": harmless("it neither passes nor blocks"),
    "set": harmless(ORDERS),
    "allow-opts": harmless("a trace does not carry IP options"),
    "rtable": harmless("the packet passes all the same"),
    "dup-to": harmless("the packet passes all the same"),
    "fastroute": ELSEWHERE,
    "route-to": ELSEWHERE,
    "reply-to": ELSEWHERE,
    "divert-to": ELSEWHERE,
    "divert-reply": ELSEWHERE,
    "divert-packet": ELSEWHERE,
    "nat-to": telling(TRANSLATED, OTHER_STATES),
    "rdr-to": telling(TRANSLATED, OTHER_STATES),
    "binat-to": telling(
        f"{TRANSLATED}; the rule is carried for packets out, and that for packets in is not", OTHER_STATES
    ),
    "af-to": telling(TRANSLATED, OTHER_STATES),
    "once": beyond("the rule leaves at its first match"),
    "max-pkt-rate": beyond("it counts packets, not states"),
    "probability": beyond("it matches by chance"),
    "icmp-type": ICMP,
    "icmp6-type": ICMP,
    **{it: beyond(f"a trace does not carry what it asks ({it})") for it in _NOT_CARRIED},
}
_UNASKED_TAG = harmless("the rules that ask for the tag are told by themselves")
_GIVEN_TWICE = harmless("the last of this kind counts in a rule")
_TAG_OF_ANCHOR = telling("an anchor of a rules text gives no tag")
COUNTS = telling("it counts packets or states", OTHER_STATES)
TRANSLATIONS = ("nat-to", "rdr-to", "binat-to", "af-to")
WRITTEN = ("nat-to", "rdr-to", "binat-to")  # those of them that a rules text may have
AF_TO = beyond("packets go on in the other family, and a rules text has one family for a rule")
LACK_NOTE = (
    "the rules that come of this text translate addresses, but for what is left out: rules behind that see the "
    "addresses that came to it"
)
TRANSLATION_NOTE = (
    "addresses are translated by this text (nat-to, rdr-to, binat-to or af-to), and in the rules that come of it they "
    "are not: the rules"
    " behind see the addresses that the trace has. A trace taken on one side of the translation is answered by the "
    "rules that name"
    " addresses of that side; for a trace of the other side the answer can be wrong"
)
_OTHERS = {
    "include": telling(
        "its file is not there, so its rules are not; --root says below which folder to look", is_missing=True
    ),
    "scrub": harmless(f"old syntax; {SCRUBS}"),
    "scrub-anchor": harmless(f"old syntax; {SCRUBS}"),
    "queue": harmless("it orders packets that pass"),
    "altq": harmless("old syntax; it orders packets that pass"),
    "dummynet": telling("it is none of OpenBSD's; it delays and drops packets", BLOCKS_MORE),
    "dummynet-anchor": telling("it is none of OpenBSD's; it delays and drops packets", BLOCKS_MORE),
    "ether": telling("it is none of OpenBSD's; it asks for Ethernet headers"),
}
OLD_ANCHOR = telling(
    "old syntax; its rules are loaded by others while pf runs; --anchor NAME=FILE gives them", OTHER_STATES,
    is_missing=True,
)  # fmt: skip
_ASKED_BEFORE = "addresses are translated before the rules are asked"
_PASSED = "addresses are translated, and what it matches passes without the rules"


def reason_of_part(part: Part, of: Rule | Anchor, profile: Profile, translates: bool) -> Reason | None:
    """Why a part of a rule or an anchor is left out, or None where it is carried, or told by what writes it."""
    if part.kind in MARKS:
        return _reason_of_mark(part, of, profile)
    if part.kind == "binat-to" and of.filter.direction == "in":
        return beyond("binat-to stands for a rule of packets out, and one of packets in with other addresses")
    if translates and isinstance(of, Rule) and part.kind in TRANSLATIONS:
        return AF_TO if part.kind == "af-to" else None
    if part.kind == "scrub":
        return TIMESTAMPS if "reassemble tcp" in part.text else harmless(SCRUBS)
    if part.kind == "rtable" and isinstance(of, Rule) and of.action == "match":
        return ELSEWHERE
    return _REASONS[part.kind]


def _reason_of_mark(part: Part, of: Rule | Anchor, profile: Profile) -> Reason | None:
    """The same of a tag that is given or asked for, or of the interface on which a packet came in."""
    if profile is Profile.OWN:
        own = beyond(f"it is asked ({part.kind}) by the profile {Profile.OPENBSD.value} alone (--profile)")
        return _UNASKED_TAG if part.kind == "tag" else own
    if isinstance(of, Anchor):
        asks = beyond(f"an anchor of a rules text does not ask it ({part.kind})")
        return _TAG_OF_ANCHOR if part.kind == "tag" else asks
    return None if of.filter.part(part.kind) is part else _GIVEN_TWICE


def reason_of_other(statement: Other, today: str = "") -> Reason:
    """Why a statement is left out, by its first words and, of `scrub`, by what it does. `no scrub` takes packets out of
    what later `scrub` rules do, which are told by themselves. `today` is a rule of translation as it is written now."""
    kind, text = statement.kind, statement.text
    if kind == "scrub" and "reassemble tcp" in text:
        return TIMESTAMPS
    if kind == "no" and text.split()[1:2] == ["scrub"]:
        return _OTHERS["scrub"]
    if isinstance(statement, OldAnchor):
        return telling(f"old syntax; the {statement.sort} rules of an anchor, which others load", OTHER_STATES)
    if isinstance(statement, OldTranslation | Unread):
        return _reason_of_old(statement, today)
    return _OTHERS.get(kind, telling(f"old syntax; {_ASKED_BEFORE}", OTHER_STATES))


def _reason_of_old(statement: OldTranslation | Unread, today: str) -> Reason:
    """Why a rule of translation of older pf is left out, with the rule of today that does the same."""
    if isinstance(statement, Unread):
        passes = statement.text.split()[1:2] == ["pass"]
        what = f"{_PASSED if passes else _ASKED_BEFORE}; it is not read: {statement.why}"
    elif statement.pool is None:
        return telling(f"old syntax; pf asks no further {statement.sort} rule about what it matches", OTHER_STATES)
    else:
        passes = statement.passes
        what = _PASSED if passes else _ASKED_BEFORE
    if today:
        what += f"; today: {today if len(today) <= _LONGEST_RULE else f'{today[:_LONGEST_RULE]} ..'}"
    return telling(f"old syntax; {what}", PASSES_MORE if passes else OTHER_STATES)


def is_carried_match(rule: Rule, translates: bool) -> bool:
    """Whether a match rule does what a rules text has, and no more that rules behind it would see: it gives a tag or
    translates."""
    kinds = {it.kind for it in rule.filter.parts}
    if translates and kinds & set(WRITTEN):
        return "af-to" not in kinds
    return "tag" in kinds and not kinds & set(TRANSLATIONS)


def reason_of_match(rule: Rule) -> Reason:
    """Why a match rule is left out, by what it does."""
    parts, has_state, log = rule.filter.parts, rule.filter.state is not None, rule.filter.log
    kinds = {it.kind for it in parts}
    if kinds & set(TRANSLATIONS):
        return telling("addresses are translated for the rules behind it", OTHER_STATES)
    if kinds & {"divert-to", "divert-reply", "divert-packet", "route-to", "reply-to", "rtable"}:
        return ELSEWHERE
    if kinds & {"max-pkt-rate", "once"} or has_state:
        return COUNTS
    if any(it.kind == "scrub" and "reassemble tcp" in it.text for it in parts):
        return TIMESTAMPS
    if "scrub" in kinds:
        return harmless(SCRUBS)
    if "tag" in kinds:
        return _UNASKED_TAG
    if kinds & {"set", "label", "queue"} or log:
        return harmless("it neither passes nor blocks")
    return harmless("a match rule neither passes nor blocks")


@dataclass
class Teller:
    """Collects what is left out. With `is_strict` the first that can change an answer is Trouble with status 3. `tags`
    are those that the rules text has."""

    is_strict: bool = False
    tags: Tags = field(default_factory=Tags)
    leftovers: list[Leftover] = field(default_factory=list)
    notes: list[str] = field(default_factory=list)
    _seen: set[Leftover] = field(default_factory=set)

    def tell(self, place: SourceLine, text: str, reason: Reason, of: Statement | None = None) -> None:
        """Tells a thing once, however often the statement that it is a part of is expanded."""
        way = self._way(reason, of) if reason.changes else ""
        shown = text if len(text) <= LONGEST else f"{text[:LONGEST]} .."
        leftover = Leftover(place.file, place.line, shown, reason.text, reason.changes, way, reason.is_missing)
        if leftover in self._seen:
            return
        self._seen.add(leftover)
        self.leftovers.append(leftover)
        if self.is_strict and reason.changes:
            raise Trouble(f"{leftover.shown()} (--strict)", Status.RULES)

    def _way(self, reason: Reason, of: Statement | None) -> str:
        """Which way pf answers otherwise. A reason that names none is that a statement is not there, nor is its tag."""
        return reason.way or joined_ways((way_of(of), self.tags.way_without(of)))

    def tell_whole(self, statement: Statement, reason: Reason) -> None:
        """Tells a statement that is left out whole, and that its tag is not given, where a rule asks for that."""
        lost = self.tags.way_without(statement) if reason.changes else ""
        if lost:
            way = joined_ways((reason.way, lost)) if reason.way else ""
            reason = replace(reason, text=f"{reason.text}; its tag is not given either", way=way)
        self.tell(statement.place, statement.text, reason, statement)

    def note(self, text: str) -> None:
        """Says a thing once that is no leftover."""
        if text not in self.notes:
            self.notes.append(text)
