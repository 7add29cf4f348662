"""Whether pf and pfsrc say the same of a packet: pf's answer in a log beside the line of a report."""

import enum
from collections.abc import Sequence
from dataclasses import dataclass, field

from pfplan.common.limits import DROPPED_COOKIE, LIMITING
from pfplan.pf.numbers_of_pf import PfRule
from pfplan.traces.pf_answers import LIMITS, PfAnswer
from pfplan.traces.records import Answer


class Fate(enum.Enum):
    """What became of a packet, as either says it. The values stand in what is told."""

    PASSES = "passes"
    PROXIES = "answers itself"
    BLOCKS = "blocks"
    LIMITS = "refuses by a limit"
    DROPS = "drops for another reason"
    OPEN = "does not say"


class Verdict(enum.Enum):
    """Whether both say the same, or it can't be said."""

    AGREES = "agrees"
    DIFFERS = "differs"
    APART = "apart"


SAME = "the same rule"
OTHER_RULE = "the same, by another rule"
OTHER_LIMIT = "refused by another limit"
ICMP = "ICMP, which pfsrc does not answer"
MATCH = "logged by a match rule alone, which does not say what became of it"
OTHER_ACTION = "an action of pf that neither passes nor blocks"
NOT_LOGGED = "no packet of a log"
NO_SUCH_RULE = "pf names a rule that this text does not have"
LEFT_OUT = "pf's rule is left out of the rules text"
WITHOUT_LOG = "by pfsrc's answer no log has it: a rule that keeps state, without log"
WITHOUT_ALL = "by pfsrc's answer no log has it: a later packet of a state, whose rule has log without all"


@dataclass(frozen=True)
class Judged:
    """The verdict of a packet, its kind, and what both said in a word."""

    verdict: Verdict
    kind: str
    pf: str
    pfsrc: str


def fate_of_pf(answer: PfAnswer) -> Fate:
    """What pf did."""
    if answer.is_refusal:
        return Fate.LIMITS if answer.reason in LIMITS else Fate.DROPS
    if answer.is_proxied:
        return Fate.PROXIES
    return {"pass": Fate.PASSES, "block": Fate.BLOCKS}.get(answer.action, Fate.OPEN)


def fate_of_pfsrc(word: str) -> Fate:
    """What a word of a report means."""
    if word in LIMITING:
        return Fate.LIMITS
    if word == DROPPED_COOKIE:
        return Fate.DROPS
    if word == "block":
        return Fate.BLOCKS
    if word in ("proxy", "cookie"):
        return Fate.PROXIES
    return Fate.PASSES if word in ("new", "state", "pass") else Fate.OPEN


@dataclass
class Judge:
    """Knows the rules of a text as pf numbers them, and the items of its rules text."""

    rules: Sequence[PfRule]
    _by_number: dict[tuple[str, int], list[PfRule]] = field(default_factory=dict)
    _by_item: dict[int, PfRule] = field(default_factory=dict)

    def __post_init__(self) -> None:
        for it in self.rules:
            self._by_number.setdefault((it.number.logged_name(), it.number.number), []).append(it)
            self._by_item.update(dict.fromkeys(it.items, it))

    def rules_of(self, answer: PfAnswer) -> list[PfRule]:
        """The rules that pf may mean: of anchors whose paths end alike, those that the named rule calls, if there are
        some."""
        if (answer.subrule is None) != (not answer.anchor):
            return []
        number = answer.rule if answer.subrule is None else answer.subrule
        found = self._by_number.get((_plain(answer.anchor), -1 if number is None else number), [])
        return [it for it in found if it.number.caller in (None, answer.rule)] or found

    def is_misfit(self, answer: PfAnswer) -> bool:
        """Whether pf's rule does something else in this text than pf did by it: then pf's numbers are those of another
        text."""
        actions = {it.action for it in self.rules_of(answer)} if answer.rule is not None else set()
        return bool(actions) and answer.action in ("pass", "block", "match") and answer.action not in actions

    def rule_of(self, answer: Answer) -> PfRule | None:
        """pf's rule of the item that a line of a report names."""
        return self._by_item.get(int(answer.rule[1:])) if answer.rule != "-" else None

    def judge(self, pf: PfAnswer | None, pfsrc: Answer) -> Judged:
        """Whether both say the same of a packet. `pf` is None where the packet is of no log."""
        if pf is None:
            return Judged(Verdict.APART, NOT_LOGGED, "-", pfsrc.word)
        apart = self._apart(pf, pfsrc)
        if apart:
            return Judged(Verdict.APART, apart, pf.word(), pfsrc.word)
        return self._compared(pf, pfsrc)

    def _apart(self, pf: PfAnswer, pfsrc: Answer) -> str:
        """Why the two can't be compared, whatever they say."""
        if pfsrc.word == "skip":
            return ICMP
        if fate_of_pf(pf) is Fate.OPEN:
            return MATCH if pf.action == "match" else OTHER_ACTION
        if pf.rule is not None:
            rules = self.rules_of(pf)
            if not any(it.items for it in rules):
                return LEFT_OUT if rules else NO_SUCH_RULE
        mine = self.rule_of(pfsrc)
        if pfsrc.word == "state" and mine and mine.logs and not mine.logs_all:
            return WITHOUT_ALL
        return ""

    def _compared(self, pf: PfAnswer, pfsrc: Answer) -> Judged:
        theirs, ours = fate_of_pf(pf), fate_of_pfsrc(pfsrc.word)
        words = pf.word(), pfsrc.word
        is_same_rule = self._is_same_rule(pf, pfsrc)
        if theirs is ours:
            is_same_word = theirs is not Fate.LIMITS or pfsrc.word in LIMITS[pf.reason]
            if is_same_word and is_same_rule:
                return Judged(Verdict.AGREES, SAME, *words)
            kind = OTHER_RULE if is_same_word else OTHER_LIMIT
        else:
            kind = f"pf {theirs.value}, pfsrc {ours.value}"
        mine = self.rule_of(pfsrc)
        keeps_state = pfsrc.word in ("new", "state", "proxy") or ours is Fate.LIMITS
        if keeps_state and mine and not mine.logs and not is_same_rule:
            return Judged(Verdict.APART, WITHOUT_LOG, *words)
        return Judged(Verdict.DIFFERS, kind, *words)

    def _is_same_rule(self, pf: PfAnswer, pfsrc: Answer) -> bool:
        if pf.rule is None or pfsrc.rule == "-":
            return pf.rule is None and pfsrc.rule == "-"
        return any(int(pfsrc.rule[1:]) in it.items for it in self.rules_of(pf))


def _plain(anchor: str) -> str:
    """The name of an anchor, whose other bytes are written as `%` and two digits."""
    head, *parts = anchor.split("%")
    return head + "".join(chr(int(it[:2], 16)) + it[2:] for it in parts)
