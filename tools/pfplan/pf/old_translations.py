"""Translation as pf had it before OpenBSD 4.7, as rules of today with the same effect (pf.conf(5) of OpenBSD 4.6,
TRANSLATION).

Before the filter rules a packet out was asked of the `binat` rules, then of the `nat` rules; a packet in of the `rdr`
rules, then of the `binat` rules. The first that matched translated it; one with `no` ended the search of its sort
(likely: the other sort was asked then). The filter rules saw what came of it. With `pass` they were not asked, and the
packet made a state, whatever its flags; so did a translated packet that none of them decided, and one that a rule with
`no state` let pass.

Today `match` translates at once, and each rule behind it is asked of what it made. So it is written:

- `nat`, `rdr` as `match out .. nat-to`, `match in .. rdr-to`; `binat` as both, with `static-port`; with `pass` as
  `pass quick .. flags any .. keep state`, which translates as it decides. It is asked of the packet as it came, so it
  passes what the old one did, and nothing that came with the address that it puts in. One with `no` is a `match` that
  does nothing. All stand before the filter rules.
- Where no packet that one has matched can match one behind it, plain order has the same effect. That is shown by
  interfaces, families, protocols, addresses, ports and tags, as they are behind the first (`touches`). So it has where
  the later one puts in the same again.
- Else the first gives a tag, and the later asks that it is not there. The tag is pfplan's own, one for each direction.
  It is given where no tag of the text can be lost by it: not in place of a tag that the rule gives, nor where the later
  rule asks for a tag itself; for packets out not where rules for them ask for tags that a packet may have from its way
  in (`marks_fit`). A packet that rules have tagged on an interface keeps the tag in its state; where it is asked there
  anew on its way back, as its second state has left, a rule that asks for the tag passes it over.
  One tag is for both sorts: so a packet that `no` took out of one of them may be taken out of the other, which is told.
- Where no tag may be given the later rule is written in plain order, and it is told that pf may block or pass more. One
  with `pass` is left out whole, since it would pass what the old one did not.
- Where filter rules may decide nothing, a `pass` rule that asks the same stands before the `match`: it makes the state.
"""

import ipaddress
import re
from collections.abc import Iterable, Iterator, Mapping, Sequence
from dataclasses import dataclass, replace

from pfplan.common.networks import Network
from pfplan.pf.combinations import Combination
from pfplan.pf.statements import Filter, OldAnchor, OldTranslation, Part, Rule, Side, SourceLine, State, Statement
from pfplan.pf.writing_translations import Written

DIRECTIONS = ("out", "in")
# the sorts that a packet is asked of, in this order
ORDER = {"out": ("binat", "nat"), "in": ("rdr", "binat")}
TODAY = {"nat": ("out", "nat-to"), "rdr": ("in", "rdr-to"), "binat": ("", "binat-to")}
MARKS = {"out": "translated-out", "in": "translated-in"}
# parts without which a rule matches the same packets
_NOT_ASKING = ("label", "queue", "set", "allow-opts", "answer", "scrub", "rtable", "tag")


def as_today(statement: OldTranslation) -> Rule:
    """The rule of today that asks for the same, and does the same to a packet that it is asked of."""
    direction, kind = TODAY[statement.sort]
    parts = statement.filter.parts
    if statement.pool is not None:
        behind = statement.text.rpartition("->")[2].strip()
        parts = (*parts, Part(kind, f"-> {behind}", pool=statement.pool))
    asked = replace(statement.filter, direction=direction, parts=parts)
    if statement.passes:
        asked = replace(asked, quick=True, flags="any", state=State("keep"))
    return Rule(statement.place, statement.text, "pass" if statement.passes else "match", "", asked)


def shown_today(statement: OldTranslation) -> str:
    """The same as a text of today has it; nothing of a rule with `no`."""
    if statement.pool is None:
        return ""
    head, _, behind = statement.text.partition("->")
    direction, kind = TODAY[statement.sort]
    rest = head.split(maxsplit=2 if statement.passes else 1)[-1].strip()
    action = f"pass {direction} quick" if statement.passes else f"match {direction}"
    flags = " flags any" if statement.passes else ""
    return f"{action.replace('  ', ' ').strip()} {rest}{flags} {kind} {behind.strip()}"


def old_rules(statements: Iterable[Statement]) -> Iterator[OldTranslation]:
    """The rules of the older translation in the order of the text, with those of the anchors that they call."""
    for it in statements:
        if isinstance(it, OldTranslation):
            yield it
        elif isinstance(it, OldAnchor) and it.body is not None and not has_more(it):
            called = (found for found in old_rules(it.body) if found.sort == it.sort)
            yield from (replace(found, filter=joined(it.filter, found.filter)) for found in called)


def called_places(statements: Iterable[Statement]) -> set[tuple[str, SourceLine]]:
    """The sorts and places of the rules that anchors of the older translation call."""
    anchors = [it for it in statements if isinstance(it, OldAnchor)]
    return {(it.sort, it.place) for it in old_rules(anchors)}


def has_more(anchor: OldAnchor) -> bool:
    """Whether an anchor asks what a rule of its sort in it asks otherwise, so that no rule asks for both."""
    for it in old_rules(anchor.body or ()):
        if it.sort != anchor.sort:
            continue
        for name in ("interfaces", "family", "protocols", "source", "destination"):
            asked, head = getattr(it.filter, name), getattr(anchor.filter, name)
            if getattr(Filter(), name) not in (asked, head) and asked != head:
                return True
    return bool(anchor.filter.parts)


def joined(head: Filter, asked: Filter) -> Filter:
    """What a rule of an anchor asks, with what the anchor asks. One of them asks nothing of each kind, or the same."""
    return replace(
        asked,
        interfaces=asked.interfaces or head.interfaces,
        family=asked.family or head.family,
        protocols=asked.protocols or head.protocols,
        source=head.source if asked.source == Side() else asked.source,
        destination=head.destination if asked.destination == Side() else asked.destination,
    )


@dataclass(frozen=True)
class Step:
    """One rule of today that comes of an older one: what it asks (`box`), and what it does. It `ends` the evaluation
    where it has `pass`; `place` says where it stands among all."""

    statement: OldTranslation
    written: Written
    direction: str
    place: int = 0

    @property
    def box(self) -> Combination:
        """What it asks of a packet."""
        return self.written.made

    @property
    def ends(self) -> bool:
        """Whether no rule behind it is asked."""
        return self.statement.passes

    def tag(self) -> str:
        """The tag that it gives."""
        part = self.statement.filter.part("tag")
        return part.value if part else ""

    def is_of_other_search(self, other: "Step") -> bool:
        """Whether it ends the search of its sort alone, and the other rule is of another sort."""
        return self.statement.pool is None and self.statement.sort != other.statement.sort

    def acts(self) -> bool:
        """Whether it does anything to a packet."""
        return bool(self.written.clause or self.ends or self.tag())

    def after(self) -> Combination:
        """What a packet may be behind it."""
        source, destination, port = self.written.puts
        box = self.box
        if source:
            keeps = self.written.clause.endswith("static-port")
            box = replace(box, source=source, source_port=box.source_port if keeps else "")
        if destination:
            box = replace(box, destination=destination, destination_port=port or box.destination_port)
        return box


@dataclass(frozen=True)
class Knowledge:
    """What is known of the text: the networks of its tables that never change, by name."""

    tables: Mapping[str, Sequence[Network]]

    def touches(self, first: Step, second: Step) -> bool:
        """Whether the second rule may do something to a packet that the first matched, which pf does not ask of it."""
        if first.direction != second.direction or first.ends or not second.acts() or first.is_of_other_search(second):
            return False
        if not second.ends and not second.tag() and second.written.clause == first.written.clause:
            return False
        return self.meets(first.after(), second.box) and _tags_meet(first, second)

    def is_free(self, first: Step, second: Step) -> bool:
        """Whether two rules may stand in either order: no packet is asked of both, nor behind one of the other."""
        return first.direction != second.direction or not (
            self.meets(first.box, second.box) or self.touches(first, second) or self.touches(second, first)
        )

    def meets(self, one: Combination, other: Combination) -> bool:
        """Whether a packet may be in both."""
        return (
            _interfaces_meet(one.interface, other.interface)
            and (not one.of or not other.of or one.of == other.of)
            and (not one.protocol or not other.protocol or one.protocol == other.protocol)
            and self._hosts_meet(one.source, other.source)
            and self._hosts_meet(one.destination, other.destination)
            and _ports_meet(one.source_port, other.source_port)
            and _ports_meet(one.destination_port, other.destination_port)
        )

    def _hosts_meet(self, one: str, other: str) -> bool:
        if "any" in (one, other):
            return True
        is_not_one, is_not_other = one.startswith("! "), other.startswith("! ")
        one, other = one.removeprefix("! "), other.removeprefix("! ")
        if is_not_one and is_not_other:
            return True
        if is_not_one != is_not_other:
            inner, outer = (other, one) if is_not_one else (one, other)
            return inner != outer and not self._is_within(inner, outer)
        first, second = self._networks(one), self._networks(other)
        if first is None or second is None:
            return True
        return any(a.version == b.version and a.overlaps(b) for a in first for b in second)

    def _is_within(self, inner: str, outer: str) -> bool:
        """Whether all addresses of one are surely among those of the other."""
        first, second = self._networks(inner), self._networks(outer)
        if first is None or second is None:
            return False
        return all(any(_is_subnet(a, b) for b in second) for a in first)

    def _networks(self, text: str) -> Sequence[Network] | None:
        if text.startswith("<"):
            return self.tables.get(text[1:-1])
        return [ipaddress.ip_network(text)]


def _is_subnet(inner: Network, outer: Network) -> bool:
    return (
        inner.version == outer.version
        and inner.prefixlen >= outer.prefixlen
        and inner.network_address in outer
    )


def _interfaces_meet(one: str, other: str) -> bool:
    if not one or not other:
        return True
    first, second = one.removeprefix("on ").removeprefix("! "), other.removeprefix("on ").removeprefix("! ")
    is_not_first, is_not_second = one.startswith("on ! "), other.startswith("on ! ")
    if is_not_first and is_not_second:
        return True
    return (first == second) == (is_not_first == is_not_second)


def _ports_meet(one: str, other: str) -> bool:
    """Whether a port can be in both of two ranges, as they are written. An empty one is every port."""
    if not one or not other:
        return True
    (low, high), (least, most) = _range(one), _range(other)
    return low <= most and least <= high


def _range(text: str) -> tuple[int, int]:
    """The first and the last port of a range, as it is written."""
    numbers = [int(it) for it in re.findall(r"[0-9]+", text)]
    return numbers[0], numbers[-1]


def _tags_meet(first: Step, second: Step) -> bool:
    """Whether a packet that the first matched may have the tag that the second asks for. A tag with a macro may be
    any."""
    asked, before = second.statement.filter.part("tagged"), first.statement.filter.part("tagged")
    if asked is None or "$" in asked.value:
        return True
    given = first.tag()
    if given:
        return "$" in given or (given == asked.value) != asked.negated
    if before is None or "$" in before.value:
        return True
    if before.negated:
        return asked.negated or before.value != asked.value
    return (before.value == asked.value) != asked.negated


def in_order(steps: Sequence[Step], known: Knowledge) -> list[Step]:
    """The rules in an order in which each comes behind those that pf asks before: that of the text, where it does not
    matter, else by sorts."""
    ranks = [(it, ORDER[it.direction].index(it.statement.sort)) for it in steps]
    swapped = (
        (one, other)
        for at, (one, rank) in enumerate(ranks)
        for other, earlier in ranks[at + 1 :]
        if one.direction == other.direction and earlier < rank
    )
    if all(known.is_free(one, other) for one, other in swapped):
        return list(steps)
    return [
        it
        for direction in DIRECTIONS
        for sort in ORDER[direction]
        for it in steps
        if it.direction == direction and it.statement.sort == sort
    ]


@dataclass(frozen=True)
class Plan:
    """How the rules are written, in this order: which of them give pfplan's own tag, and which ask that there is none,
    by their places. `doubts` are pairs for which no tag may be given; of those in `passed_over` the first ends another
    search than that of the second, and its tag ends both."""

    steps: tuple[Step, ...]
    giving: frozenset[int]
    asking: frozenset[int]
    doubts: tuple[tuple[Step, Step], ...]
    passed_over: tuple[tuple[Step, Step], ...] = ()


def planned(steps: Sequence[Step], known: Knowledge, statements: Sequence[Statement]) -> Plan:
    """The plan of all rules, by what the whole text asks of tags."""
    ordered = [replace(it, place=place) for place, it in enumerate(in_order(steps, known))]
    pairs = [
        (one, other) for at, one in enumerate(ordered) for other in ordered[at + 1 :] if known.touches(one, other)
    ]
    fits = {it: marks_fit(it, statements) for it in DIRECTIONS}
    marked = [
        (one, other)
        for one, other in pairs
        if fits[one.direction] and not one.tag() and other.statement.filter.part("tagged") is None
    ]
    giving, asking = {one.place for one, _ in marked}, {other.place for _, other in marked}
    passed_over = [
        (one, other)
        for one in ordered
        for other in ordered[one.place + 1 :]
        if one.place in giving and other.place in asking and one.direction == other.direction
        and one.is_of_other_search(other) and known.meets(one.box, other.box)
    ]  # fmt: skip
    doubts = [it for it in pairs if it not in marked]
    return Plan(tuple(ordered), frozenset(giving), frozenset(asking), tuple(doubts), tuple(passed_over))


def marks_fit(direction: str, statements: Sequence[Statement]) -> bool:
    """Whether a tag of pfplan's own takes no tag from a packet that a rule may ask for. A packet in has none before it
    is translated."""
    if direction == "in":
        return True
    asks = gives = False
    for it in statements:
        if isinstance(it, Rule | OldTranslation):
            way = it.filter.direction if isinstance(it, Rule) else TODAY[it.sort][0]
            asks = asks or way != "in" and it.filter.part("tagged") is not None
            gives = gives or way != "out" and it.filter.part("tag") is not None
    return not (asks and gives)


def leaves_some(direction: str, statements: Iterable[Statement]) -> bool:
    """Whether a packet may be decided by none of the filter rules, as far as is shown by one rule that asks nothing."""
    return not any(isinstance(it, Rule) and _decides_all(it, direction) for it in statements)


def _decides_all(rule: Rule, direction: str) -> bool:
    asked = rule.filter
    # a pass rule that keeps state asks for flags where it names none
    has_flags = asked.flags != "any" and rule.action == "pass" and (asked.state is None or asked.state.word != "no")
    return (
        rule.action != "match"
        and asked.direction in ("", direction)
        and not (has_flags or asked.interfaces or asked.family or asked.protocols)
        and asked.flags in ("", "any")
        and (asked.source, asked.destination) == (Side(), Side())
        and all(it.kind in _NOT_ASKING for it in asked.parts)
    )
