"""How pf numbers the rules of a text, so that a rule that pf named in a log is found here.

A rule has its number in its own ruleset, from 0, in the order in which pfctl expands the text's lists; anchors and
`match` rules count, settings and tables do not. A log names the ruleset by the last part of the anchor's path, of at
most 15 bytes, and beside it the number of the rule that calls that anchor, in the ruleset around it. An anchor without
a name is `_1`, `_2` .. by its opening brace. tcpdump prints rule 0 of the anchor `web`, which rule 3 calls, as
`rule 3.web.0/0(match)` (print-pflog.c and pflog.h of tcpdump, which have the header's fields).

So it is in OpenBSD 7.4: pflog_packet() of sys/net/if_pflog.c, pf_match_rule() of sys/net/pf.c, expand_rule() and the
anchor productions of sbin/pfctl/parse.y. All is from knowledge of these sources, without them at hand
(docs/DIFFERENCES.md). With `set ruleset-optimization`, which is on by default, pfctl leaves out, joins and reorders
rules before it numbers them: what `pfctl -nvf` prints has them so.
"""

import itertools
import math
import re
from collections.abc import Iterable, Iterator, Sequence
from dataclasses import dataclass, field, replace

from pfplan.pf.interfaces import Machine, prefix_of
from pfplan.pf.statements import Anchor, Filter, Host, HostKind, Rule, SourceLine, Statement

# Bytes of an anchor's name in a log (PFLOG_RULESET_NAME_SIZE, with a zero at the end).
NAME_BYTES = 15
# Rules that one statement may stand for; of more, none are numbered.
MOST_RULES = 100_000
# Parts whose lists pfctl expands, and which no rules text has: such a rule goes whole.
_LISTED = ("icmp-type", "icmp6-type", "os", "user", "group")
_WORD = re.compile(r'"[^"]*"|[^\s,{}]+')
_OPERATORS = ("=", "!=", "<", "<=", ">", ">=", "><", "<>", "!")
# Which item of each list a rule is of: interface, protocol, source and its port, destination and its port.
Key = tuple[int, ...]


@dataclass(frozen=True)
class RuleNumber:
    """pf's number of a rule: its ruleset, by the path of the anchor (empty for the main one), and the number there.

    `caller` is the number of the rule that calls the anchor, in the ruleset around it; None in the main ruleset.
    """

    ruleset: str
    number: int
    caller: int | None = None

    def logged_name(self) -> str:
        """The name of the ruleset in a log."""
        return self.ruleset.rpartition("/")[2].encode("utf-8", "surrogateescape")[:NAME_BYTES].decode("latin-1")


@dataclass(frozen=True)
class PfRule:
    """A rule or an anchor as pf has it: its number, where it stands, its action (none of an anchor), its `log`, and the
    items of the rules text that stand for it."""

    number: RuleNumber
    place: SourceLine
    action: str
    log: str
    items: tuple[int, ...] = ()

    @property
    def logs(self) -> bool:
        """Whether pf logs a packet that it decides, of a state the first alone."""
        return bool(self.log)

    @property
    def logs_all(self) -> bool:
        """Whether pf logs every packet of its states."""
        return "all" in re.findall(r"[a-z]+", self.log.partition("(")[2])


@dataclass
class Numbered:
    """A ruleset whose rules are being numbered."""

    path: str = ""
    caller: int | None = None
    rules: int = 0


@dataclass
class Numbers:
    """Numbers the rules of one text as they are expanded.

    `guessed` is the place of the first rule whose lists could not be counted for sure: behind it the numbers may be
    others.
    """

    machine: Machine
    found: list[PfRule] = field(default_factory=list)
    guessed: SourceLine | None = None
    _names: dict[int, str] = field(default_factory=dict)

    def look(self, statements: Iterable[Statement]) -> None:
        """Sees all statements, those of anchors too, before they are expanded: anchors without a name get theirs."""
        braces = 0
        for it in statements:
            if isinstance(it, Anchor) and is_inline(it):
                braces += 1
                self._names[id(it)] = it.name or f"_{braces}"

    def rule(self, ruleset: Numbered, statement: Statement, asked: Filter) -> dict[Key, int]:
        """Takes a rule or an anchor: the places in `found` of the rules that pf makes of it, by what of its lists each
        has."""
        keys, is_sure = keys_of(asked, self.machine)
        if not is_sure and self.guessed is None:
            self.guessed = statement.place
        places: dict[Key, int] = {}
        action = statement.action if isinstance(statement, Rule) else ""
        for key in keys:
            places[key] = len(self.found)
            for _ in range(multiple_of(asked)):
                number = RuleNumber(ruleset.path, ruleset.rules, ruleset.caller)
                self.found.append(PfRule(number, statement.place, action, asked.log))
                ruleset.rules += 1
        return places

    def item(self, place: int | None, item: int) -> None:
        """An item of the rules text stands for the rule at a place of `found`."""
        if place is not None:
            it = self.found[place]
            self.found[place] = replace(it, items=(*it.items, item))

    def anchor(self, ruleset: Numbered, anchor: Anchor, place: int | None) -> Numbered:
        """The ruleset of an anchor that the rule at a place of `found` calls."""
        name = self._names.get(id(anchor), anchor.name)
        path = name.strip("/") if name.startswith("/") else f"{ruleset.path}/{name}".strip("/")
        return Numbered(path, None if place is None else self.found[place].number.number)


def is_inline(anchor: Anchor) -> bool:
    """Whether the body of an anchor stands in braces behind it, and does not come from a file."""
    return anchor.body is not None and (
        not anchor.name or not anchor.body or anchor.body[0].place.file == anchor.place.file
    )


def keys_of(asked: Filter, machine: Machine) -> tuple[list[Key], bool]:
    """The rules that pfctl makes of one rule's lists, in its order, and whether all lists could be counted."""
    interfaces = [it.name for it in asked.interfaces if not it.negated] if len(asked.interfaces) == 1 else []
    sources, sure_sources = _hosts(asked.source.hosts, asked.family, machine)
    targets, sure_targets = _hosts(asked.destination.hosts, asked.family, machine)
    found: list[Key] = []
    axes = (
        range(len(asked.interfaces) or 1),
        range(len(asked.protocols) or 1),
        range(len(sources)),
        range(len(asked.source.ports) or 1),
        range(len(targets)),
        range(len(asked.destination.ports) or 1),
    )
    if math.prod(map(len, axes)) > MOST_RULES:
        return [], False
    for key in itertools.product(*axes):
        ends = (sources[key[2]], targets[key[4]])
        families = {it for it in (asked.family, ends[0][0], ends[1][0]) if it}
        zones = {it[1] for it in ends if it[1]}
        if len(families) < 2 and not (interfaces and zones - set(interfaces)):
            found.append(key)
    return found, sure_sources and sure_targets


def multiple_of(asked: Filter) -> int:
    """How many rules pfctl makes of each combination: of lists that no rules text has, and two of `binat-to`."""
    many = 1
    for part in asked.parts:
        if part.kind in _LISTED:
            words = _WORD.findall(re.sub(r"\bcode\s+\S+", "", part.text.partition(part.kind)[2]))
            many *= max(1, sum(it not in _OPERATORS for it in words)) if "{" in part.text else 1
        if part.kind == "binat-to":
            many *= 2
    return many


def _hosts(hosts: Sequence[Host], family: str, machine: Machine) -> tuple[list[tuple[str, str]], bool]:
    """The family and the zone of each host that pfctl makes a rule for; empty where it has none. And whether all could
    be counted."""
    found: list[tuple[str, str]] = []
    is_sure = True
    for host in hosts:
        locations = list(_locations(host, machine))
        fitting = [it for it in locations if not family or it[0] in ("", family)]
        is_sure = is_sure and bool(fitting)
        found += fitting or [("", "")]
    return found, is_sure


def _locations(host: Host, machine: Machine) -> Iterator[tuple[str, str]]:
    """The family and the zone of each address that a host stands for: nothing where its addresses are not known."""
    if host.kind is HostKind.RANGE:
        yield "inet6" if ":" in host.text else "inet", ""
        return
    if host.kind is not HostKind.NAME:
        yield "", ""
        return
    text, _, zone = host.text.partition("%")
    network = prefix_of(text, host.length)
    if network is not None:
        yield f"inet{'6' if network.version == 6 else ''}", zone
        return
    for it in machine.locations(host.text) or ():
        if host.length is None or host.length <= it.network.max_prefixlen:
            yield f"inet{'6' if it.network.version == 6 else ''}", it.zone
