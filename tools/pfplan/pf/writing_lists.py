"""What each item of a rule's lists becomes in a rules text: a choice that a combination takes, or a gap that is
told."""

import ipaddress
import re
from collections.abc import Iterable, Sequence
from dataclasses import dataclass, field, replace

from pfplan.common.networks import Network
from pfplan.pf.interfaces import Location, Machine, cut, prefix_of, shown
from pfplan.pf.left_out import Reason, Teller, beyond, harmless, telling
from pfplan.pf.statements import Filter, Host, HostKind, Interface, Port, Statement
from pfplan.pf.writing_tables import TableMaker

FAMILIES = {4: "inet", 6: "inet6"}
NAME = re.compile(r"[A-Za-z0-9_.-]+")
SPLIT = beyond("it makes several rules of one, and each would count states by itself")


@dataclass(frozen=True)
class Choice:
    """An item as a rules text writes it. `family` is that of an address, which the rule has to say where `is_said`.

    `zone` is the interface that a link-local address is on. `is_piece` says that pf has it in one rule with the choice
    in front.
    """

    text: str
    family: str = ""
    zone: str = ""
    is_said: bool = False
    is_piece: bool = False


@dataclass(frozen=True)
class Gap:
    """An item that can't be carried, and why."""

    part: str
    reason: Reason


Options = list[Choice | Gap]
NO_CHOICE: Options = [Choice("")]
ANY_CHOICE: Options = [Choice("any")]


@dataclass
class MadeTables:
    """The names of tables in the rules text, and the tables that it has more than the pf.conf.

    `made` stand for several addresses at once, where pf has one rule for all of them; `moved` are the lines of those
    that are defined in anchors; `renamed` those with a name that pfsrc does not take.
    """

    taken: set[str] = field(default_factory=set)
    made: dict[str, tuple[Network, ...]] = field(default_factory=dict)
    moved: list[str] = field(default_factory=list)
    renamed: dict[str, str] = field(default_factory=dict)

    def take(self, names: Iterable[str]) -> None:
        """Takes the names that the text has; those that pfsrc would refuse get others."""
        every = sorted(names)
        self.taken.update(it for it in every if NAME.fullmatch(it))
        for it in every:
            if not NAME.fullmatch(it):
                self.renamed[it] = self.reserve(it)

    def plain(self, name: str) -> str:
        """The name in the rules text of a table of the main ruleset."""
        return self.renamed.get(name, name)

    def reserve(self, wish: str) -> str:
        """A name that no other table has, as near to the wish as may be."""
        stem = re.sub(r"[^A-Za-z0-9_.-]", "_", wish)[:31]
        name, number = stem, 1
        while name in self.taken:
            number += 1
            name = f"{stem[: 30 - len(str(number))]}_{number}"
        self.taken.add(name)
        return name

    def name(self, wish: str, networks: Iterable[Network]) -> str:
        """The name of a table with these networks."""
        entries = tuple(dict.fromkeys(networks))
        stem = re.sub(r"[^A-Za-z0-9_.-]", "_", wish)
        for name, there in self.made.items():
            if there == entries and name.startswith(stem[:28]):
                return name
        name = self.reserve(wish)
        self.made[name] = entries
        return name

    def lines(self) -> list[str]:
        """The definitions of all of them."""
        made = [f"table <{name}> const {{ {', '.join(map(shown, entries))} }}" for name, entries in self.made.items()]
        return made + self.moved


@dataclass
class Chooser:
    """Makes the choices of one text's rules."""

    machine: Machine
    tables: MadeTables
    teller: Teller
    contents: TableMaker

    def interfaces(self, asked: Filter, statement: Statement, counts: bool) -> Options:
        """The choices of `on`: none, or one for each interface."""
        if not asked.interfaces:
            return NO_CHOICE
        return [choice for it in asked.interfaces for choice in self._interface(it, statement, counts)]

    def _interface(self, asked: Interface, statement: Statement, counts: bool) -> Options:
        part = f"on {'! ' if asked.negated else ''}{asked.name}"
        if asked.domain is not None:
            return [Gap(f"{part} {asked.domain}", beyond("a trace does not carry routing domains"))]
        if asked.name == "any":
            return self._any_interface(asked, part, counts)
        members = None if asked.name in self.machine.interfaces else self.machine.members(asked.name)
        if members is None:
            return self._plain_interface(asked, part, statement)
        if not asked.negated:
            return split_choices([Choice(f"on {it}") for it in members], part, counts)
        return self._not_on(members, part, counts)

    def skipped(self, name: str, statement: Statement) -> list[str]:
        """The interfaces that `set skip on NAME` passes over: NAME, or those of a group; of `lo` the loopback
        interfaces."""
        if name in self.machine.interfaces:
            return [name]
        members = self.machine.members(name) or (self.machine.loopbacks() if name == "lo" else None)
        if members is None:
            found = self._plain_interface(Interface(name), f"set skip on {name}", statement)
            if any(isinstance(it, Gap) for it in found):
                self.teller.tell(
                    statement.place, f"set skip on {name}", harmless("a trace can't have an interface of that name")
                )
                return []
        return members or [name]

    def _any_interface(self, asked: Interface, part: str, counts: bool) -> Options:
        """`on any`, which is every interface but the loopback ones."""
        if asked.negated:
            return [Gap(part, beyond("it asks for loopback interfaces alone"))]
        return self._not_on(self.machine.loopbacks(), part, counts) if self.machine.loopbacks() else NO_CHOICE

    def _not_on(self, names: Sequence[str], part: str, counts: bool) -> Options:
        if len(names) == 1:
            return [Choice(f"on ! {names[0]}")]
        others = self.machine.others(names)
        if others is None:
            return [
                Gap(
                    part,
                    beyond("it asks for all interfaces but several; --ifconfig says which there are", is_missing=True),
                )
            ]
        if not others:
            return [Gap(part, harmless("there is no such interface"))]
        return split_choices([Choice(f"on {it}") for it in others], part, counts)

    def _plain_interface(self, asked: Interface, part: str, statement: Statement) -> Options:
        if not NAME.fullmatch(asked.name) or len(asked.name) > 15 or asked.name == "rdomain":
            return [Gap(part, beyond("a trace can't have an interface of that name"))]
        if asked.name not in self.machine.interfaces and not asked.name[-1].isdigit():
            help_ = f"give --interface {asked.name}=IF{self._or_ifconfig(asked.name)}"
            if asked.negated:
                return [Gap(part, beyond(f"it asks for all interfaces outside of a group; {help_}", is_missing=True))]
            reason = telling(f"only records on an interface of that very name match; {help_}", is_missing=True)
            self.teller.tell(statement.place, f"that {asked.name} is a group", reason, statement)
        return [Choice(part)]

    def hosts(self, hosts: Sequence[Host], family: str, counts: bool) -> Options:
        """The choices of one side's hosts."""
        return [choice for it in hosts for choice in self._host(it, family, counts)]

    def _host(self, host: Host, family: str, counts: bool) -> Options:
        sign = "! " if host.negated else ""
        if host.kind is HostKind.ANY:
            return ANY_CHOICE
        if host.kind is HostKind.TABLE:
            return self._table(host, sign)
        if host.kind is HostKind.ROUTE:
            return [Gap(host.shown(), beyond("a trace does not carry routes"))]
        if host.kind is HostKind.RANGE:
            return self._range(host, sign)
        if host.kind is HostKind.DYNAMIC:
            return self._dynamic(host, sign, family)
        return self._named(host, sign, family)

    def _table(self, host: Host, sign: str) -> Options:
        """A table, unless entries that are not there would have it match more than it does in pf."""
        if host.text in (self.contents.narrower if host.negated else self.contents.wider):
            why = f"entries of <{host.text}> are not there, and without them it matches other addresses too"
            return [Gap(host.shown(), beyond(why, is_missing=True))]
        return [Choice(f"{sign}<{host.text}>")]

    def _range(self, host: Host, sign: str) -> Options:
        try:
            first, last = ipaddress.ip_address(host.text), ipaddress.ip_address(host.last)
            networks = [*ipaddress.summarize_address_range(first, last)]
        except (TypeError, ValueError):
            return [Gap(host.shown(), beyond("it is no range of addresses of one family"))]
        if len(networks) == 1:
            return [Choice(sign + shown(networks[0]), FAMILIES[first.version])]
        name = self.tables.name(f"{first}-{last}", networks)
        return [Choice(f"{sign}<{name}>", FAMILIES[first.version], is_said=True)]

    def _named(self, host: Host, sign: str, family: str) -> Options:
        """An address, or a name each of whose addresses makes a rule, as in pfctl."""
        zone = ""
        text = host.text
        if "%" in text:
            text, zone = text.split("%", 1)
        network = prefix_of(text, host.length)
        if network is not None:
            return [Choice(sign + shown(network), FAMILIES[network.version], zone)]
        found = self._locations(host)
        if isinstance(found, Gap):
            return [found]
        fitting = [it for it in found if not family or FAMILIES[it.network.version] == family]
        if not fitting:
            return [self._no_address(host, family)]
        return [Choice(sign + shown(it.network), FAMILIES[it.network.version], it.zone) for it in fitting]

    def _dynamic(self, host: Host, sign: str, family: str) -> Options:
        """An interface in parentheses: one rule for all its addresses, as in pf; a table where there are several, or
        none may match."""
        found = self._locations(host)
        if isinstance(found, Gap):
            return [found]
        fitting = [it.network for it in found if not family or FAMILIES[it.network.version] == family]
        if not fitting:
            return [self._no_address(host, family)]
        if len(fitting) == 1 and (family or not sign):
            return [Choice(sign + shown(fitting[0]), FAMILIES[fitting[0].version])]
        length = "" if host.length is None else f"_{host.length}"
        return [Choice(f"{sign}<{self.tables.name(host.text + length, fitting)}>")]

    def _locations(self, host: Host) -> list[Location] | Gap:
        found = self.machine.locations(host.text, is_dynamic=host.kind is HostKind.DYNAMIC)
        if found is None:
            return self._no_address(host, "")
        if host.length is None:
            return found
        return [
            Location(cut(it.network, host.length), it.zone) for it in found if host.length <= it.network.max_prefixlen
        ]

    def _no_address(self, host: Host, family: str) -> Gap:
        which = f"{host.text} for {family}" if family else host.text
        what = "PREFIX" if ":network" in host.text else "ADDRESS"
        help_ = f"give it with --address {host.text}={what}{self._or_ifconfig(host.text)}"
        return Gap(host.shown(), beyond(f"the address of {which} is not there; {help_}", is_missing=True))

    def _or_ifconfig(self, name: str) -> str:
        return "" if self.machine.interfaces or "." in name else " or --ifconfig"

    def ports(self, ports: Sequence[Port], counts: bool) -> Options:
        """The choices of one side's ports: none, or one for each range."""
        if not ports:
            return NO_CHOICE
        return [choice for it in ports for choice in _port(it, counts)]


def split_choices(choices: list[Choice], part: str, counts: bool) -> Options:
    """Choices that pf has in one rule: a gap where that rule counts its states."""
    return (
        [Gap(part, SPLIT)]
        if counts and len(choices) > 1
        else [*choices[:1], *(replace(it, is_piece=True) for it in choices[1:])]
    )


def places_in_pf(options: Options) -> list[int]:
    """For each choice of a list, the place of the item that it is of in the list that pfctl expands."""
    places: list[int] = []
    for it in options:
        is_piece = isinstance(it, Choice) and it.is_piece
        places.append(places[-1] if is_piece else places[-1] + 1 if places else 0)
    return places


def port_ranges(port: Port) -> list[tuple[int, int]]:
    """The ports that an operator asks for, as ranges with both ends in them."""
    low, high = port.low, port.high
    ranges = {
        "=": [(low, low)],
        ":": [(low, high)],
        "!=": [(0, low - 1), (low + 1, 65535)],
        "<": [(0, low - 1)],
        "<=": [(0, low)],
        ">": [(low + 1, 65535)],
        ">=": [(low, 65535)],
        "><": [(low + 1, high - 1)],
        "<>": [(0, low - 1), (high + 1, 65535)] if low <= high else [(0, 65535)],
    }[port.operator]
    return [it for it in ranges if it[0] <= it[1]]


def _port(port: Port, counts: bool) -> Options:
    part = (
        f"port {port.low} {port.operator} {port.high}"
        if port.operator in ("><", "<>", ":")
        else f"port {port.operator} {port.low}"
    )
    ranges = port_ranges(port)
    if not ranges:
        return [Gap(part, harmless("there is no such port"))]
    return split_choices(
        [Choice(f"port = {low}" if low == high else f"port {low}:{high}") for low, high in ranges], part, counts
    )
