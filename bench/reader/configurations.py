"""What a rules text says: items, tables and settings."""
from __future__ import annotations

from dataclasses import dataclass, field
from functools import cached_property
from typing import Dict, FrozenSet, List, Optional, Tuple, Union

from reader.values import Address, Network

TIMEOUTS = {
    "tcp.first": 120, "tcp.opening": 30, "tcp.established": 86400, "tcp.closing": 900, "tcp.finwait": 45, "tcp.closed": 90,
    "udp.first": 60, "udp.single": 30, "udp.multiple": 60, "other.first": 60, "other.single": 30, "other.multiple": 60,
    "src.track": 0, "interval": 10,
}
LIMITS = {"states": 100000, "src-nodes": 10000, "tables": 1000, "table-entries": 200000}
GLOBAL = "global"
Scope = Union[int, str]


@dataclass(frozen=True)
class Host:
    """What a rule asks of an address: a prefix or a table, or nothing."""

    network: Optional[Network] = None
    table: Optional[str] = None
    negated: bool = False


@dataclass
class Filter:
    """What an item asks of a packet. `None` asks nothing."""

    direction: Optional[str] = None
    interface: Optional[str] = None
    not_interface: bool = False
    family: Optional[int] = None
    proto: Optional[int] = None
    source: Host = Host()
    source_ports: Optional[Tuple[int, int]] = None
    destination: Host = Host()
    destination_ports: Optional[Tuple[int, int]] = None
    flags: Optional[Tuple[FrozenSet[str], FrozenSet[str]]] = None
    tagged: Optional[str] = None
    not_tagged: bool = False
    received: Optional[str] = None
    not_received: bool = False


@dataclass
class Options:
    """What stands in the brackets of `keep state`."""

    maximum: Optional[int] = None
    source_track: Optional[str] = None
    max_src_nodes: Optional[int] = None
    max_src_states: Optional[int] = None
    max_src_conn: Optional[int] = None
    rate: Optional[Tuple[int, int]] = None
    overload: Optional[str] = None
    flush: str = ""
    sloppy: bool = False
    timeouts: Dict[str, int] = field(default_factory=dict)


@dataclass(frozen=True)
class Translation:
    """An address that takes the place of another, and the ports that may: `None` keeps the port."""

    address: Address
    ports: Optional[Tuple[int, int]]


@dataclass
class Rule:
    """A rule, with its number among all items."""

    number: int
    action: str
    quick: bool
    asks: Filter
    state: str
    options: Options
    tag: Optional[str] = None
    nat_to: Optional[Translation] = None
    rdr_to: Optional[Translation] = None

    @cached_property
    def scope(self) -> Optional[Scope]:
        """The scope of its source nodes: its own number, or all rules of scope global; none where it tracks no sources."""
        options = self.options
        if options.source_track in ("rule", "global"):
            return self.number if options.source_track == "rule" else GLOBAL
        if any(it is not None for it in (options.max_src_nodes, options.max_src_conn, options.rate)):
            return self.number
        return GLOBAL if options.source_track is not None or options.max_src_states is not None else None


@dataclass
class Anchor:
    """Items under one filter."""

    number: int
    quick: bool
    asks: Filter
    body: List[Item]


Item = Union[Rule, Anchor]


@dataclass
class Entry:
    """An entry of a table, and the moment when it was added: none for one of the rules text."""

    network: Network
    negated: bool
    added: Optional[int] = None


@dataclass
class Cookies:
    """When pf answers by SYN cookies, with the two shares of `adaptive` in percent."""

    mode: str = "never"
    start: int = 25
    end: int = 12


@dataclass
class Configuration:
    """All that a rules text says, with the defaults filled in."""

    items: List[Item] = field(default_factory=list)
    tables: Dict[str, List[Entry]] = field(default_factory=dict)
    constant: List[str] = field(default_factory=list)
    limits: Dict[str, int] = field(default_factory=lambda: dict(LIMITS))
    timeouts: Dict[str, int] = field(default_factory=lambda: dict(TIMEOUTS))
    has_profile: bool = False
    cookies: Cookies = field(default_factory=Cookies)
    routes: Dict[Network, str] = field(default_factory=dict)

    def tenths(self, number: int) -> Tuple[int, int]:
        """The adaptive pair of a limit: six and twelve tenths, under the profile of whole tens."""
        return (number // 10 * 6, number // 10 * 12) if self.has_profile else (6 * number // 10, 12 * number // 10)

    @property
    def pair(self) -> Tuple[int, int]:
        """The adaptive pair for all states."""
        if "adaptive.start" in self.timeouts:
            return self.timeouts["adaptive.start"], self.timeouts["adaptive.end"]
        return self.tenths(self.limits["states"])

    def pair_of(self, rule: Rule) -> Optional[Tuple[int, int]]:
        """The adaptive pair that a rule has for itself."""
        options = rule.options
        if "adaptive.start" in options.timeouts:
            return options.timeouts["adaptive.start"], options.timeouts["adaptive.end"]
        if self.has_profile and options.maximum is not None and options.maximum >= 10:
            return self.tenths(options.maximum)
        return None

    def rule_timeout(self, rule: Rule, name: str) -> Optional[int]:
        """A timeout that the rule gives; under the profile 0 is not given."""
        given = rule.options.timeouts.get(name)
        return None if given == 0 and self.has_profile else given

    def timeout(self, rule: Rule, name: str) -> int:
        """A timeout of the rule, or else the general one."""
        given = self.rule_timeout(rule, name)
        return self.timeouts[name] if given is None else given

    def retention(self, rule: Optional[Rule]) -> int:
        """How long a source node without states stays: of a rule's own scope, or of the global one (`None`)."""
        general = self.timeouts["src.track"]
        if rule is None:
            return general
        seconds = rule.options.rate[1] if rule.options.rate else 0
        if not self.has_profile:
            return max(self.timeout(rule, "src.track"), seconds)
        return max(self.rule_timeout(rule, "src.track") or 0, seconds) or general

    def route_to(self, address: Address) -> Optional[str]:
        """The interface by which packets to an address leave; none where they are for the firewall itself."""
        covering = [network for network in self.routes if address in network]
        if not covering:
            return None
        interface = self.routes[max(covering, key=lambda it: it.prefixlen)]
        return None if interface == "lo0" else interface
