"""What a drawn ruleset means, read from the values that were drawn and not from any expansion.

A rule matches where any of its combinations does: one item of each list, of one family. Items that a trace can't answer
match nothing, and rules with a part that it can't answer are not there.
"""

import ipaddress
from dataclasses import dataclass, field

from pfplan.tests import drawing
from pfplan.tests.drawing import FAMILIES, Anchor, Filter, Host, Packet, Ports, Rule, Ruleset


@dataclass
class Reading:
    """Answers packets one after another, and remembers the keys of the states that it made."""

    drawn: Ruleset
    keys: set[tuple[object, ...]] = field(default_factory=set)
    tag: str = ""  # of the packet that is asked

    def answer(self, packet: Packet) -> tuple[str, int]:
        """The word of the report, and the line of the rule that decided; 0 where none did, or where a state was
        there."""
        key = key_of(packet)
        if key in self.keys:
            return "state", 0
        if any(
            packet.interface in ("lo0",) if it == "lo" else is_on(it, False, packet, False) for it in self.drawn.skipped
        ):
            return "pass", self.drawn.skip_line
        self.tag = ""
        decided, _, _ = self._walk(self.drawn.items, packet, None)
        if decided is None:
            return "pass", 0
        if decided.action == "block":
            return "block", decided.line
        if decided.state == "no state":
            return "pass", decided.line
        self.keys.add(key)
        return "new", decided.line

    def _walk(self, items: list[Rule | Anchor], packet: Packet, decided: Rule | None) -> tuple[Rule | None, bool, bool]:
        """The rule that decides, whether one matched here, and whether it ends all."""
        is_matched = False
        for item in items:
            if isinstance(item, Rule):
                if not self.matches_rule(item, packet):
                    continue
                self.tag = item.asked.tag or self.tag
                if item.action == "match":
                    continue
                decided, is_matched = item, True
                if item.asked.quick:
                    return decided, True, True
            elif self.matches(item.asked, packet, any(map(drawing.counts_states, item.body))):
                decided, inner, is_ended = self._walk(item.body, packet, decided)
                is_matched = is_matched or inner
                if is_ended or inner and item.asked.quick:
                    return decided, True, True
        return decided, is_matched, False

    def matches_rule(self, rule: Rule, packet: Packet) -> bool:
        """Whether a rule matches a packet of the tag; none does that asks what a trace does not carry."""
        asked, counts = rule.asked, "max" in rule.state
        if any(it in drawing.BEYOND for it in asked.parts):
            return False
        keeps = rule.action == "pass" and rule.state != "no state"
        return (
            (asked.tagged is None or (self.tag == asked.tagged[0]) != asked.tagged[1])
            and (asked.received is None or came_in_on(*asked.received, packet, counts))
            and self.matches(asked, packet, counts)
            and has_flags(asked.flags or ("S/SA" if keeps else "any"), packet)
        )

    def matches(self, asked: Filter, packet: Packet, counts: bool) -> bool:
        """Whether any combination matches; `counts` where none may stand for several rules."""
        return (
            asked.direction in ("", packet.direction)
            and (
                not asked.interfaces or any(is_on(name, negated, packet, counts) for name, negated in asked.interfaces)
            )
            and (not asked.protocols or packet.protocol in asked.protocols)
            and has_flags(asked.flags or "any", packet)
            and (not asked.source_ports or any(has_port(it, packet.source_port, counts) for it in asked.source_ports))
            and (
                not asked.destination_ports
                or any(has_port(it, packet.destination_port, counts) for it in asked.destination_ports)
            )
            and self._matches_hosts(asked, packet)
        )

    def _matches_hosts(self, asked: Filter, packet: Packet) -> bool:
        family = FAMILIES[ipaddress.ip_address(packet.source).version]
        if asked.family not in ("", family):
            return False
        any_host = [Host("any")]
        return any(
            self.holds(source, packet.source, asked.family)
            and self.holds(destination, packet.destination, asked.family)
            for source in asked.source or any_host
            for destination in asked.destination or any_host
        )

    def holds(self, host: Host, text: str, family: str) -> bool:
        """Whether an address is one of a host's."""
        address = ipaddress.ip_address(text)
        if host.kind == "any":
            return True
        if host.kind == "route":
            return False
        if host.kind == "table":
            return self._in_table(host.value, address) != host.negated
        if host.kind == "static":
            return any(_in_prefix(it, address, host.negated) for it in drawing.NAMES[host.value])
        if host.kind == "dynamic":
            there = [
                it
                for it in drawing.NAMES[host.value]
                if not family or FAMILIES[ipaddress.ip_network(it).version] == family
            ]
            return bool(there) and any(_in_prefix(it, address, False) for it in there) != host.negated
        if host.kind == "range":
            if address.version == 6:
                return False
            return (
                int(ipaddress.ip_address(host.value)) <= int(address) <= int(ipaddress.ip_address(host.last))
            ) != host.negated
        return _in_prefix(host.value, address, host.negated)

    def _in_table(self, name: str, address: "ipaddress.IPv4Address | ipaddress.IPv6Address") -> bool:
        covering = [(ipaddress.ip_network(it), negated) for it, negated in self.drawn.tables.get(name, [])]
        covering = [
            (network, negated)
            for network, negated in covering
            if address.version == network.version and address in network
        ]
        return bool(covering) and not max(covering, key=lambda it: it[0].prefixlen)[1]


def _in_prefix(text: str, address: "ipaddress.IPv4Address | ipaddress.IPv6Address", negated: bool) -> bool:
    network = ipaddress.ip_network(text)
    return network.version == address.version and (address in network) != negated


def is_on(name: str, negated: bool, packet: Packet, counts: bool) -> bool:
    """Whether a packet is on an interface or one of a group; a group of several can't count as one rule."""
    members = drawing.GROUPS.get(name, (name,))
    rest = [it for it in drawing.INTERFACES if it not in members]
    if (
        name != "any"
        and counts
        and name in drawing.GROUPS
        and len(members if not negated else rest) > 1
        and len(members) > 1
    ):
        return False
    return (packet.interface in members) != negated


def came_in_on(name: str, negated: bool, packet: Packet, counts: bool) -> bool:
    """Whether a packet came in on an interface or one of a group. Of a packet out it is not known where; and a group of
    several can be asked neither with `!` nor of a rule that counts."""
    members = drawing.GROUPS.get(name, (name,))
    if len(members) > 1 and (negated or counts):
        return False
    return (packet.direction == "in" and packet.interface in members) != negated


def has_port(ports: Ports, port: int, counts: bool) -> bool:
    """Whether a port is one of those that an operator asks for; two ranges can't count as one rule."""
    low, high = ports.low, ports.high
    if counts and (ports.operator == "!=" and 0 < low < 65535 or ports.operator == "<>" and 0 < low and high < 65535):
        return False
    return {
        "=": port == low,
        "!=": port != low,
        "<": port < low,
        "<=": port <= low,
        ">": port > low,
        ">=": port >= low,
        ":": low <= port <= high,
        "><": low < port < high,
        "<>": port < low or port > high,
    }[ports.operator]


def has_flags(flags: str, packet: Packet) -> bool:
    """Whether a packet has the flags that a rule asks for; only TCP has any."""
    if flags == "any" or packet.protocol != "tcp":
        return True
    wanted, mask = flags.split("/")
    return set(packet.flags) & set(mask) == set(wanted)


def key_of(packet: Packet) -> tuple[object, ...]:
    """The key of a packet's state: the same for the answers to it."""
    ends = ((packet.source, packet.source_port), (packet.destination, packet.destination_port))
    first, second = ends if packet.direction == "in" else ends[::-1]
    return packet.protocol, first, second
