"""Which rule decides a packet: items are asked in order, and the last rule that matches decides."""
from __future__ import annotations

from dataclasses import dataclass, replace
from typing import Callable, Dict, List, Optional, Tuple

from reader.configurations import Entry, Filter, Host, Item, Rule
from reader.values import TCP, Address, Packet

Tables = Dict[str, List[Entry]]
Translate = Callable[[Rule, Packet], Optional[Packet]]


def table_answer(entries: List[Entry], address: Address) -> bool:
    """Whether the narrowest entry that covers the address is not negated."""
    covering = [entry for entry in entries if address in entry.network]
    return bool(covering) and not max(covering, key=lambda it: it.network.prefixlen).negated


def host_holds(host: Host, tables: Tables, address: Address) -> bool:
    """Whether an address is as asked. A prefix, negated or not, holds of its own family alone."""
    if host.table is not None:
        return table_answer(tables[host.table], address) != host.negated
    if host.network is None:
        return True
    return host.network.version == address.version and (address in host.network) != host.negated


def port_holds(ports: Optional[Tuple[int, int]], port: int) -> bool:
    return ports is None or ports[0] <= port <= ports[1]


def name_holds(wanted: Optional[str], negated: bool, name: Optional[str]) -> bool:
    """Whether a name is the one that is asked, or with `!` another or none."""
    return wanted is None or (wanted == name) != negated


def matches(asks: Filter, tables: Tables, packet: Packet) -> bool:
    """Whether all that a filter asks holds of a packet."""
    is_set, of = asks.flags or (frozenset(), frozenset())
    return (
        asks.direction in (None, packet.direction)
        and name_holds(asks.interface, asks.not_interface, packet.interface)
        and asks.family in (None, packet.source.version)
        and asks.proto in (None, packet.proto)
        and host_holds(asks.source, tables, packet.source)
        and host_holds(asks.destination, tables, packet.destination)
        and port_holds(asks.source_ports, packet.source_port)
        and port_holds(asks.destination_ports, packet.destination_port)
        and (packet.proto != TCP or packet.flags & of == is_set)
        and name_holds(asks.tagged, asks.not_tagged, packet.tag)
        and name_holds(asks.received, asks.not_received, packet.received)
    )


@dataclass
class Verdict:
    """How far the items have been asked: the packet as rules left it, the last rule that matches, and a rule whose translation has no port left."""

    packet: Packet
    rule: Optional[Rule] = None
    untranslated: Optional[Rule] = None


def decide(items: List[Item], tables: Tables, translate: Translate, verdict: Verdict) -> bool:
    """Asks items in order; whether nothing behind them is asked any more."""
    for item in items:
        if not matches(item.asks, tables, verdict.packet):
            continue
        if isinstance(item, Rule):
            if take_rule(item, translate, verdict):
                return True
            continue
        before, verdict.rule = verdict.rule, None
        is_over = decide(item.body, tables, translate, verdict)
        has_match = verdict.rule is not None
        verdict.rule = verdict.rule or before
        if is_over or (item.quick and has_match):
            return True
    return False


def take_rule(rule: Rule, translate: Translate, verdict: Verdict) -> bool:
    """What a rule that matches does; whether it ends the walk. A `match` decides nothing, and translates at once."""
    if rule.tag is not None:
        verdict.packet = replace(verdict.packet, tag=rule.tag)
    if rule.action != "match":
        verdict.rule = rule
        return rule.quick
    translated = translate(rule, verdict.packet)
    if translated is None:
        verdict.untranslated = rule
        return True
    verdict.packet = translated
    return False
