"""The firewall's routes, from what `netstat -rn` or `route -n show` prints on it (netstat(1), route(8))."""

import re
from collections import Counter
from collections.abc import Iterator, Sequence
from dataclasses import dataclass, field
from pathlib import Path

from pfplan.common.errors import Status, Trouble
from pfplan.common.figures import counted
from pfplan.common.inputs import name_of
from pfplan.common.networks import Network, interface_name
from pfplan.pf.interfaces import Machine, prefix_of
from pfplan.pf.lexer import printable
from pfplan.pf.named_files import read_text
from pfplan.pf.routes import LOCAL, UNFORWARDED, Routes

_FAMILIES = {"Internet": "0.0.0.0", "Internet6": "::"}
_SECTION = re.compile(r"([A-Za-z0-9]+):\s*")
_LOOPBACK = re.compile(r"lo[0-9]+")
_CARP = re.compile(r"carp[0-9]+")
_FLAGS = re.compile(r"[A-Za-z0-9]+")
# The name of the last column on other systems.
_IFACE = ("Iface", "Netif")
# Flags of routes to the firewall itself: its own addresses, and broadcast; and of those by which it drops packets
# (reject, blackhole), where they are no neighbour's that does not answer now.
_OWN, _DROPPING, _NEIGHBOUR = frozenset("lb"), frozenset("RB"), "c"


@dataclass(frozen=True)
class _Columns:
    """Where the words of a route stand in its line."""

    flags: int
    interface: int
    priority: int | None


@dataclass(frozen=True)
class _Line:
    """A line of a table that is a route: of which prefix, with which flags, priority and interface. One of a link
    alone `is_scoped`."""

    network: Network
    flags: str
    interface: str
    priority: int
    is_scoped: bool


@dataclass
class RoutesRead:
    """The routes of a text, with the firewall's own addresses, and what is to be told of them."""

    routes: Routes
    notes: list[str] = field(default_factory=list)


def routes_given(path: Path, machine: Machine) -> RoutesRead:
    """The routes of a file, as few as say the same, with the addresses of `machine` as the firewall's own.

    Trouble with status 3, the file and the line where it is not what netstat prints, and 4 where it can't be read.
    """
    return read_routes(read_text(path), printable(name_of(path)), machine)


def read_routes(text: str, name: str, machine: Machine) -> RoutesRead:
    """The routes of a text; `name` stands for its file. Trouble as `routes_given`."""
    counts: Counter[str] = Counter()
    best: dict[Network, _Line] = {}
    for it in _lines(text, name):
        counts["routes"] += 1
        reason = _why_not(it)
        if reason:
            counts[reason] += 1
            continue
        before = best.setdefault(it.network, it)
        if it.priority < before.priority:
            best[it.network] = it
        elif before.interface != it.interface:
            counts["several"] += it.priority == before.priority
    if not counts:
        raise Trouble(f"{name}: no routes in it: it is not what netstat -rn prints", Status.RULES)
    found = {network: _interface_of(it, machine) for network, it in best.items()}
    kept = Routes(found | dict.fromkeys([*_own_addresses(machine), *UNFORWARDED], LOCAL)).needed()
    counts["repeating"] = sum(it not in kept.by_network for it in found)
    return RoutesRead(kept, [f"{name}: {it}" for it in (*_notes(counts, len(kept)), *_carps(found))])


def _lines(text: str, name: str) -> Iterator[_Line]:
    """The routes of the sections of both families. Lines of others are passed over."""
    section, columns = "", None
    for number, line in enumerate(text.splitlines(), 1):
        words = line.split()
        if found := _SECTION.fullmatch(line):
            section, columns = found[1], None
        elif line.startswith("Routing tables"):
            section = ""
        elif not words or section not in _FAMILIES:
            continue
        elif words[0] == "Destination":
            columns = _columns(words)
        elif columns is None:
            raise _trouble(name, number, line, "wanted the columns Destination, Gateway, Flags .. Iface")
        else:
            try:
                yield _route(words, columns, section)
            except ValueError as error:
                raise _trouble(name, number, line, str(error)) from None


def _columns(words: Sequence[str]) -> _Columns | None:
    """The columns that a heading names; None where it is that of another table."""
    interface = next((it for it in _IFACE if it in words), None)
    if interface is None or words[:3] != ["Destination", "Gateway", "Flags"]:
        return None
    return _Columns(2, words.index(interface), words.index("Prio") if "Prio" in words else None)


def _trouble(name: str, number: int, line: str, why: str) -> Trouble:
    return Trouble(f"{name}: line {number}: '{printable(line.strip()[:80])}': {why}", Status.RULES)


def _route(words: Sequence[str], columns: _Columns, section: str) -> _Line:
    """The route of a line. ValueError says what is wrong with it."""
    if len(words) <= columns.interface:
        raise ValueError("a route has a destination, a gateway, flags and an interface")
    network, is_scoped = _network(words[0], section)
    flags, interface = words[columns.flags], words[columns.interface]
    if not _FLAGS.fullmatch(flags):
        raise ValueError(f"'{flags}' are no flags of a route")
    priority = words[columns.priority] if columns.priority is not None else "0"
    if not (priority.isascii() and priority.isdigit()):
        raise ValueError(f"'{priority}' is no priority of a route")
    return _Line(network, flags, interface_name(interface), int(priority), is_scoped)


def _network(text: str, section: str) -> tuple[Network, bool]:
    """The prefix of a destination, and whether it has a scope. ValueError where it is none of the section's family."""
    if text == "default":
        text = f"{_FAMILIES[section]}/0"
    address, _, length = text.partition("/")
    address, scope, _ = address.partition("%")
    is_length = not length or length.isascii() and length.isdigit() and len(length) < 4
    network = prefix_of(address, int(length) if length else None) if is_length else None
    if network is None or (network.version == 6) != (section == "Internet6"):
        raise ValueError(f"'{text}' is no destination of the section {section}")
    return network, bool(scope)


def _why_not(line: _Line) -> str:
    """Why a route is left out; nothing where it is not."""
    if "U" not in line.flags:
        return "down"
    if line.network.is_multicast:
        return "multicast"
    return "scoped" if line.is_scoped else ""


def _interface_of(line: _Line, machine: Machine) -> str:
    """The interface at which pf is asked of what leaves by a route: for carp(4) the one that it is on."""
    is_dropping = _NEIGHBOUR not in line.flags and bool(_DROPPING.intersection(line.flags))
    if is_dropping or _LOOPBACK.fullmatch(line.interface) or _OWN.intersection(line.flags):
        return LOCAL
    there = machine.interfaces.get(line.interface)
    return there.parent if there and there.parent else line.interface


def _own_addresses(machine: Machine) -> Iterator[Network]:
    """The addresses and broadcast addresses of the firewall, without those of links alone."""
    configured = [address for it in machine.interfaces.values() for address in it.addresses]
    for address in (one for it in configured for one in (it.address, it.broadcast)):
        network = prefix_of(str(address), None) if address and not address.is_link_local else None
        if network is not None:
            yield network


def _notes(counts: Counter[str], kept: int) -> Iterator[str]:
    """What is told of the routes: how many are in the rules text, and what is left out."""
    yield (
        f"{counted(counts['routes'], 'route')}; the rules text has {kept:,}, among them those to the firewall's own "
        "addresses"
    )
    for reason, why in (
        ("repeating", "that say nothing new, as the route that covers them has the same interface"),
        ("multicast", "of multicast: its packets are taken as for the firewall itself"),
        ("scoped", "of one link alone, as fe80::%em0/64: their packets are taken as for the firewall itself"),
        ("down", "not up"),
    ):
        if counts[reason]:
            yield f"left out: {counts[reason]:,} {why}"
    if counts["several"]:
        yield f"of {counts['several']:,} with several ways of the same priority the first is taken"


def _carps(found: dict[Network, str]) -> Iterator[str]:
    """The interfaces of carp(4) of which it is not known on which one they are."""
    unknown = [it for it in sorted({*found.values()}) if _CARP.fullmatch(it)]
    if unknown:
        yield f"pf is asked on the interface that {', '.join(unknown)} is on: --ifconfig FILE tells which"
