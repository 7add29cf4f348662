"""Drawn rulesets of rules and anchors inside one another, and packets for them.

The items ask for directions, interfaces, protocols, hosts, tables, ports and flags, often the same as the item before, so that a walk that
skips has something to skip; some are `quick`. No rule keeps state: a report is the verdicts. Between the packets the tables change. The same generator of numbers draws the same.
"""
from __future__ import annotations

import random
from collections.abc import Callable
from dataclasses import dataclass, field

HEADER = "time,dir,if,proto,src,sport,dst,dport,flags\n"
INTERFACES = ["em0", "em1", "em2", "vlan10"]
PROTOS = ["tcp", "udp", "esp"]
PREFIXES = ["10.0.0.0/8", "10.1.0.0/16", "10.1.2.0/24", "10.1.2.3", "192.0.2.0/25", "192.0.2.7", "0.0.0.0/0"]
ADDRESSES = ["10.1.2.3", "10.1.2.4", "10.1.9.9", "10.200.0.1", "192.0.2.7", "192.0.2.8", "192.0.2.200", "203.0.113.5"]
TABLES: dict[str, list[str]] = {
    "t0": ["10.0.0.0/8", "!10.1.0.0/16", "10.1.2.3"],
    "t1": ["!192.0.2.7", "192.0.2.0/24"],
    "t2": [],
}
PORTS = [22, 53, 80, 1024, 5000]
FLAG_TESTS = ["S/SA", "A/A", "/R", "SA/SA"]
FLAGS = ["S", "SA", "A", "FA", "R", ""]
Packet = tuple[str, str, str, str, int, str, int, str]


@dataclass
class Item:
    """A rule or an anchor: its text, what it asks, and the items of an anchor's body."""

    place: int
    asks: dict[str, str]
    quick: bool
    blocks: bool
    body: list[Item] | None = None


@dataclass
class Draw:
    """What is drawn: the numbers, and how many items there are yet to be."""

    numbers: random.Random
    left: int
    made: int = 0
    before: dict[str, str] = field(default_factory=dict)


def drawn_host(numbers: random.Random) -> str:
    turned = "! " if numbers.random() < 0.25 else ""
    if numbers.random() < 0.4:
        return f"{turned}<{numbers.choice(list(TABLES))}>"
    return turned + numbers.choice(PREFIXES)


def drawn_ports(numbers: random.Random) -> str:
    low, high = sorted(numbers.choices(PORTS, k=2))
    return str(low) if numbers.random() < 0.5 else f"{low}:{high}"


def drawn_asks(draw: Draw) -> dict[str, str]:
    """What an item asks: of each parameter the same as the item before, or something new, or nothing."""
    numbers = draw.numbers
    makers: dict[str, Callable[[], str]] = {
        "dir": lambda: numbers.choice(["in", "out"]),
        "on": lambda: ("! " if numbers.random() < 0.2 else "") + numbers.choice(INTERFACES),
        "family": lambda: "inet",
        "proto": lambda: numbers.choice(PROTOS),
        "from": lambda: drawn_host(numbers),
        "to": lambda: drawn_host(numbers),
        "sport": lambda: drawn_ports(numbers),
        "dport": lambda: drawn_ports(numbers),
        "flags": lambda: numbers.choice(FLAG_TESTS),
    }
    asks = {}
    for name, maker in makers.items():
        chance = numbers.random()
        if chance < 0.45 and name in draw.before:
            asks[name] = draw.before[name]
        elif chance < 0.65:
            asks[name] = maker()
    if asks.get("proto") not in ("tcp", "udp"):
        asks.pop("sport", None)
        asks.pop("dport", None)
    draw.before = asks
    return asks


def drawn_items(draw: Draw, depth: int) -> list[Item]:
    """The items of a body, fewer the deeper it stands."""
    items: list[Item] = []
    most = draw.left if depth == 0 else draw.numbers.randint(0, 12)
    while draw.left > 0 and len(items) < most:
        draw.left -= 1
        item = Item(draw.made, drawn_asks(draw), draw.numbers.random() < 0.004, draw.numbers.random() < 0.5)
        draw.made += 1
        if depth < 4 and draw.numbers.random() < 0.1:
            item.body = drawn_items(draw, depth + 1)
        items.append(item)
    return items


def text_of(item: Item) -> str:
    """The lines of an item."""
    asks = item.asks
    if item.body is None:
        words = ["block" if item.blocks else "pass"]
        words += [asks["dir"]] if "dir" in asks else []
        words += ["quick"] if item.quick else []
    else:
        words = ["anchor"]
        words += [asks["dir"]] if "dir" in asks else []
        words += ["quick"] if item.quick else []
    words += [f"on {asks['on']}"] if "on" in asks else []
    words += ["inet"] if "family" in asks else []
    words += [f"proto {asks['proto']}"] if "proto" in asks else []
    words += [f"from {asks.get('from', 'any')}" + (f" port {asks['sport']}" if "sport" in asks else "")]
    words += [f"to {asks.get('to', 'any')}" + (f" port {asks['dport']}" if "dport" in asks else "")]
    words += [f"flags {asks.get('flags', 'any')}"]
    if item.body is not None:
        return " ".join(words) + " {\n" + "".join(text_of(inner) for inner in item.body) + "}\n"
    return " ".join(words) + ("\n" if item.blocks else " no state\n")


def drawn_packet(numbers: random.Random) -> Packet:
    proto = numbers.choice(["tcp", "tcp", "udp", "udp", "esp"])
    ports = [numbers.choice(PORTS + [1, 65535]) if proto != "esp" else 0 for _ in range(2)]
    flags = numbers.choice(FLAGS) if proto == "tcp" else ""
    return (
        numbers.choice(["in", "out"]), numbers.choice(INTERFACES), proto,
        numbers.choice(ADDRESSES), ports[0], numbers.choice(ADDRESSES), ports[1], flags,
    )


def record_of(packet: Packet) -> str:
    way, interface, proto, source, sport, destination, dport, flags = packet
    ports = ("", "") if proto == "esp" else (sport, dport)
    return f"1,{way},{interface},{proto},{source},{ports[0]},{destination},{ports[1]},{flags}\n"


def drawn_change(numbers: random.Random) -> str:
    """A record by which an entry comes or goes."""
    sign = numbers.choice(["", "", "!"])
    return f"1,{numbers.choice(['add', 'delete'])},{numbers.choice(list(TABLES))},,{sign}{numbers.choice(PREFIXES + ADDRESSES)},,,,\n"


def drawn_record(numbers: random.Random) -> str:
    return drawn_change(numbers) if numbers.random() < 0.05 else record_of(drawn_packet(numbers))


def drawn_verdicts(numbers: random.Random, most: int, packets: int) -> tuple[str, str]:
    """The rules text of up to `most` items, and a trace of packets, and of changes of its tables, for it."""
    items = drawn_items(Draw(numbers, numbers.choice([5, 50, 500, most])), 0)
    tables = "".join(f"table <{name}> {{ {' '.join(entries)} }}\n" for name, entries in TABLES.items())
    trace = HEADER + "".join(drawn_record(numbers) for _ in range(packets))
    return tables + "".join(text_of(item) for item in items), trace
