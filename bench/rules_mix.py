"""Rulesets that cost something to evaluate or to load, and traces whose packets ask them: no rule keeps state.

`bench/run` measures these beside its other scenarios.
"""
from typing import Callable, Iterator, List, Set

from traces import SERVER, Numbers, Scenario

INTERFACES = 20
ADDED = 100_000
PREFIXES = [(13, 100), (14, 200), (15, 400), (16, 800), (17, 1600), (18, 3000), (19, 5000), (20, 8000), (21, 10000), (22, 12000), (23, 14000), (24, 14900)]


def address(number: int) -> str:
    return ".".join(str(number >> shift & 255) for shift in (24, 16, 8, 0))


def deep_rules(items: int) -> str:
    """Rules by interface, protocol, host and port, as they are kept by hand: half of them in anchors, the last one decides."""
    inside = max(items // 2 // INTERFACES, 2)
    lines = ["table <bad> { 203.0.113.0/24, 198.51.100.0/25 }", "table <good> { 10.0.0.0/8, !10.255.0.0/16 }", "block all"]
    made = 1
    for number in range(1, INTERFACES + 1):
        if made + inside > items // 2 + 1:
            break
        lines.append(f'anchor "em{number}" on em{number} {{')
        lines += [f"pass in proto tcp from 172.16.0.0/12 to any port {port} no state" for port in range(1, inside)]
        lines.append("}")
        made += inside
    near = min(48, items // 10)
    rest = items - made - near - 1
    for number in range(rest):
        port = number % 60000 + 1
        if number < rest * 2 // 5:
            lines.append(f"block in on em1 proto tcp to any port {port}")
        elif number < rest * 4 // 5:
            lines.append(f"block in on em0 proto tcp from <bad> to any port {port}")
        else:
            lines.append(f"pass in on em0 proto udp from 192.168.0.0/16 to any port {port} no state")
    lines += [f"pass in on em0 proto udp from 10.0.0.0/8 to any port {port} no state" for port in range(100, 100 + near)]
    lines.append("pass in on em0 proto udp from <good> to any port 53 no state")
    return "\n".join(lines) + "\n"


def asking(name: str, rules: str, records: int, first: Callable[[], Iterator[str]] = lambda: iter(())) -> Scenario:
    """Packets of sources without number: most are UDP to port 53, one in eight is TCP, one in sixteen comes in elsewhere.

    `first` are records of moment 0 before them.
    """

    def lines() -> Iterator[str]:
        yield from first()
        chosen = Numbers()
        for n in range(records):
            source = f"{1 + chosen.below(10)}.{chosen.below(250)}.{chosen.below(250)}.{chosen.below(250)}"
            if n % 8 == 7:
                on = f"em{1 + chosen.below(INTERFACES)}" if n % 16 == 15 else "em0"
                yield f"{n // 1000},in,{on},tcp,{source},{1024 + n % 60000},{SERVER},80,S\n"
            else:
                yield f"{n // 1000},in,em0,udp,{source},{1024 + n % 60000},{SERVER},53,\n"

    return Scenario(name, 0, rules, lines)


def deep(items: int, records: int) -> Scenario:
    """The verdict stands behind so many items."""
    return asking(f"{items:,} items, the verdict deep in them", deep_rules(items), records)


def big_table(records: int) -> Scenario:
    """Each packet asks a table of 70,000 prefixes of 12 lengths."""
    chosen, prefixes = Numbers(), []
    for bits, count in PREFIXES:
        seen: Set[int] = set()
        while len(seen) < count:
            seen.add(((1 + chosen.below(9)) << 24 | chosen.below(1 << 24)) >> (32 - bits) << (32 - bits))
        prefixes += [f"{address(prefix)}/{bits}" for prefix in sorted(seen)]
    rules = f"table <big> {{\n{chr(10).join(prefixes)}\n}}\nblock in quick from <big>\npass in proto udp all no state\n"
    return asking("table of 70,000 prefixes, asked by each packet", rules, records)


def added_tables(records: int) -> Scenario:
    """Each packet asks two tables that got 100,000 addresses each by records, more than a rules text can hold."""

    def added() -> Iterator[str]:
        chosen = Numbers()
        seen: Set[int] = set()
        while len(seen) < 2 * ADDED:
            number = (1 + chosen.below(9)) << 24 | chosen.below(1 << 24)
            if number not in seen:
                yield f"0,add,{'bad' if len(seen) < ADDED else 'worse'},,{address(number)},,,,\n"
                seen.add(number)

    rules = "table <bad>\ntable <worse>\nblock in quick from <bad>\nblock in quick from <worse>\npass in proto udp all no state\n"
    return asking("two tables of 100,000 addresses, added by records, asked by each packet", rules, records, added)


def loading(items: int) -> Scenario:
    """A text of so many rules, and no record: what it takes to load it."""
    return Scenario(f"{items:,} rules and no record", 0, long_rules(items), lambda: iter(()))


def long_rules(items: int) -> str:
    """So many rules of about 100 bytes."""
    lines: List[str] = []
    for n in range(items):
        lines.append(
            f"pass in on em{n % 20} proto tcp from 10.{n // 250 % 250}.{n % 250}.0/24 to 192.0.2.0/24 port {n % 60000 + 1} "
            "keep state (max 99, source-track)"
        )
    return "\n".join(lines) + "\n"
