#!/usr/bin/env python3
"""A stand-in for pfsrc in tests of what is around it: a machine of one limit, that knows no timeouts.

It reads rules texts of `set limit states N`, `set timeout` lines and rules with options, and makes a state for each
first SYN of a connection while fewer than N are held (`max N` of a rule is a lower limit); a FIN ends one. Entries that
come to tables are counted, and it says how much is held. A trace may come from standard input. Its `show` prints a text
of the form of pfsrc's.
"""

import re
import sys
import time

LIMITS = {"states": 100000, "src-nodes": 10000, "tables": 1000, "table-entries": 200000}
TIMEOUTS = {
    "tcp.first": 120, "tcp.opening": 30, "tcp.established": 86400, "tcp.closing": 900, "tcp.finwait": 45,
    "tcp.closed": 90, "udp.first": 60, "udp.single": 30, "udp.multiple": 60, "other.first": 60, "other.single": 30,
    "other.multiple": 60, "src.track": 0, "interval": 10,
}  # fmt: skip


def read_rules(path: str) -> tuple[dict[str, int], dict[str, int], list[str]]:
    """Limits, timeouts and rules."""
    limits, times, items = dict(LIMITS), dict(TIMEOUTS), []
    with open(path, encoding="latin-1") as file:
        for number, line in enumerate(file, 1):
            words = line.strip()
            if words.startswith("set limit"):
                limits.update({name: int(value) for name, value in re.findall(r"([a-z-]+) (\d+)", words)})
            elif words.startswith("set timeout"):
                times.update({name: int(value) for name, value in re.findall(r"([a-z.]+) (\d+)", words)})
            elif words.startswith(("pass", "block")):
                items.append(words)
            elif words.startswith(("table", "#", "set profile ")):
                pass
            elif words:
                sys.stderr.write(f"rules: line {number}: Syntax\n")
                sys.exit(3)
    if limits["table-entries"] < 3:
        sys.stderr.write("rules: line 0: TooManyEntries\n")
        sys.exit(3)
    return limits, times, items


def show(path: str) -> None:
    """Prints the rules as pfsrc does."""
    limits, times, items = read_rules(path)
    start, end = limits["states"] * 6 // 10, limits["states"] * 12 // 10
    resolved = {
        **times,
        "adaptive.start": times.get("adaptive.start", start),
        "adaptive.end": times.get("adaptive.end", end),
    }
    print(f"set limit {{ {', '.join(f'{name} {value}' for name, value in limits.items())} }}")
    print(f"set timeout {{ {', '.join(f'{name} {value}' for name, value in resolved.items())} }}")
    for item in items:
        print(item)


def replay(rules: str, trace: str) -> None:
    """Prints a report."""
    limits, times, items = read_rules(rules)
    most = min([limits["states"], *(int(it) for item in items for it in re.findall(r"\bmax (\d+)", item))])
    held: set[tuple[str, ...]] = set()
    entries: set[str] = set()
    row = 0
    with open(0 if trace == "-" else trace, encoding="latin-1") as file:
        if file.readline().strip() != "time,dir,if,proto,src,sport,dst,dport,flags":
            sys.stderr.write("trace: row 0: columns\n")
            sys.exit(1)
        for row, line in enumerate(file, 1):
            column = line.strip().split(",")
            key = tuple(column[4:8]) if column[1] == "in" else (column[6], column[7], column[4], column[5])
            if column[1] == "held":
                print(f"{row} held - states={len(held)} nodes=0 entries={len(entries)}")
            elif column[1] == "add":
                is_full = len(entries) >= limits["table-entries"]
                print(f"{row} add - {'full' if is_full else 'added'}")
                entries.update([] if is_full else [line])
            elif column[3] == "icmp":
                print(f"{row} skip -")
            elif key in held:
                print(f"{row} state @0")
                if "F" in column[8]:
                    held.discard(key)
            elif column[8] != "S":
                print(f"{row} block @0")
            elif len(held) >= most:
                print(f"{row} drop:{'max' if most < limits['states'] else 'states'} @0")
            else:
                held.add(key)
                print(f"{row} new @0")
            if times["interval"] == 77:
                sys.stdout.flush()
                time.sleep(5)
    print(f"end rows={row} states={len(held)} nodes=0 entries={len(entries)}")


if __name__ == "__main__":
    if sys.argv[1] == "--version":
        print("pfsrc stand-in")
    elif sys.argv[1] == "show":
        show(sys.argv[2])
    else:
        replay(sys.argv[2], sys.argv[3])
