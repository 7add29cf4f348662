"""Drawn rulesets and traces: every limit with values of 1 to 5, several rules and scopes, sources of both families, short timeouts and short
lives under load; floods, handshakes, endings, packets of held states and of none, an administrator's records, and jumps of up to some hours.
A trace may end with a record that may be a fault, where that is asked for.

The same generator of numbers draws the same.
"""
import random
from typing import List

HEADER = "time,dir,if,proto,src,sport,dst,dport,flags\n"
SOURCES = ["198.51.100.1", "198.51.100.2", "198.51.100.3", "2001:db8::1", "2001:db8::2"]
ENTRIES = [*SOURCES, "198.51.100.0/24", "198.51.100.77/24", "198.51.100.2/31", "0.0.0.0/0", "2001:DB8::/32", "2001:db8::1/127", "::/0", "203.0.113.9"]
ENDS = [*SOURCES, "192.0.2.1", "198.51.100.0/24", "192.0.2.0/24", "0.0.0.0/0", "2001:db8::/127", "::/0"]
TABLES = ["bad", "bad", "bad", "good"]
ODD = ["", "bad", "kept", "worse", "held", "kill", "add", "delete", "in", "7", "4294967296", "198.51.100.1", "!198.51.100.1", "! 198.51.100.1", "10.0.0.0/08", "S", "x"]
LIMITS = ["states", "src-nodes", "table-entries"]
TIMEOUTS = [
    "tcp.first", "tcp.opening", "tcp.established", "tcp.closing", "tcp.finwait", "tcp.closed",
    "udp.first", "udp.single", "udp.multiple", "other.first", "other.single", "other.multiple",
]


def few(draw: random.Random) -> int:
    return draw.randint(1, 5)


def drawn_settings(draw: random.Random, often: float) -> List[str]:
    lines = [f"set limit {name} {few(draw)}" for name in LIMITS if draw.random() < often]
    times = {"interval": few(draw), "src.track": draw.choice([0, 1, 5, 20])}
    times.update({name: draw.choice([0, 1, 2, 5, 9, 30]) for name in TIMEOUTS if draw.random() < 0.6})
    if draw.random() < 0.7:
        start = draw.randint(0, 4)
        times.update({"adaptive.start": start, "adaptive.end": draw.choice([0, start + few(draw)]) if start == 0 else start + few(draw)})
    return [*lines, "set timeout { " + ", ".join(f"{name} {value}" for name, value in times.items()) + " }"]


def drawn_options(draw: random.Random, is_tcp: bool, often: float) -> str:
    """Options that the load rules accept together: connections are counted by rule, and so are retentions."""
    scope = draw.choice(["", "source-track", "source-track rule", "source-track global"])
    found = [scope] if scope else []
    by_rule = scope in ("", "source-track rule")
    found += [f"max {few(draw)}"] if draw.random() < often / 2 else []
    found += [f"max-src-states {few(draw)}"] if draw.random() < often else []
    if scope != "source-track global" and draw.random() < often:
        found.append(f"max-src-nodes {few(draw)}")
        by_rule = scope != "source-track"
    if is_tcp and scope != "source-track global":
        asked = [f"max-src-conn {draw.randint(1, 3)}"] if draw.random() < 0.7 else []
        asked += [f"max-src-conn-rate {draw.randint(1, 4)}/{draw.choice([1, 5, 30])}"] if draw.random() < 0.5 else []
        if asked and draw.random() < 0.7:
            asked.append("overload <bad>" + draw.choice(["", " flush", " flush global"]))
        found += asked
        by_rule = by_rule and bool(asked)
    if by_rule and scope == "source-track rule" and draw.random() < 0.3:
        found.append(f"src.track {draw.choice([0, 3, 10])}")
    found += [f"tcp.established {few(draw)}"] if is_tcp and draw.random() < 0.2 else []
    if draw.random() < 0.2:
        found.append(f"adaptive.start {few(draw)}, adaptive.end {5 + few(draw)}")
    return " keep state (" + ", ".join(found) + ")" if found else ""


def drawn_rules(draw: random.Random) -> str:
    often = draw.choice([0.1, 0.3, 0.6])
    lines = drawn_settings(draw, often)
    lines.append(draw.choice(["table <bad> persist", f"table <bad> {{ {draw.choice(SOURCES)} }}"]))
    lines += ["table <good>", "table <kept> const"]
    if draw.random() < 0.5:
        lines.append("block in quick from <bad>")
    if draw.random() < 0.3:
        lines.append("block in quick proto udp from ! <good>")
    if draw.random() < 0.5:
        lines.append("pass all" + drawn_options(draw, False, often))
    for _ in range(draw.randint(1, 4)):
        is_tcp = draw.random() < 0.65
        way = draw.choice(["in ", "in ", ""]) + draw.choice(["", "", "", "inet ", "inet6 "])
        parameters = "proto tcp" + draw.choice([" to any port 80", " flags any", ""]) if is_tcp else draw.choice(["proto udp", "proto 47", "all"])
        state = " no state" if draw.random() < 0.1 else drawn_options(draw, is_tcp, often)
        lines.append(f"pass {way}{parameters}{state}")
    if draw.random() < 0.2:
        lines.append(f"block in proto udp from {draw.choice(SOURCES)}")
    return "\n".join(lines) + "\n"


def drawn_profile(draw: random.Random) -> str:
    """The profile of OpenBSD 7.4, mostly with SYN cookies: they go on and off often."""
    start = draw.randint(1, 60)
    chosen = draw.choice(["never", "always", "always", "adaptive", f"adaptive (start {start}%, end {draw.randrange(start)}%)"])
    return f"set profile openbsd-7.4\nset syncookies {chosen}\n"


def with_synproxy(draw: random.Random, rules: str) -> str:
    """The rules, of which some that keep state have `synproxy state`."""
    lines = rules.splitlines()
    for place, line in enumerate(lines):
        if line.startswith("pass") and " no state" not in line and draw.random() < 0.4:
            lines[place] = line.replace(" keep state", " synproxy state") if " keep state" in line else line + " synproxy state"
    return "\n".join(lines) + "\n"


def with_routes(draw: random.Random, rules: str) -> str:
    """The rules with routes, of which some are asked at one of the two interfaces alone, and with some for packets that leave."""
    lines = rules.splitlines()
    for place, line in enumerate(lines):
        if line.startswith("pass in ") and draw.random() < 0.4:
            lines[place] = line.replace("pass in ", f"pass in on {draw.choice(['em0', 'em0', 'em1'])} ", 1)
    for _ in range(draw.randint(1, 2)):
        state = draw.choice(["", " no state", " keep state (max 2)", drawn_options(draw, False, 0.5)])
        lines.append(draw.choice(["pass out on em1", "pass out on em0", "pass out", "block out on em1"]) + state)
    lines = [line.split(" keep state")[0].removesuffix(" no state") if line.startswith("block") else line for line in lines]
    servers = draw.choice(["192.0.2.0/24", "192.0.2.1", "192.0.0.0/8"])
    routes = ["0.0.0.0/0 em0", f"{servers} em1", f"2001:db8::53 {draw.choice(['em1', 'lo0'])}", "::/0 em0", f"{draw.choice(SOURCES)} {draw.choice(['em2', 'lo0'])}"]
    draw.shuffle(routes)
    lines.append("set route { " + ", ".join(routes[: draw.randint(2, 5)]) + " }")
    return "\n".join(lines) + "\n"


def seen_inside(draw: random.Random, trace: str) -> str:
    """The trace, of whose packets some are seen at the inner interface."""
    lines = trace.splitlines()
    for place, line in enumerate(lines):
        if draw.random() < 0.4:
            lines[place] = line.replace(",in,em0,", ",out,em1,") if ",in,em0," in line else line.replace(",out,em0,", ",in,em1,")
    return "\n".join(lines) + "\n"


def drawn_step(draw: random.Random) -> int:
    """How many seconds pass: mostly none or few, sometimes many."""
    kind = draw.random()
    if kind < 0.75:
        return 0
    return draw.randint(1, 3) if kind < 0.93 else draw.randint(4, 60) if kind < 0.99 else draw.randint(61, 20_000)


def server(source: str) -> str:
    return "2001:db8::53" if ":" in source else "192.0.2.1"


def tcp(time: int, source: str, port: int, flags: str) -> str:
    return f"{time},in,em0,tcp,{source},{port},{server(source)},80,{flags}"


def answer(time: int, source: str, port: int, flags: str) -> str:
    return f"{time},out,em0,tcp,{server(source)},80,{source},{port},{flags}"


def drawn_order(draw: random.Random, time: int) -> str:
    """A record of an administrator."""
    kind, table = draw.random(), draw.choice(TABLES)
    if kind < 0.25:
        return f"{time},held,,,,,,,"
    if kind < 0.35:
        return f"{time},kill,,,{draw.choice(ENDS)},,{draw.choice(['', '', *ENDS])},,"
    if kind < 0.5:
        return f"{time},expire,{table},,,{draw.choice([0, 1, 5, 60, 1000])},,,"
    what = "add" if kind < 0.8 else "delete"
    return f"{time},{what},{table},,{draw.choice(['', '', '!'])}{draw.choice(ENTRIES)},,,,"


def odd_record(draw: random.Random, record: str) -> str:
    """A record with a field that is another, or with one more or fewer."""
    fields = record.split(",")
    place = draw.randrange(len(fields))
    fields[place : place + draw.choice([1, 1, 1, 1, 0, 2])] = [draw.choice(ODD)]
    return ",".join(fields)


def drawn_records(draw: random.Random, time: int) -> List[str]:
    """The records of one moment."""
    source, port = draw.choice(SOURCES), draw.randint(1, 6)
    kind = draw.random()
    if kind < 0.45:
        return [tcp(time, source, port, "S"), answer(time, source, port, "SA"), tcp(time, source, port, "A")]
    if kind < 0.5:
        return [tcp(time, draw.choice(SOURCES), draw.randint(1000, 60000), "S") for _ in range(draw.randint(2, 9))]
    if kind < 0.6:
        return [f"{time},in,em0,udp,{source},{port},{server(source)},53,"]
    if kind < 0.65:
        return [f"{time},out,em0,udp,{server(source)},53,{source},{port},"]
    if kind < 0.7:
        return [f"{time},in,em0,47,{source},,{server(source)},,"]
    if kind < 0.9:
        flags = draw.choice(["S", "SA", "A", "FA", "R", "PA", ""])
        return [draw.choice([tcp, answer])(time, source, port, flags)]
    if kind < 0.98:
        return [drawn_order(draw, time)]
    return [f"{time},in,em0,icmp,{source},,{server(source)},,"]


def drawn_trace(draw: random.Random, records: int, may_fail: bool = False) -> str:
    """A trace of so many records, of which the last may be a fault if `may_fail`."""
    lines: List[str] = []
    time = draw.randint(0, 1_000_000)
    while len(lines) < records:
        time += drawn_step(draw)
        lines += drawn_records(draw, time)
    if may_fail and records and draw.random() < 0.2:
        lines[records - 1] = odd_record(draw, draw.choice([lines[records - 1], drawn_order(draw, time)]))
    return HEADER + "\n".join(lines[:records]) + "\n"
