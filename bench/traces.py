"""The rules and traces that `bench/run` measures.

Each scenario is a rules text and a trace that is written to a file. The same words give the same bytes: the numbers come from a
plain generator with a fixed seed. The trace of a scenario of TCP over IPv4 can be written as a capture too.
"""
import socket
import struct
from dataclasses import dataclass
from typing import BinaryIO, Callable, Iterator, List, TextIO

HEADER = "time,dir,if,proto,src,sport,dst,dport,flags\n"
SERVER = "192.0.2.1"
WIDE_SERVER = "2001:db8::80"
UNSCALED = "set timeout { adaptive.start 0, adaptive.end 0 }\n"
LETTERS = "FSRPAUEW"
PAYLOAD = bytes(512)
LONG = "set timeout { udp.first 86400, udp.single 86400, udp.multiple 86400, tcp.established 86400 }\n"


@dataclass
class Scenario:
    """What is replayed: a name, the states that it holds, the rules, and the lines of the trace behind the header."""

    name: str
    held: int
    rules: str
    records: Callable[[], Iterator[str]]


class Numbers:
    """A plain generator of numbers, the same in each run."""

    def __init__(self) -> None:
        self.state = 1

    def below(self, most: int) -> int:
        self.state = (self.state * 6364136223846793005 + 1442695040888963407) % (1 << 64)
        return (self.state >> 33) % most


def client(flow: int) -> str:
    return f"10.{flow // 62500 % 250}.{flow // 250 % 250}.{flow % 250 + 1}"


def wide_client(flow: int) -> str:
    """An IPv6 client, in networks of a /64 each, with the last groups as privacy addresses have them."""
    return f"2001:db8:{flow // 250 % 65536:x}:{flow % 250 + 1:x}:{flow * 40503 % 65536:x}:{flow * 30011 % 65536:x}:{flow * 7919 % 65536:x}:1"


def port(flow: int) -> int:
    return 1024 + flow % 60000


def udp(second: int, flow: int, answer: bool) -> str:
    if answer:
        return f"{second},out,em0,udp,{SERVER},53,{client(flow)},{port(flow)},\n"
    return f"{second},in,em0,udp,{client(flow)},{port(flow)},{SERVER},53,\n"


def tcp(second: int, source: str, source_port: int, flags: str, answer: bool = False) -> str:
    server = WIDE_SERVER if ":" in source else SERVER
    if answer:
        return f"{second},out,em0,tcp,{server},80,{source},{source_port},{flags}\n"
    return f"{second},in,em0,tcp,{source},{source_port},{server},80,{flags}\n"


def held_flows(held: int) -> Iterator[str]:
    return (udp(0, flow, False) for flow in range(held))


def refused_flood(held: int, records: int) -> Scenario:
    """A flood of fresh sources, each refused by `set limit states`, over as many held states."""

    def lines() -> Iterator[str]:
        yield from held_flows(held)
        yield from (udp(n // 1000, held + n, False) for n in range(records))

    rules = f"{UNSCALED}set limit states {held}\n{LONG}pass in proto udp all\n"
    return Scenario("flood refused by `set limit states`", held, rules, lines)


def established_mix(held: int, records: int) -> Scenario:
    """Of each 1,000 packets 999 belong to held states, in no order, and one comes from a source of its own."""

    def lines() -> Iterator[str]:
        yield from held_flows(held)
        chosen = Numbers()
        for n in range(records):
            if n % 1000 == 999:
                yield udp(n // 1000, held + n, False)
            else:
                yield udp(n // 1000, chosen.below(held), n % 4 == 3)

    rules = f"{UNSCALED}set limit states {held}\n{LONG}pass in proto udp all\n"
    return Scenario("established mix", held, rules, lines)


def overload_flood(records: int) -> Scenario:
    """Each source completes handshakes until its rate puts it into the table and all its states are flushed; then it is blocked."""

    def lines() -> Iterator[str]:
        for n in range(records // 30):
            source = f"172.{16 + n // 62500}.{n // 250 % 250}.{n % 250 + 1}"
            for connection in range(7):
                yield tcp(n // 40, source, 2000 + connection, "S")
                yield tcp(n // 40, source, 2000 + connection, "SA", True)
                yield tcp(n // 40, source, 2000 + connection, "A")
            yield from (tcp(n // 40, source, 3000 + late, "S") for late in range(9))

    rules = (
        "table <bad> persist\nblock in quick from <bad>\n"
        "pass in proto tcp to any port 80 keep state (max-src-conn-rate 6/60, overload <bad> flush global)\n"
    )
    return Scenario("flood answered by `overload .. flush global`", 0, rules, lines)


def web_mix(records: int) -> Scenario:
    """Handshakes, data both ways and closing, by 5,000 sources, many connections at a time."""
    return web_mix_of("web mix", client, records)


def wide_web_mix(records: int) -> Scenario:
    """The same by IPv6 sources."""
    return web_mix_of("web mix, IPv6", wide_client, records)


def web_mix_of(name: str, source_of: Callable[[int], str], records: int) -> Scenario:
    """The mix by these sources."""

    def connection(n: int) -> List[str]:
        source, source_port = source_of(n % 5000), 1024 + n // 5000 % 60000
        second = n // 70
        packets = [("S", False), ("SA", True), ("A", False), ("PA", False), ("A", True)]
        packets += [("PA", True), ("A", False)] * 3 + [("FA", False), ("FA", True), ("A", False)]
        return [tcp(second + step // 4, source, source_port, flags, answer) for step, (flags, answer) in enumerate(packets)]

    def lines() -> Iterator[str]:
        waiting: List[List[str]] = []
        made = 0
        for second in range(records // 980 + 1):
            now: List[str] = []
            while made // 70 <= second:
                waiting.append(connection(made))
                made += 1
            for packets in waiting:
                while packets and int(packets[0].split(",", 1)[0]) <= second:
                    now.append(packets.pop(0))
            waiting = [packets for packets in waiting if packets]
            yield from now

    rules = (
        "block all\npass in proto tcp to any port 80 keep state "
        "(max-src-states 200, max-src-conn 150, max-src-conn-rate 100/10)\n"
    )
    return Scenario(name, 0, rules, lines)


def idle_store(held: int, seconds: int) -> Scenario:
    """One record a second that changes nothing, over states that stay: what a slice of a purge costs."""

    def lines() -> Iterator[str]:
        yield from held_flows(held)
        yield from (f"{second},in,em0,icmp,{client(1)},,{SERVER},,\n" for second in range(1, seconds + 1))

    return Scenario("one record a second, idle", held, f"{UNSCALED}{LONG}pass in proto udp all\n", lines)


def idle_days(held: int, hourly: int, days: int) -> Scenario:
    """States with source nodes, of which so many leave in each hour, and a record at the end of some days."""
    hour, hours = 3600, 24 * days
    every = hour // hourly

    def lines() -> Iterator[str]:
        apart = max(held // (hourly * hours), 1)
        for flow in range(held):
            leaves = flow % apart == 0 and flow // apart < hourly * hours
            to = 1000 + flow // apart if leaves else 53
            yield f"0,in,em0,udp,{client(flow)},{port(flow)},{SERVER},{to},\n"
        yield f"{hour * hours},in,em0,udp,{client(0)},{port(0)},{SERVER},54,\n"

    leaving = "".join(
        f"pass in proto udp to any port {1000 + turn} keep state (source-track rule, udp.first {every * (turn + 1) - every // 2})\n"
        for turn in range(hourly * hours)
    )
    staying = f"pass in proto udp to any port 53 keep state (source-track rule, udp.first {10 * hour * hours})\n"
    limits = f"set limit {{ states {2 * held}, src-nodes {2 * held} }}\n"
    return Scenario(f"{days} idle days, {hourly} states leave each hour", held, f"{UNSCALED}{limits}block in proto udp to any port 54\n{leaving}{staying}", lines)


def write_trace(scenario: Scenario, to: TextIO) -> int:
    """Writes the trace, and answers how many records it has."""
    to.write(HEADER)
    count = 0
    for line in scenario.records():
        to.write(line)
        count += 1
    return count


def record(line: str) -> bytes:
    """The record of a pcap file whose frame has the packet of a line: TCP over IPv4 on Ethernet, with 512 bytes of data under the flag P."""
    second, _, _, _, source, source_port, target, target_port, flags = line.rstrip("\n").split(",")
    bits = sum(1 << LETTERS.index(it) for it in flags)
    tcp = struct.pack(">HHIIBBHHH", int(source_port), int(target_port), 0, 0, 0x50, bits, 65535, 0, 0) + (PAYLOAD if "P" in flags else b"")
    addresses = socket.inet_aton(source) + socket.inet_aton(target)
    frame = bytes(12) + struct.pack(">HBBHHHBBH", 0x0800, 0x45, 0, 20 + len(tcp), 0, 0, 64, 6, 0) + addresses + tcp
    return struct.pack("<IIII", int(second), 0, len(frame), len(frame)) + frame


def write_capture(scenario: Scenario, to: BinaryIO) -> int:
    """Writes the trace as a pcap file of Ethernet, and answers how many frames it has."""
    to.write(struct.pack("<IHHIIII", 0xA1B2C3D4, 2, 4, 0, 0, 65535, 1))
    count = 0
    for line in scenario.records():
        to.write(record(line))
        count += 1
    return count
