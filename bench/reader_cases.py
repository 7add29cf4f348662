"""Rules, traces and reports worked by hand: routes, tags, translation, states that an administrator takes out."""
from dataclasses import dataclass
from typing import List

HEADER = "time,dir,if,proto,src,sport,dst,dport,flags"
PROFILE = "set profile openbsd-7.4"
SERVERS = "set route { 0.0.0.0/0 em0, 192.0.2.0/24 em1 }"
INSIDE = "set route { 0.0.0.0/0 em0, 10.0.0.0/8 em1, 192.0.2.1 lo0 }"
SYN = "0,in,em0,tcp,198.51.100.7,1,192.0.2.9,80,S"
ACK = "0,in,em0,tcp,198.51.100.7,1,192.0.2.9,80,A"
ANSWER = "0,out,em0,tcp,192.0.2.9,80,198.51.100.7,1,SA"


@dataclass(frozen=True)
class Case:
    """What it shows, the lines of the rules, the records behind the header, and the lines of the report."""

    name: str
    rules: List[str]
    records: List[str]
    report: List[str]

    @property
    def texts(self) -> tuple[str, str]:
        """The rules text and the trace."""
        return "\n".join(self.rules) + "\n", "\n".join([HEADER, *self.records]) + "\n"


def dns(host: str) -> str:
    """A question from a host inside to a server outside."""
    return f"0,in,em1,udp,{host},1000,203.0.113.5,53,"


def web(port: int, outside: int) -> List[str]:
    """A handshake of a host inside with a server outside, each packet where it comes in."""
    asked = f"0,in,em1,tcp,10.0.0.9,{port},203.0.113.5,80,"
    return [asked + "S", f"0,in,em0,tcp,203.0.113.5,80,192.0.2.1,{outside},SA", asked + "A"]


CASES = [
    Case(
        "a connection has a state at each of two interfaces",
        [PROFILE, SERVERS, "pass in on em0 proto tcp to any port 80", "pass out on em1"], [SYN, ANSWER, "0,held,,,,,,,"],
        ["1 new @0 > new @1", "2 state @1 > state @0", "3 held - states=2 nodes=0 entries=0", "end rows=3 states=2 nodes=0 entries=0"],
    ),
    Case(
        "what the second interface blocks has a state at the first",
        [PROFILE, SERVERS, "pass in", "block out on em1"], [SYN, SYN],
        ["1 new @0 > block @1", "2 state @0 > block @1", "end rows=2 states=1 nodes=0 entries=0"],
    ),
    Case(
        "the firewall's own SYN is asked at the second interface, and again at each packet of the maker",
        [PROFILE, SERVERS, "pass in on em0 proto tcp synproxy state", "pass out on em1"], [SYN, ACK, ACK.replace(",A", ",R")],
        ["1 proxy @0", "2 proxy @0 > new @1", "3 proxy @0 > state @1", "end rows=3 states=2 nodes=0 entries=0"],
    ),
    Case(
        "so is the SYN of a connection by cookie",
        [PROFILE, SERVERS, "set syncookies always", "pass in on em0 proto tcp", "pass out on em1"], [SYN, ACK],
        ["1 cookie -", "2 proxy @0 > new @1", "end rows=2 states=2 nodes=0 entries=0"],
    ),
    Case(
        "rules behind a match see the address that it gave; an answer has the one outside",
        [PROFILE, "match in on em0 proto tcp to 192.0.2.9 port 80 rdr-to 10.0.0.5 port 8080", "block in", "pass in to 10.0.0.5"],
        [SYN, ANSWER, ACK],
        ["1 new @2", "2 state @2", "3 state @2", "end rows=3 states=1 nodes=0 entries=0"],
    ),
    Case(
        "a port of nat-to is free again when its state is taken out, by the source that it has inside",
        [PROFILE, INSIDE, "pass in on em1", "pass out on em0 nat-to 192.0.2.1 port 50001"],
        [dns("10.0.0.9"), dns("10.0.0.8"), "0,kill,,,10.0.0.9,,203.0.113.0/24,,", dns("10.0.0.8")],
        ["1 new @0 > new @1", "2 new @0 > drop:translate @1", "3 kill - killed=2", "4 state @0 > new @1",
         "end rows=4 states=2 nodes=0 entries=0"],
    ),
    Case(
        "no two states share a key inside",
        [PROFILE, "pass in proto tcp to any port 80 rdr-to 10.0.0.5"], [SYN, SYN.replace("192.0.2.9", "192.0.2.8")],
        ["1 new @0", "2 drop:state-insert @0", "end rows=2 states=1 nodes=0 entries=0"],
    ),
    Case(
        "that no port is left is told before a limit",
        [PROFILE, INSIDE, "pass in on em1", "pass out on em0 nat-to 192.0.2.1 port 50001 keep state (max 1)"],
        [dns("10.0.0.9"), dns("10.0.0.8"), dns("10.0.0.8").replace("203.0.113.5", "203.0.113.6")],
        ["1 new @0 > new @1", "2 new @0 > drop:translate @1", "3 new @0 > drop:max @1", "end rows=3 states=4 nodes=0 entries=0"],
    ),
    Case(
        "nat-to is made first: it finds its port free towards the address that was asked, and the key of both is held",
        [PROFILE, "pass in on em0 proto tcp rdr-to 10.0.0.5 nat-to 10.0.0.1 port 7"], [SYN, SYN.replace(",1,", ",2,")],
        ["1 new @0", "2 drop:state-insert @0", "end rows=2 states=1 nodes=0 entries=0"],
    ),
    Case(
        "what is seen of an answer where it leaves has the addresses there, and no state where it came in",
        [PROFILE, INSIDE, "pass in on em1", "pass out on em0 nat-to 192.0.2.1", "block in on em0"],
        [dns("10.0.0.9"), "0,out,em1,udp,203.0.113.5,53,10.0.0.9,1000,", "0,in,em0,udp,203.0.113.5,53,192.0.2.1,50001,"],
        ["1 new @0 > new @1", "2 block @2", "3 state @1 > state @0", "end rows=3 states=2 nodes=0 entries=0"],
    ),
    Case(
        "a flush looks for the source in the wire's keys, where its address is that of the firewall",
        [PROFILE, INSIDE, "table <bad>", "pass in on em1 no state",
         "pass out on em0 proto tcp nat-to 192.0.2.1 keep state (max-src-conn 1, overload <bad> flush global)"],
        [*web(1000, 50001), *web(1001, 50002)],
        ["1 pass @0 > new @1", "2 state @1 > pass -", "3 pass @0 > state @1",
         "4 pass @0 > new @1", "5 state @1 > pass -", "6 pass @0 > kill:max-src-conn @1 overload=added killed=1",
         "end rows=6 states=1 nodes=1 entries=1"],
    ),
    Case(
        "a tag goes with the packet, whichever rule decides",
        [PROFILE, SERVERS, "match in proto tcp tag WEB", "pass in", "block out", "pass out tagged WEB"],
        [SYN, "0,in,em0,udp,198.51.100.7,1,192.0.2.9,53,"],
        ["1 new @1 > new @3", "2 new @1 > block @2", "end rows=2 states=3 nodes=0 entries=0"],
    ),
    Case(
        "received-on asks for the interface where the packet came in",
        [PROFILE, SERVERS, "pass in", "block out", "pass out received-on em0", "block out ! received-on em0"], [SYN, ANSWER.replace(",SA", ",S")],
        ["1 new @0 > new @2", "2 state @2 > state @0", "end rows=2 states=2 nodes=0 entries=0"],
    ),
    Case(
        "states leave by their source and destination, as their makers sent them",
        ["pass"], [SYN, "0,out,em0,udp,192.0.2.9,7,198.51.100.7,53,", "0,kill,,,192.0.2.0/24,,192.0.2.0/24,,", "0,kill,,,192.0.2.0/24,,198.51.100.7,,"],
        ["1 new @0", "2 new @0", "3 kill - killed=0", "4 kill - killed=1", "end rows=4 states=1 nodes=0 entries=0"],
    ),
]
