"""Drawn rulesets that translate, and traces for them, under the profile of OpenBSD 7.4.

Outside are few clients, inside few servers, each asked by way of few addresses of the firewall, and few ports are used: keys meet, and small ranges of
ports run out. Records show both interfaces of a packet's way: connections that come in and go out, answers, endings and beginnings anew, packets for which
there is no route, and an administrator who takes states out. The same generator of numbers draws the same.
"""
from __future__ import annotations

import random
from dataclasses import dataclass
from typing import List, Tuple

from drawn import HEADER, drawn_options, drawn_order, drawn_settings, drawn_step, odd_record
from drawn_marks import drawn_marks, in_anchors

INSIDE = "10.0.0.0/8"
NAT_PORTS = ["", "", " static-port", " port 50001", " port 50001", " port 50001:50002", " port 50001:50002", " port 50001:50003", " port 1:2", " port 80"]
FEW_PORTS = ["50001", "50001", "50001:50002", "50001:50002", "50001:50003", "1:2"]
LEAVING = [["pass out on em0"], [f"pass out from {INSIDE}"], ["match out"], ["match out on em0"], [f"match out from {INSIDE}", "match out on em0"]]
PROTOS = ["", "", "proto tcp", "proto tcp", "proto udp", "proto 47"]
PLAIN = ["pass", "pass", "pass in", "pass out", "pass out on em0", "pass in on em1", "pass in on em0 proto tcp", "block in", "block out proto udp"]
COOKIES = ["never", "never", "never", "always", "adaptive (start 20%, end 10%)", "adaptive (start 60%, end 40%)"]
LIMITED = [
    f" keep state ({it})" for it in (
        "max-src-conn 1, overload <bad> flush global", "max-src-conn 1, overload <good> flush", "max-src-conn-rate 2/30, overload <good> flush global",
        "max-src-conn 2, max-src-conn-rate 3/5, overload <bad> flush",
        "max-src-conn 1, overload <bad> flush", "max 1", "max 2", "max-src-states 1", "max-src-states 2, max 3",
    )
]
STORIES = ["S.A", "S.A", "S.A", "S.AFfa", "S.AFfaS.A", "S.AR", "S.ARS", "SA.A", "S", "SS", "A", "a.A", "r", "F"]
FLAGS = {"S": "S", ".": "SA", "A": "A", "a": "A", "F": "FA", "f": "FA", "R": "R", "r": "R"}
# No more seconds pass between two records: a slow reader does each of them.
LONGEST = 200
# An address with a port.
End = Tuple[str, int]


@dataclass(frozen=True)
class Family:
    """Addresses: of clients outside, of the firewall there, of servers inside, and of the firewall there; prefixes of those inside and of the firewall."""

    name: str
    outside: List[str]
    public: List[str]
    inside: List[str]
    inner: str
    inside_prefix: str
    public_prefix: str
    everything: str

    @property
    def ends(self) -> List[str]:
        """What an administrator may name."""
        return [*self.outside, *self.public, *self.inside, self.inner, self.inside_prefix, self.public_prefix, self.everything]

    @property
    def routes(self) -> List[str]:
        own = [f"{self.public_prefix} lo0", f"{self.inner} lo0"]
        return [f"{self.everything} em0", f"{self.inside_prefix} em1", *own]


IPV4 = Family("inet", ["198.51.100.1", "198.51.100.2"], ["192.0.2.1", "192.0.2.2"], ["10.0.0.5", "10.0.0.6"], "10.0.0.1", INSIDE, "192.0.2.0/24", "0.0.0.0/0")
IPV6 = Family("inet6", ["2001:db8::1", "2001:db8::2"], ["2001:db8:f::1"], ["fd00::5", "fd00::6"], "fd00::1", "fd00::/8", "2001:db8:f::/48", "::/0")


def drawn_family(draw: random.Random) -> Family:
    return IPV6 if draw.random() < 0.15 else IPV4


# -- rules

def drawn_translation(draw: random.Random, family: Family, way: str) -> List[str]:
    """One or both parts: mostly `rdr-to` on the way in and `nat-to` on the way out."""
    nat = f"nat-to {draw.choice([*family.public, family.inner])}{draw.choice(NAT_PORTS)}"
    rdr = f"rdr-to {draw.choice([*family.inside, *family.inside, family.public[0]])}{draw.choice(['', '', ' port 80', ' port 8080', ' port www'])}"
    kind = draw.random()
    if kind < 0.2:
        return [nat, rdr]
    return [rdr] if (kind < 0.8) == (way == "in") else [nat]


def drawn_hosts(draw: random.Random, family: Family, way: str, has_ports: bool) -> str:
    """Whom a rule that translates asks for: often the firewall's addresses on the way in, and those inside on the way out."""
    if draw.random() < 0.3:
        return draw.choice(["", "all", family.name])
    if way == "out":
        return f"from {draw.choice([family.inside_prefix, *family.inside, '<bad>'])}"
    port = draw.choice(["", " port 80", " port 53"]) if has_ports else ""
    return f"to {draw.choice([family.public_prefix, *family.public, *family.inside])}{port}"


def drawn_translating(draw: random.Random, often: float) -> str:
    """A `pass` or a `match` that translates, with marks among its parts."""
    family, action, way = drawn_family(draw), draw.choice(["pass", "match"]), draw.choice(["in", "out"])
    on = draw.choice(["", "", "on em0", "on em1"])
    quick = "quick" if action == "pass" and draw.random() < 0.2 else ""
    proto = draw.choice(PROTOS)
    hosts = drawn_hosts(draw, family, way, proto in ("proto tcp", "proto udp"))
    head = [action, way, quick, on, hosts, proto] if hosts == family.name else [action, way, quick, on, proto, hosts]
    parts = [*drawn_translation(draw, family, way), drawn_marks(draw, 0.3, 0.15).strip()]
    draw.shuffle(parts)
    flags = draw.choice(["", "", "flags any", "flags S/SA"])
    state = drawn_state(draw, proto == "proto tcp", often) if action == "pass" else ""
    return " ".join(it for it in [*head, flags, *parts] if it) + state


def drawn_state(draw: random.Random, is_tcp: bool, often: float) -> str:
    """What a `pass` keeps."""
    if draw.random() < 0.08:
        return " no state"
    state = draw.choice(LIMITED) if is_tcp and draw.random() < 0.6 else drawn_options(draw, is_tcp, often)
    return (state.replace("keep", "synproxy") or " synproxy state") if draw.random() < 0.2 else state


def drawn_plain(draw: random.Random, often: float) -> str:
    """A rule that does not translate, and sees what the rules before it made."""
    head = draw.choice([*PLAIN, f"pass in to {draw.choice(IPV4.inside)}", f"pass out from {draw.choice(IPV4.public)}"])
    state = drawn_state(draw, "tcp" in head, often) if head.startswith("pass") else ""
    return head + drawn_marks(draw, 0.2, 0.3) + state


def drawn_routes(draw: random.Random) -> List[str]:
    """Mostly routes to both sides and to the firewall itself; sometimes some are missing, or all."""
    routes = [*IPV4.routes, *IPV6.routes]
    if draw.random() < 0.3:
        draw.shuffle(routes)
        routes = routes[: draw.randint(0, len(routes))]
    return ["set route { " + ", ".join(routes) + " }"] if routes else []


def drawn_gateway(draw: random.Random, often: float) -> List[str]:
    """Rules that let all through and translate it: servers behind addresses of the firewall, and hosts inside behind one of them, with few ports."""
    servers, rdr = f"to {IPV4.public_prefix}", f"rdr-to {draw.choice(IPV4.inside)}"
    coming = draw.choice([f"match in on em0 {servers} {rdr}", f"pass in on em0 proto tcp {servers} {rdr}", f"pass in {servers} {rdr}"])
    leaving = [f"{head} nat-to {draw.choice(IPV4.public)} port {draw.choice(FEW_PORTS)}" for head in draw.choice(LEAVING)]
    base = draw.choice([["pass"], ["pass"], ["pass"], ["pass in tag A", draw.choice(["block", "pass"]) + " out", "pass out tagged A no state"]])
    shut = [f"block out from {draw.choice(IPV4.inside)}"] if draw.random() < 0.3 else []
    rules = [*base, coming, *shut, *leaving]
    return [it + drawn_state(draw, True, often) if it.startswith("pass") and "state" not in it and draw.random() < 0.6 else it for it in rules]


def drawn_times(draw: random.Random, often: float) -> List[str]:
    """Settings of which some let states stay."""
    calm = ["set timeout { interval 2, adaptive.start 0, adaptive.end 0 }"]
    return calm if draw.random() < 0.5 else drawn_settings(draw, often)


def translating_rules(draw: random.Random) -> str:
    """A rules text of rules that translate and rules that do not, some in anchors."""
    often = draw.choice([0, 0.1, 0.3])
    settings = ["set profile openbsd-7.4", f"set syncookies {draw.choice(COOKIES)}", *drawn_times(draw, often), *drawn_routes(draw)]
    tables = ["table <bad> persist", "table <good>", "table <kept> const"]
    rules = ["block in quick from <bad>"] if draw.random() < 0.3 else []
    if draw.random() < 0.6:
        rules += drawn_gateway(draw, often)
    elif draw.random() < 0.7:
        rules.append("pass" + drawn_state(draw, False, often))
    for _ in range(draw.randint(1, 4)):
        rules.append(drawn_translating(draw, often))
        rules += [drawn_plain(draw, often)] if draw.random() < 0.4 else []
    return "\n".join([*settings, *tables, *in_anchors(draw, rules, 1)]) + "\n"


# -- records

@dataclass(frozen=True)
class View:
    """One of the two interfaces that a connection passes, and its ends there: of who begins it, and of who answers."""

    way: str
    interface: str
    maker: End
    other: End

    def record(self, time: int, proto: str, is_forward: bool, flags: str) -> str:
        """A packet of one of the two."""
        way = self.way if is_forward else {"in": "out", "out": "in"}[self.way]
        source, destination = (self.maker, self.other) if is_forward else (self.other, self.maker)
        ports = [it[1] if proto in ("tcp", "udp") else "" for it in (source, destination)]
        return f"{time},{way},{self.interface},{proto},{source[0]},{ports[0]},{destination[0]},{ports[1]},{flags}"


def drawn_views(draw: random.Random, family: Family) -> List[View]:
    """A connection that comes in, or one that goes out, as it may be seen at both interfaces: first where it comes in."""
    port, near, made = draw.choice([80, 80, 53]), draw.randint(1, 3), draw.choice([50001, 50001, 50001, 50002, 50003, 1])
    client, server = draw.choice(family.outside), draw.choice(family.inside)
    public = draw.choice(family.public)
    if draw.random() < 0.5:
        inner_client = (family.inner, made) if draw.random() < 0.2 else (client, near)
        inner_server = (server, draw.choice([port, 8080]))
        outer_server = inner_server if draw.random() < 0.15 else (public, port)
        return [View("in", "em0", (client, near), outer_server), View("out", "em1", inner_client, inner_server)]
    asked = (public if draw.random() < 0.1 else client, port)
    return [View("in", "em1", (server, near), asked), View("out", "em0", (public, draw.choice([made, near])), asked)]


def drawn_story(draw: random.Random, time: int) -> List[str]:
    """Packets of one connection: seen at one interface, where they come in, or at any."""
    views = drawn_views(draw, drawn_family(draw))
    seen = draw.choice([[draw.choice(views)] * 2] * 2 + [views] * 2 + [[]])
    proto = draw.choice(["tcp", "tcp", "tcp", "udp", "udp", "47"])
    story = draw.choice(STORIES) if proto == "tcp" else draw.choice(["S", "S.", "S.A", ".", "SS"])
    records = []
    for letter in story:
        is_forward = letter.isupper()
        view = seen[0 if is_forward else 1] if seen else draw.choice(views)
        records.append(view.record(time, proto, is_forward, FLAGS[letter] if proto == "tcp" else ""))
    return records


def drawn_kill(draw: random.Random, time: int) -> str:
    """An administrator takes out states of a source, or those of a source for a destination."""
    ends = drawn_family(draw).ends
    return f"{time},kill,,,{draw.choice(ends)},,{draw.choice(['', '', *ends])},,"


def drawn_records(draw: random.Random, time: int) -> List[str]:
    """The records of one moment."""
    kind = draw.random()
    if kind < 0.9:
        return drawn_story(draw, time)
    if kind < 0.93:
        return [f"{time},in,em0,icmp,198.51.100.1,,192.0.2.1,,"]
    return [drawn_kill(draw, time) if kind < 0.97 else drawn_order(draw, time)]


def translated_trace(draw: random.Random, records: int) -> str:
    """A trace of so many records, of which the last may be a fault."""
    lines: List[str] = []
    time = draw.randint(0, 1_000_000)
    while len(lines) < records:
        time += min(drawn_step(draw), LONGEST)
        lines += drawn_records(draw, time)
    if records and draw.random() < 0.05:
        lines[records - 1] = odd_record(draw, draw.choice([lines[records - 1], drawn_kill(draw, time)]))
    return HEADER + "\n".join(lines[:records]) + "\n"
