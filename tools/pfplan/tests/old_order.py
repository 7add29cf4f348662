"""Translation of pf before OpenBSD 4.7, drawn, and what it means: read from what was drawn, by its first match. Beside
it a plain reader of the rules that came of it, by today's order. Neither shares anything with pfplan's.
"""

import ipaddress
import random
import re
from collections.abc import Sequence
from dataclasses import dataclass, replace

ADDRESSES = ("10.0.0.1", "10.0.0.2", "10.0.1.1", "192.0.2.1", "192.0.2.2", "198.51.100.1")
HOSTS = (
    "any", "any", "10.0.0.0/24", "10.0.0.1", "10.0.0.0/16", "! 10.0.0.1", "192.0.2.1", "<t>", "! <t>", "192.0.2.0/24",
)  # fmt: skip
TABLE = ("10.0.0.2", "192.0.2.2")
PORTS = (80, 8080)
INTERFACES = ("em0", "em1")
PROTOCOLS = ("tcp", "udp")
TAGS = ("A", "B")
ORDER = {"out": ("binat", "nat"), "in": ("rdr", "binat")}


@dataclass(frozen=True)
class Packet:
    """A packet without a state. It `keeps` the port of its source until something translates that."""

    direction: str
    interface: str
    protocol: str
    source: str
    destination: str
    port: int
    is_syn: bool = True
    tag: str = ""
    keeps: bool = True


@dataclass(frozen=True)
class Answer:
    """Whether it passes, with a state or without, and as what."""

    passes: bool
    has_state: bool
    packet: Packet

    def seen(self) -> tuple[object, ...]:
        """What of it can be seen. Of a packet that is blocked nothing more."""
        it = self.packet
        if not self.passes:
            return ("block",)
        return "pass", self.has_state, it.source, it.keeps, it.destination, it.port


@dataclass(frozen=True)
class Asked:
    """What a rule asks, all of it or nothing of each kind."""

    interface: str = ""
    protocol: str = ""
    source: str = "any"
    destination: str = "any"
    port: int = 0
    tagged: str = ""
    is_not_tagged: bool = False

    def text(self) -> str:
        """It, as a pf.conf has it, but for the tag."""
        parts = (
            f"on {self.interface}" if self.interface else "",
            "inet",
            f"proto {self.protocol}" if self.protocol else "",
            f"from {self.source} to {self.destination}",
            f"port {self.port}" if self.port else "",
        )
        return " ".join(it for it in parts if it)

    def tags(self) -> str:
        """What it asks of tags."""
        return f"{'! ' if self.is_not_tagged else ''}tagged {self.tagged}" if self.tagged else ""

    def holds(self, packet: Packet) -> bool:
        """Whether it holds of a packet."""
        return (
            self.interface in ("", packet.interface)
            and self.protocol in ("", packet.protocol)
            and is_in(self.source, packet.source)
            and is_in(self.destination, packet.destination)
            and self.port in (0, packet.port)
            and (not self.tagged or (self.tagged == packet.tag) != self.is_not_tagged)
        )


@dataclass(frozen=True)
class Old:
    """A rule of translation; with `address` empty it is one with `no`."""

    sort: str
    asked: Asked
    address: str = ""
    port: int = 0
    is_static: bool = False
    passes: bool = False
    tag: str = ""

    def text(self) -> str:
        """It, as a pf.conf has it."""
        tag = f"tag {self.tag}" if self.tag else ""
        head = f"{self.sort}{' pass' if self.passes else ''} {self.asked.text()} {tag} {self.asked.tags()}"
        if not self.address:
            return f"no {head}"
        port = f" port {self.port}" if self.port else ""
        return f"{head} -> {self.address}{port}{' static-port' if self.is_static else ''}"

    def holds(self, packet: Packet) -> bool:
        """Whether it matches. That of binat asks for the address that it puts in of packets in."""
        asked = self.asked
        if self.sort == "binat" and packet.direction == "in" and self.address:
            asked = replace(asked, source=asked.destination, destination=self.address)
        return asked.holds(packet)

    def made(self, packet: Packet) -> Packet:
        """What it makes of a packet."""
        packet = replace(packet, tag=self.tag or packet.tag)
        if not self.address:
            return packet
        if packet.direction == "out":
            return replace(packet, source=self.address, keeps=self.sort == "binat" or self.is_static)
        target = self.asked.source if self.sort == "binat" else self.address
        return replace(packet, destination=target, port=self.port or packet.port)


@dataclass(frozen=True)
class Filter:
    """A filter rule."""

    action: str
    direction: str
    quick: bool
    asked: Asked
    flags: str = ""

    def text(self) -> str:
        """It, as a pf.conf has it."""
        quick = "quick" if self.quick else ""
        flags = f"flags {self.flags}" if self.flags else ""
        return f"{self.action} {self.direction} {quick} {self.asked.text()} {flags} {self.asked.tags()}"

    def holds(self, packet: Packet) -> bool:
        """Whether it matches. A pass rule asks for a SYN where it says nothing of flags."""
        has_flags = self.action == "block" or self.flags == "any" or packet.protocol != "tcp" or packet.is_syn
        return self.direction in ("", packet.direction) and has_flags and self.asked.holds(packet)


def is_in(host: str, address: str) -> bool:
    """Whether an address is of a host."""
    if host == "any":
        return True
    text = host.removeprefix("! ")
    found = address in TABLE if text == "<t>" else ipaddress.ip_address(address) in ipaddress.ip_network(text)
    return found != host.startswith("! ")


def old_answer(rules: Sequence[Old], filters: Sequence[Filter], packet: Packet) -> Answer:
    """What pf before OpenBSD 4.7 answered. The first of each sort that matches ends the search for that sort."""
    made = packet
    for sort in ORDER[packet.direction]:
        found = next((it for it in rules if it.sort == sort and it.holds(made)), None)
        if found is None:
            continue
        made = found.made(made)
        if found.address and found.passes:
            return Answer(True, True, made)
        if found.address:
            break
    is_translated = found is not None and bool(found.address)
    decided = None
    for it in filters:
        if it.holds(made):
            decided = it
            if it.quick:
                break
    if decided is not None and decided.action == "block":
        return Answer(False, False, made)
    return Answer(True, decided is not None or is_translated, made)


_RULE = re.compile(
    r"(?P<action>pass|block drop|block|match)(?: (?P<way>in|out))?(?P<quick> quick)?(?: on (?P<on>\w+))?(?: inet)?"
    r"(?: proto (?P<proto>\w+))?"
    r"(?: all| from (?P<source>(?:! )?\S+) to (?P<destination>(?:! )?\S+)(?: port = (?P<port>\d+))?)"
    r"(?: flags (?P<flags>\S+))?(?: tag (?P<tag>\S+))?(?: (?P<asked>(?:! )?tagged \S+))?"
    r"(?: nat-to (?P<nat>\S+)(?P<static> static-port)?)?(?: rdr-to (?P<rdr>\S+)(?: port (?P<to>\d+))?)?(?: keep state)?"
)


def today_answer(lines: Sequence[str], packet: Packet) -> Answer:
    """What a rules text answers: a match translates at once, a pass when it has decided."""
    decided: re.Match[str] | None = None
    for line in lines:
        rule = _RULE.fullmatch(line)
        if rule is None:
            raise AssertionError(f"a line of no form that is known: {line}")
        if not _holds(rule, packet):
            continue
        packet = replace(packet, tag=rule["tag"] or packet.tag)
        if rule["action"] == "match":
            packet = _translated(rule, packet)
            continue
        decided = rule
        if rule["quick"]:
            break
    if decided is None:
        return Answer(True, False, packet)
    if decided["action"] != "pass":
        return Answer(False, False, packet)
    return Answer(True, True, _translated(decided, packet))


def _holds(rule: re.Match[str], packet: Packet) -> bool:
    asked = Asked(
        rule["on"] or "", rule["proto"] or "", rule["source"] or "any", rule["destination"] or "any",
        int(rule["port"] or 0), (rule["asked"] or "").split(" ")[-1], (rule["asked"] or "").startswith("!"),
    )  # fmt: skip
    is_pass = rule["action"] == "pass"
    has_flags = not is_pass or rule["flags"] == "any" or packet.protocol != "tcp" or packet.is_syn
    return (rule["way"] or packet.direction) == packet.direction and has_flags and asked.holds(packet)


def _translated(rule: re.Match[str], packet: Packet) -> Packet:
    if rule["nat"]:
        packet = replace(packet, source=rule["nat"], keeps=packet.keeps and bool(rule["static"]))
    if rule["rdr"]:
        packet = replace(packet, destination=rule["rdr"], port=int(rule["to"] or packet.port))
    return packet


def drawn_asked(draw: random.Random, has_tags: bool) -> Asked:
    """What a rule asks."""
    protocol = draw.choice(("", *PROTOCOLS))
    return Asked(
        draw.choice(("", *INTERFACES, "em0")), protocol, draw.choice(HOSTS), draw.choice(HOSTS),
        draw.choice((0, *PORTS)) if protocol else 0, draw.choice(("", "", *TAGS)) if has_tags else "",
        draw.random() < 0.3,
    )  # fmt: skip


def drawn_old(draw: random.Random, has_tags: bool) -> Old:
    """A rule of translation."""
    sort = draw.choice(("nat", "nat", "rdr", "rdr", "binat"))
    asked = drawn_asked(draw, has_tags)
    tag = draw.choice(("", "", *TAGS)) if has_tags else ""
    if draw.random() < 0.25:
        return Old(sort, asked, tag=tag)
    if sort == "binat":
        asked = replace(asked, source=draw.choice(ADDRESSES[:3]), port=0)
        return Old(sort, asked, draw.choice(ADDRESSES[3:]), passes=draw.random() < 0.2, tag=tag)
    address = draw.choice(ADDRESSES[3:] if sort == "nat" else ADDRESSES[:4])
    port = draw.choice((0, 8080)) if sort == "rdr" and asked.protocol else 0
    return Old(sort, asked, address, port, sort == "nat" and draw.random() < 0.3, draw.random() < 0.25, tag)


def drawn_filter(draw: random.Random, has_tags: bool) -> Filter:
    """A filter rule."""
    if draw.random() < 0.3:
        return Filter("block", draw.choice(("", "in", "out")), False, Asked())
    action = draw.choice(("pass", "pass", "block"))
    flags = draw.choice(("", "any")) if action == "pass" else ""
    return Filter(action, draw.choice(("", "in", "out")), draw.random() < 0.3, drawn_asked(draw, has_tags), flags)


def drawn_packet(draw: random.Random, tags: Sequence[str]) -> Packet:
    """A packet. One that goes out may have a tag from its way in."""
    direction = draw.choice(("in", "out"))
    tag = draw.choice(("", *tags)) if direction == "out" else ""
    return Packet(
        direction, draw.choice(INTERFACES), draw.choice(PROTOCOLS), draw.choice(ADDRESSES), draw.choice(ADDRESSES),
        draw.choice(PORTS), draw.random() < 0.7, tag,
    )  # fmt: skip
