"""Addresses, packets and keys, as plain values, and their texts."""
from __future__ import annotations

import re
from dataclasses import dataclass, field
from ipaddress import IPv4Address, IPv4Network, IPv6Address, IPv6Network
from typing import FrozenSet, Optional, Union

Address = Union[IPv4Address, IPv6Address]
Network = Union[IPv4Network, IPv6Network]

TCP, UDP = 6, 17
PROTOCOLS = {"tcp": 6, "udp": 17, "icmp": 1, "icmp6": 58, "esp": 50, "ah": 51, "gre": 47}
FLAG_LETTERS = "FSRPAUEW"
NAME = re.compile(r"[A-Za-z0-9_.-]+")
SYN = frozenset("S")


class NotRead(Exception):
    """A text that this reader does not read, though the program may."""


class BadText(ValueError):
    """A text that is no number, address or name of its kind."""


@dataclass(frozen=True)
class Packet:
    """A packet as one interface sees it, with the tag that it has there, and the interface on which it came in, where one is known."""

    direction: str
    interface: str
    proto: int
    source: Address
    source_port: int
    destination: Address
    destination_port: int
    flags: FrozenSet[str] = field(default_factory=frozenset)
    tag: Optional[str] = None
    received: Optional[str] = None

    @property
    def is_first_syn(self) -> bool:
        """Whether it begins a connection of TCP: SYN without ACK."""
        return self.proto == TCP and "S" in self.flags and "A" not in self.flags


@dataclass(frozen=True)
class Key:
    """The two ends of a packet: of one that comes in the source first, of one that goes out the destination."""

    proto: int
    first: Address
    first_port: int
    second: Address
    second_port: int


def key_of(packet: Packet) -> Key:
    """The key of a packet, by its addresses as they are."""
    source, destination = (packet.source, packet.source_port), (packet.destination, packet.destination_port)
    one, other = (source, destination) if packet.direction == "in" else (destination, source)
    return Key(packet.proto, *one, *other)


def address_of(text: str) -> Address:
    """An address of either family; IPv6 without dots and zones."""
    try:
        if ":" not in text:
            return IPv4Address(text)
        if "." not in text and "%" not in text:
            return IPv6Address(text)
    except ValueError:
        pass
    raise BadText(text)


def network_of(text: str) -> Network:
    """A prefix: an address alone, or with a length; bits past the length are cleared."""
    before, slash, length = text.partition("/")
    address = address_of(before)
    bits = address.max_prefixlen
    if slash and not re.fullmatch("0|[1-9][0-9]{0,2}", length):
        raise BadText(text)
    if slash and int(length) > bits:
        raise BadText(text)
    wide = f"{address}/{length}" if slash else f"{address}/{bits}"
    return IPv4Network(wide, strict=False) if isinstance(address, IPv4Address) else IPv6Network(wide, strict=False)


def number_of(text: str, least: int, most: int) -> int:
    """A number of 1 to 10 decimal digits within bounds."""
    if not re.fullmatch("[0-9]{1,10}", text) or not least <= int(text) <= most:
        raise BadText(text)
    return int(text)


def proto_of(text: str) -> int:
    """A protocol by its name or its number."""
    return PROTOCOLS[text] if text in PROTOCOLS else number_of(text, 0, 255)


def flags_of(text: str) -> FrozenSet[str]:
    """The flags of some letters, in any order."""
    if any(letter not in FLAG_LETTERS for letter in text):
        raise BadText(text)
    return frozenset(text)


def name_of(text: str, most: int) -> str:
    """A name of letters, digits, `_`, `-` and `.`."""
    if len(text) > most or not NAME.fullmatch(text):
        raise BadText(text)
    return text
