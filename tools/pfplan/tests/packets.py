"""Captures that tests write of a trace's records: frames of Ethernet, and of pflog(4) with what pf answered."""

import ipaddress
import struct
from collections.abc import Iterable
from dataclasses import dataclass
from functools import lru_cache

from pfplan.traces.records import Record

ETHERNET, PFLOG = 1, 117
NONE = 0xFFFFFFFF
PROTOCOLS = {"icmp": 1, "tcp": 6, "udp": 17, "icmp6": 58}
LETTERS = "FSRPAUEW"


@dataclass(frozen=True)
class Logged:
    """What the header of pflog(4) says: numbers as OpenBSD has them, and none where there is no rule."""

    action: int = 0
    rule: int = NONE
    anchor: str = ""
    subrule: int = NONE
    reason: int = 0
    rewritten: bool = False


@lru_cache(maxsize=200_000)
def packed(address: str) -> bytes:
    """An address as it stands in a packet."""
    return ipaddress.ip_address(address).packed


def packet_of(record: Record) -> bytes:
    """The IP packet of a record, without payload."""
    number = PROTOCOLS.get(record.protocol) or int(record.protocol)
    payload = b""
    if number in (6, 17):
        payload = struct.pack(">HH", int(record.source_port), int(record.target_port))
        flags = sum(1 << LETTERS.index(it) for it in record.flags)
        payload += struct.pack(">IIBBHHH", 0, 0, 0x50, flags, 1024, 0, 0) if number == 6 else struct.pack(">HH", 8, 0)
    source, target = packed(record.source), packed(record.target)
    if len(source) == 4:
        return struct.pack(">BBHHHBBH", 0x45, 0, 20 + len(payload), 1, 0, 64, number, 0) + source + target + payload
    return struct.pack(">IHBB", 6 << 28, len(payload), number, 64) + source + target + payload


def ethernet(record: Record) -> bytes:
    """A frame of Ethernet."""
    kind = 0x86DD if ":" in record.source else 0x0800
    return bytes(12) + struct.pack(">H", kind) + packet_of(record)


def logged(record: Record, told: Logged) -> bytes:
    """A frame of pflog(4), of a header of 100 bytes (OpenBSD's net/if_pflog.h)."""
    family = 24 if ":" in record.source else 2
    head = struct.pack(">BBBB", 100, family, told.action, told.reason) + record.interface.encode().ljust(16, b"\0")
    head += told.anchor.encode().ljust(16, b"\0")[:16] + struct.pack(">II", told.rule, told.subrule) + bytes(16)
    return (
        head + struct.pack(">BB", {"in": 1, "out": 2}[record.direction], told.rewritten) + bytes(38) + packet_of(record)
    )


def head(link: int) -> bytes:
    """The head of a pcap file."""
    return struct.pack("<IHHiIII", 0xA1B2C3D4, 2, 4, 0, 0, 262144, link)


def seen(second: int, frame: bytes, micros: int = 0) -> bytes:
    """A frame in a pcap file, with the moment at which it was seen."""
    return struct.pack("<IIII", second, micros, len(frame), len(frame)) + frame


def ethernet_capture(records: Iterable[Record]) -> bytes:
    """A capture of Ethernet of some records."""
    return head(ETHERNET) + b"".join(seen(it.time, ethernet(it)) for it in records)


def log_capture(packets: Iterable[tuple[Record, Logged]]) -> bytes:
    """A pflog of some records, each with what pf answered."""
    return head(PFLOG) + b"".join(seen(record.time, logged(record, told)) for record, told in packets)
