"""What the head of a capture tells of interfaces: their names in pcapng, and whether it is a log of pflog(4), whose
records tell theirs."""

import struct
from pathlib import Path

_PFLOG = 117
# bytes of a capture that are looked at for names
_HEAD = 1 << 16
_SECTION, _INTERFACE, _NAME = 0x0A0D0D0A, 1, 2


def is_log(capture: Path) -> bool:
    """Whether a file is a pcap of pflog(4)."""
    head = _head_of(capture)
    order = "<" if head[:4] in (b"\xd4\xc3\xb2\xa1", b"\x4d\x3c\xb2\xa1") else ">"
    return len(head) >= 24 and not head.startswith(b"\x0a") and struct.unpack(f"{order}I", head[20:24])[0] == _PFLOG


def names_in(capture: Path) -> list[str]:
    """The names of the interfaces that the head of a pcapng file tells; none of another file."""
    head, at, order = _head_of(capture), 0, "<"
    found: list[str] = []
    while at + 12 <= len(head):
        if struct.unpack("<I", head[at : at + 4])[0] == _SECTION:
            order = "<" if head[at + 8 : at + 12] == b"\x4d\x3c\x2b\x1a" else ">"
        elif at == 0:
            return []
        kind, length = struct.unpack(f"{order}II", head[at : at + 8])
        if length < 12 or length % 4:
            break
        if kind == _INTERFACE:
            found += _name_in(head[at + 16 : at + length - 4], order)
        at += length
    return list(dict.fromkeys(found))


def _name_in(options: bytes, order: str) -> list[str]:
    """The name among the options of an interface."""
    at = 0
    while at + 4 <= len(options):
        code, length = struct.unpack(f"{order}HH", options[at : at + 4])
        if code == 0:
            break
        if code == _NAME:
            return [options[at + 4 : at + 4 + length].rstrip(b"\0").decode("utf-8", "replace")]
        at += 4 + -(-length // 4) * 4
    return []


def _head_of(capture: Path) -> bytes:
    try:
        with open(capture, "rb") as file:
            return file.read(_HEAD)
    except OSError:
        return b""
