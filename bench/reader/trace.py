"""Reads a trace: records of comma-separated values, each an event or a fault."""
from __future__ import annotations

import csv
import io
from dataclasses import dataclass
from typing import Callable, Iterator, List, Optional, TypeVar

from reader.configurations import Configuration
from reader.values import TCP, UDP, BadText, Network, Packet, address_of, flags_of, name_of, network_of, number_of, proto_of

Value = TypeVar("Value")
HEADER = ["time", "dir", "if", "proto", "src", "sport", "dst", "dport", "flags"]
MOST = 4294967295
ICMP = (1, 58)


class TraceFault(Exception):
    """A record that is no event: what the program tells of it."""


@dataclass(frozen=True)
class Event:
    """What a record says: a packet, with the word `skip` one that is passed over, or what an administrator does."""

    time: int
    word: str
    packet: Optional[Packet] = None
    table: str = ""
    age: int = 0
    negated: bool = False
    network: Optional[Network] = None
    destination: Optional[Network] = None


class Fields:
    """The nine fields of a record, read by their place from 1."""

    def __init__(self, row: int, fields: List[str]) -> None:
        self.row, self.fields = row, fields

    def fault(self, what: str) -> TraceFault:
        return TraceFault(f"trace: row {self.row}: {what}")

    def text(self, place: int) -> str:
        return self.fields[place - 1]

    def number(self, place: int, most: int) -> int:
        return self.value(place, lambda text: number_of(text, 0, most))

    def value(self, place: int, reading: Callable[[str], Value]) -> Value:
        """A field, read; a text that is none of its kind is a fault of the field."""
        try:
            return reading(self.text(place))
        except BadText:
            raise self.fault(f"field {place}") from None

    def are_empty(self, *places: int) -> None:
        for place in places:
            if self.text(place):
                raise self.fault(f"field {place}")


def events_of(trace: bytes, said: Configuration) -> Iterator[Event]:
    """The events of a trace, up to the first record that is a fault."""
    text = trace.removeprefix(b"\xef\xbb\xbf").decode("latin-1")
    records = (record for record in csv.reader(io.StringIO(text, newline="")) if record)
    if next(records, None) != HEADER:
        raise TraceFault("trace: row 0: columns")
    last = 0
    for row, record in enumerate(records, 1):
        if len(record) != 9:
            raise TraceFault(f"trace: row {row}: columns")
        fields = Fields(row, record)
        event = event_of(fields)
        if event.time < last:
            raise fields.fault("time falls")
        if event.table and (event.table not in said.tables or event.table in said.constant):
            raise fields.fault("table")
        last = event.time
        yield event


def event_of(fields: Fields) -> Event:
    """The event of nine fields, read from left to right."""
    time = fields.number(1, MOST)
    word = fields.text(2)
    if word in ("in", "out"):
        return packet_of(fields, time, word)
    if word == "held":
        fields.are_empty(3, 4, 5, 6, 7, 8, 9)
        return Event(time, word)
    if word == "kill":
        return kill_of(fields, time)
    if word not in ("expire", "add", "delete"):
        raise fields.fault("field 2")
    table = fields.value(3, lambda text: name_of(text, 31))
    fields.are_empty(4)
    if word == "expire":
        fields.are_empty(5)
        age = fields.number(6, MOST)
        fields.are_empty(7, 8, 9)
        return Event(time, word, table=table, age=age)
    negated = fields.text(5).startswith("!")
    network = fields.value(5, lambda text: network_of(text[negated:]))
    fields.are_empty(6, 7, 8, 9)
    return Event(time, word, table=table, negated=negated, network=network)


def kill_of(fields: Fields, time: int) -> Event:
    """States are taken out by their source, and their destination if one is given."""
    fields.are_empty(3, 4)
    source = fields.value(5, network_of)
    fields.are_empty(6)
    destination = fields.value(7, network_of) if fields.text(7) else None
    fields.are_empty(8, 9)
    return Event(time, "kill", network=source, destination=destination)


def packet_of(fields: Fields, time: int, direction: str) -> Event:
    """A packet; one of ICMP is passed over, with all its fields read."""
    interface = fields.value(3, lambda text: name_of(text, 15))
    proto = fields.value(4, proto_of)
    source = fields.value(5, address_of)
    source_port = port_of(fields, 6, proto)
    destination = fields.value(7, address_of)
    if destination.version != source.version:
        raise fields.fault("field 7")
    destination_port = port_of(fields, 8, proto)
    if proto != TCP:
        fields.are_empty(9)
    flags = fields.value(9, flags_of)
    packet = Packet(direction, interface, proto, source, source_port, destination, destination_port, flags)
    return Event(time, "skip" if proto in ICMP else "packet", packet)


def port_of(fields: Fields, place: int, proto: int) -> int:
    """A port, which only TCP and UDP have."""
    if proto in (TCP, UDP):
        return fields.number(place, 65535)
    fields.are_empty(place)
    return 0
