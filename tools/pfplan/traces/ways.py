"""Which records of a trace stand for a packet's whole way, where routes tell its other interface.

A trace of several interfaces has a packet that is forwarded twice: where it comes in, and on its way out. With routes
either record stands for both interfaces, so the second one is left out: that of a packet out whose source's route says
that it came in on an interface of this trace. What came in elsewhere, and what the firewall sends itself, stays.
"""

import contextlib
import tempfile
from collections.abc import Collection, Iterator, Sequence
from dataclasses import dataclass
from itertools import chain, islice
from pathlib import Path
from typing import Protocol

from pfplan.common.errors import Trouble
from pfplan.common.figures import counted
from pfplan.common.inputs import HEADER
from pfplan.common.outputs import part_file
from pfplan.traces.records import ORDERS, Traces

# Records of which it is asked whether the routes name their interface.
ASKED = 50_000


class Routing(Protocol):
    """Knows the interface by which packets to an address leave."""

    def to(self, address: str) -> str:
        """Its name."""


@dataclass(frozen=True, slots=True)
class Taken:
    """What was taken of a trace: how many records stay, and how many are left out, as their packets came in on another
    interface of it. Of the first records so many were `asked`, and `against` of them are of another interface than the
    routes say."""

    records: int
    left_out: int
    asked: int = 0
    against: int = 0

    def notes(self) -> list[str]:
        """What is told of those that are left out; nothing where none is."""
        if not self.left_out:
            return []
        return [
            f"left out: {counted(self.left_out, 'record')} of {self.records + self.left_out:,}, of packets on their "
            "way out, which by the routes came in on another interface of the trace: each packet counts once, and rows "
            "are told by those that stay"
        ]

    def doubts(self) -> list[str]:
        """That routes and trace don't fit."""
        if 2 * self.against <= self.asked:
            return []
        return [
            f"by the routes {self.against:,} of {counted(self.asked, 'record')} are of packets of another interface, "
            "or go the other way: are the routes those of this firewall, and the directions right?"
        ]


class Ways:
    """Takes the records of a trace that stand for a packet's way. `interfaces` are those that it has; without them
    those that its records had so far."""

    def __init__(self, routing: Routing, interfaces: Collection[str] = ()) -> None:
        self._routing = routing
        self._interfaces = set(interfaces)
        self._is_told = bool(interfaces)
        self._records = self._left_out = self._asked = self._against = 0

    def kept(self, lines: Sequence[str]) -> list[str]:
        """Those of some records that stay, in their order."""
        found = [it for it in lines if self._is_kept(it.split(",", 7))]
        self._records += len(found)
        self._left_out += len(lines) - len(found)
        return found

    def taken(self) -> Taken:
        """What was taken so far."""
        return Taken(self._records, self._left_out, self._asked, self._against)

    def _is_kept(self, column: Sequence[str]) -> bool:
        if len(column) < 7 or column[1] in ORDERS:
            return True
        _, way, interface, _, source, _, target = column[:7]
        if not self._is_told:
            self._interfaces.add(interface)
        if self._asked < ASKED:
            self._asked += 1
            self._against += self._routing.to(source if way == "in" else target) != interface
        return way != "out" or len(self._interfaces) < 2 or self._routing.to(source) not in self._interfaces


def interfaces_in(trace: Path) -> set[str]:
    """The interfaces that the records of a trace have."""
    found: set[str] = set()
    for lines in Traces(trace).blocks():
        found.update(name for way, name in {tuple(it.split(",", 3)[1:3]) for it in lines} if way not in ORDERS)
    return found


def take_ways(trace: Path, routing: Routing, out: Path) -> Taken:
    """Writes the trace of the records that stand for a packet's way, unless the trace has one interface alone, so that
    all do; it may replace the trace itself. Trouble as `Traces.blocks`, or where writing fails."""
    interfaces = interfaces_in(trace)
    ways = Ways(routing, interfaces)
    if len(interfaces) < 2:
        ways.kept(list(islice(chain.from_iterable(Traces(trace).blocks()), ASKED)))
        return ways.taken()
    part = out.with_name(f"{out.name}.part")
    with part_file(part) as file:
        file.write(f"{HEADER}\n")
        for lines in Traces(trace).blocks():
            file.writelines(f"{it}\n" for it in ways.kept(lines))
    part.replace(out)
    return ways.taken()


@contextlib.contextmanager
def ways_in(trace: Path, routing: Routing | None) -> Iterator[tuple[Path, Taken | None]]:
    """The trace itself where there are no routes, or no record is left out; else a copy without those, which goes at
    the end, and by whose rows it is told. Messages name the trace. Trouble as `take_ways`."""
    if routing is None:
        yield trace, None
        return
    with tempfile.TemporaryDirectory(prefix="pfplan-") as folder:
        copy = Path(folder, trace.name)
        taken = take_ways(trace, routing, copy)
        try:
            yield (copy, taken) if taken.left_out else (trace, taken)
        except Trouble as trouble:
            raise Trouble(trouble.message.replace(str(copy), str(trace)), trouble.status) from None
