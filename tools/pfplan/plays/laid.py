"""Records of a trace, or packets of a capture, that are laid over a play.

They come as they are, whatever the firewall does.
"""

from __future__ import annotations

from collections.abc import Iterator
from itertools import groupby
from pathlib import Path

from pfplan.common.errors import Status, Trouble
from pfplan.plays.counts import Count
from pfplan.plays.worlds import SLOTS, Fate, World
from pfplan.traces.records import ORDERS, Traces


class Layer:
    """The records of a trace, those of a second spread evenly over it. The first comes in the group's first second."""

    def __init__(self, world: World, count: Count, trace: Path, name: str) -> None:
        """`name` stands in messages for the trace, which may be made of a capture."""
        self._world = world
        self._count = count
        self._trace = Traces(trace)
        self._name = name
        self._row = 0
        self._first = count.group.begin * SLOTS
        self._last = None if count.group.end is None else count.group.end * SLOTS
        self._parts = self._by_slot()
        self._held = next(self._parts, None)

    def next(self, slot: int) -> int | None:
        """The slot of the records that come next; None at the end of the trace or of the group's time."""
        if self._held is None or self._last is not None and self._held[0] >= self._last:
            return None
        return self._held[0]

    def emit(self, slot: int) -> bool:
        """The records of a slot, before those of others."""
        assert self._held is not None
        mine = self._held[1]
        self._held = next(self._parts, None)
        self._count.packets += len(mine)
        self._world.ask_all(mine, self._hear_fates, mine)
        return False

    def emit_behind(self) -> None:
        """Nothing comes behind others."""

    def end(self) -> None:
        """The play is over: counts the records that it did not come to."""
        left = 0 if self._held is None else len(self._held[1])
        self._count.left_over = left + sum(len(records) for _, records in self._parts)

    def _hear_fates(self, records: list[str], fates: list[Fate]) -> None:
        for it in fates:
            if it.passes or it.is_taken:
                self._count.passed += 1
            else:
                self._count.refuse(it, self._world.now)

    def _by_slot(self) -> Iterator[tuple[int, list[str]]]:
        """The slots that have records, and these, without their moments."""
        zero: int | None = None
        for second, records in self._by_second():
            zero = second if zero is None else zero
            begin = self._first + (second - zero) * SLOTS
            ends = [(part + 1) * len(records) // SLOTS for part in range(SLOTS)]
            for part, (low, high) in enumerate(zip([0, *ends], ends)):
                if low < high:
                    yield begin + part, records[low:high]

    def _by_second(self) -> Iterator[tuple[int, list[str]]]:
        """The records of each second. Trouble where one is an administrator's, or comes before the one in front."""
        before = 0
        lines = (it for block in self._trace.blocks() for it in block)
        for second, records in groupby(lines, key=lambda it: it.partition(",")[0]):
            row = self._row + 1
            if not (second.isascii() and second.isdigit()):
                raise Trouble(f"{self._name}: row {row}: the moment '{second[:40]}' is no number", Status.REFUSED)
            if int(second) < before:
                raise Trouble(f"{self._name}: row {row}: time falls, from {before} to {int(second)}", Status.REFUSED)
            before = int(second)
            found = []
            for it in records:
                self._row += 1
                self._check(it)
                found.append(it[len(second) :] + "\n")
            yield before, found

    def _check(self, line: str) -> None:
        word = line.split(",", 2)[1] if "," in line else ""
        if word in ORDERS:
            raise Trouble(
                f"{self._name}: row {self._row}: '{word}', an administrator's record, which a play does not take",
                Status.REFUSED,
            )
