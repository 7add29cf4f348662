"""The two numbers of a row where records were put into a trace that is replayed: that of the report, and that of the
trace itself.

Rows of a trace count from 1. A record that was put in has a row in the report, and none in the trace.
"""

import bisect
from collections.abc import Sequence
from itertools import accumulate


class Rows:
    """Which row of a report is which row of the trace. `places` are, in order: behind how many records of the trace
    how many were put.
    """

    def __init__(self, places: Sequence[tuple[int, int]]) -> None:
        self._behind = [behind for behind, _ in places]
        counts = [count for _, count in places]
        # how many were put in up to each place, with those of it
        self._up_to = list(accumulate(counts))
        self._ends = [behind + up_to for behind, up_to in zip(self._behind, self._up_to, strict=True)]
        self._begins = [end - count for end, count in zip(self._ends, counts, strict=True)]

    @property
    def put_in(self) -> int:
        """How many records were put in."""
        return self._up_to[-1] if self._up_to else 0

    def own(self, row: int) -> int | None:
        """The row of the trace that is this one of the report; None for a record that was put in."""
        at = bisect.bisect_right(self._begins, row - 1) - 1
        if at < 0:
            return row
        return None if row <= self._ends[at] else row - self._up_to[at]

    def parts(self, first: int, count: int) -> list[tuple[int, int]]:
        """The rows of the report that are these of the trace: for each run of them the first, and how many they are."""
        found: list[tuple[int, int]] = []
        at = bisect.bisect_left(self._behind, first)
        while count or not found:
            many = count if at == len(self._behind) else min(count, self._behind[at] - first + 1)
            found.append((first + (self._up_to[at - 1] if at else 0), many))
            first, count, at = first + many, count - many, at + 1
        return found

    def is_parted(self, first: int, count: int) -> bool:
        """Whether some of so many rows of the report, from `first` on, are of records that were put in."""
        place = bisect.bisect_right(self._ends, first - 1)
        return place < len(self._ends) and self._begins[place] < first - 1 + count

    def parted(self, first: int, lines: list[str]) -> tuple[list[str], list[str]]:
        """Lines of a report, the first of which is that of row `first`: those of the trace's records, and those of
        records put in.
        """
        own: list[str] = []
        others: list[str] = []
        begin, end = first - 1, first - 1 + len(lines)
        at, place = begin, bisect.bisect_right(self._ends, begin)
        while place < len(self._ends) and self._begins[place] < end:
            own += lines[at - begin : max(at, self._begins[place]) - begin]
            others += lines[max(at, self._begins[place]) - begin : self._ends[place] - begin]
            at = min(end, self._ends[place])
            place += 1
        return (own + lines[at - begin :], others) if others else (lines, others)
