"""Pairs of values of two numbers: for which of them are the users served, and where is the border?"""

from __future__ import annotations

from collections.abc import Callable, Iterator, Mapping, Sequence
from dataclasses import dataclass
from fractions import Fraction
from pathlib import Path
from typing import Any

from pfplan.answers import grids
from pfplan.answers.changed_rules import Number
from pfplan.answers.measures import Measure
from pfplan.answers.plays_measured import Amount, Subject
from pfplan.answers.sizes import BETWEEN, ROUNDS_AROUND_BEST, Trials, Vary, Wanted, checked, serves
from pfplan.common.errors import Trouble
from pfplan.replays.machines import Machines, Runs, measure_words

Pair = tuple[int, int]
MeasurePairs = Callable[[Sequence[Pair]], list[Measure]]


@dataclass(frozen=True)
class Border:
    """For one value of the second number: the runs of values of the first that serve the users, and the nearest
    that do not."""

    second: int
    served: tuple[Pair, ...]
    below: tuple[int | None, ...]
    above: tuple[int | None, ...]


@dataclass(frozen=True)
class Map:
    """What each pair that was tried came to. `is_cut` where more runs would have told the border finer."""

    trace: str
    users: str
    varied: tuple[Number | Amount, Number | Amount]
    want: Fraction
    measures: Mapping[Pair, Measure]
    grid: tuple[Sequence[int], Sequence[int]]
    is_cut: bool
    doubts: Sequence[str] = ()

    def meets(self, pair: Pair) -> bool:
        """Whether a pair serves the wanted share."""
        return serves(self.measures[pair], self.want)

    @property
    def now(self) -> Pair:
        """The present values."""
        return self.varied[0].value, self.varied[1].value

    def border(self) -> Iterator[Border]:
        """The border at each value of the second number."""
        for second in self.grid[1]:
            column = {first: self.meets((first, second)) for first, at in self.measures if at == second}
            runs = grids.intervals(column)
            values = sorted(column)
            below = [max((it for it in values if it < low), default=None) for low, _ in runs]
            above = [min((it for it in values if it > high), default=None) for _, high in runs]
            yield Border(second, tuple(runs), tuple(below), tuple(above))

    def to_json(self) -> dict[str, Any]:
        """The numbers for machines (man/pfplan.1)."""
        return {
            "doubts": list(self.doubts),
            "trace": self.trace,
            "users": self.users,
            "varied": [{"name": it.name, "rules": it.rules, "now": it.value} for it in self.varied],
            "want": float(self.want),
            "meets_now": self.meets(self.now) if self.now in self.measures else None,
            "is_cut": self.is_cut,
            "runs": [
                {"values": list(pair), "meets": self.meets(pair), **self.measures[pair].to_json()}
                for pair in sorted(self.measures)
            ],
            "border": [{"second": it.second, "serves": it.served} for it in self.border()],
        }


def search(
    grid: tuple[Sequence[int], Sequence[int]], want: Fraction, most: int, measure: MeasurePairs
) -> tuple[dict[Pair, Measure], bool]:
    """Tries all pairs of a grid, and then more at each value of the second number, at most so many in all.

    Those are values of the first around each edge, and around the best where none serves the users. Answers too whether
    more would have told more.
    """
    pairs = [(first, second) for second in grid[1] for first in grid[0]]
    measured = dict(zip(pairs, measure(pairs)))
    rounds = 0
    while True:
        found: list[Pair] = []
        for second in grid[1]:
            column = {first: it for (first, at), it in measured.items() if at == second}
            found += [(first, second) for first in _next(column, want, rounds < ROUNDS_AROUND_BEST)]
        rounds += 1
        left = most - len(measured)
        if not found or left <= 0:
            return measured, bool(found)
        measured.update(zip(found[:left], measure(found[:left])))


def _next(column: Mapping[int, Measure], want: Fraction, is_early: bool) -> list[int]:
    """The values to try next of one column."""
    meets = {first: serves(it, want) for first, it in column.items()}
    if any(meets.values()) or not is_early:
        return grids.refined(meets, BETWEEN)
    return grids.around_best({first: it.served / max(1, it.counted) for first, it in column.items()})


def grid_of(vary: Vary, now: int, count: int) -> list[int]:
    """The values of a number that are tried at first, with the present one among them."""
    found = grids.first_grid(vary.low, vary.high, count)
    return sorted({*found, now}) if vary.low <= now <= vary.high else found


def grids_of(varies: Sequence[Vary], now: Sequence[int], count: int, most: int) -> tuple[list[int], list[int]]:
    """The grids of both numbers. Where they have more pairs than `most`, they are made coarser, so that a third of the
    runs is left for the border.

    Trouble where two values of each are too many.
    """
    if most < 4:
        raise Trouble(f"--runs: a map has four pairs or more, and {most} are asked for")
    bound = most
    for several in range(count, 1, -1):
        first, second = (grid_of(vary, it, several) for vary, it in zip(varies, now))
        if len(first) * len(second) <= bound:
            return first, second
        bound = max(4, most * 2 // 3)
    return [varies[0].low, varies[0].high], [varies[1].low, varies[1].high]


def map_of(
    varies: Sequence[Vary], subject: Subject, trace: Path, where: Machines, entries: Sequence[str], wanted: Wanted
) -> Map:
    """Replays the trace, or plays the scenario, for pair after pair. Trouble as `size`."""
    varied = (checked(varies[0], subject), checked(varies[1], subject))
    first, second = grids_of(varies, [it.value for it in varied], wanted.grid, wanted.runs)
    with Runs(where, trace, measure_words(wanted.users, wanted.moments), entries) as runs:
        trials = Trials(runs)

        def measure(pairs: Sequence[Pair]) -> list[Measure]:
            return trials.measure([subject.run_of({varied[0]: one, varied[1]: other}) for one, other in pairs])

        measures, is_cut = search((first, second), wanted.share, wanted.runs, measure)
    is_coarse = len(first) < len(grid_of(varies[0], varied[0].value, wanted.grid))
    return Map(
        wanted.trace, wanted.users_of(subject), varied, wanted.share, measures, (first, second), is_cut or is_coarse
    )
