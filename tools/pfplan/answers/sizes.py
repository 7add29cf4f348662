"""Which values of a limit, a maximum or a timeout serve the users, and what is held then."""

from collections.abc import Callable, Mapping, Sequence
from dataclasses import dataclass
from fractions import Fraction
from pathlib import Path
from typing import Any

from pfplan.answers import grids
from pfplan.answers.changed_rules import Number
from pfplan.answers.measures import Measure, from_json
from pfplan.answers.plays_measured import Amount, Subject, users_text
from pfplan.common.errors import Trouble
from pfplan.common.networks import Network
from pfplan.common.progress import Progress
from pfplan.replays.machines import Machines, Run, Runs, measure_words

# Values that are tried at an edge at a time, and around the best value where none serves the wanted share.
BETWEEN = 3
ROUNDS_AROUND_BEST = 4
MeasureMany = Callable[[Sequence[int]], list[Measure]]


@dataclass(frozen=True)
class Vary:
    """The number that is varied, and its bounds, both tried."""

    name: str
    low: int
    high: int


@dataclass(frozen=True)
class Sizing:
    """What each value that was tried came to. `is_cut` where the edges could have been told finer with more runs."""

    trace: str
    users: str
    varied: Number | Amount
    want: Fraction
    measures: Mapping[int, Measure]
    moments: int
    is_cut: bool
    doubts: Sequence[str] = ()

    @property
    def meets(self) -> dict[int, bool]:
        """Whether each value serves the wanted share."""
        return {value: serves(it, self.want) for value, it in self.measures.items()}

    @property
    def shares(self) -> dict[int, float]:
        """The share of users' connections that each value serves; values that the program refuses are left out."""
        return {value: it.served / max(1, it.counted) for value, it in self.measures.items() if not it.refused}

    def to_json(self) -> dict[str, Any]:
        """The numbers for machines (man/pfplan.1)."""
        return {
            "doubts": list(self.doubts),
            "trace": self.trace,
            "users": self.users,
            "varied": {"name": self.varied.name, "rules": self.varied.rules, "now": self.varied.value},
            "want": float(self.want),
            "runs": [
                {"value": value, "meets": self.meets[value], **self.measures[value].to_json()}
                for value in sorted(self.measures)
            ],
            "serves": grids.intervals(self.meets),
            "falls_and_rises": [[it.top, it.bottom, it.again] for it in grids.valleys(self.shares)],
            "is_cut": self.is_cut,
        }


def serves(measure: Measure, want: Fraction) -> bool:
    """Whether a run serves at least the wanted share of the users' connections."""
    return not measure.refused and measure.counted > 0 and measure.served >= want * measure.counted


def checked(vary: Vary, subject: Subject) -> Number | Amount:
    """The number that is varied. Trouble where neither the rules nor the scenario have one of that name, or a bound is
    none that it may have."""
    varied = subject.find(vary.name)
    least, most = varied.bounds
    for bound in (vary.low, vary.high):
        if not least <= bound <= most:
            raise Trouble(f"--vary: {vary.name} may be from {least} to {most}, and {bound} is not")
        subject.check_value({varied: bound})
    return varied


def search(
    vary: Vary, now: int, want: Fraction, first: int, most: int, measure: MeasureMany
) -> tuple[dict[int, Measure], bool]:
    """Tries values, `first` of them evenly and then around edges, at most `most`; and whether more would have told
    more."""
    measured: dict[int, Measure] = {}
    values = grids.first_grid(vary.low, vary.high, min(first, most))
    if vary.low <= now <= vary.high and now not in values and len(values) < most:
        values = sorted([*values, now])
    around = 0
    while values:
        values = values[: most - len(measured)]
        if not values:
            return measured, True
        measured.update(zip(values, measure(values)))
        meets = {value: serves(it, want) for value, it in measured.items()}
        values = grids.refined(meets, BETWEEN)
        if not any(meets.values()) and around < ROUNDS_AROUND_BEST:
            around += 1
            values = grids.around_best({value: it.served / max(1, it.counted) for value, it in measured.items()})
    return measured, False


@dataclass(frozen=True)
class Wanted:
    """What is looked for: a trace or a scenario by its name, whose connections are to be served and what share of them,
    how many values are tried at first, how many in all at most (None for what is usual), and at how many moments it is
    asked what is held."""

    trace: str
    users: Sequence[Network]
    share: Fraction
    grid: int
    runs: int
    moments: int

    def users_of(self, subject: Subject) -> str:
        """Who the users are, as it is told."""
        return users_text(subject.scenario) if subject.scenario else ",".join(map(str, self.users))


class Trials:
    """Runs in one go after another, and shows how many are done."""

    def __init__(self, runs: Runs) -> None:
        self._runs = runs
        self._done = 0

    def measure(self, runs: Sequence[Run]) -> list[Measure]:
        """The measures of some runs."""
        progress = Progress("size", self._done + len(runs), "runs so far")
        progress.at(self._done)
        try:
            lines = self._runs.measure(runs, progress)
        finally:
            progress.finish()
        self._done += len(runs)
        return [from_json(it) for it in lines]


def size(vary: Vary, subject: Subject, trace: Path, where: Machines, entries: Sequence[str], wanted: Wanted) -> Sizing:
    """Replays the trace, or plays the scenario, for value after value. `entries` are those that come by records.
    Trouble as the program's own."""
    varied = checked(vary, subject)
    with Runs(where, trace, measure_words(wanted.users, wanted.moments), entries) as runs:
        trials = Trials(runs)

        def measure(values: Sequence[int]) -> list[Measure]:
            return trials.measure([subject.run_of({varied: it}) for it in values])

        measures, is_cut = search(vary, varied.value, wanted.share, wanted.grid, wanted.runs, measure)
    return Sizing(wanted.trace, wanted.users_of(subject), varied, wanted.share, measures, wanted.moments, is_cut)
