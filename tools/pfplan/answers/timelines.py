"""A run over time: what came of it, in numbers a second."""

from collections.abc import Sequence
from dataclasses import dataclass

from pfplan.answers.connections import LOST
from pfplan.answers.stepping import Step
from pfplan.common.limits import DROPS


@dataclass(frozen=True)
class Moment:
    """What happened in some seconds from `begin` on, each number a second. `begin` counts from the first moment of the
    trace."""

    begin: float
    new: float
    dropped: float
    killed: float
    served: float = 0.0
    refused: float = 0.0
    lost: float = 0.0


@dataclass(frozen=True)
class Timeline:
    """A run over time. `held` are moments, and the states that were held at them; `end` is where the axis ends."""

    moments: tuple[Moment, ...]
    held: tuple[tuple[float, float], ...]
    end: float
    has_users: bool


def timeline_of(
    steps: Sequence[Step], seconds: int, held: Sequence[tuple[int, int]], first: int, has_users: bool
) -> Timeline:
    """The run of some steps of so many seconds, and of moments with the states that were held at them; `first` is the
    trace's first moment."""
    moments = tuple(moment_of(it, first, seconds) for it in steps)
    points = tuple((float(moment - first), float(states)) for moment, states in held)
    return Timeline(moments, points, float(len(steps) * seconds), has_users)


def moment_of(step: Step, first: int, seconds: int) -> Moment:
    """A step as numbers a second."""
    dropped = sum(count for word, count in step.words.items() if word in DROPS)
    outcomes = step.outcomes
    lost = sum(outcomes[it] for it in LOST)
    made = step.words["new"] + step.proxied
    return Moment(
        float(step.moment - first), made / seconds, dropped / seconds, step.killed / seconds,
        (outcomes["served"] + outcomes["unanswered"] + outcomes["late"]) / seconds, outcomes["refused"] / seconds,
        lost / seconds,
    )  # fmt: skip
