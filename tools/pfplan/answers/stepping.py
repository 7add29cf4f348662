"""What comes of a trace over time: answers, kills and users' connections, by steps of some seconds."""

from collections import Counter
from dataclasses import dataclass, field
from pathlib import Path

from pfplan.traces.moments import first_moment_of, last_moment_of, step_of


@dataclass(slots=True)
class Step:
    """What came of the records of some seconds: by word, states killed, and of users' connections that began then."""

    moment: int
    words: Counter[str] = field(default_factory=Counter)
    killed: int = 0
    tried: int = 0
    outcomes: Counter[str] = field(default_factory=Counter)
    proxied: int = 0  # states made by a SYN that pf answered itself, or by a packet that brought its SYN cookie


class Steps:
    """Counts by the step of a moment. They begin with the first moment, which is that of the first record where it is
    not known before; those in which nothing came are not kept."""

    def __init__(self, seconds: int, first: int | None = None, last: int | None = None) -> None:
        self.seconds = seconds
        self.first = first
        self.last = last
        self._steps: dict[int, Step] = {}

    def __len__(self) -> int:
        return len(self._steps)

    def at(self, moment: int) -> Step:
        """The step of a moment, which is not below the first."""
        if self.first is None or self.last is None:
            self.first = self.last = moment
        if moment > self.last:
            self.last = moment
        number = (moment - self.first) // self.seconds
        step = self._steps.get(number)
        if step is None:
            step = self._steps[number] = Step(self.first + number * self.seconds)
        return step

    def hear(self, begin: int, outcome: str) -> None:
        """A connection that began at a moment came to its end."""
        step = self.at(begin)
        step.tried += 1
        step.outcomes[outcome] += 1

    def forget_outcomes(self) -> None:
        """Counts no connection any more."""
        for it in self._steps.values():
            it.tried = 0
            it.outcomes.clear()

    def whole(self) -> list[Step]:
        """The steps from the first moment to the last, those too in which nothing came."""
        if self.first is None or self.last is None:
            return []
        count = (self.last - self.first) // self.seconds + 1
        return [self._steps.get(it) or Step(self.first + it * self.seconds) for it in range(count)]

    def widen(self, seconds: int) -> None:
        """Puts steps together into longer ones."""
        if seconds <= self.seconds:
            return
        self.seconds = seconds
        before, self._steps = self._steps, {}
        for it in before.values():
            step = Steps.at(self, it.moment)
            step.words.update(it.words)
            step.outcomes.update(it.outcomes)
            step.killed += it.killed
            step.proxied += it.proxied
            step.tried += it.tried


def steps_of(trace: Path) -> Steps:
    """Steps over the moments of a trace, with nothing counted yet."""
    first, last = first_moment_of(trace) or 0, last_moment_of(trace) or 0
    return Steps(step_of(first, max(first, last)), first, max(first, last))
