"""Counts what a ruleset answers to a capture while it comes, in memory that does not grow with time."""

from collections import Counter, deque
from collections.abc import Iterator, Sequence
from dataclasses import dataclass, field
from pathlib import Path

from pfplan.answers.connections import BAD, Connections
from pfplan.answers.counting import Answers, Moments
from pfplan.answers.sources import Sources
from pfplan.answers.stepping import Step, Steps
from pfplan.common.networks import Network
from pfplan.pf.reading_canonical_text import Flushes, flushes_of, items_of
from pfplan.replays.live import Replaying
from pfplan.traces.moments import MOST_STEPS, STEPS, step_of
from pfplan.traces.records import Traces

# Records that are counted at a time.
BLOCK = 2000
# Connections that are over and are remembered: some seconds of them, so that their last packets are not taken for those
# of others.
REMEMBERED = 10_000
# Connections that are open and are followed, as many as pf holds states by default: past it those that have been quiet
# the longest are forgotten.
MOST_OPEN = 100_000
# Sources of overload tables that are named.
NAMED = 5


class Fed(Traces):
    """A trace that is given block by block."""

    def __init__(self) -> None:
        super().__init__(Path("-"), Path("standard input"))
        self._waiting: deque[list[str]] = deque()

    def put(self, lines: list[str]) -> None:
        """The block that is counted next."""
        self._waiting.append(lines)

    def blocks(self) -> Iterator[list[str]]:
        """The blocks that were given."""
        while self._waiting:
            yield self._waiting.popleft()


def fine_step(span: int) -> int:
    """Seconds in a step of a series over so many seconds that may go on: each step that a longer one can have is a
    multiple of it."""
    at = STEPS.index(step_of(0, span))
    return max(it for it in STEPS[: at + 1] if all(other % it == 0 for other in STEPS[at:-1]))


class LiveSteps(Steps):
    """Steps though the last moment is not known: they become longer as time passes, so there are some hundreds at
    most."""

    def __init__(self) -> None:
        super().__init__(1)

    def at(self, moment: int) -> Step:
        """The step of a moment."""
        span = moment - (moment if self.first is None else self.first)
        if span // self.seconds >= MOST_STEPS:
            self.widen(fine_step(span))
        return super().at(moment)


class LiveMoments(Moments):
    """Counts records by moments, in memory that does not grow with time."""

    def __init__(self, trace: Traces, answers: Answers, users: Sequence[Network], flushes: Flushes) -> None:
        super().__init__(trace, answers, users, LiveSteps(), flushes)
        self.connections = Connections(users, self.steps.hear, None, flushes, REMEMBERED, MOST_OPEN)

    def finish(self, is_whole: bool) -> None:
        """As that of `Moments`; then the steps are those that a summary of the whole trace has."""
        super().finish(is_whole)
        if self.first is not None:
            self.steps.widen(step_of(self.first, self.last))


@dataclass(slots=True)
class Overloads:
    """Sources that were put into overload tables: how many, and the last of them."""

    added: int = 0
    last: deque[str] = field(default_factory=lambda: deque(maxlen=NAMED))


class Side:
    """One ruleset: the program that answers, and what is counted of its answers."""

    def __init__(self, name: str, rules: Path, shown: Sequence[str], users: Sequence[Network]) -> None:
        self.replaying = Replaying(name, rules)
        self.answers = Answers(name, len(items_of(shown)))
        self.overloads = Overloads()
        self.refused_users = Sources()
        self._trace = Fed()
        self.moments = LiveMoments(self._trace, self.answers, users, flushes_of(shown))
        self._has_users = bool(users)

    def count(self, lines: list[str], texts: Sequence[str]) -> list[str]:
        """Counts records and their answers, and tells the lines of the report."""
        report = [f"{row} {text}" for row, text in enumerate(texts, self.answers.rows + 1)]
        self._trace.put(lines)
        self.moments.take(self.answers.take(report))
        self._note(lines, texts)
        return report

    def finish(self) -> str:
        """Counts the last line of the report, and tells it."""
        end = self.replaying.finish()
        line = f"end rows={self.answers.rows} states={end.states} nodes={end.nodes} entries={end.entries}"
        self.answers.take([line])
        self.answers.finish(False)
        self.moments.finish(True)
        return line

    def outcomes(self) -> Counter[str] | None:
        """What became of the users' connections so far; None where no users were named."""
        return self.moments.connections.so_far() if self._has_users else None

    def _note(self, lines: Sequence[str], texts: Sequence[str]) -> None:
        """Notes who was put into an overload table, and which users were refused."""
        replies = {it: self.answers.reply_of(it) for it in set(texts)}
        added = {it for it in replies if " overload=added " in it}
        bad = {it for it, reply in replies.items() if not BAD.isdisjoint(reply.words)} if self._has_users else set()
        if not added and not bad:
            return
        members = self.moments.connections.members
        for line, text in zip(lines, texts, strict=True):
            if text in added:
                self.overloads.added += 1
                self.overloads.last.append(line.split(",", 5)[4])
            elif text in bad and is_first(column := line.split(",")) and members.has(column[4]):
                self.refused_users.add_one(column[4], 1)


def is_first(column: Sequence[str]) -> bool:
    """Whether a record may be the first of a connection: a SYN, or of a protocol without one."""
    return column[3] != "tcp" or "S" in column[8] and "A" not in column[8]
