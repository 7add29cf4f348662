"""Plays a scenario against a ruleset, and keeps what came of it: the trace, its report, and the counts."""

from __future__ import annotations

import contextlib
import gc
import itertools
import multiprocessing
import os
import signal
import sys
from collections.abc import Callable, Iterator, Mapping, Sequence
from dataclasses import dataclass
from multiprocessing.connection import Connection, wait
from multiprocessing.context import ForkProcess
from pathlib import Path
from types import TracebackType

from pfplan.common.errors import Status, Trouble
from pfplan.common.outputs import part_file
from pfplan.common.progress import Progress
from pfplan.pf.routes import NO_ROUTES, Routes
from pfplan.plays.counts import Tally
from pfplan.plays.firewalls import Pfsrc, PlayFiles, Writer
from pfplan.plays.model import Scenario
from pfplan.plays.returning import Answer
from pfplan.plays.staging import Play, traces_of
from pfplan.traces.records import End

# Seconds in which a play that is told to end does so, before it is killed.
GRACE = 5


@dataclass(frozen=True)
class Task:
    """A scenario under a rules text. `entries` are records by which its tables get theirs (traces/entries.py), `routes`
    those of the text, and `orders` records of an administrator.

    The trace that comes of it and its report are kept where they have a name.
    """

    scenario: Scenario
    rules: Path
    returning: Mapping[int, Answer]
    entries: Sequence[str] = ()
    trace: Path | None = None
    report: Path | None = None
    routes: Routes = NO_ROUTES
    orders: Sequence[str] = ()


@dataclass(frozen=True)
class Played:
    """What a play came to. `last` is the last second."""

    scenario: Scenario
    tally: Tally
    end: End
    last: int

    @property
    def most_held(self) -> int:
        """The most states at the end of a second in which packets came, and at the end."""
        return max([it.states for it in self.tally.fills] + [self.end.states])

    @property
    def is_full(self) -> bool:
        """Whether `set limit states` was met."""
        return self.tally.is_met("drop:states")


def play(task: Task, hear: Callable[[int], None] | None = None) -> Played:
    """Plays it.

    Trouble as the program's own, or where a file can't be read or written; then no file is left half written.
    """
    last = 0

    def at(second: int) -> None:
        nonlocal last
        if second != last and hear:
            hear(second)
        last = second

    with _named(task.rules), contextlib.ExitStack() as stack:
        trace, report = (stack.enter_context(_kept(it)) for it in (task.trace, task.report))
        traces = stack.enter_context(traces_of(task.scenario, task.routes))
        firewall = stack.enter_context(Pfsrc(task.rules, PlayFiles(trace, report)))
        stack.enter_context(seldom_collected())
        game = Play(task.scenario, firewall, task.returning, traces, routes=task.routes)
        end = game.run(at, task.entries, task.orders)
    return Played(task.scenario, game.tally, end, last)


@contextlib.contextmanager
def _named(rules: Path) -> Iterator[None]:
    """Puts the name of the rules before what is told of them."""
    try:
        yield
    except Trouble as trouble:
        if trouble.status != Status.RULES or trouble.message.startswith(f"{rules}: "):
            raise
        raise Trouble(f"{rules}: {trouble.message}", trouble.status) from None


@contextlib.contextmanager
def _kept(path: Path | None) -> Iterator[Writer | None]:
    """A file that stands under its name once it is whole; None where nothing is kept."""
    if path is None:
        yield None
        return
    with part_file(path) as file:
        yield file.buffer
        file.buffer.flush()


@contextlib.contextmanager
def seldom_collected() -> Iterator[None]:
    """A play has hundreds of thousands of events that wait: Python's search for cycles among them is made rare."""
    before = gc.get_threshold()
    gc.set_threshold(100_000, 50, 100)
    try:
        yield
    finally:
        gc.set_threshold(*before)


def play_all(tasks: Sequence[Task], jobs: int) -> list[Played]:
    """Plays several side by side, each in a process of its own. Trouble as `play`; then the others are ended."""
    if len(tasks) == 1 or jobs == 1:
        return [_played(it) for it in tasks]
    progress = Progress("play", len(tasks), "plays")
    found: dict[int, Played] = {}
    try:
        with _Sides(min(jobs, len(tasks))) as sides:
            for at, it in sides.play(tasks):
                found[at] = it
                progress.advance()
    finally:
        progress.finish()
    return [found[at] for at in range(len(tasks))]


class _Sides:
    """Processes that play, so many at a time. Leaving it ends those that still go on."""

    def __init__(self, most: int) -> None:
        self._most = most
        self._context = multiprocessing.get_context("fork")
        self._going: dict[Connection, tuple[int, int, ForkProcess]] = {}
        # how many play on each processor
        self._plays = dict.fromkeys(sorted(os.sched_getaffinity(0)), 0)

    def __enter__(self) -> "_Sides":
        return self

    def __exit__(
        self, kind: type[BaseException] | None, error: BaseException | None, trace: TracebackType | None
    ) -> None:
        for _, _, process in self._going.values():
            process.terminate()
        for pipe, (_, _, process) in self._going.items():
            process.join(GRACE)
            if process.is_alive():
                process.kill()
                process.join()
            pipe.close()

    def play(self, tasks: Sequence[Task]) -> Iterator[tuple[int, Played]]:
        """The plays, each with the place of its task, as they end. Trouble as the first that fails."""
        waiting = iter(enumerate(tasks))
        for at, task in itertools.islice(waiting, self._most):
            self._begin(at, task)
        while self._going:
            for pipe in wait(list(self._going)):
                assert isinstance(pipe, Connection)
                yield self._end(pipe)
                for at, task in itertools.islice(waiting, 1):
                    self._begin(at, task)

    def _begin(self, at: int, task: Task) -> None:
        ours, theirs = self._context.Pipe(duplex=False)
        processor = min(self._plays, key=self._plays.__getitem__)
        self._plays[processor] += 1
        process = self._context.Process(target=_play_there, args=(task, processor, theirs))
        self._going[ours] = at, processor, process
        process.start()
        theirs.close()

    def _end(self, pipe: Connection) -> tuple[int, Played]:
        """What a process sends as it ends."""
        at, processor, process = self._going[pipe]
        try:
            sent = pipe.recv()
        except EOFError:
            process.join()
            raise Trouble(f"a play ended with status {process.exitcode} and said nothing", Status.FAILED) from None
        if isinstance(sent, BaseException):
            raise sent
        process.join()
        del self._going[pipe]
        self._plays[processor] -= 1
        pipe.close()
        assert isinstance(sent, Played)
        return at, sent


def _play_there(task: Task, processor: int, pipe: Connection) -> None:
    """A play in a process of its own, on a processor of its own while there are as many (see `Turns`): sends what came
    of it, or why nothing did. An interrupt, from the keyboard or as the terminal goes, reaches it through the first
    process, which ends it."""
    os.sched_setaffinity(0, {processor})
    for it in (signal.SIGINT, signal.SIGHUP):
        signal.signal(it, signal.SIG_IGN)
    signal.signal(signal.SIGTERM, lambda number, frame: sys.exit(int(Status.INTERRUPTED)))
    try:
        sent: Played | Exception = play(task)
    except Exception as error:  # noqa: BLE001 (told by the first process)
        sent = error
    pipe.send(sent)


def _played(task: Task) -> Played:
    """One play, whose seconds are shown."""
    progress = Progress("play", task.scenario.seconds, "seconds")
    try:
        return play(task, progress.at)
    finally:
        progress.finish()
