"""Rulesets beside the traffic of this minute: records come, each ruleset answers them, and once a second it is
shown."""

import selectors
import signal
import socket
import time
from collections import Counter
from collections.abc import Callable, Mapping, Sequence
from dataclasses import asdict, dataclass, field
from pathlib import Path
from types import FrameType
from typing import Any, TextIO

from pfplan.answers.live_counts import BLOCK, NAMED, Side
from pfplan.answers.sources import Source
from pfplan.answers.summaries import Summary, Wanted, summary_of
from pfplan.common.exchanges import ENDING
from pfplan.common.networks import Network
from pfplan.pf.conversion import Ruleset
from pfplan.pf.origins import origins_of
from pfplan.pf.reading_canonical_text import settings_of
from pfplan.replays.live import Capture
from pfplan.traces.accounts import Frames
from pfplan.traces.entries import records_at
from pfplan.traces.insertions import HeldCounts
from pfplan.traces.records import End
from pfplan.traces.ways import Taken, Ways


@dataclass(frozen=True)
class View:
    """What stands on the screen for one ruleset. `words` are records by word, `new_words` those since the last
    screen."""

    name: str
    held: End
    limits: Mapping[str, int]
    words: Mapping[str, int]
    new_words: Mapping[str, int]
    killed: int
    added: int
    last_added: Sequence[str] = ()
    outcomes: Counter[str] | None = None
    refused_users: Sequence[Source] = ()
    forgotten: int = 0  # connections of users that were open

    def to_json(self) -> dict[str, Any]:
        """It for machines (man/pfplan.1)."""
        return {
            "rules": self.name,
            "held": {"states": self.held.states, "nodes": self.held.nodes, "entries": self.held.entries},
            "limits": dict(self.limits),
            "words": dict(self.words),
            "new_words": dict(self.new_words),
            "states_killed": self.killed,
            "sources_added": self.added,
            "last_added": list(self.last_added),
            "users": None if self.outcomes is None else dict(self.outcomes),
            "users_refused_most": [asdict(it) for it in self.refused_users],
            "forgotten": self.forgotten,
        }


@dataclass(frozen=True)
class Shown:
    """What is shown of all: seconds since the beginning, the capture's moment, records in all and in the last
    second."""

    seconds: int
    moment: int | None
    records: int
    rate: float
    views: Sequence[View] = field(default_factory=tuple)
    quiet: int = 0
    is_last: bool = False

    def to_json(self) -> dict[str, Any]:
        """It for machines (man/pfplan.1)."""
        return {
            "seconds": self.seconds,
            "moment": self.moment,
            "records": self.records,
            "records_a_second": round(self.rate, 1),
            "is_last": self.is_last,
            "rulesets": [it.to_json() for it in self.views],
        }


# How many moments are kept at which it was asked how much is held.
MOST_MOMENTS = 480


@dataclass
class Watched:
    """One ruleset that is watched, with its canonical text. `folder` gets what `run` would put there, `report` the
    lines of its report."""

    path: Path
    ruleset: Ruleset
    folder: Path
    rules: list[str]
    side: Side
    report: TextIO | None = None
    held: list[HeldCounts] = field(default_factory=list)
    now: End = End(0, 0, 0, 0)
    before: Counter[str] = field(default_factory=Counter)

    def count(self, lines: list[str], texts: Sequence[str]) -> None:
        """Counts records and their answers."""
        report = self.side.count(lines, texts)
        if self.report:
            self.report.writelines(f"{it}\n" for it in report)

    def ask(self, moment: int) -> None:
        """Asks how much is held. Of many moments, the fuller one of each two is kept."""
        self.now = self.side.replaying.held(moment)
        if len(self.held) >= MOST_MOMENTS:
            pairs = zip(self.held[::2], self.held[1::2], strict=False)
            self.held = [max(it, key=lambda held: held.states) for it in pairs]
        self.held.append(HeldCounts(moment, self.now.states, self.now.nodes, self.now.entries))

    def finish(self) -> None:
        """Counts the end of the report."""
        line = self.side.finish()
        self.now = self.side.answers.end or self.now
        if self.report:
            self.report.write(f"{line}\n")

    def view(self) -> View:
        """What is shown of it."""
        answers, side = self.side.answers, self.side
        words = Counter({word: sum(rules.values()) for word, rules in answers.by_rule.items()})
        new, self.before = words - self.before, words
        killed = sum(it.killed for it in answers.limits.values())
        added, last, refused = side.overloads.added, tuple(side.overloads.last), side.refused_users.top(NAMED)
        limits, outcomes = settings_of(self.rules), side.outcomes()
        return View(
            self.path.name, self.now, limits, words, new, killed, added, last, outcomes, refused, self.forgotten
        )

    @property
    def forgotten(self) -> int:
        """How many connections of users were forgotten that were open."""
        return self.side.moments.connections.forgotten

    def summary(
        self, users: Sequence[Network], frames: Frames | None, top: int, taken: Taken | None = None
    ) -> Summary:
        """The summary that `run` would make of the same packets."""
        wanted = Wanted(None, users, None, self.ruleset.labels, origins_of(self.ruleset), frames, taken, top=top)
        summary = summary_of(self.side.answers, self.side.moments, self.rules, wanted)
        summary.held = self.held
        return summary


class Signals:
    """An interrupt is a word to end in order, that the loop reads as it reads a pipe. A second one ends at once."""

    def __init__(self) -> None:
        self.has_come = False
        self.reader, self._writer = socket.socketpair()
        self._writer.setblocking(False)

    def __enter__(self) -> "Signals":
        self._before = {it: signal.signal(it, self._note) for it in ENDING}
        self._woken = signal.set_wakeup_fd(self._writer.fileno())
        return self

    def __exit__(self, *error: object) -> None:
        signal.set_wakeup_fd(self._woken)
        for number_, handler in self._before.items():
            signal.signal(number_, handler)
        self.reader.close()
        self._writer.close()

    def _note(self, number_: int, frame: FrameType | None) -> None:
        if self.has_come:
            raise KeyboardInterrupt
        self.has_come = True


class Watch:
    """The loop: records come, each ruleset answers them, and once a second it is shown."""

    def __init__(
        self,
        capture: Capture,
        watched: Sequence[Watched],
        show: Callable[[Shown], None],
        trace: TextIO | None,
        seconds: int,
        ways: Ways | None = None,
    ) -> None:
        """`ways` takes the records that stand for a packet's way, where the rulesets have routes."""
        self._capture = capture
        self._ways = ways
        self._watched = watched
        self._show_it = show
        self._trace = trace
        self._begin = time.monotonic()
        self._until = self._begin + seconds if seconds else None
        self._lines: list[str] = []
        self._texts: list[list[str]] = [[] for _ in watched]
        self._records = 0
        self._shown_records = 0
        self._shown_at = self._begin
        self._came_at = self._begin
        self._moment: int | None = None
        self.is_unseen = False

    def run(self, signals: Signals) -> None:
        """Until the capture ends, the time is over, an interrupt comes, or nobody reads what is shown."""
        with selectors.DefaultSelector() as ready:
            ready.register(self._capture, selectors.EVENT_READ)
            ready.register(signals.reader, selectors.EVENT_READ)
            due = self._begin + 1
            while not (signals.has_come or self.is_unseen or self._is_over()):
                found = [
                    it.fileobj for it, _ in ready.select(max(0.0, min(due, self._until or due) - time.monotonic()))
                ]
                if self._capture in found and not self._take():
                    self._finish()
                    return
                if time.monotonic() >= due:
                    self._show()
                    due = max(due + 1, time.monotonic())
        self._capture.stop()
        while self._take():
            pass
        self._finish()

    def _is_over(self) -> bool:
        return self._until is not None and time.monotonic() >= self._until

    def _take(self) -> bool:
        """Has the records that are there answered; False at the end of the capture."""
        lines = self._capture.read()
        if lines is None:
            return False
        if self._ways:
            lines = self._ways.kept(lines)
        if not lines:
            return True
        text = "".join(f"{it}\n" for it in lines)
        if self._moment is None:
            for it in self._watched:
                it.side.replaying.enter(records_at(it.ruleset.records, int(lines[0].partition(",")[0])))
        for it in self._watched:
            it.side.replaying.send(text)
        for it, texts in zip(self._watched, self._texts, strict=True):
            texts += it.side.replaying.take(len(lines))
        if self._trace:
            self._trace.write(text)
        self._lines += lines
        self._records += len(lines)
        self._came_at = time.monotonic()
        self._moment = int(lines[-1].partition(",")[0])
        if len(self._lines) >= BLOCK:
            self._count()
        return True

    def _count(self) -> None:
        """Counts what was answered."""
        if not self._lines:
            return
        for it, texts in zip(self._watched, self._texts, strict=True):
            it.count(self._lines, texts)
        self._lines = []
        self._texts = [[] for _ in self._watched]

    def _show(self, *, is_last: bool = False) -> None:
        self._count()
        if not is_last and self._moment is not None and self._records > self._shown_records:
            for it in self._watched:
                it.ask(self._moment)
        now = time.monotonic()
        rate = (self._records - self._shown_records) / max(now - self._shown_at, 0.001)
        views = [it.view() for it in self._watched]
        shown = Shown(
            round(now - self._begin), self._moment, self._records, rate, views, int(now - self._came_at), is_last
        )
        self._shown_at, self._shown_records = now, self._records
        try:
            self._show_it(shown)
        except BrokenPipeError:
            self.is_unseen = True

    def _finish(self) -> None:
        """The end of each report, and the last screen."""
        self._count()
        for it in self._watched:
            it.finish()
        if not self.is_unseen:
            self._show(is_last=True)
