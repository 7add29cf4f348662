"""One replay in a few numbers: what `size` and `margins` compare, here and on other machines."""

import contextlib
import json
import tempfile
from collections.abc import Generator, Sequence
from dataclasses import asdict, dataclass, field, replace
from pathlib import Path
from typing import Any, BinaryIO, cast

from pfplan.answers.connections import KINDS, LATE
from pfplan.answers.held_states import HeldStates, followed_again
from pfplan.answers.sides import Side, word_counts
from pfplan.answers.tallies import tally, trace_texts
from pfplan.common.errors import Status, Trouble
from pfplan.common.limits import DROPS
from pfplan.common.networks import Network
from pfplan.common.outputs import part_file
from pfplan.pf.reading_canonical_text import flushes_of
from pfplan.replays.runs import show_rules, stream_texts
from pfplan.traces.insertions import Asking, HeldCounts, asking
from pfplan.traces.records import BLOCK, WORDS, End, read_answer


# The first report of several, and its measure.
_REPORT, _MEASURE = "report", "measure"


@dataclass(frozen=True, slots=True)
class LimitMet:
    """A limit that was met: how many records, and the moments of the first and the last."""

    word: str
    records: int
    first: int
    last: int


@dataclass(frozen=True)
class Measure:
    """One replay. `most_held` is the greatest number of states at the moments that were asked for and at the end; None
    where none were.

    `refused` says why the rules text is refused; then all counts are 0.
    """

    records: int = 0
    words: dict[str, int] = field(default_factory=dict)
    limits: tuple[LimitMet, ...] = ()
    states_killed: int = 0
    overloads: dict[str, int] = field(default_factory=dict)
    outcomes: dict[str, int] = field(default_factory=dict)
    refused_by: dict[str, int] = field(default_factory=dict)
    end: End = End(0, 0, 0, 0)
    most_held: int | None = None
    refused: str = ""
    kills_guessed: int = 0  # kills of which it is a guess which states they took

    @property
    def connections(self) -> int:
        """How many connections of users there were, those among them that the end of the trace cut."""
        return sum(self.outcomes.values())

    @property
    def counted(self) -> int:
        """Of how many of them shares are told: all but those that the end of the trace cut."""
        return self.connections - self.outcomes.get(LATE, 0)

    @property
    def served(self) -> int:
        """How many of them were served."""
        return self.outcomes.get("served", 0)

    @property
    def dropped(self) -> int:
        """How many records a limit refused."""
        return sum(count for word, count in self.words.items() if word in DROPS)

    def to_json(self) -> dict[str, Any]:
        """The numbers for machines."""
        return asdict(self)


def from_json(text: str) -> Measure:
    """The measure of a line that `pfplan measure` printed. Trouble where it is none."""
    try:
        read = json.loads(text)
        limits = tuple(LimitMet(**it) for it in read.pop("limits"))
        end = End(**read.pop("end"))
        return Measure(limits=limits, end=end, **read)
    except (ValueError, TypeError, KeyError, AttributeError):
        raise Trouble(f"a run printed no measure: {text[:100]!r}", Status.FAILED) from None


def measure_of(side: Side, most_held: int | None = None) -> Measure:
    """The numbers of a ruleset whose report was read to its end."""
    answers, connections = side.answers, side.connections
    counts = word_counts(answers)
    limits = tuple(
        LimitMet(word, answers.limits[word].records, side.met[word].first, side.met[word].last)
        for word in WORDS
        if word in answers.limits
    )
    return Measure(
        records=answers.rows,
        words={it: counts[it] for it in WORDS if counts[it]},
        limits=limits,
        states_killed=sum(it.killed for it in answers.limits.values()),
        overloads=dict(answers.overloads),
        outcomes={it: connections.outcomes[it] for it in KINDS},
        refused_by={it: connections.refused_by[it] for it in WORDS if connections.refused_by[it]},
        end=answers.end or End(answers.rows, 0, 0, 0),
        most_held=most_held,
        kills_guessed=connections.kills_guessed,
    )


def most_of(held: Sequence[HeldCounts], end: End) -> int | None:
    """The greatest number of states at some moments and at the end; None for no moments."""
    return max([it.states for it in held] + [end.states]) if held else None


def measure(rules: Path, trace: Path, users: Sequence[Network], moments: int, entries: Sequence[str] = ()) -> Measure:
    """Replays a trace and counts it. Rules that the program refuses are a measure that says why.

    It is asked at so many moments how many states are held. `entries` are those that come by records
    (traces/entries.py).
    """
    with asking(trace, moments, entries) as asked, Measurer(trace, users, asked, entries) as measurer:
        return measurer.measure(rules)


class Measurer:
    """Measures rules texts one after another over one trace. What answers each record as the first did is replayed, and
    not counted again."""

    def __init__(
        self,
        trace: Path,
        users: Sequence[Network],
        asked: Asking,
        entries: Sequence[str] = (),
        kept: Path | None = None,
    ) -> None:
        """`asked` is what is put into the trace, and `entries` those that come by records. `kept` is a folder for the
        first report and its measure: of several that measure over one trace the first counts for all."""
        self._trace = trace
        self._users = users
        self._asked = asked
        self._entries = entries
        self._kept_in = kept
        self._first: Measure | None = None  # of what the report is kept
        if kept and (kept / _MEASURE).exists():
            self._first = from_json((kept / _MEASURE).read_text("utf-8"))
            self._report: BinaryIO = open(kept / _REPORT, "rb")
        elif kept and not (kept / _REPORT).exists():
            self._report = open(kept / _REPORT, "x+b")
        else:
            self._kept_in = None
            self._report = cast(BinaryIO, tempfile.TemporaryFile("w+b", prefix="pfplan-"))

    def __enter__(self) -> "Measurer":
        return self

    def __exit__(self, *_: object) -> None:
        self._report.close()

    def measure(self, rules: Path) -> Measure:
        """Replays the trace and counts it. Rules that the program refuses are a measure that says why."""
        heard = self._asked.heard(rules)
        try:
            report = stream_texts(rules, self._trace, self._asked, heard)
            if self._first is None:
                found = self._count(rules, self._kept(report))
            else:
                same, others = self._compare(report)
                found = same or self._count(rules, others)
        except Trouble as trouble:
            if trouble.status != Status.RULES:
                raise
            return Measure(refused=trouble.message.removeprefix(f"{rules}: "))
        return replace(found, most_held=most_of(heard.held, found.end))

    def _count(self, rules: Path, report: Generator[str, None, None]) -> Measure:
        """Counts a report. The first that leaves nothing to be asked of the program is kept."""
        flushes = flushes_of(show_rules(rules)) if self._users else None
        holding = HeldStates()
        records = trace_texts(self._trace, self._asked.plain)
        side = tally(
            self._trace, records, report, self._users, flushes, self._asked.numbers, rules.name, holding
        )
        if holding.is_asked:
            again = followed_again(rules, self._trace, self._users, flushes, self._entries, holding)
            side.connections = again.connections
        found = measure_of(side)
        if self._first is None and not holding.is_asked:
            self._first = found
            if self._kept_in:
                self._report.flush()
                with part_file(self._kept_in / _MEASURE) as file:
                    file.write(json.dumps(found.to_json()))
        return found

    def _kept(self, report: Generator[str, None, None]) -> Generator[str, None, None]:
        """A report, of which a copy is made."""
        self._report.seek(0)
        self._report.truncate()
        with contextlib.closing(report):
            for text in report:
                self._report.write(text.encode("latin-1"))
                yield text

    def _compare(self, report: Generator[str, None, None]) -> tuple[Measure | None, Generator[str, None, None]]:
        """The measure of a report that says of each record what the first did; None where it does not, and the whole
        report."""
        self._report.seek(0)
        size = 0
        for text in report:
            own = self._report.read(len(text)).decode("latin-1")
            if own != text:
                end = text.rfind("\n", 0, -1) + 1
                if text[:end] == own[:end] and text.startswith("end ", end) and own.startswith("end ", end):
                    return self._with_end(report, text[end:]), report
                return None, self._rest(report, size, text)
            size += len(text)
        return self._first, report

    def _with_end(self, report: Generator[str, None, None], line: str) -> Measure:
        """The measure of the first with another last line."""
        for _ in report:
            pass  # the program says how it ended
        end = read_answer(line.removesuffix("\n"))
        assert self._first is not None and isinstance(end, End)
        return replace(self._first, end=end)

    def _rest(self, report: Generator[str, None, None], size: int, text: str) -> Generator[str, None, None]:
        """A report of which so many characters are those of the first, and then come a text and what is left."""
        with contextlib.closing(report):
            self._report.seek(0)
            while size and (same := self._report.read(min(BLOCK, size))):
                same += b"" if same.endswith(b"\n") else self._report.readline()
                size -= len(same)
                yield same.decode("latin-1")
            yield text
            yield from report
