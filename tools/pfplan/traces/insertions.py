"""Records that pfplan puts into a trace that it replays: entries of tables, and questions how much is held.

The trace itself stays as it is: what is replayed goes to the program through a pipe. What comes of it is told by the
rows of the trace.
"""

import bisect
import contextlib
import re
import shutil
import tempfile
from collections.abc import Iterator, Mapping, Sequence
from dataclasses import dataclass, field
from itertools import accumulate
from operator import itemgetter
from pathlib import Path
from typing import IO

from pfplan.common.errors import Status, Trouble, reason_of
from pfplan.common.inputs import HEADER
from pfplan.traces.entries import records_at
from pfplan.traces.moments import first_moment_of, last_moment_of
from pfplan.traces.records import LONGEST, Traces, read_held
from pfplan.traces.rows import Rows

_BLOCK = 1 << 20


@dataclass(frozen=True, slots=True)
class HeldCounts:
    """What is held at a moment."""

    moment: int
    states: int
    nodes: int
    entries: int


@dataclass(slots=True)
class Insertion:
    """Records that are put behind the first `behind` records of a trace, which take `offset` bytes with its header."""

    behind: int
    offset: int
    lines: list[str] = field(default_factory=list)


class Insertions:
    """A trace, and the records that are put into it."""

    def __init__(self, trace: Path, places: Sequence[Insertion]) -> None:
        self.trace = trace
        self.rows = Rows([(it.behind, len(it.lines)) for it in places])
        self._places = places

    def write(self, out: IO[bytes]) -> None:
        """Writes the trace with the records in it. OSError where reading or writing fails."""
        with open(self.trace, "rb") as file:
            at = 0
            for place in self._places:
                last = b"\n"
                while at < place.offset and (block := file.read(min(_BLOCK, place.offset - at))):
                    out.write(block)
                    at, last = at + len(block), block[-1:]
                lines = "".join(f"{it}\n" for it in place.lines).encode("latin-1")
                out.write(lines if last == b"\n" else b"\n" + lines)
            shutil.copyfileobj(file, out, _BLOCK)


@dataclass
class Heard:
    """What a replay of some rules answers to the records that were put in: what is held at each moment that was asked
    for.
    """

    rules: Path
    moments: Sequence[int]
    held: list[HeldCounts] = field(default_factory=list)

    def take(self, lines: Sequence[str]) -> None:
        """Reads lines of the report, those of records that were put in. Trouble with status 3 where a table does not
        take an entry.
        """
        for line in lines:
            if line.endswith((" add - added", " add - held")):
                continue
            if line.endswith(" add - full"):
                why = "TooManyEntries: entries that come by records go past set limit table-entries"
                raise Trouble(f"{self.rules}: {why}", Status.RULES)
            if line.endswith(" add - conflict"):
                why = "Duplicate: an entry that comes by a record is there with the other sign"
                raise Trouble(f"{self.rules}: {why}", Status.RULES)
            # a line that is cut is the last: the program then says what is wrong
            with contextlib.suppress(ValueError):
                found = read_held(line)
                self.held.append(HeldCounts(self.moments[len(self.held)], found.states, found.nodes, found.entries))

    def finish(self) -> None:
        """The report is over, and the program said that it is whole. Trouble where it did not answer."""
        if len(self.held) != len(self.moments):
            raise Trouble(f"{self.rules}: the program did not say how much is held", Status.FAILED)


@dataclass(frozen=True)
class Asking:
    """What is put into a trace: the entries of tables, and questions at some moments."""

    insertions: Insertions | None
    moments: tuple[int, ...] = ()

    @property
    def numbers(self) -> Rows | None:
        """The numbers of the rows in the report."""
        return self.insertions.rows if self.insertions else None

    @property
    def plain(self) -> Path | None:
        """The trace whose lines have been looked at and are plain: each ends with a line feed, and none is blank or
        has a quote.
        """
        return self.insertions.trace if self.insertions and self.moments else None

    def heard(self, rules: Path) -> Heard:
        """Where the answers of a replay of these rules go."""
        return Heard(rules, self.moments)


NOTHING = Asking(None)


@contextlib.contextmanager
def asking(
    trace: Path, moments: int, entries: Sequence[str] = (), before: Mapping[int, Sequence[str]] | None = None
) -> Iterator[Asking]:
    """Puts entries (entries.py) before the first record, and questions how much is held at so many moments, evenly
    from the first to the last. Or, with no moments, records of `before` before those of its rows.

    The trace is a regular file; where its lines end otherwise than with a line feed, or it has blank ones, a copy is
    replayed, which goes at the end. Trouble as Traces where it is no trace.
    """
    wanted = moments_of(trace, moments)
    if not wanted and not entries and not before:
        yield NOTHING
        return
    with contextlib.ExitStack() as stack:
        questions = [_question(it) for it in wanted]
        places = _insertions_before(trace, before) if before else _insertions_at(trace, questions)
        if places is None:
            trace = stack.enter_context(_plain(trace))
            places = (_insertions_before(trace, before) if before else _insertions_at(trace, questions)) or []
        if entries:
            if not places or places[0].behind:
                places.insert(0, Insertion(0, len(HEADER) + 1))
            places[0].lines[:0] = records_at(entries, first_moment_of(trace) or 0)
        yield Asking(Insertions(trace, places), tuple(wanted))


@contextlib.contextmanager
def merged(trace: Path, records: Sequence[str]) -> Iterator[tuple[Path, Rows]]:
    """A copy of a trace with records in it, each behind the trace's own that are not after it, and which rows are
    whose. The copy goes at the end. Messages name the trace, and its own rows.

    The moments of the records do not fall. Trouble as Traces where the trace is none, and where writing fails.
    """
    with contextlib.ExitStack() as stack:
        plain, places = trace, _insertions_at(trace, records)
        if places is None:
            plain = stack.enter_context(_plain(trace))
            places = _insertions_at(plain, records) or []
        insertions = Insertions(plain, places)
        copy = Path(stack.enter_context(tempfile.TemporaryDirectory(prefix="pfplan-")), trace.name)
        try:
            with open(copy, "wb") as out:
                insertions.write(out)
        except OSError as error:
            why = f"can't be copied into {tempfile.gettempdir()}: {reason_of(error)}"
            raise Trouble(f"{trace}: {why}", Status.FAILED) from None
        try:
            yield copy, insertions.rows
        except Trouble as trouble:
            raise Trouble(_by_own_rows(trouble.message, copy, trace, insertions.rows), trouble.status) from None


def _by_own_rows(message: str, copy: Path, trace: Path, rows: Rows) -> str:
    """What is said of a copy into which records were put, of the trace itself."""
    found = re.fullmatch(rf"{re.escape(str(copy))}: row (\d+)(: .*)", message)
    own = rows.own(int(found[1])) if found else None
    if found and own is not None:
        return f"{trace}: row {own}{found[2]}"
    return message.replace(str(copy), str(trace))


def moments_of(trace: Path, count: int) -> list[int]:
    """So many moments of a trace, evenly from its first to its last."""
    first, last = (first_moment_of(trace), last_moment_of(trace)) if count else (None, None)
    if first is None or last is None:
        return []
    return sorted({first + (it * (last - first) // (count - 1) if count > 1 else last - first) for it in range(count)})


def _insertions_at(trace: Path, wanted: Sequence[str]) -> list[Insertion] | None:
    """For each record, whose moments do not fall, the place behind the last one of the trace that is not after it; None
    where the lines of the trace are not plain.
    """
    left = [(int(it.partition(",")[0]), it) for it in wanted]
    places: list[Insertion] = []
    with open(trace, "rb") as file:
        if file.readline(LONGEST) != f"{HEADER}\n".encode():
            return None
        records, offset = 0, len(HEADER) + 1
        while left and (block := file.read(_BLOCK)):
            block += b"" if block.endswith(b"\n") else file.readline(LONGEST)
            if _is_odd(block):
                return None
            if _moment_of(block[block.rfind(b"\n", 0, -1) + 1 :]) > left[0][0]:
                _insert_in(block.splitlines(keepends=True), left, records, offset, places)
            records += block.count(b"\n") + (not block.endswith(b"\n"))
            offset += len(block)
    for _, line in left:
        _put(places, Insertion(records, offset, [line]))
    return places


def _insertions_before(trace: Path, records: Mapping[int, Sequence[str]]) -> list[Insertion] | None:
    """The places before some rows, with the records that are put there; None where the lines of the trace are not
    plain.
    """
    left = sorted(records, reverse=True)
    places: list[Insertion] = []
    with open(trace, "rb") as file:
        if file.readline(LONGEST) != f"{HEADER}\n".encode():
            return None
        behind, offset = 0, len(HEADER) + 1
        while left and (block := file.read(_BLOCK)):
            block += b"" if block.endswith(b"\n") else file.readline(LONGEST)
            if _is_odd(block):
                return None
            lines = block.splitlines(keepends=True)
            begins = list(accumulate(map(len, lines), initial=0))
            while left and left[-1] <= behind + len(lines):
                row = left.pop()
                places.append(Insertion(row - 1, offset + begins[row - 1 - behind], list(records[row])))
            behind, offset = behind + len(lines), offset + len(block)
    return places


def _is_odd(block: bytes) -> bool:
    """Whether lines are not plain."""
    return b'"' in block or b"\r" in block or block.rfind(b"\n\n") >= 0 or block.startswith(b"\n")


def _insert_in(
    lines: Sequence[bytes], left: list[tuple[int, str]], records: int, offset: int, places: list[Insertion]
) -> None:
    """The places in a block of lines, of which the last is after the first moment that is left."""
    at, last = 0, _moment_of(lines[-1])
    count = bisect.bisect_left(left, last, key=itemgetter(0))
    for moment, line in left[:count]:
        behind = bisect.bisect(lines, moment, key=_moment_of)
        offset += sum(map(len, lines[at:behind]))
        at = max(at, behind)
        _put(places, Insertion(records + at, offset, [line]))
    del left[:count]


def _put(places: list[Insertion], place: Insertion) -> None:
    if places and places[-1].behind == place.behind:
        places[-1].lines.extend(place.lines)
    else:
        places.append(place)


def _question(moment: int) -> str:
    return f"{moment},held,,,,,,,"


def _moment_of(line: bytes) -> int:
    """The moment of a record; -1 where it has none, of which the program tells the row."""
    time = line.partition(b",")[0]
    return int(time) if time.isdigit() and len(time) <= 10 else -1


@contextlib.contextmanager
def _plain(trace: Path) -> Iterator[Path]:
    """A copy of a trace without blank lines, in which each line ends with a line feed."""
    with tempfile.NamedTemporaryFile("w", prefix="pfplan-", encoding="latin-1", newline="\n") as copy:
        try:
            copy.write(f"{HEADER}\n")
            for lines in Traces(trace).blocks():
                copy.writelines(f"{it}\n" for it in lines)
            copy.flush()
        except OSError as error:
            why = f"can't be copied into {tempfile.gettempdir()}: {reason_of(error)}"
            raise Trouble(f"{trace}: {why}", Status.FAILED) from None
        yield Path(copy.name)
