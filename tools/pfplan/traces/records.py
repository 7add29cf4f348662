"""What stands in a trace and in a report: their lines in blocks, and a record or an answer read from a line.

A block is a list of some ten thousand lines without their line feeds, so that what is counted over a million of them is
counted by the block. Memory is that of a block, however long the file is.
"""

from collections.abc import Iterable, Iterator
from dataclasses import dataclass, replace
from itertools import islice
from pathlib import Path
from typing import IO

from pfplan.common.errors import Status, Trouble, reason_of
from pfplan.common.inputs import HEADER, check_trace
from pfplan.common.limits import DROPPED_COOKIE, DROPS, KILLS

BLOCK = 1 << 19
LONGEST = 1 << 16
WORDS = (
    "state", "new", "proxy", "cookie", "pass", "block", "skip", *DROPS, DROPPED_COOKIE, *KILLS, "expire", "held", "add",
    "delete", "kill",
)  # fmt: skip
OVERLOADS = ("added", "held", "full", "none")
ADDED = ("added", "held", "conflict", "full")
# what stands between the outcomes of a packet's two interfaces; the words behind which the second is asked, those of a
# packet that goes on, and those that no second interface has
ONWARD = " > "
GOING_ON = ("new", "state", "pass", "proxy")
PASSING = ("new", "state", "pass")
_ALONE = ("cookie", "skip", "expire", "held", "add", "delete", "kill", DROPPED_COOKIE)
# the second columns of an administrator's records: these are no packets. One that takes out states has networks in the
# columns of source and target, where an empty target is any; of the others it is a table, an entry and an age.
ORDERS = frozenset(("expire", "held", "add", "delete", "kill"))
KILL = "kill"


@dataclass(frozen=True, slots=True)
class Record:
    """A record of a trace, its columns as they stand there; the moment in seconds."""

    time: int
    direction: str
    interface: str
    protocol: str
    source: str
    source_port: str
    target: str
    target_port: str
    flags: str


@dataclass(frozen=True, slots=True)
class Answer:
    """A line of a report. `rule` is `@N` or `-`; the others say what a kill did, by a limit or by an administrator's
    record (`KILL`), what left a table, and what became of an added entry. `onward` is what became of the packet on its
    way out, where the line says that too."""

    row: int
    word: str
    rule: str
    overload: str = ""
    killed: int = 0
    removed: int = 0
    added: str = ""
    onward: "Answer | None" = None

    @property
    def legs(self) -> "tuple[Answer, ...]":
        """What became of the packet on each interface that was asked."""
        return (self,) if self.onward is None else (self, self.onward)

    @property
    def decisive(self) -> "Answer":
        """The one of them that says what became of the packet: on its way out, where it was not let through there."""
        return self if self.onward is None or self.onward.word in PASSING else self.onward


@dataclass(frozen=True, slots=True)
class End:
    """The last line of a report, or that of a record `held`: records up to it, and what is held."""

    rows: int
    states: int
    nodes: int
    entries: int


def line_blocks(path: Path) -> Iterator[list[str]]:
    """The lines of a file in blocks. Trouble: status 1 for a line past 65,536 bytes, 4 where reading fails."""
    yield from map(_lines_of, _file_texts(path))


def _file_texts(path: Path) -> Iterator[str]:
    """The text of a file, by whole lines. Trouble as `line_blocks`."""
    try:
        with open(path, encoding="latin-1") as file:
            yield from _texts_of(file, path)
    except FileNotFoundError:
        raise Trouble(f"{path}: no such file", Status.FAILED) from None
    except OSError as error:
        raise Trouble(f"{path}: can't be read: {reason_of(error)}", Status.FAILED) from None


def blocks_of(file: IO[str], name: Path | str) -> Iterator[list[str]]:
    """The lines of a file that is open, as `line_blocks`."""
    yield from map(_lines_of, _texts_of(file, name))


def _lines_of(text: str) -> list[str]:
    """The lines of a text, without their line feeds."""
    lines = text.split("\n")
    if not lines[-1]:
        lines.pop()
    return lines


def _texts_of(file: IO[str], name: Path | str) -> Iterator[str]:
    """The text of a file that is open, by whole lines. Trouble as `line_blocks`."""
    while text := file.read(BLOCK):
        if not text.endswith("\n"):
            more = file.readline(LONGEST)
            if len(more) == LONGEST:
                raise Trouble(f"{name}: a line of more than {LONGEST} bytes", Status.REFUSED)
            text += more
        yield text


def blocks_of_lines(lines: Iterable[str]) -> Iterator[list[str]]:
    """Single lines in blocks, for those that a pipe gives."""
    several = iter(lines)
    while block := list(islice(several, 8192)):
        yield block


class Traces:
    """The records of a trace in blocks, past its header and blank lines. `name` stands in messages for a copy of a
    pipe."""

    def __init__(self, path: Path, name: Path | None = None) -> None:
        self.path = path
        self.name = name or path
        self._line = 0

    def blocks(self) -> Iterator[list[str]]:
        """The lines of the records. Trouble with status 1 for another header and for a quote, which pfplan does not
        read."""
        check_trace(self.path)
        is_begun = False
        for text in _file_texts(self.path):
            lines = _lines_of(text)
            if '"' in text:
                at = next(i for i, it in enumerate(lines, self._line + 1) if '"' in it)
                raise Trouble(f"{self.name}: line {at}: a quote, which pfplan does not read", Status.REFUSED)
            before = self._line
            self._line += len(lines)
            if "" in lines:
                lines = [it for it in lines if it]
            if not is_begun and lines:
                self._check_header(lines.pop(0), before + 1)
                is_begun = True
            if lines:
                yield lines

    def _check_header(self, line: str, number: int) -> None:
        if line.removeprefix("\xef\xbb\xbf") != HEADER:
            raise Trouble(f"{self.name}: line {number}: no header of a trace, which is {HEADER}", Status.REFUSED)


def records(path: Path) -> Iterator[Record]:
    """Each record of a trace. Trouble as `Traces.blocks`, and where a record has not nine columns or its moment is no
    number."""
    row = 0
    for lines in Traces(path).blocks():
        for line in lines:
            row += 1
            try:
                yield read_record(line)
            except ValueError as error:
                raise Trouble(f"{path}: row {row}: {error}", Status.REFUSED) from None


def read_record(line: str) -> Record:
    """The record of a line of a trace. ValueError says what is wrong with it."""
    column = line.split(",")
    if len(column) != 9:
        raise ValueError("not nine columns")
    time = column[0]
    if not (time.isascii() and time.isdigit()):
        raise ValueError("the moment is no number")
    return Record(int(time), column[1], column[2], column[3], column[4], column[5], column[6], column[7], column[8])


def read_answer(line: str) -> Answer | End:
    """What a line of a report says. ValueError where it is no line of one."""
    first, sign, second = line.partition(ONWARD)
    answer = _read_one(first)
    if not sign:
        return answer
    if isinstance(answer, End) or answer.word not in GOING_ON:
        raise ValueError("no line of a report")
    onward = _read_one(f"{answer.row} {second}")
    if isinstance(onward, End) or onward.word in _ALONE:
        raise ValueError("no line of a report")
    return replace(answer, onward=onward)


def _read_one(line: str) -> Answer | End:
    """What a line with one outcome says. ValueError where it is no line of a report."""
    part = line.split(" ")
    if part[0] == "end":
        return _read_end(part)
    if (
        len(part) < 3
        or not part[0].isdigit()
        or part[1] not in WORDS
        or not (part[2] == "-" or part[2][0] == "@" and part[2][1:].isdigit())
    ):
        raise ValueError("no line of a report")
    row, word, rule = int(part[0]), part[1], part[2]
    if word.startswith("kill:"):
        if len(part) != 5 or part[3].removeprefix("overload=") not in OVERLOADS:
            raise ValueError("no line of a report")
        return Answer(row, word, rule, part[3].removeprefix("overload="), _value(part[4], "killed"))
    if word in ORDERS:
        return _read_order(row, part)
    if len(part) != 3:
        raise ValueError("no line of a report")
    return Answer(row, word, rule)


def read_held(line: str) -> End:
    """What a line of a report says of a record `held`. ValueError where it is no such line."""
    part = line.split(" ")
    if len(part) != 6 or part[1:3] != ["held", "-"] or not part[0].isdigit():
        raise ValueError("no line of a report")
    return End(int(part[0]), _value(part[3], "states"), _value(part[4], "nodes"), _value(part[5], "entries"))


def _read_order(row: int, part: list[str]) -> Answer:
    """The answer to an administrator's record."""
    word = part[1]
    if word == "held":
        read_held(" ".join(part))
        return Answer(row, word, part[2])
    if len(part) != 4 or part[2] != "-" or word == "add" and part[3] not in ADDED:
        raise ValueError("no line of a report")
    if word == "add":
        return Answer(row, word, part[2], added=part[3])
    if word == KILL:
        return Answer(row, word, part[2], killed=_value(part[3], "killed"))
    return Answer(row, word, part[2], removed=_value(part[3], "removed"))


def _read_end(part: list[str]) -> End:
    if len(part) != 5:
        raise ValueError("no line of a report")
    return End(_value(part[1], "rows"), _value(part[2], "states"), _value(part[3], "nodes"), _value(part[4], "entries"))


def _value(text: str, name: str) -> int:
    value = text.removeprefix(f"{name}=")
    if value == text or not value.isdigit():
        raise ValueError("no line of a report")
    return int(value)
