"""Counts one replay of a long trace without taking its lines apart: what `size` and `margins` ask of many runs.

Blocks of the trace and of its report are read side by side, as texts of whole lines. How often an answer is in a
block is counted in the text. A line is looked for only where it is of a user, killed states, or is the first or the
last at which a limit was met. What comes of it is what `sides.follow` counts line by line.
"""

import contextlib
import re
from collections import Counter
from collections.abc import Generator, Iterator, Sequence
from dataclasses import dataclass
from pathlib import Path

from pfplan.answers.connections import Connections, Holding
from pfplan.answers.counting import Answers
from pfplan.answers.following import columns_of, follow_block
from pfplan.answers.sides import Met, Picks, Side
from pfplan.common.errors import Status, Trouble
from pfplan.common.inputs import HEADER
from pfplan.common.networks import Network
from pfplan.pf.reading_canonical_text import Flushes
from pfplan.traces.records import BLOCK, KILL, LONGEST, ONWARD, Traces
from pfplan.traces.rows import Rows

# Texts of answers that are counted each by itself: a report with more of them is counted line by line.
FEW_TEXTS = 24


class Tallies(Answers):
    """Counts the lines of a report by blocks of text."""

    def __init__(self, name: Path | str, numbers: Rows | None) -> None:
        super().__init__(name, None, numbers)
        self._totals: Counter[str] = Counter()

    def take_text(self, text: str, count: int) -> Counter[str]:
        """Counts the lines of so many rows, and answers how many have each text behind the row's number."""
        first = self.rows + 1
        parts = self._numbers.parts(first, count)
        last = sum(parts[-1]) - 1
        if not (text.startswith(f"{parts[0][0]} ") and text.startswith(f"{last} ", text.rfind("\n", 0, -1) + 1)):
            self._refuse(first, f"row {first} is wanted, and those that follow it")
        counts = self._counts_in(text, count)
        self.rows += count
        for it, times in counts.items():
            self._count(self.reply_of(it), times)
            self._note(it, text, first)
        self._totals.update(counts)
        return counts

    def number_of(self, row: int) -> int:
        """The number in the report of a row of the trace."""
        return self._numbers.parts(row, 1)[0][0]

    def take_last(self, line: str) -> None:
        """Reads the last line of the report."""
        self.take([line])

    def _counts_in(self, text: str, count: int) -> Counter[str]:
        found: Counter[str] = Counter()
        left, has_both = count, ONWARD in text
        if len(self._totals) <= FEW_TEXTS:
            for it, _ in self._totals.most_common():
                if times := text.count(f" {it}\n") - (text.count(f"{ONWARD}{it}\n") if has_both else 0):
                    found[it] = times
                    left -= times
                if not left:
                    return found
        found = Counter(it.partition(" ")[2] for it in text.split("\n")[:-1])
        for it in found:
            if it not in self._known:
                self._know(it, self._row_at(text, _first_of(text, it)))
        return found

    def _note(self, answer: str, text: str, first: int) -> None:
        """The first and the last row at which an answer names a limit."""
        limit = self.limits.get(self.limit_in(answer))
        if limit is None:
            return
        limit.last_row = max(limit.last_row, self._row_at(text, _last_of(text, answer)))
        if not limit.first_row or limit.first_row >= first:
            row = self._row_at(text, _first_of(text, answer))
            limit.first_row = min(limit.first_row or row, row)

    def _row_at(self, text: str, at: int) -> int:
        """The row of the trace whose number stands before a place of the text."""
        return self._numbers.own(int(text[text.rfind("\n", 0, at) + 1 : at])) or 0


def _first_of(text: str, answer: str) -> int:
    """The first place of a report where an answer is all that a line says; behind another one it is that of a second
    interface."""
    at = text.find(f" {answer}\n")
    while at >= 0 and text.endswith(ONWARD[:-1], 0, at):
        at = text.find(f" {answer}\n", at + 1)
    return at


def _last_of(text: str, answer: str) -> int:
    """The last such place."""
    at = text.rfind(f" {answer}\n")
    while at >= 0 and text.endswith(ONWARD[:-1], 0, at):
        at = text.rfind(f" {answer}\n", 0, at)
    return at


class Reports:
    """The text of a report, given out by so many rows as are wanted."""

    def __init__(self, texts: Iterator[str]) -> None:
        self._texts = texts
        self._left = ""

    def take(self, after: int) -> str:
        """The lines before that of the row with this number."""
        found, begin = [], f"{after} "
        while self._left or (more := next(self._texts, "")):
            if not self._left:
                self._left = more
            at = 0 if self._left.startswith(begin) else self._left.find(f"\n{begin}") + 1
            if at or self._left.startswith(begin):
                found.append(self._left[:at])
                self._left = self._left[at:]
                break
            # the last line of the report is behind all rows
            end = self._left.rfind("\n", 0, -1) + 1
            if self._left.startswith("end ", end):
                found.append(self._left[:end])
                self._left = self._left[end:]
                break
            found.append(self._left)
            self._left = ""
        return "".join(found)

    def rest(self) -> list[str]:
        """The lines that are left."""
        return "".join([self._left, *self._texts]).splitlines()


@dataclass(slots=True)
class _Block:
    """Lines of the trace behind a row, and what the report says of them."""

    behind: int
    count: int
    trace: str
    report: str

    def line(self, row: int) -> str:
        """The record of a row."""
        return self.trace.split("\n", row - self.behind)[row - self.behind - 1]


def tally(
    trace: Path,
    records: Iterator[str],
    report: Generator[str, None, None],
    users: Sequence[Network],
    flushes: Flushes | None,
    numbers: Rows | None,
    name: str,
    holding: Holding | None = None,
) -> Side:
    """Counts the records of a trace (trace_texts) and its report (runs.stream_texts) to their ends, as
    `sides.follow` does of one side.

    Trouble as there.
    """
    answers = Tallies(name, numbers)
    connections = Connections(users, lambda begin, outcome: None, None, flushes, holding=holding)
    side = Side(name, iter(()), answers, connections)
    reports, picks, last = Reports(report), Picks(users), dict[str, _Block]()
    with contextlib.closing(report):
        for lines in records:
            count = lines.count("\n")
            block = _Block(answers.rows, count, lines, reports.take(answers.number_of(answers.rows + count + 1)))
            if (rows := block.report.count("\n")) != count:
                why = f"the trace has more records than the report of {name}"
                raise Trouble(f"{trace}: row {block.behind + rows + 1}: {why}", Status.REFUSED)
            counts = answers.take_text(block.report, count)
            _note_limits(side, block, last)
            if users:
                side.connections.last = _moment_of(lines[lines.rfind("\n", 0, -1) + 1 :])
                _follow_users(side, block, picks, any("kill" in it for it in counts))
        _end(side, reports, trace)
    for word, block in last.items():
        side.met[word].last = _moment_of(block.line(answers.limits[word].last_row))
    return side


def _end(side: Side, reports: Reports, trace: Path) -> None:
    """The trace is over: the report has one line more."""
    rows = side.answers.rows
    for line in reports.rest():
        if side.answers.take([line]):
            why = f"the report of {side.name} has more rows than the trace has records"
            raise Trouble(f"{trace}: row {rows + 1}: {why}", Status.REFUSED)
    side.answers.finish(False)
    side.connections.finish()


def trace_texts(trace: Path, known: Path | None = None) -> Iterator[str]:
    """The records of a trace as texts of whole lines, as Traces has them: without its header and blank lines. Trouble
    as there.

    `known` is the trace, or a copy, whose lines are known to be plain (insertions.Asking.plain).
    """
    with open(known or trace, encoding="latin-1", newline="\n") as file:
        plain = file.readline(LONGEST) == f"{HEADER}\n"
        while plain and (text := file.read(BLOCK)):
            text += "" if text.endswith("\n") else file.readline(LONGEST)
            text += "" if text.endswith("\n") else "\n"
            if not known and _is_odd(text):
                text = _plain(text, trace)
            if text:
                yield text
    if not plain:
        for lines in Traces(trace).blocks():
            yield "".join(f"{it}\n" for it in lines)


def _is_odd(text: str) -> bool:
    """Whether lines are not plain."""
    return '"' in text or "\r" in text or text.rfind("\n\n") >= 0 or text.startswith("\n")


def _plain(text: str, trace: Path) -> str:
    """Lines that end with line feeds, and no blank ones."""
    if '"' in text:
        for _ in Traces(trace).blocks():
            pass  # it tells the line
    return "".join(f"{it}\n" for it in re.split("\r\n|\r|\n", text) if it)


def _note_limits(side: Side, block: _Block, last: dict[str, _Block]) -> None:
    """The moment at which each limit was met first, and the block in which it was met last."""
    for word, limit in side.answers.limits.items():
        if limit.last_row > block.behind:
            last[word] = block
            if word not in side.met:
                moment = _moment_of(block.line(limit.first_row))
                side.met[word] = Met(moment, moment)


def _moment_of(line: str) -> int:
    return int(line.partition(",")[0])


def _follow_users(side: Side, block: _Block, picks: Picks, has_kills: bool) -> None:
    """Gives the records of users, and those that killed states, to the side's connections."""
    connections = side.connections
    if picks.are_many(block.trace, block.count):
        lines = block.trace.split("\n")[:-1]
        columns = columns_of(lines)
        if columns is not None:
            texts = [it.partition(" ")[2] for it in block.report.split("\n")[:-1]]
            replies = {it: side.answers.reply_of(it) for it in set(texts)}
            follow_block(connections, block.behind, columns, texts, replies)
            return
    members = connections.members
    members.of(set())  # what it remembers is kept within bounds there
    killing = set(_kills_in(side, block)) if has_kills else set[int]()
    rows: Iterator[tuple[int, str]] = picks.rows_in(block.trace, block.behind)
    if killing:
        lines = block.trace.split("\n")
        wanted = {row: line for row, line in rows} | {row: lines[row - block.behind - 1] for row in killing}
        rows = iter(sorted(wanted.items()))
    at = 0
    for row, line in rows:
        column = line.split(",")
        if len(column) != 9 or column[1] not in ("in", "out", KILL):
            continue
        is_of_user = column[1] != KILL and (members.has(column[4]) or members.has(column[6]))
        if not (is_of_user or row in killing):
            continue
        begin = f"{_answers(side).number_of(row)} "
        at = at if block.report.startswith(begin, at) else block.report.index(f"\n{begin}", at) + 1
        reply = side.answers.reply_of(block.report[at + len(begin) : block.report.index("\n", at)])
        if is_of_user and reply.word != "skip":
            connections.follow(row, reply, column)
        if row in killing:
            connections.take_kill(row, reply, column)


def _answers(side: Side) -> Tallies:
    assert isinstance(side.answers, Tallies)
    return side.answers


def _kills_in(side: Side, block: _Block) -> Iterator[int]:
    """The rows of a block that killed states, by limits and by an administrator."""
    text = block.report
    for word in (" kill:", " kill - "):
        at = text.find(word)
        while at >= 0:
            begin = text.rfind("\n", 0, at) + 1
            yield _answers(side)._row_at(text, text.index(" ", begin))
            at = text.find(word, at + 1)
