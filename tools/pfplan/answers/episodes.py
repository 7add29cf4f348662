"""The records of one source in a replay, in runs that had the same answer."""

from __future__ import annotations

from collections.abc import Callable, Iterator
from dataclasses import dataclass
from itertools import islice
from pathlib import Path

from pfplan.answers.cookies import Cookies
from pfplan.answers.legs import Legs
from pfplan.common.errors import Status, Trouble
from pfplan.traces.records import ORDERS, Answer, End, Record, Traces, line_blocks, read_answer, read_record

PASSING = ("new", "state", "proxy", "pass")


@dataclass(frozen=True, slots=True)
class Event:
    """A record, its row, and what it got."""

    row: int
    record: Record
    answer: Answer


@dataclass(slots=True)
class Episode:
    """Records behind one another that had one kind of answer by one rule: the first, how many, and the last second."""

    first: Event
    records: int
    last: int
    made: int
    opened: Event | None  # the first that asked for a state of its own

    @property
    def are_packets(self) -> bool:
        """Whether they are packets, and not an administrator's."""
        return self.first.record.direction not in ORDERS

    @property
    def is_let_in(self) -> bool:
        """Whether they went through."""
        return self.first.answer.decisive.word in PASSING


def events(trace: Path, report: Path, wanted: Callable[[Record], bool]) -> Iterator[Event]:
    """The records that are wanted, with their answers. Trouble where trace and report are not of one replay."""
    row = 0
    answers = (it for block in line_blocks(report) for it in block)
    for lines in Traces(trace).blocks():
        answered = list(islice(answers, len(lines)))
        for line, text in zip(lines, answered):
            row += 1
            try:
                record = read_record(line)
                answer = read_answer(text) if wanted(record) else None
            except ValueError as error:
                raise Trouble(f"{trace}: row {row}: {error}", Status.REFUSED) from None
            if answer is None:
                continue
            if isinstance(answer, End) or answer.row != row:
                raise Trouble(
                    f"{report}: line {row}: no answer to the record of this row: it is not the report of {trace}",
                    Status.REFUSED,
                )
            yield Event(row, record, answer)
        if len(answered) < len(lines):
            raise Trouble(f"{trace}: row {row + 1}: the trace has more records than {report}", Status.REFUSED)


def is_opening(record: Record) -> bool:
    """Whether a packet asks for a state of its own: a first SYN, or any packet of another protocol."""
    if record.direction in ORDERS:
        return False
    return not record.flags or "S" in record.flags and "A" not in record.flags


def _kind(event: Event) -> tuple[str, tuple[str, ...]]:
    """What became of a packet, and the rules of the interfaces that were asked."""
    word = event.answer.decisive.word
    return ("in" if word in PASSING else word), tuple(it.rule for it in event.answer.legs)


def episodes(found: Iterator[Event], legs: Legs) -> list[Episode]:
    """The runs of some records. Two kinds of answers that take turns are one run each time."""
    runs: list[Episode] = []
    cookies = Cookies()
    for it in found:
        one = it.record
        ends = (one.protocol, one.source, one.source_port, one.target, one.target_port)
        way, _ = legs.first((one.direction, one.interface), one.source)
        made = int(cookies.makes(it.answer.word, one.time, way, ends, one.flags))
        made += sum(leg.word == "new" for leg in it.answer.legs)
        if runs and _kind(runs[-1].first) == _kind(it):
            run = runs[-1]
            run.records += 1
            run.last = it.record.time
            run.made += made
            if run.opened is None and is_opening(it.record):
                run.opened = it
            continue
        runs.append(Episode(it, 1, it.record.time, made, it if is_opening(it.record) else None))
    return runs
