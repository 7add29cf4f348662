"""A trace under routes as one without: a record for each interface on which a packet was asked.

With routes a record is a packet's whole way. Each interface of it is one event of the machine. So rules without the
lines `set route` hold the same behind the records apart, as in a trace that was taken on all interfaces.
"""

from __future__ import annotations

import contextlib
import tempfile
from array import array
from collections.abc import Iterator, Sequence
from dataclasses import dataclass
from pathlib import Path
from typing import IO

from pfplan.answers.legs import Legs, Reply, reply_of
from pfplan.common.errors import Status, Trouble, reason_of
from pfplan.common.inputs import HEADER
from pfplan.pf.routes import Routes, routes_of
from pfplan.replays.runs import replayed
from pfplan.traces.insertions import asking
from pfplan.traces.records import End, Traces, read_answer

# What takes something along from the first interface to the second, which a record of the second does not show.
_CARRIED = frozenset(("tag", "tagged", "received-on", "nat-to", "rdr-to"))
_COLUMNS = 9


@dataclass(frozen=True)
class Apart:
    """Rules without routes, a trace of the legs of all packets, and for each row of the trace before the row of its
    last leg here."""

    rules: bytes
    trace: Path
    rows: Sequence[int]

    def row(self, row: int) -> int:
        """The row here of the last leg of a row."""
        return self.rows[row - 1]


@contextlib.contextmanager
def apart(rules: Path, shown: Sequence[str], trace: Path, entries: Sequence[str]) -> Iterator[Apart | None]:
    """The legs of a trace, each a record; None where a leg's record would not be answered as the leg is: where rules
    ask what a packet brings along from its first interface. The trace goes at the end.

    `shown` is the canonical text of the rules, and `entries` come by records. Trouble as the program's, and where the
    trace can't be written.
    """
    if any(_CARRIED.intersection(it.split()) for it in shown):
        yield None
        return
    text = "".join(f"{it}\n" for it in shown if not it.startswith("set route "))
    with tempfile.NamedTemporaryFile("w", prefix="pfplan-", encoding="latin-1", newline="\n") as file:
        try:
            rows = _write(file, rules, routes_of(shown), trace, entries)
            file.flush()
        except OSError as error:
            why = f"can't be copied into {tempfile.gettempdir()}: {reason_of(error)}"
            raise Trouble(f"{trace}: {why}", Status.FAILED) from None
        yield Apart(text.encode("latin-1"), Path(file.name), rows)


def _write(out: IO[str], rules: Path, routes: Routes, trace: Path, entries: Sequence[str]) -> Sequence[int]:
    """Writes the legs of a trace; answers the row of the last leg of each row."""
    legs, rows, row = Legs(routes), array("L"), 0
    known: dict[str, Reply] = {}
    out.write(f"{HEADER}\n")
    with asking(trace, 0, entries) as asked, replayed(rules, trace, asked, asked.heard(rules)) as report:
        for lines in Traces(trace).blocks():
            for line, said in zip(lines, report):
                text = said.partition(" ")[2]
                reply = known.get(text)
                if reply is None:
                    answer = read_answer(said)
                    assert not isinstance(answer, End)
                    reply = known[text] = reply_of(answer)
                for it in _records(legs, line, reply):
                    out.write(f"{it}\n")
                    row += 1
                rows.append(row)
    return rows


def _records(legs: Legs, line: str, reply: Reply) -> Iterator[str]:
    """The record of each leg of a record; of one of an administrator itself."""
    column = line.split(",")
    if len(column) != _COLUMNS or column[1] not in ("in", "out"):
        yield line
        return
    for it in legs.of((column[1], column[2]), column[4], column[6], column[8], reply):
        yield ",".join((column[0], *it.place, *column[3:8], it.flags))
