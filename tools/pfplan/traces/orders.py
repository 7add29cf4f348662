"""An administrator's records of a file, which are put into a trace or into a play, and what they did."""

from __future__ import annotations

from collections import Counter
from collections.abc import Callable, Iterable, Mapping, Sequence
from dataclasses import asdict, dataclass, field
from pathlib import Path
from typing import Any

from pfplan.common.errors import Status, Trouble
from pfplan.common.figures import counted, moment_text
from pfplan.traces.records import KILL, ORDERS, End, Traces, read_answer, read_record

# those that name a table
OF_TABLES = ("expire", "add", "delete")


@dataclass(frozen=True)
class Orders:
    """The records of the file `name`, in its order. `tables` are those that they name, with the first row of each."""

    name: Path
    lines: tuple[str, ...]
    moments: tuple[int, ...]
    tables: Mapping[str, int]

    def told(self) -> str:
        """How many records there are, by what they do: `3 records of an administrator from kills (1 add, 2 kill)`."""
        words = Counter(it.split(",", 2)[1] for it in self.lines)
        kinds = ", ".join(f"{words[it]:,} {it}" for it in (*OF_TABLES, KILL, "held") if words[it])
        return f"{counted(len(self.lines), 'record')} of an administrator from {self.name.name} ({kinds})"

    def check_tables(self, rules: str, tables: Mapping[str, bool]) -> None:
        """Trouble with status 1 where rules of this name have no such table, or it is `const`, which `tables` says of
        each that they have."""
        for table, row in self.tables.items():
            if table not in tables:
                raise Trouble(f"{self.name}: row {row}: {rules} has no table <{table}>", Status.REFUSED)
            if tables[table]:
                why = f"table <{table}> of {rules} is const: no record changes it"
                raise Trouble(f"{self.name}: row {row}: {why}", Status.REFUSED)

    def doubts(self, first: int, last: int, of: str) -> list[str]:
        """That some of them come before all packets, or behind them, which are from the first moment to the last."""
        early, late = sum(it < first for it in self.moments), sum(it > last for it in self.moments)
        places = ((early, "before the first moment of", first), (late, "behind the last moment of", last))
        return [
            f"{self.name.name}: {counted(count, 'record comes', 'records come')} {where} {of}, {moment_text(moment)}"
            for count, where, moment in places
            if count
        ]


def read_orders(path: Path, name: Path) -> Orders:
    """The records of a file, whose name stands in messages. Trouble with status 1 where it is no trace, has no record,
    or one that is a packet or whose moment falls."""
    lines = [line for block in Traces(path, name).blocks() for line in block]
    moments: list[int] = []
    tables: dict[str, int] = {}
    for row, line in enumerate(lines, 1):
        try:
            record = read_record(line)
        except ValueError as error:
            raise Trouble(f"{name}: row {row}: {error}", Status.REFUSED) from None
        if record.direction not in ORDERS:
            why = "a packet, where records of an administrator are wanted: add, delete, expire, kill or held"
            raise Trouble(f"{name}: row {row}: {why}", Status.REFUSED)
        if moments and record.time < moments[-1]:
            raise Trouble(f"{name}: row {row}: the moment falls", Status.REFUSED)
        moments.append(record.time)
        if record.direction in OF_TABLES:
            tables.setdefault(record.interface, row)
    if not lines:
        raise Trouble(f"{name}: no record is in it", Status.REFUSED)
    return Orders(name, tuple(lines), tuple(moments), tables)


@dataclass
class Effects:
    """What records of an administrator did: entries that came into tables, that did not, by why (`held`: they were
    there, `conflict`, `full`), and that left them; and states that were taken out."""

    records: int = 0
    entries_added: int = 0
    entries_not_added: Counter[str] = field(default_factory=Counter)
    entries_removed: int = 0
    states_removed: int = 0

    def take(self, texts: Iterable[str]) -> None:
        """Counts what a report says of such records, behind the rows' numbers."""
        for it in texts:
            answer = read_answer(f"0 {it}")
            assert not isinstance(answer, End)
            self.records += 1
            self.entries_removed += answer.removed
            self.states_removed += answer.killed
            if answer.added == "added":
                self.entries_added += 1
            elif answer.added:
                self.entries_not_added[answer.added] += 1

    def to_json(self) -> dict[str, Any]:
        """The numbers for machines."""
        return asdict(self) | {"entries_not_added": dict(self.entries_not_added)}


def rows_told(several: Sequence[Sequence[Effects]]) -> list[tuple[str, list[list[int]]]]:
    """What effects come to, side by side: a name, and the numbers of each side; without those that are 0 everywhere."""
    counts: list[tuple[str, Callable[[Effects], int]]] = [
        ("states taken out by an administrator", lambda it: it.states_removed),
        ("entries added by an administrator", lambda it: it.entries_added),
        ("  not added: there already", lambda it: it.entries_not_added["held"]),
        ("  not added: there with the other sign", lambda it: it.entries_not_added["conflict"]),
        ("  not added: tables full", lambda it: it.entries_not_added["full"]),
        ("entries taken out by an administrator", lambda it: it.entries_removed),
    ]
    rows = [(name, [[count(it) for it in side] for side in several]) for name, count in counts]
    return [(name, cells) for name, cells in rows if any(any(side) for side in cells)]
