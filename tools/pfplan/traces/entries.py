"""Entries of tables that come by records, before the first packet: those of tables that a rules text can't hold, and
what a table that persists holds today.

They stand beside the rules text RULES in the file RULES.entries: a trace of `add` records at moment 0. A comment in
the text says how many there are, with their SHA-256, so that no other entries are taken for them. In a replay they
come at the moment of the first packet, as entries of a rules text do.
"""

import hashlib
import re
from collections.abc import Collection, Iterable, Iterator, Sequence
from pathlib import Path
from typing import TextIO

from pfplan.common.errors import Status, Trouble
from pfplan.common.inputs import HEADER
from pfplan.traces.records import Traces

ENDING = ".entries"
_PLACE = "in the file of this name with .entries behind it"
_MARK = re.compile(rf"^# entries: (\d{{1,10}}) by records, sha256 ([0-9a-f]{{64}}), {re.escape(_PLACE)}$", re.MULTILINE)
_TABLE = re.compile(r"table <([^>]+)>((?: [a-z]+)*)(?: \{ (.*) \})?")
_OVERLOAD = re.compile(r"overload <([^>]+)>")
# bytes that the comment takes at most
_ROOM = 200
_RECORD = re.compile(r"0,add,[A-Za-z0-9_.-]{1,31},,!?[0-9A-Fa-f.:/]{2,43},,,,")


def beside(rules: Path) -> Path:
    """The file beside a rules text that has the entries of its tables."""
    return rules.with_name(rules.name + ENDING)


def mark_of(records: Sequence[str]) -> str:
    """The comment of a rules text whose tables get their entries by these records."""
    return f"# entries: {len(records)} by records, sha256 {_digest(records)}, {_PLACE}"


def names_to_move(lines: Sequence[str], names: Collection[str], most: int) -> dict[str, tuple[int, bool]]:
    """The tables that get their entries by records: those of these names, and the largest ones until the text has at
    most so many bytes.

    Of each: how many entries it has, and whether it is `const`. One that is, and that an `overload` names, stays:
    pfsrc refuses it.
    """
    tables = {it[1]: it for line in lines if line.startswith("table ") and (it := _TABLE.fullmatch(line)) and it[3]}
    constant = {name for name, it in tables.items() if "const" in it[2].split()}
    moving = [it for it in tables if it in names]
    size = sum(len(it) + 1 for it in lines) - sum(len(tables[it][3]) for it in moving)
    fixed = {*moving, *(constant & {name for line in lines for name in _OVERLOAD.findall(line)})}
    for name in sorted(set(tables) - fixed, key=lambda it: (-len(tables[it][3]), it)):
        if size + _ROOM <= most:
            break
        moving.append(name)
        size -= len(tables[name][3])
    return {it: (tables[it][3].count(",") + 1, it in constant) for it in moving}


def moved(lines: Sequence[str], names: Collection[str]) -> tuple[list[str], list[str]]:
    """The lines of a rules text in which the tables of these names have no entries, and the records that give them
    theirs.

    None of these is `const` any more: to such a table nothing can be added.
    """
    left, records = [], []
    for line in lines:
        found = _TABLE.fullmatch(line)
        if found and found[1] in names and found[3]:
            records += [f"0,add,{found[1]},,{it},,,," for it in found[3].split(", ")]
            parts = " ".join(it for it in found[2].split() if it != "const")
            line = f"table <{found[1]}> {parts}".rstrip()
        left.append(line)
    return left, records


def write_entries(out: TextIO, records: Sequence[str]) -> None:
    """Writes the file that stands beside a rules text."""
    out.writelines(f"{it}\n" for it in (HEADER, *records))


def read_entries(path: Path) -> list[str]:
    """The records of such a file. Trouble with status 3 where it holds others, and as Traces where it can't be read
    or is no trace.
    """
    found = [line for lines in Traces(path).blocks() for line in lines]
    for row, line in enumerate(found, 1):
        if not _RECORD.fullmatch(line):
            why = "no entry of a table that comes by a record, as 0,add,bad,,198.51.100.1,,,,"
            raise Trouble(f"{path}: row {row}: {why}", Status.RULES)
    return found


def entries_of_rules(rules: Path, name: Path | None = None) -> list[str]:
    """The records by which tables of a rules text get their entries; none where its text has no such comment.

    `rules` is a regular file, and `name` its name where it is a copy of what a pipe gave. Trouble as `entries_of_text`.
    """
    try:
        return entries_of_text(rules.read_bytes().decode("latin-1"), name or rules)
    except OSError:
        return []  # the program says what is wrong with the file


def entries_of_text(text: str, name: Path) -> list[str]:
    """The records by which tables of a rules text in a file of this name get their entries.

    Trouble with status 3 where the file beside it is not there, or is not the one that was written with the text.
    """
    found = marked(text)
    if found is None:
        return []
    path = beside(name)
    if not path.exists():
        raise Trouble(f"{name}: its tables get {found[0]:,} entries from {path}, which is not there", Status.RULES)
    records = read_entries(path)
    if _digest(records) != found[1]:
        raise Trouble(f"{path}: not the entries that were written with {name}", Status.RULES)
    return records


def marked(text: str) -> tuple[int, str] | None:
    """How many records give tables of a rules text their entries, and their SHA-256; None where it says of none."""
    found = _MARK.findall(text)
    return (int(found[-1][0]), found[-1][1]) if found else None


def by_table(records: Iterable[str]) -> dict[str, list[str]]:
    """The entries of each table that such records give."""
    found: dict[str, list[str]] = {}
    for it in records:
        part = it.split(",")
        found.setdefault(part[2], []).append(part[4])
    return found


def records_at(records: Iterable[str], moment: int) -> Iterator[str]:
    """The records at another moment."""
    return (f"{moment}{it.removeprefix('0')}" for it in records)


def add_records(rules: Path, moment: int) -> Iterator[str]:
    """The `add` records that are to come before the first packet of a replay of these rules, at its moment. Trouble
    as `entries_of_rules`.
    """
    return records_at(entries_of_rules(rules), moment)


def _digest(records: Iterable[str]) -> str:
    return hashlib.sha256("".join(f"{it}\n" for it in records).encode("latin-1")).hexdigest()
