"""The word that gives an administrator's records, and what is checked of them before anything runs."""

from __future__ import annotations

import argparse
import contextlib
import re
import tempfile
from collections.abc import Collection, Iterator, Mapping, Sequence
from pathlib import Path

from pfplan.commands.words import file
from pfplan.common.inputs import name_of, regular
from pfplan.replays.runs import stream_blocks
from pfplan.traces.orders import Orders, read_orders

_TABLE = re.compile(r"[A-Za-z0-9_.-]{1,31}")


def add_records(parser: argparse.ArgumentParser) -> None:
    """Where records of an administrator stand."""
    parser.add_argument(
        "--records", type=file, metavar="FILE",
        help="a trace of an administrator's records alone (add, delete, expire, kill, held): each comes at its moment, "
        "behind the packets of that moment, under every ruleset",
    )  # fmt: skip


@contextlib.contextmanager
def orders_given(path: Path | None) -> Iterator[Orders | None]:
    """The records of a file, which are such that pfsrc takes them; None where no file is given. Trouble as
    `read_orders`, and with status 1 where a field of a record is refused."""
    if path is None:
        yield None
        return
    with regular(path) as kept:
        orders = read_orders(kept, Path(name_of(path)))
        _check_fields(kept, orders.tables)
        yield orders


def check_tables(orders: Orders | None, names: Sequence[str], tables: Sequence[Mapping[str, bool]]) -> None:
    """Trouble with status 1 where one of some rulesets, by their names, does not have a table that records name, or has
    it `const`, which `tables` say."""
    for name, has in zip(names, tables, strict=True):
        if orders:
            orders.check_tables(name, has)


def _check_fields(records: Path, tables: Collection[str]) -> None:
    """Trouble where pfsrc refuses a field of a record. It is asked under rules that have all tables: which of them the
    rulesets have is told by name."""
    with tempfile.NamedTemporaryFile("w", prefix="pfplan-") as rules:
        rules.writelines(f"table <{it}>\n" for it in tables if _TABLE.fullmatch(it))
        rules.flush()
        for _ in stream_blocks(Path(rules.name), records):
            pass
