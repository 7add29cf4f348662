"""Records that are put into a trace: what is held is what a replay of each beginning holds at its end, and rows are
the trace's own.
"""

import json
import random
import subprocess
import unittest
from collections.abc import Sequence
from pathlib import Path

from pfplan.answers.connections import KINDS
from pfplan.answers.summaries import held_at
from pfplan.common.errors import Trouble
from pfplan.common.inputs import HEADER
from pfplan.common.repository import program
from pfplan.replays.runs import stream_blocks
from pfplan.tests.support import FolderCase, pfplan
from pfplan.traces.insertions import HeldCounts, asking
from pfplan.traces.rows import Rows

RULES = """set profile openbsd-7.4
set timeout { tcp.first 3, udp.first 2, interval 1, src.track 4 }
table <bad> persist { 203.0.113.9 }
block in quick from <bad>
pass in proto tcp to any port 80 keep state (max 9, max-src-conn 2, overload <bad> flush)
pass in proto udp all keep state (source-track rule)
"""
USERS = "198.51.100.0/24"


def drawn_records(seed: int, count: int) -> list[str]:
    """Packets of some sources over some minutes, and an administrator's records."""
    draw = random.Random(seed)
    time, found = draw.randint(0, 99), []
    for _ in range(count):
        time += draw.choice([0, 0, 0, 1, 1, 2, 7])
        source = f"198.51.100.{draw.randint(1, 9)},{draw.randint(1, 3)}"
        packets = [f"{time},in,em0,tcp,{source},192.0.2.1,80,{flags}" for flags in ("S", "A")]
        answer = f"{time},out,em0,tcp,192.0.2.1,80,{source},SA"
        orders = [
            f"{time},held,,,,,,,",
            f"{time},add,bad,,198.51.100.{draw.randint(1, 9)},,,,",
            f"{time},expire,bad,,,5,,,",
        ]
        found.append(draw.choice([*packets, answer, f"{time},in,em0,udp,{source},192.0.2.1,53,", *orders]))
    return found


def with_kills(records: Sequence[str], seed: int) -> list[str]:
    """The records, some of which are followed by one that takes out states."""
    draw, found = random.Random(seed), list[str]()
    for it in records:
        found.append(it)
        if draw.random() < 0.05:
            ends = f"198.51.100.{draw.randint(1, 9)}{draw.choice(('', '/30'))},,{draw.choice(('', '192.0.2.1'))}"
            found.append(f"{it.partition(',')[0]},kill,,,{ends},,")
    return found


def held_by_beginnings(
    rules: Path, folder: Path, records: Sequence[str], moments: Sequence[int]
) -> list[tuple[int, ...]]:
    """What is held at some moments, by a replay of the records that are not after each, and of one that is skipped."""
    found = []
    for moment in moments:
        lines = [
            HEADER,
            *(it for it in records if int(it.partition(",")[0]) <= moment),
            f"{moment},in,em0,icmp,192.0.2.1,,192.0.2.2,,",
        ]
        (folder / "beginning").write_text("".join(f"{it}\n" for it in lines))
        done = subprocess.run(
            [program(), "replay", rules, folder / "beginning"], capture_output=True, text=True, check=True
        )
        end = done.stdout.splitlines()[-1].split()
        found.append((moment, *(int(it.partition("=")[2]) for it in end[2:])))
    return found


class RowNumbers(unittest.TestCase):
    """Both numbers of a row."""

    def test_drawn(self) -> None:
        """For drawn places they are those of a list in which each record is put by itself."""
        for seed in range(200):
            draw = random.Random(seed)
            count = draw.randint(0, 10)
            places = {draw.randint(0, count): draw.randint(1, 3) for _ in range(draw.randint(0, 4))}
            whole: list[int | None] = []
            for row in range(count + 1):
                whole += [None] * places.get(row, 0) + ([row + 1] if row < count else [])
            self._check(Rows(sorted(places.items())), whole, draw)

    def _check(self, rows: Rows, whole: Sequence[int | None], draw: random.Random) -> None:
        self.assertEqual([rows.own(it) for it in range(1, len(whole) + 1)], whole)
        self.assertEqual(rows.put_in, whole.count(None))
        own = [row for row, it in enumerate(whole, 1) if it]
        first = draw.randint(1, len(own) + 1)
        count = draw.randint(0, len(own) - first + 1)
        parts = rows.parts(first, count)
        self.assertEqual(
            [it for begin, many in parts for it in range(begin, begin + many)], own[first - 1 : first - 1 + count]
        )
        begin = draw.randint(1, len(whole) + 1)
        lines = [str(it) for it in range(begin, len(whole) + 1)]
        parted = ([it for it in lines if whole[int(it) - 1]], [it for it in lines if not whole[int(it) - 1]])
        self.assertEqual(rows.parted(begin, lines), parted)


class Questions(FolderCase):
    """How much is held when."""

    def test_beginnings(self) -> None:
        """What is held at each moment is what a replay of the beginning holds at its end."""
        rules = self.write("rules", RULES)
        for seed in range(6):
            records = drawn_records(seed, 150)
            held = held_at(rules, self.trace(records), 7)
            self.assertEqual(len(held), 7)
            found = [(it.moment, it.states, it.nodes, it.entries) for it in held]
            self.assertEqual(found, held_by_beginnings(rules, self.folder, records, [it.moment for it in held]))

    def test_odd_lines(self) -> None:
        """Lines that end otherwise, blank lines and a last line without its end are read as pfsrc reads them."""
        rules, records = self.write("rules", RULES), drawn_records(3, 60)
        wanted = held_at(rules, self.trace(records), 5)
        plain = "".join(f"{it}\n" for it in (HEADER, *records))
        for text in (plain.replace("\n", "\r\n"), plain.replace("\n", "\n\n", 9), plain[:-1], "\xef\xbb\xbf" + plain):
            self.assertEqual(held_at(rules, self.write("odd", text), 5), wanted)

    def test_few_records(self) -> None:
        """One moment is the last; a trace of one moment has one, and one without records none."""
        rules = self.write("rules", RULES)
        self.assertEqual(
            [it.moment for it in held_at(rules, self.trace(drawn_records(1, 50)), 1)],
            [int(drawn_records(1, 50)[-1].split(",")[0])],
        )
        self.assertEqual(
            held_at(rules, self.trace(["5,in,em0,udp,198.51.100.1,1,192.0.2.1,53,"]), 9), [HeldCounts(5, 1, 1, 1)]
        )
        self.assertEqual(held_at(rules, self.trace([]), 9), [])

    def test_own_rows(self) -> None:
        """A report and its counts are those of a replay without questions."""
        rules, trace = self.write("rules", RULES), self.trace(drawn_records(2, 400))
        alone = [line for lines in stream_blocks(rules, trace) for line in lines]
        into = self.folder / "answer"
        self.assertEqual(
            pfplan("run", rules, trace, "--into", into, "--users", USERS, "--held", 9).err.count("pfplan"), 0
        )
        self.assertEqual((into / "report").read_text().splitlines(), alone)
        answer = json.loads((into / "summary.json").read_text())
        self.assertEqual((answer["records"], len(answer["held"])), (400, 9))
        self.assertEqual(set(answer["users"]["outcomes"]), set(KINDS))
        measures = [json.loads(pfplan("measure", rules, trace, "--users", USERS, "--held", it).out) for it in (0, 9)]
        self.assertEqual(measures[0] | {"most_held": None}, measures[1] | {"most_held": None})
        self.assertEqual(measures[1]["most_held"], max(it["states"] for it in [*answer["held"], answer["end"]]))

    def test_faults(self) -> None:
        """A fault is told by its row in the trace, whatever was put in before it."""
        rules, records = self.write("rules", RULES), drawn_records(4, 100)
        for row, record, why in (
            (50, "x,in,em0", "columns"),
            (51, "0,held,,,,,,,", "time falls"),
            (100, "9999,flush,,,,,,,", "field 2"),
        ):
            trace = self.trace([*records[: row - 1], record, *records[row:]])
            with self.assertRaises(Trouble) as raised:
                held_at(rules, trace, 20)
            self.assertEqual(raised.exception.message, f"{trace}: row {row}: {why}")
            self.assertIn(f"{trace}: row {row}: {why}", pfplan("measure", rules, trace, "--held", 20).err)

    def test_no_program_that_answers(self) -> None:
        """A program that does not know the records is told."""
        rules, trace = self.write("rules", RULES), self.trace(drawn_records(5, 1))
        old = self.write("old", "#!/bin/sh\ncat >/dev/null\necho 1 new @0\necho 'trace: row 2: field 2' >&2\nexit 1\n")
        old.chmod(0o755)
        ended = pfplan("measure", rules, trace, "--held", 3, env={"PFSRC": str(old)})
        self.assertEqual((ended.status, ended.out), (4, ""))
        self.assertIn(f"refuses a record that was put into {trace}: field 2", ended.err)

    def test_nothing_put_in(self) -> None:
        """Without questions and entries the file itself is replayed."""
        with asking(self.trace(["5,held,,,,,,,"]), 0) as asked:
            self.assertIsNone(asked.insertions)


class Orders(FolderCase):
    """An administrator's records in a trace."""

    RECORDS = (
        "5,in,em0,udp,198.51.100.1,1,192.0.2.1,53,", "5,held,,,,,,,", "6,add,bad,,198.51.100.0/24,,,,",
        "6,add,bad,,!198.51.100.1,,,,", "6,in,em0,udp,198.51.100.2,1,192.0.2.1,53,",
        "7,delete,bad,,198.51.100.0/24,,,,", "8,expire,bad,,,1,,,",
    )  # fmt: skip

    def test_counted(self) -> None:
        """They are counted by their words, and are no packets: their tables are no interfaces, and their entries no
        sources.
        """
        rules, trace = self.write("rules", RULES), self.trace(self.RECORDS)
        into = self.folder / "answer"
        pfplan("run", rules, trace, "--into", into, "--users", USERS, "--held", 2)
        answer = json.loads((into / "summary.json").read_text())
        found = {word: count for word, count in answer["words"].items() if count}
        self.assertEqual(found, {"new": 1, "block": 1, "held": 1, "add": 2, "delete": 1, "expire": 1})
        self.assertEqual([it["address"] for it in answer["sources"]["seen"]], ["198.51.100.1", "198.51.100.2"])
        self.assertEqual(
            (answer["users"]["connections"], answer["interfaces"]), (2, {"without_records": [], "without_rules": []})
        )

    def test_compared(self) -> None:
        """Rulesets that take an entry otherwise part there."""
        one, trace = self.write("one", RULES), self.trace(self.RECORDS)
        other = self.write("other", f"set limit table-entries 1\n{RULES}")
        answer = json.loads(pfplan("compare", one, other, trace, "--users", USERS, "--json", "--held", 3).out)
        self.assertEqual(answer["against_first"][0]["parting"]["row"], 5)
        self.assertEqual([it["most_held"] for it in answer["sides"]], [1, 2])


if __name__ == "__main__":
    unittest.main()
