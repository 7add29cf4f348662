"""Entries of tables that come by records: which tables they are of, and that the answers are those of entries in the
text.
"""

import json
import random
import re
import unittest
from collections.abc import Sequence
from pathlib import Path

from pfplan.common.errors import Trouble
from pfplan.common.inputs import HEADER
from pfplan.tests.support import Done, FolderCase, pfplan
from pfplan.traces.entries import add_records, entries_of_rules, names_to_move

USERS = "198.51.100.0/24"
CONF = """set limit states 500
table <bad> persist
table <good> const { 198.51.100.7, !198.51.100.8 }
block in quick from <bad>
pass in quick from <good> no state
pass in proto tcp to any port 80 keep state (max 9, max-src-conn 2, overload <bad> flush)
"""
SHOWN = "   198.51.100.1\n   198.51.100.64/26\n  !198.51.100.77\n   2001:db8::/32\n"


def packets(seed: int, count: int, begin: int = 1000) -> list[str]:
    """First packets of some sources, one after another."""
    draw = random.Random(seed)
    return [
        f"{begin + it // 9},in,em0,tcp,198.51.100.{draw.randint(1, 99)},{1024 + it},192.0.2.1,80,S"
        for it in range(count)
    ]


def addresses(seed: int, count: int) -> list[str]:
    """So many addresses that are drawn."""
    draw, found = random.Random(seed), set[int]()
    while len(found) < count:
        found.add(draw.getrandbits(32))
    return [".".join(str(it >> shift & 255) for shift in (24, 16, 8, 0)) for it in found]


class Persisting(FolderCase):
    """A table that persists, with what pfctl shows of it."""

    def setUp(self) -> None:
        super().setUp()
        self.conf = self.write("pf.conf", CONF)
        self.shown = self.write("shown", SHOWN)
        self.rules = self.folder / "rules"
        self.made("rules")

    def made(self, name: str) -> Done:
        """Makes the rules text, with the entries beside it."""
        return pfplan("rules", self.conf, "--entries", f"bad={self.shown}", "--out", self.folder / name)

    def in_text(self) -> Path:
        """A rules text of the same name and lines with the same entries, all in it: that of standard output."""
        (self.folder / "text").mkdir(exist_ok=True)
        return self.write("text/rules", "# here\n" + pfplan("rules", self.conf, "--entries", f"bad={self.shown}").out)

    def test_rules(self) -> None:
        """The text has none of the entries, and says of them; the file beside it is a trace of them."""
        text = self.rules.read_text()
        self.assertIn("\ntable <bad> persist\n", text)
        self.assertIn("table <good> const { 198.51.100.7, !198.51.100.8 }\n", text)
        entries = ["198.51.100.1", "198.51.100.64/26", "!198.51.100.77", "2001:db8::/32"]
        self.assertEqual(
            (self.folder / "rules.entries").read_text().splitlines(),
            [HEADER, *(f"0,add,bad,,{it},,,," for it in entries)],
        )
        self.assertEqual(list(add_records(self.rules, 77)), [f"77,add,bad,,{it},,,," for it in entries])
        self.assertIn("table <bad> persist { 198.51.100.1, ", self.in_text().read_text())

    def test_same_answers(self) -> None:
        """Every command answers as with the entries in the text, by the rows of the trace."""
        trace = self.trace([*packets(1, 300), "1100,expire,bad,,,90,,,", *packets(2, 99, 1101)])
        both, folders = (self.rules, self.in_text()), (self.folder / "one", self.folder / "other")
        for rules, into in zip(both, folders):
            self.assertEqual(pfplan("run", rules, trace, "--into", into, "--users", USERS, "--held", 5).status, 0)
        self.assertEqual(*((it / "report").read_text() for it in folders))
        self.assertEqual(*(json.loads((it / "summary.json").read_text()) for it in folders))
        words = ("--users", USERS, "--held", 5)
        self.assertEqual(*(json.loads(pfplan("measure", it, trace, *words).out) for it in both))
        report = folders[0] / "report"
        self.assertEqual(*(pfplan("summary", report, "--trace", trace, "--rules", it, "--held", 3).out for it in both))
        self.assertEqual(*(self._runs("size", it, trace, "--vary", "max=2..40", "--runs", 5) for it in both))
        self.assertEqual(*(self._runs("margins", it, trace) for it in both))
        answer = json.loads(pfplan("compare", *both, trace, *words, "--json").out)
        self.assertEqual(
            (answer["against_first"][0]["parting"], *(it["end"]["entries"] for it in answer["sides"])), (None, 2, 2)
        )
        self.assertIn("# entries: 4 by records", "".join(answer["against_first"][0]["lines"]["first_only"]))

    def _runs(self, command: str, rules: Path, trace: Path, *words: object) -> str:
        ended = pfplan(command, rules, trace, "--users", USERS, "--json", "--held", 2, "--jobs", 2, *words)
        self.assertEqual((ended.status, ended.err), (0, ""))
        return ended.out

    def test_made_again(self) -> None:
        """A rules text that is made again keeps them; from standard output they are in the text."""
        again = self.folder / "again"
        pfplan("rules", self.rules, "--out", again)
        self.assertEqual(*(it.read_text() for it in (self.rules, again)))
        self.assertEqual(*((self.folder / f"{it}.entries").read_text() for it in ("rules", "again")))
        self.assertEqual("# here\n" + pfplan("rules", self.rules).out, self.in_text().read_text())

    def test_other_entries(self) -> None:
        """Entries that are not there, or others than those of the text, are refused by every command: none answers
        without them.
        """
        trace, beside = self.trace(packets(3, 9)), self.folder / "rules.entries"
        kept = beside.read_text()
        beside.write_text(kept.replace("198.51.100.1,", "198.51.100.2,"))
        self._refused(trace, f"{beside}: not the entries that were written with {self.rules}")
        beside.write_text(kept.replace("add", "delete", 1))
        self._refused(trace, f"{beside}: row 1: no entry of a table")
        beside.unlink()
        self._refused(trace, f"{self.rules}: its tables get 4 entries from {beside}, which is not there")
        ended = pfplan("rules", stdin=self.rules.read_text())
        self.assertEqual((ended.status, ended.out), (3, ""))

    def _refused(self, trace: Path, why: str) -> None:
        into = self.folder / "answer"
        calls: Sequence[tuple[object, ...]] = (
            ("run", self.rules, trace, "--into", into), ("measure", self.rules, trace),
            ("compare", self.rules, self.rules, trace),
            ("size", self.rules, trace, "--users", USERS, "--vary", "max=2..3"), ("margins", self.rules, trace),
            ("rules", self.rules),
        )  # fmt: skip
        for words in calls:
            ended = pfplan(*words)
            self.assertEqual((ended.status, ended.out), (3, ""), words)
            self.assertIn(why, ended.err)
        self.assertFalse(into.exists())

    def test_too_many(self) -> None:
        """Entries that go past a limit that is varied are a refusal, as they are in the text."""
        trace = self.trace(packets(4, 30))
        answer = json.loads(self._runs("size", self.rules, trace, "--vary", "table-entries=5..6", "--runs", 2))
        self.assertEqual([it["refused"].partition(":")[0] for it in answer["runs"]], ["TooManyEntries", ""])


class TooLarge(FolderCase):
    """Tables that do not fit into a rules text."""

    def conf(self, *tables: str) -> Path:
        """A pf.conf whose tables are of the files of their names."""
        lines = [f'table <{it}> {it.split(".")[-1]} file "{it}"' for it in tables]
        rules = [f"block in quick from <{it}>" for it in tables]
        return self.write("pf.conf", "".join(f"{it}\n" for it in [*lines, *rules, "pass in proto tcp to any port 80"]))

    def test_two_tables(self) -> None:
        """Two tables of 100,000 addresses each work, the whole of what pf takes by default; of a third entry too many
        it is said.
        """
        for at, name in enumerate(("a.persist", "b.const")):
            self.write(name, "\n".join(addresses(at, 100_000)))
        conf = self.conf("a.persist", "b.const")
        chosen = [addresses(at, 100_000)[it] for at in range(2) for it in (0, 70_000, 99_999)]
        records = [f"9,in,em0,tcp,{it},1024,192.0.2.1,80,S" for it in [*chosen, "198.51.100.1"]]
        into = self.folder / "answer"
        ended = pfplan("run", conf, self.trace(records), "--into", into, "--held", 2)
        self.assertEqual(ended.status, 0)
        report = (into / "report").read_text().splitlines()
        self.assertEqual(report[-1].split()[-1], "entries=200000")
        self.assertEqual([it.split()[1] for it in report[:7]], ["block"] * 6 + ["new"])
        self.assertIn("the table is not const here", (into / "left-out.txt").read_text())
        self.assertLess((into / "rules").stat().st_size, 1000)
        ended = pfplan("rules", conf)
        self.assertEqual((ended.status, ended.out), (3, ""))
        self.assertIn("with --out FILE, entries of tables go into FILE.entries", ended.err)
        self.write("b.const", "\n".join(addresses(1, 100_001)))
        self.assertIn(
            "stands for 200001 entries of tables", pfplan("run", conf, self.trace(records), "--into", into).err
        )

    def test_which(self) -> None:
        """The largest go, as few as are needed; small ones stay, and so does a const one that an overload names."""
        lines = [f"table <{name}>{part} {{ {', '.join(addresses(1, count))} }}" for name, part, count in
                 (("a", "", 50), ("b", " const", 90), ("c", " persist", 80), ("d", " const", 95))]  # fmt: skip
        lines.append("pass keep state (max-src-conn 1, overload <d>)")
        size = sum(len(it) + 1 for it in lines)
        self.assertEqual(names_to_move(lines, (), size + 200), {})
        self.assertEqual(names_to_move(lines, ("a",), size + 200), {"a": (50, False)})
        self.assertEqual(names_to_move(lines, (), size - 1000), {"b": (90, True)})
        self.assertEqual(names_to_move(lines, (), size - 2000), {"b": (90, True), "c": (80, False)})
        self.assertEqual(list(names_to_move(lines, (), 1)), ["b", "c", "a"])

    def test_no_comment(self) -> None:
        """A text without the comment has no such entries, whatever lies beside it."""
        self.write("rules.entries", "nothing")
        self.assertEqual(entries_of_rules(self.write("rules", "pass\n")), [])
        with self.assertRaises(Trouble):
            entries_of_rules(
                self.write(
                    "rules",
                    f"# entries: 1 by records, sha256 {'0' * 64}, in the file of this name with .entries behind it\n",
                )
            )
        self.assertTrue(re.match("pass", (self.folder / "rules").read_text()) is None)


if __name__ == "__main__":
    unittest.main()
