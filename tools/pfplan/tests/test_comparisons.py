"""Rulesets side by side: their words, where they part, and what becomes of connections under each."""

import json
import unittest
from collections.abc import Sequence
from pathlib import Path

from pfplan.answers.comparisons import Fates, Pairs, count_steps
from pfplan.answers.sides import Met, Picks, Side, common_text, follow, side_of
from pfplan.answers.stepping import steps_of
from pfplan.answers.summaries import Wanted, summarize
from pfplan.commands.words import network, networks
from pfplan.common.errors import Trouble
from pfplan.common.progress import Progress
from pfplan.tests.support import STAND_IN, FolderCase, pfplan

USERS = networks("198.51.100.0/24")
ENV = {"PFSRC": str(STAND_IN)}


def user(flags: str, moment: int = 0, port: int = 1000, host: int = 7) -> str:
    """A record from a user to the server."""
    return f"{moment},in,em0,tcp,198.51.100.{host},{port},192.0.2.1,80,{flags}"


def server(flags: str, moment: int = 0, port: int = 1000, host: int = 7) -> str:
    """A record from the server to a user."""
    return f"{moment},out,em0,tcp,192.0.2.1,80,198.51.100.{host},{port},{flags}"


def report(*texts: str) -> list[str]:
    """The lines of a report."""
    return [
        *(f"{row} {text}" for row, text in enumerate(texts, 1)),
        f"end rows={len(texts)} states=1 nodes=2 entries=3",
    ]


class Following(FolderCase):
    """A trace and reports that are read side by side."""

    def follow(self, records: Sequence[str], *reports: Sequence[str]) -> tuple[list[Side], Fates, Pairs]:
        """The sides, the fates and the pairs after the whole trace."""
        fates = Fates(len(reports), 3)
        sides = [side_of(f"r{at}", iter(it), USERS, fates.ended(at)) for at, it in enumerate(reports)]
        pairs = Pairs(sides, [[f"rule {it}" for it in range(3)] for _ in sides], Progress("", 0, ""))
        follow(self.trace(records), sides, USERS, pairs.take)
        fates.finish()
        return sides, fates, pairs

    def test_parting_and_words(self) -> None:
        records = [user("S"), server("SA"), user("A", 4), user("S", 5, 1001)]
        _, _, pairs = self.follow(
            records,
            report("new @1", "state @1", "state @1", "new @1"),
            report("new @2", "state @2", "block @0", "drop:states @2"),
        )
        self.assertEqual(
            pairs.texts[0], {("new", "new"): 1, ("state", "state"): 1, ("state", "block"): 1, ("new", "drop:states"): 1}
        )
        parting = pairs.partings[0]
        assert parting is not None
        self.assertEqual(
            (parting.row, parting.record.time, parting.texts, parting.rules),
            (3, 4, ("state @1", "block @0"), ("rule 1", "rule 0")),
        )

    def test_other_numbers_of_rules_do_not_part(self) -> None:
        _, _, pairs = self.follow([user("S")], report("new @1"), report("new @2"))
        self.assertIsNone(pairs.partings[0])

    def test_fates(self) -> None:
        records = [
            user("S"),
            server("SA"),
            user("A"),
            user("FA"),
            user("S", 1, 1001),
            user("S", 2, 1000),
            user("S", 9, 1002),
        ]
        one = report("new @1", "state @1", "state @1", "state @1", "new @1", "new @1", "block @1")
        other = report("block @1", "block @1", "block @1", "block @1", "drop:max @1", "block @1", "block @1")
        _, fates, _ = self.follow(records, one, other)
        self.assertEqual(
            fates.counts[0],
            {("served", "refused"): 1, ("unanswered", "refused"): 1, ("unanswered", "-"): 1, ("refused", "refused"): 1},
        )
        self.assertEqual(
            [(it.row, it.fates) for it in fates.changed[0]],
            [(1, ("served", "refused")), (5, ("unanswered", "refused")), (6, ("unanswered", "-"))],
        )

    def test_same_as_summary(self) -> None:
        records = [user("S"), server("SA"), user("A"), user("S", 1, 1001), user("A", 1, 1001), server("SA", 2, 5, 9)]
        texts = ("new @1", "state @1", "kill:max-src-conn @1 overload=added killed=1", "new @1", "block @1", "state @1")
        sides, _, _ = self.follow(records, report(*texts))
        ended = pfplan(
            "summary", self.report(texts), "--trace", self.folder / "trace", "--users", "198.51.100.0/24", "--json"
        )
        users = json.loads(ended.out)["users"]
        self.assertEqual({it: sides[0].connections.outcomes[it] for it in users["outcomes"]}, users["outcomes"])
        self.assertEqual(sides[0].connections.without_beginning, users["without_beginning"])
        self.assertEqual((users["outcomes"]["killed"], users["outcomes"]["cut"]), (1, 1))

    def test_steps_are_those_of_a_summary(self) -> None:
        texts = ["new @1", "drop:max @1", "kill:max-src-conn @1 overload=added killed=3"] * 300
        records = [user("S", 5 + at // 3, 1000 + at) for at in range(900)]
        trace = self.trace(records)
        steps = steps_of(trace)
        side = side_of("r", iter(report(*texts)), USERS, None, steps.hear)
        follow(trace, [side], USERS, lambda row, lines: count_steps(steps, side, lines))
        summary = summarize(self.report(texts), Wanted(trace, USERS))
        self.assertEqual((steps.seconds, steps.whole()), (summary.step_seconds, summary.steps))

    def test_moments_of_limits(self) -> None:
        records = [user("S", moment, 1000 + moment) for moment in range(9)]
        texts = [
            "new @1",
            "drop:max @1",
            "drop:max @1",
            "new @1",
            "drop:states @1",
            "new @1",
            "drop:max @1",
            "new @1",
            "new @1",
        ]
        sides, _, _ = self.follow(records, report(*texts))
        self.assertEqual(sides[0].met, {"drop:max": Met(1, 6), "drop:states": Met(4, 4)})

    def test_many_blocks(self) -> None:
        records = [user("S", row // 1000, 1000 + row % 60000, row % 250) for row in range(40000)]
        texts = ["new @1"] * 39999 + ["drop:states @1"]
        sides, fates, pairs = self.follow(records, report(*texts), report(*["new @1"] * 40000))
        parting = pairs.partings[0]
        assert parting is not None
        self.assertEqual(parting.row, 40000)
        self.assertEqual(sides[0].met["drop:states"], Met(39, 39))
        self.assertEqual(sum(fates.counts[0].values()), 40000)

    def test_reports_that_do_not_fit(self) -> None:
        rows: tuple[tuple[list[str], str], ...] = (
            (report("new @1"), "the trace has more records"),
            (report("new @1", "new @1", "new @1"), "has more rows than the trace"),
            (report("new @1", "new @1")[:-1], "no end line"),
            (["1 new @1", "3 new @1", "end rows=2 states=0 nodes=0 entries=0"], "row 2 is wanted"),
        )
        for lines, said in rows:
            with self.assertRaisesRegex(Trouble, said):
                self.follow([user("S"), user("S", 1)], lines)


class Picking(unittest.TestCase):
    """Which lines may be of a user."""

    def test_common_text(self) -> None:
        rows = (
            ("198.51.100.0/24", ",198.51.100."), ("198.51.100.7", ",198.51.100.7,"), ("198.51.96.0/20", ",198.51."),
            ("10.0.0.0/8", ",10."), ("0.0.0.0/0", ","), ("2001:db8::/32", ":"),
        )  # fmt: skip
        for text, wanted in rows:
            self.assertEqual(common_text(network(text)), wanted)

    def test_picks(self) -> None:
        lines = [
            user("S"),
            user("S", 0, 1, 10),
            "0,in,em0,tcp,10.0.0.1,1,10.0.0.2,2,S",
            "0,in,em0,udp,2001:db8::1,1,2001:db8::2,2,",
        ]
        rows = (
            ("198.51.100.7", [0]),
            ("198.51.100.0/24", [0, 1]),
            ("10.0.0.0/8 198.51.100.10", [1, 2]),
            ("::/0", [3]),
            ("0.0.0.0/0", [0, 1, 2, 3]),
        )
        for text, wanted in rows:
            self.assertEqual(list(Picks(networks(text)).of(lines)), wanted, text)


class Commands(FolderCase):
    """The command, over the stand-in."""

    def setUp(self) -> None:
        super().setUp()
        self.rules = [
            self.write(name, f"set limit states {most}\npass in proto tcp\n")
            for name, most in (("wide", 9), ("narrow", 1))
        ]
        self.records = [
            user("S"),
            server("SA"),
            user("A"),
            user("S", 1, 1001, 8),
            server("SA", 1, 1001, 8),
            user("A", 1, 1001, 8),
        ]

    def test_text(self) -> None:
        ended = pfplan("compare", *self.rules, self.trace(self.records), "--users", "198.51.100.0/24", env=ENV)
        self.assertEqual((ended.status, ended.err), (0, ""))
        self.assertIn("A and B: 3 records of 6 (50.0 %) have another word", ended.out)
        self.assertIn("they part at row 4, moment 1: in em0 tcp 198.51.100.8:1001 to 192.0.2.1:80 flags S", ended.out)
        self.assertIn("B  drop:states @0: as many states are held as set limit states allows", ended.out)
        self.assertIn("connections of users whose fate changes: 1 of 2", ended.out)
        self.assertIn("    set limit states 9", ended.out)
        # who serves the most stands above the table, and moments since 1970 leave it narrow enough
        above, _, _ = ended.out.partition("users' connections")
        self.assertIn("A serves the most users: 2 of 2 connections, 100 %.", above)
        late = self.trace([f"{1_700_000_000 + int(it[0])}{it[1:]}" for it in self.records], "since-1970")
        ended = pfplan("compare", *self.rules, self.rules[1], late, "--users", "198.51.100.0/24", env=ENV)
        table, _, _ = ended.out.partition("\n\nA and B")
        self.assertIn("  drop:states: first at", table)
        self.assertLess(max(map(len, table.splitlines())), 110)

    def test_json_and_page(self) -> None:
        page = self.folder / "page.html"
        ended = pfplan(
            "compare",
            *self.rules,
            self.trace(self.records),
            "--users",
            "198.51.100.0/24",
            "--json",
            "--page",
            page,
            env=ENV,
        )
        read = json.loads(ended.out)
        self.assertEqual([it["outcomes"]["served"] for it in read["sides"]], [2, 1])
        self.assertEqual(read["against_first"][0]["fates"], [["served", "served", 1], ["served", "refused", 1]])
        self.assertIn("wide serves the most users: 2 of 2 connections, 100 %.", page.read_text(encoding="utf-8"))

    def test_names_are_text(self) -> None:
        hostile = self.write("<img src=x onerror=alert(1)>;$(touch x)", "set limit states 1\npass in\n")
        page = self.folder / "page.html"
        ended = pfplan(
            "compare", self.rules[0], hostile, self.trace(self.records, "tr'ace;\n<b>"), "--page", page, env=ENV
        )
        self.assertEqual((ended.status, ended.err), (0, ""))
        self.assertNotIn("<img", page.read_text(encoding="utf-8"))
        self.assertNotIn("<b>", page.read_text(encoding="utf-8"))
        self.assertIn("tr'ace;\\n<b>: 6 records", ended.out)
        self.assertFalse((self.folder / "x").exists())

    def test_refusals(self) -> None:
        trace = self.trace(self.records)
        bad = self.write("bad", "nonsense\n")
        empty = self.write("empty", "")
        rows: tuple[tuple[tuple[object, ...], int, str], ...] = (
            ((self.rules[0], trace), 2, "two rulesets or more are wanted"),
            ((self.rules[0], bad, trace), 3, "bad: line 1: 'nonsense': wanted a statement"),
            ((self.rules[0], self.folder / "none", trace), 4, "none: no such file"),
            ((self.rules[0], self.folder, trace), 4, "a folder, where a file is wanted"),
            ((self.rules[0], trace, trace), 3, "a trace, where rules are wanted"),
            ((*self.rules, self.rules[0]), 1, "no header of a trace"),
            ((*self.rules, empty), 1, "an empty file, where a trace is wanted"),
            ((*self.rules, trace, "--user", "10.0.0.0/8"), 2, "is --users meant?"),
            ((*self.rules, trace, "--profile", "openbsd-7.5"), 2, "'openbsd-7.5' is neither"),
        )
        for words, status, said in rows:
            out = self.folder / "out"
            ended = pfplan("compare", *words, "--out", out, env=ENV)
            self.assertEqual((ended.status, ended.out, ended.err.count("\n")), (status, "", 1), (words, ended.err))
            self.assertIn(said, ended.err)
            self.assertFalse(out.exists())

    def test_no_program(self) -> None:
        ended = pfplan("compare", *self.rules, self.trace(self.records), env={"PFSRC": str(Path(self.folder, "none"))})
        self.assertEqual((ended.status, ended.out), (70, ""))


if __name__ == "__main__":
    unittest.main()
