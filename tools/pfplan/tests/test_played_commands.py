"""Commands that take a scenario where they take a trace: run, compare, size, margins; and maps of two numbers."""

import contextlib
import html
import io
import json
import os
import unittest
from unittest import mock

from pfplan.__main__ import main
from pfplan.common.limits import ADVICE, NO_PORT
from pfplan.pages import pictures
from pfplan.pf.profiles import Profile
from pfplan.plays.options import PlayOptions, options_beside
from pfplan.plays.returning import words_of
from pfplan.tests.support import FolderCase, pfplan

SCENARIO = """seconds = 12
server = "192.0.2.1:80"

[group.homes]
kind = "visits"
from = "198.51.100.0/24"
hosts = 25
stay = 2

[group.holder]
kind = "hold"
from = "203.0.113.7/32"
hosts = 1
rate = 8
"""
RULES = """set profile openbsd-7.4
set limit states 60
block
pass in proto tcp to 192.0.2.1 port 80 keep state (max-src-states 50)
"""


class PlayedCommands(FolderCase):
    def setUp(self) -> None:
        super().setUp()
        self.scenario = self.write("scenario.toml", SCENARIO)
        self.rules = self.write("rules", RULES)
        self.open = self.write("open", RULES.replace("states 60", "states 9000"))

    def output(self, *words: object) -> str:
        done = pfplan(*words)
        self.assertEqual((done.status, done.err), (0, ""))
        return done.out

    def served(self, rate: int, most: int) -> tuple[int, int]:
        """Connections of users, and those served without waiting, in a single play."""
        scenario = self.write("single.toml", SCENARIO.replace("rate = 8", f"rate = {rate}"))
        rules = self.write("single", RULES.replace("max-src-states 50", f"max-src-states {most}"))
        self.output("play", rules, scenario, "--into", self.folder / "single-play")
        group = json.loads((self.folder / "single-play/single/summary.json").read_text("utf-8"))["groups"][0]
        return group["connections"], group["served_without_waiting"]

    def test_ports(self) -> None:
        """An office behind one address: as many connections to the server are served as there are ports, and text and
        page name the word and what helps."""
        office = SCENARIO[: SCENARIO.index("[group.holder]")].replace("hosts = 25", "hosts = 6")
        scenario = self.write("office.toml", office)
        clause = "pass in inet proto tcp from 198.51.100.0/24 to any port 80 nat-to 203.0.113.2"
        names = [self.write(f"ports{it}", f"{clause} port 50001:{50000 + it}\n") for it in (4, 6)]
        self.output("play", *names, scenario, "--into", self.folder / "answer")
        groups = [json.loads((self.folder / f"answer/{it.name}/summary.json").read_text())["groups"][0] for it in names]
        self.assertEqual([it["served"] for it in groups], [4, 6])
        self.assertEqual([[*it["refused"]] for it in groups], [["drop:translate"], []])
        for name in ("summary.txt", "report.html"):
            text = (self.folder / "answer" / name).read_text("utf-8")
            self.assertEqual(text.count(html.escape(ADVICE[NO_PORT])), 1, name)

    def test_run(self) -> None:
        out = self.output("run", self.rules, self.scenario, "--into", self.folder / "answer")
        self.assertTrue(out.endswith(f"{self.folder}/answer/report.html\n"))
        made = {it.name for it in (self.folder / "answer").iterdir()}
        self.assertLessEqual(
            {"rules", "left-out.txt", "trace.csv", "report", "summary.txt", "summary.json", "report.html"}, made
        )

    def test_options_beside_rules(self) -> None:
        """Without a file of them they are what the text says; another file is refused."""
        rules = self.write("blocking", "block return-rst\npass\n")
        self.assertEqual(options_beside(rules, rules), PlayOptions({0: "return-rst"}))
        options = PlayOptions({2: "return"}, {"holder.rate": 9, "seconds": 8}, 70_000)
        plain = json.loads(self.output("measure", rules, self.scenario))["records"]
        beside = self.write("blocking.play", options.to_json())
        self.assertEqual(options_beside(rules, rules), options)
        self.assertLess(json.loads(self.output("measure", rules, self.scenario))["records"], plain)
        for text in ("", "[]", "{}", '{"returning": {"a": 1}, "numbers": {}, "most": 1}'):
            self.write("blocking.play", text)
            done = pfplan("measure", rules, self.scenario)
            self.assertEqual((done.status, done.out), (1, ""))
            self.assertEqual(done.err, f"pfplan measure: {beside}: no options of a play: {text!r}\n")

    def test_gnuplot_that_fails_or_hangs(self) -> None:
        """The plays are kept, and the page says why it has no pictures."""
        for script, why in (
            ("echo 'no terminal' >&2; exit 1", "gnuplot failed: no terminal"),
            ("exec sleep 60", "gnuplot drew nothing in 1 seconds"),
        ):
            tools = self.folder / "tools"
            tools.mkdir(exist_ok=True)
            program = tools / "gnuplot"
            program.write_text(f"#!/bin/sh\n{script}\n", encoding="utf-8")
            program.chmod(0o755)
            into, page = self.folder / "played", self.folder / "page.html"
            path = mock.patch.dict(os.environ, PATH=f"{tools}:{os.environ['PATH']}")
            with path, mock.patch.object(pictures, "SECONDS_FOR_A_PICTURE", 1), contextlib.redirect_stdout(
                io.StringIO()
            ):
                played = main(["play", str(self.rules), str(self.scenario), "--into", str(into)])
                words = [self.rules, self.open, self.scenario, "--page", page, "--out", self.folder / "told"]
                compared = main(["compare", *map(str, words)])
            self.assertEqual((played, compared), (0, 0))
            for it in (into / "report.html", page):
                self.assertIn(f"No pictures: {why}.", it.read_text("utf-8"))
            self.assertTrue((into / "rules" / "summary.json").exists())
            self.assertEqual(list(into.rglob("*.svg")), [])

    def test_compare(self) -> None:
        out = self.output("compare", self.rules, self.open, self.scenario)
        self.assertIn("\nhomes (visits)\n  connections ", out)
        sides = json.loads(self.output("compare", self.rules, self.open, self.scenario, "--json"))["sides"]
        self.assertEqual([it["rules"] for it in sides], ["rules", "open"])
        self.assertLess(sides[0]["groups"][0]["served"], sides[1]["groups"][0]["served"] + 1)

    def test_compare_names_the_profile(self) -> None:
        """The rules' own, or that of the command line, which stands above it."""
        page = self.folder / "page.html"
        words: dict[Profile, tuple[str, ...]] = {Profile.OPENBSD: (), Profile.OWN: ("--profile", "papers")}
        for profile in Profile:
            self.output("compare", self.rules, self.open, self.scenario, "--page", page, *words[profile])
            self.assertEqual([it for it in Profile if it.told() in page.read_text("utf-8")], [profile])

    def test_size_by_a_number_of_the_scenario(self) -> None:
        words = (
            "size",
            self.rules,
            self.scenario,
            "--vary",
            "holder.rate=1..60",
            "--want",
            "100%",
            "--grid",
            3,
            "--runs",
            8,
            "--json",
        )
        found = json.loads(self.output(*words))
        self.assertEqual((found["varied"]["name"], found["varied"]["now"], found["users"]), ("holder.rate", 8, "homes"))
        runs = {it["value"]: it for it in found["runs"]}
        for value in list(runs)[:2]:
            connections, served = self.served(value, 50)
            self.assertEqual(
                (sum(runs[value]["outcomes"].values()), runs[value]["outcomes"]["served"]), (connections, served)
            )
            self.assertEqual(runs[value]["meets"], connections == served)
        few = ("--grid", 2, "--runs", 2)
        self.assertEqual(self.output(*words, *few, "--jobs", 1), self.output(*words, *few))
        self.assertIn("holder.rate, now 8: ", self.output(*words[:-1], *few))

    def test_a_map(self) -> None:
        words = (
            "size",
            self.rules,
            self.scenario,
            "--vary",
            "max-src-states=20..99",
            "--vary",
            "holder.rate=1..30",
            "--grid",
            3,
            "--runs",
            6,
        )
        found = json.loads(self.output(*words, "--json", "--want", "100%"))
        self.assertEqual([it["name"] for it in found["varied"]], ["max-src-states", "holder.rate"])
        self.assertLessEqual(len(found["runs"]), 6)
        meets = {tuple(it["values"]): it["meets"] for it in found["runs"]}
        self.assertIn(False, meets.values())
        self.assertIn(True, meets.values())
        for (most, rate), is_served in list(meets.items())[-2:]:
            connections, served = self.served(rate, most)
            self.assertEqual(connections == served, is_served, (most, rate))
        for border in found["border"]:
            for low, high in border["serves"]:
                self.assertTrue(meets[low, border["second"]] and meets[high, border["second"]])
        page = self.folder / "map.html"
        text = self.output(*words, "--grid", 2, "--runs", 6, "--page", page)
        self.assertIn("(down), now 50, by holder.rate (across), now 8: share served in per cent\n", text)
        self.assertIn("max-src-states", page.read_text("utf-8"))

    def test_margins(self) -> None:
        found = json.loads(self.output("margins", self.rules, self.scenario, "--json"))
        self.assertEqual(found["users"], "homes")
        self.assertEqual(sum(found["as_is"]["outcomes"].values()), 25)
        self.assertTrue(any(it["what"].startswith("set limit states") for it in found["moved"]))
        self.assertFalse(any("udp" in it["what"] for it in found["moved"]))

    def test_mistakes(self) -> None:
        for words, status, said in (
            (
                ("size", self.rules, self.scenario, "--vary", "holder.rat=1..9"),
                2,
                "no number is named 'holder.rat'; the group has ",
            ),
            (
                ("size", self.rules, self.scenario, "--vary", "holders.rate=1..9"),
                2,
                "no number is named 'holders.rate'",
            ),
            (
                ("size", self.rules, self.scenario, "--vary", "seconds=1..9", "--users", "192.0.2.0/24"),
                2,
                "is a scenario, which says itself who the users are",
            ),
            (
                ("size", self.rules, self.scenario, "--vary", "seconds=1..9", "--vary", "seconds=1..9"),
                2,
                "--vary: one number, or two different ones for a map",
            ),
            (
                ("size", self.rules, self.scenario, "--vary", "seconds=0..9"),
                2,
                "--vary: seconds may be from 1 to 1000000, and 0 is not",
            ),
            (
                ("run", self.rules, self.scenario, "--into", self.folder / "x", "--inside", "192.0.2.0/24"),
                2,
                "--inside: ",
            ),
            (
                ("size", self.rules, self.scenario, *"--vary seconds=1..9 --vary holder.rate=1..9 --runs 3".split(" ")),
                2,
                "--runs: a map has four pairs or more, and 3 are asked for",
            ),
            (("compare", self.rules, self.open, self.scenario, "--users", "192.0.2.0/24"), 2, "--users: "),
            (("margins", self.rules, self.scenario, "--users", "192.0.2.0/24"), 2, "--users: "),
            (("trace", self.scenario, "--zero"), 2, "--zero: "),
        ):
            done = pfplan(*words)
            self.assertEqual((done.status, done.out), (status, ""), words)
            self.assertIn(said, done.err)


class Returning(unittest.TestCase):
    def test_words_by_number(self) -> None:
        text = (
            "# block return, in a comment\nset limit states 5\ntable <block> { 10.0.0.0/8 } # block return\n  block "
            "\\\n return in\npass out log # \\\n"
            'block drop out\nanchor "return" {\n\tblock return-rst in proto tcp\n\tpass\n}\nblock\nblock return-icmp6 '
            "in quick\n"
        )
        self.assertEqual(words_of(text), {0: "return", 4: "return-rst", 7: "return-icmp6"})


if __name__ == "__main__":
    unittest.main()
