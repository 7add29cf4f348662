"""All commands: that they are told of, that a slip is named, and what `run` puts into its folder."""

import json
import subprocess
import unittest
from pathlib import Path

from pfplan.commands.parser import COMMANDS
from pfplan.common.repository import TOP, program
from pfplan.tests.support import FolderCase, pfplan

CASES = TOP / "cases" / "pfplan"


class Commands(FolderCase):
    def test_every_command_helps(self) -> None:
        whole = pfplan("--help")
        self.assertEqual((whole.status, whole.err), (0, ""))
        for name, _ in COMMANDS:
            done = pfplan(name, "--help", env={"COLUMNS": "80"})
            self.assertEqual((done.status, done.err), (0, ""))
            self.assertTrue(done.out.startswith(f"usage: pfplan {name} "), done.out[:80])
            self.assertLess(max(map(len, done.out.splitlines())), 80, name)

    def test_slips(self) -> None:
        for words, line in (
            (("sumary",), "pfplan: 'sumary': no such command; is summary meant?"),
            (
                ("summary", "report", "--trase", "x"),
                "pfplan summary: '--trase': no such word; is --trace meant? (pfplan summary --help)",
            ),
            (("summary",), "pfplan summary: the following arguments are required: REPORT"),
        ):
            done = pfplan(*words)
            self.assertEqual((done.status, done.out, done.err), (2, "", f"{line}\n"))

    def test_rules_that_are_made_are_accepted(self) -> None:
        for name, wanted in (
            ("rules_shipped", "ok items=4 tables=0 entries=0"),
            ("rules_manual_source_tracking", "ok items=3 tables=1 entries=0"),
            ("rules_router_without_help", "ok items=7 tables=2 entries=9"),
            ("rules_parts", "ok items=25 tables=2 entries=4"),
            ("rules_both_families", "ok items=5 tables=2 entries=6"),
        ):
            with self.subTest(name):
                made = self.folder / name
                words = (CASES / name / "args").read_text("utf-8").splitlines()
                done = pfplan(*words, "--out", made, cwd=CASES / name)
                self.assertEqual(done.status, 0, done.err)
                checked = subprocess.run([program(), "check", str(made)], capture_output=True, text=True, check=False)
                self.assertEqual((checked.stdout.strip(), checked.stderr), (wanted, ""))

    def test_run(self) -> None:
        conf = self.write(
            "pf.conf",
            'web = "192.0.2.1"\nblock all\npass in proto { tcp udp } to $web port { 80 443 } label "w" keep state '
            "(max 40)\npass in all user root\n",
        )
        homes = '[group.homes]\nkind = "visits"\nfrom = "198.51.100.0/24"\nhosts = 10\n'
        flood = '[group.flood]\nkind = "syn"\nfrom = "203.0.113.0/24"\nrate = 20\n'
        trace = self.folder / "trace"
        pfplan(
            "trace",
            self.write("scenario.toml", f'seconds = 30\nserver = "192.0.2.1:80"\n{homes}{flood}'),
            "--out",
            trace,
        )
        into = self.folder / "a folder"
        done = pfplan("run", conf, trace, "--into", into, "--users", "198.51.100.0/24", "--held", 3)
        self.assertEqual((done.status, done.err), (0, ""))
        lines = done.out.splitlines()
        self.assertRegex(lines[0], r"^[0-9.]+ % of the users' connections were served: \d+ of 10$")
        self.assertEqual(
            lines[1:],
            [f"left out of {conf}: 1 that can change this answer ({into / 'left-out.txt'})", str(into / "report.html")],
        )
        made = {it.name for it in into.iterdir()}
        self.assertLessEqual({"rules", "left-out.txt", "report", "summary.txt", "summary.json", "report.html"}, made)
        summary = json.loads((into / "summary.json").read_text("utf-8"))
        self.assertEqual((len(summary["held"]), summary["users"]["connections"]), (3, 10))
        self.assertIn("(w)", (into / "summary.txt").read_text("utf-8"))
        self.assertIn("user root", (into / "report.html").read_text("utf-8"))
        words = ("run", into / "rules", trace, "--users", "198.51.100.0/24", "--held", 0, "--into")
        again = pfplan(*words, self.folder / "another")
        self.assertEqual(again.status, 0, again.err)
        self.assertEqual((self.folder / "another/rules").read_bytes(), (into / "rules").read_bytes())
        refused = pfplan(*words, into)
        self.assertEqual((refused.status, refused.err.count("which no output may replace")), (2, 1), refused.err)

    def test_the_names_are_arguments_and_not_shell_text(self) -> None:
        name = "$(touch here) 'a\"b"
        conf, trace = self.write(f"{name}.conf", "pass all\n"), self.trace(
            ["0,in,em0,udp,203.0.113.1,1,192.0.2.1,53,"], f"{name}.csv"
        )
        done = pfplan("run", conf, trace, "--into", self.folder / name, cwd=self.folder)
        self.assertEqual(done.status, 0, done.err)
        self.assertFalse((self.folder / "here").exists())
        self.assertNotIn(name, Path(self.folder / name / "report.html").read_text("utf-8"))


if __name__ == "__main__":
    unittest.main()
