"""Runs side by side and over machines: what GNU parallel is told, and what is left after an interrupt."""

import json
import os
import shlex
import signal
import subprocess
import sys
import tempfile
import time
import unittest
from pathlib import Path
from unittest import mock

from pfplan.common.errors import Trouble
from pfplan.common.repository import TOP
from pfplan.replays import machines
from pfplan.replays.machines import Machines, Run, Runs
from pfplan.tests.support import STAND_IN, FolderCase, heed_interrupts, pfplan

ENV = {"PFSRC": str(STAND_IN)}
RECORDS = [f"{at},in,em0,tcp,198.51.100.{at + 1},1000,192.0.2.1,80,S" for at in range(20)]
RULES = "set limit states 5\npass in on em0 proto tcp flags S/SA keep state (max-src-conn 40)\n"


class CommandLines(FolderCase):
    """What GNU parallel gets."""

    def test_words_are_quoted(self) -> None:
        path = "/a b;touch HACK$(x)'\"/pf plan"
        where = Machines(3, ("user@host", ":"), (Path("/logins"),), path)
        with mock.patch.dict(os.environ, {"PFSRC": "/x y;z"}), Runs(
            where, self.trace(RECORDS), ["--users=198.51.100.0/24", "--held=0"]
        ) as runs:
            *command, last = runs._parallel(())
            folder = runs._folder.name
        self.assertIn("--jobs=3", command)
        self.assertIn("--sshlogin=user@host", command)
        self.assertIn("--sshloginfile=/logins", command)
        begin, _, rest = last.partition("; ")
        self.assertEqual(begin, f"test -e trace || cd {tempfile.gettempdir()}/{folder}")
        self.assertEqual(
            shlex.split(rest),
            ["env", "PFSRC=/x y;z", path, "measure", "--named", "{}", "trace", "--users=198.51.100.0/24", "--held=0"],
        )
        self.assertRegex(folder, r"^pfplan-[a-z0-9_]+$")

    def test_what_stands_beside_rules_goes_with_them(self) -> None:
        with Runs(Machines(1, (":",)), self.trace(RECORDS), []) as runs:
            self.assertEqual(runs._write(Run(b"pass\n", {".play": "{}"})), "rules-0")
            beside = (runs._folder / "rules-0.play").read_text("utf-8")
            command = runs._parallel((".play",))
        self.assertEqual(beside, "{}")
        self.assertEqual([it for it in command if it.startswith("./{}")], ["./{}", "./{}.play"])

    def test_package_is_named_where_it_is_missing(self) -> None:
        with mock.patch("shutil.which", return_value=None), self.assertRaisesRegex(Trouble, "Debian package parallel"):
            machines.check_parallel()

    def test_what_a_run_said(self) -> None:
        unreachable = (
            "parallel: Warning: no cpus\nssh: connect to host one: Connection refused\nparallel: This job "
            "failed:\ntest -e trace\n"
        )
        rows = (
            (
                "pfplan measure: /tmp/x: row 3: the moment falls\nparallel: This job failed:\nx\n",
                1,
                "/tmp/x: row 3: the moment falls",
                1,
            ),
            (unreachable, 1, "ssh: connect to host one: Connection refused", 4),
            ("", 255, "a run ended with status 255 and said nothing", 4),
        )
        for errors, status, message, wanted in rows:
            trouble = machines._trouble(errors, status)
            self.assertEqual((trouble.message, trouble.status), (message, wanted))

    def test_other_parallel(self) -> None:
        version = subprocess.CompletedProcess([], 1, stdout="parallel [OPTIONS] command -- arguments", stderr="")
        with mock.patch("shutil.which", return_value="/x"), mock.patch("subprocess.run", return_value=version):
            with self.assertRaisesRegex(Trouble, "not that of GNU"):
                machines.check_parallel()

    def test_logins(self) -> None:
        for words, status, said in (
            (["--sshlogin", ""], 2, "no login"),
            (["--sshlogin", "a\nb"], 2, "no login"),
            (["--sshloginfile", "none"], 4, "no such file"),
        ):
            rules, trace = self.write("rules", RULES), self.trace(RECORDS)
            ended = pfplan("margins", rules, trace, *words, env=ENV)
            self.assertEqual((ended.status, ended.out), (status, ""), ended.err)
            self.assertIn(said, ended.err)


class RunsHere(FolderCase):
    """Runs on this machine, over the stand-in."""

    def size(self, *words: object, rules: str = RULES) -> "subprocess.Popen[str]":
        """A call of `size` that goes on."""
        files = [str(self.write("rules", rules)), str(self.trace(RECORDS))]
        command = [
            sys.executable,
            str(TOP / "pfplan"),
            "size",
            *files,
            "--users",
            "198.51.100.0/24",
            "--held",
            "0",
            *map(str, words),
        ]
        around = os.environ | ENV | {"TMPDIR": str(self.folder)}
        return subprocess.Popen(
            command,
            stdout=subprocess.PIPE,
            stderr=subprocess.PIPE,
            text=True,
            env=around,
            start_new_session=True,
            preexec_fn=heed_interrupts,
        )

    def test_size(self) -> None:
        process = self.size("--vary", "states=1..40", "--json", "--jobs", "3", "--grid", "3")
        out, errors = process.communicate(timeout=120)
        self.assertEqual((process.returncode, errors), (0, ""))
        read = json.loads(out)
        self.assertEqual(read["varied"], {"name": "states", "rules": [], "now": 5})
        words = {it["value"]: it["words"].get("drop:states", 0) for it in read["runs"]}
        self.assertEqual({it: words[it] for it in (1, 5, 40)}, {1: 19, 5: 15, 40: 0})
        self.assertEqual(self.left(), ["rules", "trace"])

    def test_interrupt(self) -> None:
        """Nothing stands under the output's name then, and no part of it."""
        out = self.folder / "out"
        for number in (signal.SIGINT, signal.SIGTERM):
            process = self.size(
                "--vary", "states=1..40", "--jobs", "2", "--out", out, rules="set timeout interval 77\n" + RULES
            )
            self.wait_for_runs()
            process.send_signal(number)
            said, errors = process.communicate(timeout=60)
            self.assertEqual((process.returncode, said, errors), (130, "", "pfplan size: interrupted\n"))
            self.assertEqual(self.left(), ["rules", "trace"])
            self.assertEqual(self.running(), [])

    def wait_for_runs(self) -> None:
        """Waits until a replay goes on."""
        for _ in range(600):
            if self.running():
                return
            time.sleep(0.1)
        self.fail("no run began")

    def running(self) -> list[str]:
        """The command lines of replays that go on over this test's folder."""
        found = []
        for path in Path("/proc").glob("[0-9]*/cmdline"):
            try:
                words = path.read_bytes().decode(errors="replace").split("\0")
            except OSError:
                continue
            if "replay" in words and any(it.startswith(str(self.folder)) for it in words):
                found.append(" ".join(words))
        return found

    def test_refused_values_are_told(self) -> None:
        process = self.size("--vary", "table-entries=1..9", "--grid", "2", "--runs", "2", "--want", "1%")
        out, _ = process.communicate(timeout=120)
        self.assertEqual(process.returncode, 0)
        self.assertIn("1  the rules are refused: line 0: TooManyEntries", out)

    def test_bad_words(self) -> None:
        rows = (
            (("--vary", "states=5"), "is not NAME=FROM..TO"), (("--vary", "state=1..5"), "is states meant?"),
            (("--vary", "max=1..5"), "no rule states max"), (("--vary", "states=0..5"), "may be from 1 to"),
            (("--vary", "states=1..5", "--want", "200%"), "more than 100%"), ((), "--vary"),
        )  # fmt: skip
        for words, said in rows:
            process = self.size(*words)
            out, errors = process.communicate(timeout=60)
            self.assertEqual((process.returncode, out, errors.count("\n")), (2, "", 1), errors)
            self.assertIn(said, errors)

    def test_users_are_wanted(self) -> None:
        ended = pfplan("size", self.write("rules", RULES), self.trace(RECORDS), "--vary", "states=1..5", env=ENV)
        self.assertEqual((ended.status, ended.out), (2, ""))
        self.assertIn("--users", ended.err)

    def test_no_connection_of_users(self) -> None:
        words = ("--users", "203.0.113.0/24", "--vary", "states=1..5", "--runs", "2", "--grid", "2", "--held", "0")
        ended = pfplan("size", self.write("rules", RULES), self.trace(RECORDS), *words, env=ENV)
        self.assertEqual((ended.status, ended.out), (1, ""))
        self.assertIn("no connection of the users", ended.err)

    def test_margins(self) -> None:
        rules, trace = self.write("rules", RULES.replace("5", "20")), self.trace(RECORDS)
        ended = pfplan("margins", rules, trace, "--users", "198.51.100.0/24", "--json", "--jobs", "4", env=ENV)
        self.assertEqual((ended.status, ended.err), (0, ""))
        moved = {(it["what"], it["step"]): it["turns"] for it in json.loads(ended.out)["moved"]}
        self.assertEqual(moved["set limit states", "a tenth lower"], ["drop:states is now met"])
        self.assertEqual(moved["set limit states", "a tenth higher"], [])
        self.assertIn(("each timeout longer by interval", "+10 seconds"), moved)

    def test_measure(self) -> None:
        rules, trace = self.write("rules", RULES), self.trace(RECORDS)
        ended = pfplan("measure", rules, trace, "--named", env=ENV)
        name, _, line = ended.out.partition(" ")
        self.assertEqual((name, json.loads(line)["words"]), ("rules", {"new": 5, "drop:states": 15}))


if __name__ == "__main__":
    unittest.main()
