"""Outputs of every command: nothing that pfplan did not write is replaced or removed, and all of an answer is there, or
none."""

import json
import os
import shutil
import signal
import subprocess
import sys
import time
import unittest
from collections.abc import Callable
from pathlib import Path
from unittest import mock

from pfplan.common import exchanges
from pfplan.common.errors import Status, Trouble
from pfplan.common.listings import NAME, Listing, keeps_none, listing_of
from pfplan.common.outputs import whole_files, whole_folder
from pfplan.common.repository import TOP, program
from pfplan.tests.support import STAND_IN, Done, FolderCase, heed_interrupts, pfplan

RECORD = "1,in,em0,tcp,198.51.100.7,1000,192.0.2.1,80,S"
USERS = ("--users", "198.51.100.0/24")
LOG, LOGGED = TOP / "examples/agree/pflog", TOP / "examples/agree/pf.conf"


class Calling(FolderCase):
    """Calls in a folder, with rules, a trace and a report."""

    def setUp(self) -> None:
        super().setUp()
        self.rules = self.write("pf.conf", "set limit states 50\npass in proto tcp all keep state\n")
        self.records = self.trace([RECORD], "trace.csv")
        self.answers = self.report(["new @0"], "answers")
        self.env = {"PFSRC": str(STAND_IN)}

    def call(self, *words: object, stdin: str = "") -> Done:
        """A call in the folder."""
        return pfplan(*words, cwd=self.folder, env=self.env, stdin=stdin)

    def whole(self) -> dict[str, str]:
        """All that is in the folder, by name, with what it is."""
        return {str(it.relative_to(self.folder)): content(it) for it in sorted(self.folder.rglob("*"))}

    def refuse(self, said: str, *words: object, stdin: str = "", status: int = Status.FAILED) -> None:
        """A call that is refused, and does nothing."""
        before = self.whole()
        done = self.call(*words, stdin=stdin)
        self.assertEqual((done.status, done.out, done.err.count("\n")), (status, "", 1), (words, done.err))
        self.assertIn(said, done.err)
        self.assertEqual(self.whole(), before, words)


def content(path: Path) -> str:
    """What a path is, and what it holds."""
    if path.is_symlink():
        return f"link {os.readlink(path)}"
    return "folder" if path.is_dir() else f"file {path.read_bytes()!r}"


class Folders(Calling):
    """What stands in a folder that an answer is put into."""

    def test_a_trace_in_its_own_folder(self) -> None:
        before = self.records.read_bytes()
        for _ in range(2):
            done = self.call("run", "pf.conf", "trace.csv", "--into", ".", "--held", 0)
            self.assertEqual(done.status, 0, done.err)
            self.assertEqual(self.records.read_bytes(), before)
        self.assertTrue((self.folder / "report.html").exists())

    def test_an_answer_as_input(self) -> None:
        capture = TOP / "examples/pf.conf/web.pcap"
        words = ("--inside", "203.0.113.5/32", "--held", 0, "--into", "answer")
        self.assertEqual(self.call("run", "pf.conf", capture, *words).status, 0)
        trace = (self.folder / "answer/trace.csv").read_bytes()
        self.refuse(
            "answer/rules: it is the input answer/rules, which no output may replace", "run", "answer/rules",
            "answer/trace.csv", "--into", "answer", status=Status.WORDS,
        )  # fmt: skip
        done = self.call("run", "pf.conf", "answer/trace.csv", "--held", 0, "--into", "answer")
        self.assertEqual((done.status, (self.folder / "answer/trace.csv").read_bytes()), (0, trace), done.err)

    def test_folders_stay(self) -> None:
        for name in ("rules", "report", "told.csv"):
            (self.folder / "there" / name).mkdir(parents=True)
            (self.folder / "there" / name / "mine").write_text("mine", "utf-8")
            calls: list[tuple[object, ...]] = [("agree", LOGGED, LOG, "--into", "there")]
            calls += [("run", "pf.conf", "trace.csv", "--into", "there")] if name != "told.csv" else []
            for words in calls:
                self.refuse(f"there/{name}: is in the way: it is a folder", *words)
            shutil.rmtree(self.folder / "there")

    def test_what_is_in_the_way(self) -> None:
        words = ("run", "pf.conf", "trace.csv", "--into", "answer", "--held", 0)
        (self.folder / "answer").mkdir()
        report = self.folder / "answer/report"
        report.write_text("mine", "utf-8")
        self.refuse("answer/report: is in the way: pfplan did not write it; pfplan replaces only what it wrote", *words)
        report.unlink()
        report.symlink_to(self.folder / "nowhere")
        self.refuse("answer/report: is in the way: it is a link", *words)
        report.unlink()
        self.assertEqual(self.call(*words).status, 0)
        self.assertEqual(self.call(*words).status, 0)
        report.write_text("mine", "utf-8")
        self.refuse("answer/report: is in the way: it was changed since pfplan wrote it", *words)
        report.unlink()
        (self.folder / "answer" / NAME).write_text("mine", "utf-8")
        self.refuse(f"answer/{NAME}: is in the way: it is not the list", *words)

    def test_an_input_behind_links(self) -> None:
        (self.folder / "answer").mkdir()
        os.link(self.records, self.folder / "answer/report")
        self.refuse("it is the input", "run", "pf.conf", "trace.csv", "--into", "answer", status=Status.WORDS)
        (self.folder / "answer/report").unlink()
        (self.folder / "answer/report").symlink_to(self.records)
        self.refuse("it is the input", "run", "pf.conf", "trace.csv", "--into", "answer", status=Status.WORDS)

    def test_an_input_that_the_rules_name(self) -> None:
        words = ("trace.csv", "--into", "answer", "--held", 0)
        self.assertEqual(self.call("run", "pf.conf", *words).status, 0)
        other = self.write("other.conf", f'include "{self.folder}/answer/rules"\n')
        self.refuse("answer/rules: it is the input", "run", other, *words, status=Status.WORDS)

    def test_an_earlier_answer_goes(self) -> None:
        self.env = {}
        self.assertEqual(self.call("agree", LOGGED, LOG, "--into", "answer").status, 0)
        (self.folder / "answer/notes").write_text("mine", "utf-8")
        self.assertEqual(self.call("rules", "pf.conf", "--out", "answer/other").status, 0)
        self.assertEqual(self.call("run", "pf.conf", "trace.csv", "--into", "answer", "--held", 0).status, 0)
        left = set(os.listdir(self.folder / "answer"))
        self.assertLessEqual({"notes", "other", "rules", "report", "summary.txt", NAME}, left)
        self.assertFalse({"agree.txt", "agree.json", "told.csv", "trace.csv"} & left)

    def test_plays_are_whole(self) -> None:
        scenario = self.write("s.toml", 'seconds = 2\nserver = "192.0.2.1:80"\n[group.a]\nkind = "hold"\n'
                              'from = "198.51.100.0/24"\nhosts = 2\nrate = 1\nusers = true\n')  # fmt: skip
        other = self.write("other.conf", "block all\n")
        words = ("play", self.rules, other, scenario, "--into", self.folder / "played")
        self.assertEqual(pfplan(*words).status, 0)
        before = self.whole()
        self.rules.write_text("set limit states 60\npass in proto tcp all keep state\n", "utf-8")
        before["pf.conf"] = content(self.rules)
        failing = self.write("pfsrc", f"#!/bin/sh\ntest \"$1\" = replay || exec '{program()}' \"$@\"\nexit 4\n")
        failing.chmod(0o755)
        before["pfsrc"] = content(failing)
        self.assertNotEqual(pfplan(*words, env={"PFSRC": str(failing)}).status, 0)
        self.assertEqual(self.whole(), before)
        killing = self.write("kills", f"#!/bin/sh\ntest \"$1\" = replay || exec '{program()}' \"$@\"\nkill -9 $PPID\n")
        killing.chmod(0o755)
        before["kills"] = content(killing)
        ended = pfplan(*words, env={"PFSRC": str(killing)})
        self.assertIn("a play ended with status -9 and said nothing", ended.err)
        self.assertEqual(self.whole(), before)
        (self.folder / "played/other/trace.csv").write_text("mine", "utf-8")
        self.refuse("played/other/trace.csv: is in the way: it was changed", *words)


class Files(Calling):
    """Outputs that are one file."""

    def test_no_input_is_replaced(self) -> None:
        rules, trace, report = "pf.conf", "trace.csv", "answers"
        os.link(self.rules, self.folder / "hard")
        os.symlink("pf.conf", self.folder / "soft")
        for out in (rules, "hard", "soft", f"../{self.folder.name}/pf.conf"):
            self.refuse("it is the input pf.conf", "rules", rules, "--out", out, status=Status.WORDS)
        calls: list[tuple[object, ...]] = [
            ("summary", report, "--out", report), ("summary", report, "--trace", trace, "--out", trace),
            ("summary", report, "--trace", trace, "--rules", rules, "--out", rules),
            ("explain", report, "--trace", trace, "--rules", rules, "--row", 1, "--out", trace),
            ("compare", rules, rules, trace, "--out", rules), ("compare", rules, rules, trace, "--page", trace),
            ("margins", rules, trace, "--out", rules), ("margins", rules, trace, "--page", rules),
            ("size", rules, trace, "--vary", "states=1..5", *USERS, "--page", trace),
            ("trace", LOG, "--out", "log"), ("trace", LOG, "--answers", "log"),
        ]  # fmt: skip
        (self.folder / "log").symlink_to(LOG)
        for words in calls:
            self.refuse("it is the input", *words, status=Status.WORDS)
        with open(self.rules, "ab") as appended, open(self.rules, "rb") as given:
            ended = subprocess.run(
                [sys.executable, str(TOP / "pfplan"), "rules"], stdin=given, stdout=appended, stderr=subprocess.PIPE,
                check=False,
            )  # fmt: skip
        self.assertEqual(ended.returncode, Status.WORDS)

    def test_what_is_not_pfplans_stays(self) -> None:
        words = ("rules", "pf.conf", "--out", "rules")
        mine = self.write("rules", "mine\n")
        self.refuse("rules: is in the way: pfplan did not write it", *words)
        mine.unlink()
        self.assertEqual(self.call(*words).status, 0)
        self.rules.write_text("block all\n", "utf-8")
        self.assertEqual(self.call(*words).status, 0)
        self.assertIn("block", mine.read_text("utf-8"))
        mine.write_text("# mine\n", "utf-8")
        self.refuse("rules: is in the way: it was changed since pfplan wrote it", *words)

    def test_all_or_none(self) -> None:
        self.write("page.html", "mine\n")
        words = ("margins", "pf.conf", "trace.csv", "--out", "text", "--page")
        self.refuse("page.html: is in the way", *words, "page.html")
        self.refuse("two outputs of one name", *words, "./text", status=Status.WORDS)
        self.write("rules.entries", "mine\n")
        self.write("few", "192.0.2.7\n")
        self.write("table.conf", "table <t> persist\npass in from <t>\n")
        words = ("rules", "table.conf", "--entries", "t=few", "--out", "rules")
        self.refuse("rules.entries: is in the way", *words)
        (self.folder / "rules.entries").unlink()
        self.assertEqual(self.call(*words).status, 0)
        self.assertIn("192.0.2.7", (self.folder / "rules.entries").read_text("utf-8"))

    def test_standard_output_by_a_name(self) -> None:
        plain = self.call("rules", "pf.conf").out
        for name in ("-", "/dev/stdout", "/dev/fd/1"):
            self.assertEqual(self.call("rules", "pf.conf", "--out", name).out, plain, name)
        self.assertNotIn("-", self.left())

    def test_no_name_of_the_list(self) -> None:
        self.refuse("the name of the list", "rules", "pf.conf", "--out", NAME, status=Status.WORDS)

    def test_modes_stay(self) -> None:
        words = ("rules", "pf.conf", "--out", "rules")
        self.call(*words)
        (self.folder / "rules").chmod(0o600)
        self.call(*words)
        self.assertEqual((self.folder / "rules").stat().st_mode & 0o777, 0o600)


class Exchanges(FolderCase):
    """Files are put in their places, all or none."""

    def test_a_step_that_fails_undoes_all(self) -> None:
        place = self.folder / "place"
        self.fill(place, "a", "b")
        before = {it.name: it.read_bytes() for it in place.iterdir()}
        for step in range(1, 5):
            left = [OSError(28, "No space left on device") if it == step else None for it in range(1, step + 1)]
            failing = mock.patch.object(exchanges, "put_new", self.failing(left))
            with failing, self.assertRaises(Trouble) as caught:
                self.fill(place, "a", "c", "below/d")
            self.assertEqual(caught.exception.message, f"{place}: can't be made: No space left on device")
            self.assertEqual({it.name: it.read_bytes() for it in place.iterdir()}, before)
            self.assertEqual(self.left(), ["place"])

    def fill(self, place: Path, *names: str) -> None:
        """An answer of these files."""
        with whole_folder(place) as made:
            for name in names:
                (made / name).parent.mkdir(exist_ok=True)
                (made / name).write_text(f"{names}", "utf-8")

    def failing(self, errors: list[OSError | None]) -> Callable[[Path, Path], None]:
        """What puts a file, and fails where an error is next."""
        real = exchanges.put_new

        def put(new: Path, place: Path) -> None:
            error = errors.pop(0)
            if error:
                raise error
            real(new, place)

        return put

    def test_what_came_meanwhile_stays(self) -> None:
        with self.assertRaises(Trouble), whole_files(self.folder / "a", self.folder / "b") as files:
            for it in files:
                it.write("pfplan's")
            (self.folder / "b").write_text("mine", "utf-8")
        self.assertEqual((self.left(), (self.folder / "b").read_text("utf-8")), (["b"], "mine"))

    def test_a_list_that_names_others(self) -> None:
        for name in ("../a", "x/y", ""):
            (self.folder / NAME).write_text(Listing(answer={name: "0"}).text(), "utf-8")
            with self.assertRaises(Trouble):
                listing_of(self.folder)
        (self.folder / NAME).write_text(json.dumps([1]), "utf-8")
        with self.assertRaises(Trouble):
            listing_of(self.folder)

    def test_a_folder_that_users_share(self) -> None:
        with mock.patch.object(os, "geteuid", return_value=12345):
            self.assertFalse(keeps_none(self.folder))
            (self.folder / NAME).write_text(Listing().text(), "utf-8")
            self.assertFalse(keeps_none(self.folder))
            self.folder.chmod(0o1777)
            self.assertTrue(keeps_none(self.folder))

    def test_a_file_system_without_links(self) -> None:
        with mock.patch.object(os, "link", side_effect=OSError(1, "Operation not permitted")):
            with whole_files(self.folder / "a") as (file,):
                file.write("one")
            with self.assertRaises(FileExistsError):
                exchanges.put_new(self.write("c", "mine"), self.folder / "a")
        self.assertEqual((self.folder / "a").read_text("utf-8"), "one")


class Endings(Calling):
    """How a call ends that is not wanted any more."""

    def test_as_the_terminal_goes(self) -> None:
        slow = self.folder / "pfsrc"
        begun = self.folder / "begun"
        slow.write_text(
            f"#!/bin/sh\ntest \"$1\" = replay || exec '{STAND_IN}' \"$@\"\n: > '{begun}'\necho '1 new @0'\nexec sleep "
            "60\n",
            "utf-8",
        )
        slow.chmod(0o755)
        for words in (
            ("run", "pf.conf", "trace.csv", "--into", "answer"),
            ("compare", "pf.conf", "pf.conf", "trace.csv", "--out", "out"),
        ):
            begun.unlink(missing_ok=True)
            before = self.left()
            process = subprocess.Popen(
                [sys.executable, str(TOP / "pfplan"), *words],
                stderr=subprocess.PIPE, text=True, env=os.environ | {"PFSRC": str(slow)}, cwd=self.folder,
                preexec_fn=lambda: signal.signal(signal.SIGHUP, signal.SIG_DFL) and None,
            )  # fmt: skip
            until = time.monotonic() + 60
            while not begun.exists() and time.monotonic() < until:
                time.sleep(0.02)
            process.send_signal(signal.SIGHUP)
            _, err = process.communicate(timeout=60)
            begun.unlink(missing_ok=True)
            self.assertEqual((process.returncode, err), (Status.INTERRUPTED, f"pfplan {words[0]}: interrupted\n"))
            self.assertEqual(self.left(), before)

    def test_in_the_first_moments(self) -> None:
        """While pfplan's own code is loaded, an interrupt is told as ever."""
        hold = self.folder / "held"
        script = (
            "import runpy, sys, os, signal, importlib.abc\n"
            "asked = sys.argv.pop(1)\n"
            "class Slow(importlib.abc.MetaPathFinder):\n"
            "    def find_spec(self, name, path, target=None):\n"
            "        if name == asked:\n"
            "            os.kill(os.getpid(), signal.SIGINT)\n"
            "sys.meta_path.insert(0, Slow())\n"
            f"runpy.run_path({str(TOP / 'pfplan')!r}, run_name='__main__')\n"
        )
        hold.write_text(script, "utf-8")
        for name in ("pfplan.__main__", "pfplan.commands.parser", "pfplan.commands.rules", "pfplan.pf.lexer"):
            ended = subprocess.run(
                [sys.executable, str(hold), name, "rules", "pf.conf"], capture_output=True, text=True,
                cwd=self.folder, check=False, preexec_fn=heed_interrupts,
            )  # fmt: skip
            self.assertEqual((ended.returncode, ended.stdout), (Status.INTERRUPTED, ""), (name, ended.stderr))
            self.assertIn(ended.stderr, ("pfplan: interrupted\n", "pfplan rules: interrupted\n"))


if __name__ == "__main__":
    unittest.main()
