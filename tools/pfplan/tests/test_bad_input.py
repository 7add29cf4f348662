"""Bad input of each kind: one line that says what and where, a status that is documented, and no half file."""

import os
import signal
import subprocess
import sys
import time
import unittest
from pathlib import Path

from pfplan.common.errors import Status
from pfplan.common.inputs import HEADER
from pfplan.common.repository import TOP
from pfplan.tests.support import STAND_IN, FolderCase, heed_interrupts, pfplan

RECORD = "0,in,em0,udp,203.0.113.1,1000,192.0.2.1,53,"
STATUSES = {int(it) for it in Status}


class BadInput(FolderCase):
    """Each command over each kind of file that it can't use. The program is a stand-in, so that nothing has to be
    built."""

    def setUp(self) -> None:
        super().setUp()
        self.rules = self.write("rules", "pass all keep state\n")
        self.good = self.trace([RECORD] * 3)
        self.answers = self.report(["new @0", "state @0", "state @0"])
        self.empty = self.write("empty", "")
        self.text = self.write("text", "Dear reader,\n")
        self.capture = self.folder / "web.pcap"
        self.capture.write_bytes(b"\xd4\xc3\xb2\xa1" + bytes(200))
        forged = '[group.forged]\nkind = "syn"\nfrom = "203.0.113.0/24"\nrate = 5000\n'
        self.flood = self.write("scenario.toml", f'seconds = 20\nserver = "192.0.2.1:80"\n{forged}')
        self.out = self.folder / "out"
        self.env = {"PFSRC": str(STAND_IN)}

    def refusal(self, *words: object, env: dict[str, str] | None = None) -> tuple[int, str]:
        """The status and the one line of a call that has to fail and to leave nothing."""
        before = self.left()
        done = pfplan(*words, env=env or self.env)
        self.assertNotEqual(done.status, 0, words)
        self.assertIn(done.status, STATUSES)
        self.assertEqual(done.err.count("\n"), 1, (words, done.err))
        self.assertEqual(done.out, "", words)
        self.assertTrue(done.err.startswith(f"pfplan {words[0]}: "), done.err)
        self.assertEqual(self.left(), before, words)
        return done.status, done.err.removeprefix(f"pfplan {words[0]}: ").strip()

    def calls(self, place: str, path: object) -> "list[tuple[object, ...]]":
        """Each command with a file in the place of its rules, its trace, its report or its capture."""
        rules, trace, report = self.rules, self.good, self.answers
        if place == "rules":
            return [
                ("compare", path, rules, trace),
                ("size", path, trace, "--vary", "states=1..5", "--users", "10.0.0.0/8"), ("margins", path, trace),
                ("summary", report, "--rules", path), ("run", path, trace, "--into", self.out),
                ("rules", path, "--out", self.out),
            ]  # fmt: skip
        if place == "trace":
            return [
                ("compare", rules, rules, path),
                ("size", rules, path, "--vary", "states=1..5", "--users", "10.0.0.0/8"), ("margins", rules, path),
                ("summary", report, "--trace", path),
            ]  # fmt: skip
        if place == "report":
            return [("summary", path, "--out", self.out)]
        return [("trace", path, "--inside", "192.0.2.0/24", "--out", self.out)]

    def test_no_such_file(self) -> None:
        for place in ("rules", "trace", "report", "capture"):
            for words in self.calls(place, self.folder / "nowhere"):
                status, line = self.refusal(*words)
                self.assertEqual(status, Status.FAILED, words)
                self.assertIn("nowhere: no such file", line)

    def test_a_folder(self) -> None:
        for place in ("rules", "trace", "report", "capture"):
            for words in self.calls(place, "/usr"):
                status, line = self.refusal(*words)
                self.assertEqual(status, Status.FAILED, words)
                self.assertIn("/usr: a folder, where a file is wanted", line)

    def test_empty(self) -> None:
        for place in ("trace", "report", "capture"):
            for words in self.calls(place, self.empty):
                status, line = self.refusal(*words)
                self.assertEqual(status, Status.REFUSED, words)
                self.assertIn("empty", line)

    def test_a_trace_for_rules(self) -> None:
        for words in self.calls("rules", self.good):
            status, line = self.refusal(*words)
            self.assertEqual(status, Status.RULES, words)
            self.assertIn("trace: a trace, where rules are wanted", line)

    def test_rules_for_a_trace(self) -> None:
        for words in self.calls("trace", self.rules):
            status, line = self.refusal(*words)
            self.assertEqual(status, Status.REFUSED, words)
            self.assertIn("rules: line 1: no header of a trace", line)

    def test_a_capture_for_a_trace(self) -> None:
        for words in self.calls("trace", self.capture):
            self.assertIn("pfplan trace makes one of it", self.refusal(*words)[1])

    def test_a_text_for_a_capture(self) -> None:
        for path in (self.text, self.good, self.answers):
            for words in self.calls("capture", path):
                self.assertIn("where a capture is wanted", self.refusal(*words)[1])

    def test_a_trace_for_a_report(self) -> None:
        for path in (self.good, self.capture, self.text):
            self.assertIn(str(path), self.refusal("summary", path, "--out", self.out)[1])

    def test_no_program(self) -> None:
        for words in (
            ("run", self.rules, self.good, "--into", self.out),
            ("summary", self.answers, "--rules", self.rules),
            ("compare", self.rules, self.rules, self.good),
        ):
            status, line = self.refusal(*words, env={"PFSRC": str(self.folder / "pfsrc")})
            self.assertEqual(status, Status.NOT_BUILT)
            self.assertIn("pfsrc: can't be run: No such file or directory", line)
            self.assertIn("PFSRC", line)

    def test_a_program_that_can_not_be_built(self) -> None:
        script = self.folder / "pfsrc"
        script.write_text("#!/bin/sh\necho 'pfsrc: the command rt is not on the PATH' >&2\nexit 70\n", encoding="utf-8")
        script.chmod(0o755)
        done = pfplan("run", self.rules, self.good, "--into", self.out, env={"PFSRC": str(script)})
        self.assertEqual((done.status, done.err), (Status.NOT_BUILT, "pfsrc: the command rt is not on the PATH\n"))
        self.assertNotIn("out", self.left())

    def test_another_program(self) -> None:
        self.assertIn(
            "is not pfsrc",
            self.refusal("run", self.rules, self.good, "--into", self.out, env={"PFSRC": "/bin/false"})[1],
        )

    def test_a_record_that_the_program_refuses(self) -> None:
        script = self.folder / "pfsrc"
        script.write_text(
            "#!/bin/sh\ntest \"$1\" = replay || exit 0\necho '1 new @0'\necho 'trace: row 2: field 6' >&2\nexit 1\n",
            encoding="utf-8",
        )
        script.chmod(0o755)
        done = pfplan("run", self.rules, self.good, "--into", self.out, env={"PFSRC": str(script)})
        self.assertEqual((done.status, done.err), (Status.REFUSED, f"pfplan run: {self.good}: row 2: field 6\n"))
        self.assertNotIn("out", self.left())

    def test_a_folder_that_is_a_file(self) -> None:
        self.assertIn(
            "a file, where a folder is wanted", self.refusal("run", self.rules, self.good, "--into", self.text)[1]
        )
        self.assertIn("a folder, where a file is to be written", self.refusal("scenario", "--out", self.folder)[1])
        self.assertIn(
            "can't be written: No such file or directory",
            self.refusal("scenario", "--out", self.folder / "no" / "where")[1],
        )

    def test_a_full_disk(self) -> None:
        for words in (("scenario",), ("summary", self.answers), ("rules", self.rules)):
            status, line = self.refusal(*words, "--out", "/dev/full")
            self.assertEqual((status, line), (Status.FAILED, "/dev/full: can't be written: No space left on device"))
            with open("/dev/full", "wb") as full:
                ended = subprocess.run(
                    [sys.executable, str(TOP / "pfplan"), *map(str, words)],
                    stdout=full,
                    stderr=subprocess.PIPE,
                    text=True,
                    check=False,
                )
            self.assertEqual(ended.returncode, Status.FAILED)
            self.assertIn("standard output: can't be written: No space left on device\n", ended.stderr)

    def test_a_file_that_grows_too_large(self) -> None:
        script = (
            f"ulimit -f 100; trap '' XFSZ; exec '{sys.executable}' '{TOP / 'pfplan'}' trace '{self.flood}' --out "
            f"'{self.out}'"
        )
        ended = subprocess.run(["sh", "-c", script], capture_output=True, text=True, check=False)
        self.assertEqual(
            (ended.returncode, ended.stderr),
            (Status.FAILED, f"pfplan trace: {self.out}: can't be written: File too large\n"),
        )
        self.assertNotIn("out", self.left())

    def test_what_stood_there_stays(self) -> None:
        self.out.write_text("before\n", encoding="utf-8")
        self.refusal("summary", self.text, "--out", self.out)
        self.assertEqual(self.out.read_text("utf-8"), "before\n")

    def test_nobody_reads(self) -> None:
        script = f"'{sys.executable}' '{TOP / 'pfplan'}' trace '{self.flood}' 2>'{self.folder / 'err'}' | head -n 1"
        ended = subprocess.run(["sh", "-c", script], capture_output=True, text=True, check=False)
        self.assertEqual(ended.stdout, f"{HEADER}\n")
        self.assertEqual(
            (self.folder / "err").read_text("utf-8"), "pfplan trace: standard output: can't be written: Broken pipe\n"
        )

    def test_an_interrupt(self) -> None:
        slow = self.folder / "pfsrc"
        begun = "test \"$1\" = replay || exec '%s' \"$@\"\n: > '%s'\necho '1 new @0'\nexec sleep 60\n" % (
            STAND_IN,
            self.folder / "begun",
        )
        slow.write_text(f"#!/bin/sh\n{begun}", encoding="utf-8")
        slow.chmod(0o755)
        calls = (
            ("run", self.rules, self.good, "--into", self.folder / "into"),
            ("size", self.rules, self.good, "--vary", "states=1..5", "--users", "203.0.113.0/24", "--out", self.out),
            ("compare", self.rules, self.rules, self.good, "--out", self.out),
        )
        for number in (signal.SIGINT, signal.SIGTERM):
            for words in calls:
                with self.subTest(words[0], number=number):
                    self.interrupt(number, slow, *words)

    def interrupt(self, number: int, program: Path, *words: object) -> None:
        """Runs a command, interrupts it when pfsrc replays, and sees that nothing is left that looks whole."""
        given = [sys.executable, str(TOP / "pfplan"), *map(str, words)]
        around = os.environ | {"PFSRC": str(program)}
        begun = self.folder / "begun"
        begun.unlink(missing_ok=True)
        process = subprocess.Popen(
            given, stderr=subprocess.PIPE, stdout=subprocess.PIPE, text=True, env=around, preexec_fn=heed_interrupts
        )
        until = time.monotonic() + 60
        while not begun.exists() and time.monotonic() < until:
            time.sleep(0.05)
        process.send_signal(number)
        out, err = process.communicate(timeout=60)
        self.assertEqual((process.returncode, out, err), (Status.INTERRUPTED, "", f"pfplan {words[0]}: interrupted\n"))
        self.assertNotIn("out", self.left())
        into = self.folder / "into"
        self.assertEqual(
            [it for it in (sorted(os.listdir(into)) if into.exists() else []) if it not in ("rules", "left-out.txt")],
            [],
        )


if __name__ == "__main__":
    unittest.main()
