"""The command `run`: the folder is whole, new or old; pipes are read once; what is missing is said first. The programs
are stand-ins."""

import json
import os
import subprocess
import sys
import threading
import unittest
from pathlib import Path

from pfplan.common.errors import Status
from pfplan.common.inputs import HEADER
from pfplan.common.outputs import whole_folder
from pfplan.common.repository import TOP
from pfplan.tests.support import STAND_IN, Done, FolderCase, pfplan

USERS = ("--users", "198.51.100.0/24", "--held", "0")
RECORDS = (
    "1,in,em0,tcp,198.51.100.7,1000,192.0.2.1,80,S", "1,out,em0,tcp,192.0.2.1,80,198.51.100.7,1000,SA",
    "1,in,em0,tcp,198.51.100.7,1000,192.0.2.1,80,A",
)  # fmt: skip
ACCOUNT = (
    "frames 8: records 3, not IP 1, later fragments 0, cut before their ports 0, neither in nor out 4, of a link type "
    "that is not read 0"
)


class Running(FolderCase):
    def setUp(self) -> None:
        super().setUp()
        self.rules = self.write("pf.conf", "set limit states 50\npass in proto tcp all keep state\n")
        self.records = self.trace(RECORDS)
        self.into = self.folder / "into"
        self.env = {"PFSRC": str(STAND_IN)}

    def run_it(self, *words: object, stdin: str = "", env: dict[str, str] | None = None) -> Done:
        """Runs `run` into the folder."""
        return pfplan("run", *words, "--into", self.into, *USERS, stdin=stdin, env=env or self.env)

    def files(self) -> dict[str, str]:
        """What the files of the folder hold."""
        return {it.name: it.read_text("utf-8", "replace") for it in self.into.iterdir() if it.is_file()}

    def pfstrace(self, script: str) -> dict[str, str]:
        """The environment with a pfstrace that is a script behind the records."""
        lines = "\n".join([HEADER, *RECORDS])
        program = self.write("pfstrace", f"#!/bin/sh\ntest \"$1\" = --version && exit 0\necho '{lines}'\n{script}\n")
        program.chmod(0o755)
        return {**self.env, "PFSTRACE": str(program)}

    def capture(self) -> Path:
        """A file that begins as a capture."""
        path = self.folder / "web.pcap"
        path.write_bytes(b"\xd4\xc3\xb2\xa1" + bytes(20))
        return path

    def test_the_folder_is_whole_old_or_new(self) -> None:
        self.assertEqual(self.run_it(self.rules, self.records).status, 0)
        (self.into / "notes").write_text("mine", "utf-8")
        before = self.files()
        self.rules.write_text("set limit states 60\npass in proto tcp all keep state\n", "utf-8")
        failing = self.folder / "pfsrc"
        failing.write_text(
            f"#!/bin/sh\ntest \"$1\" = replay || exec '{STAND_IN}' \"$@\"\necho '1 new @0'\necho 'trace: row 2: field "
            "6' >&2\nexit 1\n",
            "utf-8",
        )
        failing.chmod(0o755)
        done = self.run_it(self.rules, self.records, env={"PFSRC": str(failing)})
        self.assertEqual((done.status, done.err), (Status.REFUSED, f"pfplan run: {self.records}: row 2: field 6\n"))
        self.assertEqual(self.files(), before)
        self.assertEqual(self.run_it(self.rules, self.records).status, 0)
        after = self.files()
        self.assertIn("set limit { states 60 }", after["rules"])
        self.assertEqual((after["notes"], set(after)), ("mine", set(before)))
        self.assertEqual([it for it in self.left() if it.startswith(".")], [])

    def test_a_file_of_before_goes(self) -> None:
        self.assertEqual(self.run_it(self.rules, self.capture(), env=self.pfstrace(f"echo '{ACCOUNT}' >&2")).status, 0)
        self.assertIn("trace.csv", self.files())
        self.assertEqual(self.run_it(self.rules, self.records).status, 0)
        self.assertNotIn("trace.csv", self.files())

    def test_frames_that_are_no_records(self) -> None:
        done = self.run_it(self.rules, self.capture(), env=self.pfstrace(f"echo '{ACCOUNT}' >&2"))
        self.assertEqual(done.status, 0, done.err)
        said = "5 of 8 frames of the capture are no records: 4 neither in nor out, 1 not IP"
        files = self.files()
        self.assertIn(said, files["report.html"])
        self.assertIn(said, files["summary.txt"])
        self.assertIn(said, done.out)
        self.assertEqual(json.loads(files["summary.json"])["frames"]["others"]["neither in nor out"], 4)

    def test_a_capture_that_is_cut(self) -> None:
        env = self.pfstrace(
            f"echo '{ACCOUNT}' >&2; echo 'capture: behind frame 3: the file ends within it' >&2; exit 1"
        )
        done = self.run_it(self.rules, self.capture(), env=env)
        self.assertEqual(done.status, Status.REFUSED)
        self.assertIn("the file ends within it (--partial takes the frames before it)", done.err)
        self.assertFalse(self.into.exists())
        self.assertEqual(self.run_it(self.rules, self.capture(), "--partial", env=env).status, 0)
        self.assertIn("behind frame 3: the file ends within it", self.files()["report.html"])

    def test_standard_input(self) -> None:
        plain = self.run_it(self.rules, self.records)
        files = self.files()
        done = self.run_it("-", self.records, stdin=self.rules.read_text("utf-8"))
        self.assertEqual((done.status, done.out), (0, plain.out), done.err)
        self.assertEqual(self.files()["rules"], files["rules"])
        done = self.run_it(self.rules, "-", stdin=self.records.read_text("utf-8"))
        self.assertEqual((done.status, self.files()["report"]), (0, files["report"]), done.err)
        self.assertEqual(self.run_it("-", "-").status, Status.WORDS)

    def test_pipes_are_opened_once(self) -> None:
        pipes = {name: self.folder / f"{name}.pipe" for name in ("rules", "records")}
        texts = {"rules": self.rules.read_bytes(), "records": self.records.read_bytes()}
        for name, path in pipes.items():
            os.mkfifo(path)
            threading.Thread(target=path.write_bytes, args=(texts[name],), daemon=True).start()
        done = self.run_it(pipes["rules"], pipes["records"])
        self.assertEqual(done.status, 0, done.err)
        words = [sys.executable, TOP / "pfplan", "run", "<(cat pf.conf)", "<(cat trace)", "--into", self.into, *USERS]
        shell = " ".join(str(it) if str(it).startswith("<(") else f"'{it}'" for it in words)
        ended = subprocess.run(
            ["bash", "-c", shell],
            cwd=self.folder,
            env=os.environ | self.env,
            capture_output=True,
            text=True,
            check=False,
            timeout=60,
        )
        self.assertEqual(ended.returncode, 0, ended.stderr)

    def test_what_is_missing_is_said_first(self) -> None:
        rules = self.write("pf.conf", "block all\npass in on egress proto tcp to port 80\n")
        done = self.run_it(rules, self.records)
        self.assertTrue(done.out.startswith("in doubt: 1 thing is missing that the rules need: that egress"), done.out)
        self.assertIn(f"\nmissing: that egress is a group ({rules}:2): only records", done.out)
        self.assertIn("give --interface egress=IF or --ifconfig (pf passes more)", done.out)
        page = self.files()["report.html"]
        self.assertLess(page.index("give --interface egress=IF"), page.index("of the users"))

    def test_green_or_red_by_want(self) -> None:
        unanswered = [
            *RECORDS,
            "1,in,em0,tcp,198.51.100.8,1000,192.0.2.1,80,S",
            "90,in,em0,icmp,198.51.100.8,,192.0.2.1,,",
        ]
        trace = self.trace(unanswered, "other")
        for want, mood in (("50%", "good"), ("51%", "bad")):
            self.assertEqual(self.run_it(self.rules, trace, "--want", want).status, 0)
            self.assertIn(f'class="answer {mood}"', self.files()["report.html"])

    def test_the_lines_of_the_pf_conf(self) -> None:
        self.run_it(self.rules, self.records)
        self.assertIn("pf.conf:2", self.files()["report.html"])
        self.assertIn("  @0    pf.conf:2  pass in proto tcp all keep state", self.files()["summary.txt"])


class Folders(FolderCase):
    """A folder that is put in its place at once."""

    def test_undone(self) -> None:
        place = self.folder / "place"
        place.mkdir()
        (place / "a").write_text("old", "utf-8")
        with self.assertRaises(ZeroDivisionError), whole_folder(place) as made:
            (made / "a").write_text("new", "utf-8")
            raise ZeroDivisionError
        self.assertEqual(((place / "a").read_text("utf-8"), self.left()), ("old", ["place"]))
        with whole_folder(place) as made:
            (made / "b").write_text("new", "utf-8")
        self.assertEqual((sorted(it.name for it in place.iterdir()), self.left()), ([".pfplan", "a", "b"], ["place"]))
        with whole_folder(place) as made:
            (made / "c").write_text("new", "utf-8")
        self.assertEqual(sorted(it.name for it in place.iterdir()), [".pfplan", "a", "c"])

    def test_folders_above(self) -> None:
        with whole_folder(self.folder / "x" / "y") as made:
            (made / "a").write_text("new", "utf-8")
        self.assertEqual((self.folder / "x/y/a").read_text("utf-8"), "new")


if __name__ == "__main__":
    unittest.main()
