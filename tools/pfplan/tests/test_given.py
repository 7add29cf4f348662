"""The same words everywhere: what a command takes as rules, a trace or a capture, it also takes from standard input, a
pipe, an open file, and packed; and a pf.conf wherever a rules text is taken."""

import gzip
import json
import os
import re
import subprocess
import sys
import tempfile
import threading
import unittest
from collections.abc import Sequence
from pathlib import Path

from pfplan.commands.given_rules import rules_given
from pfplan.common.repository import TOP, program
from pfplan.tests.packets import Logged, ethernet_capture, log_capture
from pfplan.tests.support import Done, FolderCase, pfplan
from pfplan.traces.records import read_record

CONF = """ext_if = "em0"
set limit states 3
set timeout { tcp.established 30, adaptive.start 0, adaptive.end 0 }
pass in log on $ext_if proto tcp to 192.0.2.1 port 80 keep state label "web" # of the web
"""
# three connections that are served, two that the limit refuses, and a last packet
RECORDS = [
    *(
        f"{second},{ends},{flags}"
        for second in (1, 2, 3)
        for ends, flags in (
            (f"in,em0,tcp,203.0.113.{second},4000,192.0.2.1,80", "S"),
            (f"out,em0,tcp,192.0.2.1,80,203.0.113.{second},4000", "SA"),
            (f"in,em0,tcp,203.0.113.{second},4000,192.0.2.1,80", "A"),
        )
    ),
    *(f"{second},in,em0,tcp,203.0.113.{second},4000,192.0.2.1,80,S" for second in (4, 5)),
    "60,in,em0,udp,198.51.100.1,5000,192.0.2.1,53,",
]
# An open file, and how a word names what is no file of its own.
OPEN = 63
NAMES = {"standard input": "-", "an open file": f"/dev/fd/{OPEN}", "a pipe": "pipe"}
USERS = ("--users", "203.0.113.0/24")
INSIDE = ("--inside", "192.0.2.0/24")


class Given(FolderCase):
    def setUp(self) -> None:
        super().setUp()
        self.write("pf.conf", CONF)
        self.trace(RECORDS)
        records = [read_record(it) for it in RECORDS]
        (self.folder / "pcap").write_bytes(ethernet_capture(records))
        (self.folder / "pflog").write_bytes(log_capture([(it, Logged(0, 0)) for it in records]))
        done = self.call("rules", "pf.conf", "--out", "rules")
        self.assertEqual(done.status, 0, done.err)
        words = [program(), "replay", str(self.folder / "rules"), str(self.folder / "trace")]
        (self.folder / "report").write_bytes(subprocess.run(words, capture_output=True, check=True).stdout)

    def call(self, *words: object, stdin: bytes = b"", fds: Sequence[int] = ()) -> Done:
        """Calls pfplan in the folder."""
        given = [sys.executable, str(TOP / "pfplan"), *map(str, words)]
        ended = subprocess.run(
            given, input=stdin, capture_output=True, cwd=self.folder, pass_fds=fds, check=False, timeout=120
        )
        return Done(ended.returncode, ended.stdout.decode(), ended.stderr.decode())

    def calls(self) -> dict[str, tuple[object, ...]]:
        """A call of each command that takes something; the folders that they write have names of their own."""
        into = ("--into", "answer")
        return {
            "rules": ("rules", "pf.conf"),
            "trace": ("trace", "pcap", *INSIDE),
            "run": ("run", "pf.conf", "pcap", *INSIDE, *USERS, *into),
            "run of a trace": ("run", "rules", "trace", *USERS, *into),
            "agree": ("agree", "pf.conf", "pflog", *into),
            "summary": ("summary", "report", "--trace", "trace", "--rules", "pf.conf", *USERS, "--held", 2),
            "explain": ("explain", "report", "--trace", "trace", "--rules", "pf.conf", "--row", 10),
            "compare": ("compare", "pf.conf", "rules", "trace", *USERS),
            "size": ("size", "pf.conf", "trace", "--vary", "states=1..9", "--grid", 2, "--runs", 4, *USERS),
            "margins": ("margins", "pf.conf", "trace", *USERS),
            "measure": ("measure", "rules", "trace", *USERS),
        }

    def in_another_way(self, way: str, words: Sequence[object], at: int) -> Done:
        """A call in which one word, the name of a file, is given in another way."""
        path = self.folder / str(words[at])
        others = list(words)
        others[at] = NAMES[way] if way in NAMES else packed(path, way).name
        if way == "standard input":
            return self.call(*others, stdin=path.read_bytes())
        if way == "an open file":
            with open(path, "rb") as file:
                os.dup2(file.fileno(), OPEN)
            done = self.call(*others, fds=[OPEN])
            os.close(OPEN)
            return done
        if way == "a pipe":
            os.mkfifo(self.folder / "pipe")
            writing = (self.folder / "pipe").write_bytes
            threading.Thread(target=writing, args=(path.read_bytes(),), daemon=True).start()
        done = self.call(*others)
        (self.folder / "pipe").unlink(missing_ok=True)
        return done

    def answers(self, words: Sequence[object], at: int, way: str) -> str:
        """What a call answers, in which the name of one file may stand or not."""
        done = self.in_another_way(way, words, at)
        self.assertEqual(done.status, 0, (way, words, done.err))
        return self.without(done.out, words[at])

    def without(self, text: str, given: object) -> str:
        """A text without the name of the file that was given."""
        for name in ("standard input", f"/dev/fd/{OPEN}", *(f"{given}{it}" for it in (".gz", ".zst", ""))):
            text = text.replace(name, "FILE")
        text = re.sub(rf"(?m)^  ([AB])  .*|{OPEN}|pipe|-(?=: 12 records)", r"\1 FILE", text)
        return text.replace("FILE", "").replace(" ", "")

    def test_each_word_in_each_way(self) -> None:
        ways = ("standard input", "a pipe", "an open file", "gzip", "zstd")
        number = 0
        for name, words in self.calls().items():
            plain = self.call(*words)
            places = [at for at, it in enumerate(words) if at and (self.folder / str(it)).is_file()]
            self.assertTrue(places)
            for at in places:
                # each place in one way, and over all commands each way many times
                number += 1
                way = ways[number % len(ways)]
                with self.subTest(name, way=way, word=words[at]):
                    self.assertEqual(self.answers(words, at, way), self.without(plain.out, words[at]))

    def test_standard_input_once(self) -> None:
        calls = ("run", "-", "-", "--into", "x"), ("compare", "-", "pf.conf", "-"), ("summary", "-", "--trace", "-")
        for words in calls:
            done = self.call(*words)
            self.assertEqual(done.status, 2)
            self.assertIn("-: standard input can be one of the inputs, and not several", done.err)

    def test_ifconfig_from_a_pipe(self) -> None:
        """It is asked twice of one pipe: for the rules, and for the directions of the capture."""
        lines = ("em0: flags=8843<UP> mtu 1500", "\tinet 192.0.2.1 netmask 0xffffff00", "\tgroups: egress")
        self.write("ifconfig", "".join(f"{it}\n" for it in lines))
        words = ["run", "pf.conf", "pcap", "--into", "answer", "--ifconfig", "ifconfig"]
        done = self.in_another_way("a pipe", words, len(words) - 1)
        self.assertEqual(done.status, 0, done.err)
        self.assertIn("frames 12: records 12", done.err)

    def test_what_is_packed_is_told_by_its_name(self) -> None:
        packed(self.trace(["1,in,em0,tcp,x,1,192.0.2.1,80,S"], "bad"), "gzip")
        done = self.call("compare", "rules", "pf.conf", "bad.gz")
        self.assertEqual(done.status, 1)
        self.assertIn("pfplan compare: bad.gz: row 1: ", done.err)
        (self.folder / "cut.gz").write_bytes((self.folder / "bad.gz").read_bytes()[:20])
        done = self.call("summary", "report", "--trace", "cut.gz")
        self.assertEqual((done.status, done.err.count("\n")), (1, 1))
        self.assertIn("cut.gz: gzip can't unpack it", done.err)

    def test_a_pf_conf_is_told_with_its_lines(self) -> None:
        done = self.call("explain", "report", "--trace", "trace", "--rules", "pf.conf", "--row", 1)
        self.assertIn("by rule @0 (pf.conf:4)", done.out)
        done = self.call("summary", "report", "--trace", "trace", "--rules", "pf.conf", *USERS)
        self.assertIn("pf.conf:2", done.out)
        # what is left out is told, and what is missing makes the answer doubtful
        self.write("other.conf", CONF + "block in from missing.example\n")
        for words in (
            ("compare", "pf.conf", "other.conf", "trace"),
            ("size", "other.conf", "trace", "--vary", "states=1..9", *USERS),
            ("margins", "other.conf", "trace"), ("summary", "report", "--trace", "trace", "--rules", "other.conf"),
        ):  # fmt: skip
            done = self.call(*words)
            self.assertEqual(done.status, 0, done.err)
            self.assertIn("other.conf: line 5: left out: ", done.err)
            self.assertIn("1 thing is missing that the rules need: block in from missing.example", done.out)

    def test_the_words_of_a_pf_conf(self) -> None:
        self.write("own.conf", CONF + "block in from $who\n")
        done = self.call("compare", "pf.conf", "own.conf", "trace", "-D", "who=203.0.113.1")
        self.assertEqual(done.status, 0, done.err)
        self.assertIn("block in from 203.0.113.1 to any", done.out)

    def test_rules_for_machines(self) -> None:
        found = json.loads(self.call("rules", "pf.conf", "--json").out)
        self.assertEqual(found["rules"], (self.folder / "rules").read_text("utf-8"))
        self.assertEqual(found["items"], [{"rule": "@0", "file": "pf.conf", "line": 4, "label": "web"}])
        self.assertEqual([(it["line"], it["text"]) for it in found["left_out"]], [(4, 'label "web"')])
        self.write("shown", "198.51.100.7\n")
        self.write("table.conf", "table <bad> persist\nblock in from <bad>\n")
        found = json.loads(self.call("rules", "table.conf", "--entries", "bad=shown", "--json").out)
        self.assertEqual(found["entries"], ["0,add,bad,,198.51.100.7,,,,"])

    def test_a_story_for_machines(self) -> None:
        words = ("explain", "report", "--trace", "trace", "--rules", "pf.conf", "--json")
        found = json.loads(self.call(*words, "--row", 10).out)
        self.assertEqual((found["row"], found["word"], found["rule"]), (10, "drop:states", "@0"))
        self.assertEqual((found["limit"], found["place"]), ("set limit states 3", "pf.conf:4"))
        self.assertEqual(found["tried_again"]["held_before"]["states"], 3)
        self.assertGreater(found["tried_again"]["let_in"], 4)
        found = json.loads(self.call(*words, "--source", "203.0.113.1").out)
        self.assertEqual((found["packets"], [it["word"] for it in found["runs"]]), (2, ["in"]))

    def test_dates(self) -> None:
        moments = [(1_700_000_000 + int(it.split(",", 1)[0]), it.split(",", 1)[1]) for it in RECORDS]
        trace = self.trace([f"{moment},{rest}" for moment, rest in moments], "since")
        done = self.call("explain", "report", "--trace", trace, "--rules", "rules", "--row", 10)
        self.assertIn("row 10, 2023-11-14 22:13:24 UTC: in em0 tcp", done.out)
        self.assertIn("would have been let in at the end of 2023-11-1", done.out)

    def test_watch(self) -> None:
        """A packed capture that is a file, and each second for machines."""
        words = [sys.executable, str(TOP / "pfplan"), "watch", "pf.conf", "--if", "em0", *INSIDE, *USERS, "--json"]
        for way in ("gzip", "zstd"):
            with open(packed(self.folder / "pcap", way), "rb") as file:
                done = subprocess.run(
                    words, stdin=file, capture_output=True, text=True, cwd=self.folder, check=False, timeout=120
                )
            self.assertEqual(done.returncode, 0, done.stderr)
            *seconds, last = map(json.loads, done.stdout.splitlines())
            self.assertTrue(seconds[-1]["is_last"])
            (view,) = seconds[-1]["rulesets"]
            self.assertEqual((view["rules"], view["words"]["drop:states"]), ("pf.conf", 2))
            self.assertEqual((view["limits"]["states"], set(view["held"])), (3, {"states", "nodes", "entries"}))
            self.assertEqual((view["users"]["refused"], sum(view["users"].values())), (2, 5))
            self.assertEqual((last["rules"], last["page"]), ("pf.conf", None))
            self.assertEqual(last["summary"]["users"]["connections"], 5)

    def test_several_interfaces(self) -> None:
        """As pfstrace takes them: a capture for each, in the order in which they are named."""
        from_outside = [it for it in RECORDS if ",in," in it]
        from_inside = [it.replace(",out,em0,", ",in,em1,") for it in RECORDS if ",out," in it]
        for name, lines in (("outer", from_outside), ("inner", from_inside)):
            (self.folder / name).write_bytes(ethernet_capture(map(read_record, lines)))
        ways = ("--if", "em0", *INSIDE, "--if", "em1", "--outside", "192.0.2.0/24")
        made = self.call("trace", "outer", "inner", *ways)
        self.assertEqual(made.status, 0, made.err)
        self.assertEqual(sorted(made.out.splitlines()[1:]), sorted([*from_outside, *from_inside]))
        done = self.call("run", "pf.conf", "outer", "inner", *ways, "--into", "answer")
        self.assertEqual(done.status, 0, done.err)
        self.assertEqual((self.folder / "answer" / "trace.csv").read_text("utf-8"), made.out)
        for words, said in (
            (("outer", "inner", "--if", "em0"), "--if: of several captures, it names the interface of each"),
            (("outer", "inner", "pcap", *ways), "--if: 2 interfaces, and 3 captures: "),
        ):
            done = self.call("run", "pf.conf", *words, "--into", "answer")
            self.assertEqual(done.status, 2)
            self.assertIn(said, done.err)

    def test_check(self) -> None:
        into = ("--into", "answer")
        few = "--check: 60.0 % of the users are served, and 99 % are wanted"
        for words, status, said in (
            (("run", "pf.conf", "trace", *USERS, *into), 1, few),
            (("run", "pf.conf", "trace", *USERS, *into, "--want", "50%"), 0, ""),
            (("run", "pf.conf", "trace", *USERS, *into, "--want", "50%", "--margins"), 1, "an answer turns over in "),
            (("run", "pf.conf", "trace", *into), 2, "--check wants --users"),
            (("compare", "pf.conf", "rules", "trace", *USERS), 0, ""),
            (("compare", "rules", "more", "trace"), 1, "2 records have another word under more than under rules"),
            (("compare", "rules", "rules", "trace", "--users", "10.0.0.0/8"), 1, "--check: the answer is in doubt"),
            (("margins", "pf.conf", "trace", *USERS), 1, "of the users are served, and 99 % are wanted"),
            (("margins", "more", "trace", *USERS, "--want", "50%"), 0, ""),
        ):
            self.write("more", (self.folder / "rules").read_text("utf-8") + "set limit states 100\n")
            done = self.call(*words, "--check")
            with self.subTest(words):
                self.assertEqual(done.status, status, done.err)
                self.assertIn(said, done.err)
                self.assertEqual("--check" in done.err, bool(said))
                self.assertTrue(done.out or status == 2)


def packed(path: Path, way: str) -> Path:
    """The file, packed beside it."""
    if way == "gzip":
        made = path.with_name(path.name + ".gz")
        made.write_bytes(gzip.compress(path.read_bytes()))
        return made
    made = path.with_name(path.name + ".zst")
    subprocess.run(["zstd", "-q", "-f", str(path), "-o", str(made)], check=True)
    return made


class Profiles(FolderCase):
    """Whose pf a text is answered by, where no word of the command line says it."""

    def lines(self, text: str, *, has_report: bool = False) -> list[str]:
        """What a command replays of a text."""
        with rules_given(self.write("rules", text), has_report=has_report) as given:
            return given.path.read_text("utf-8").splitlines()

    def test_whose_pf(self) -> None:
        line = "set profile openbsd-7.4"
        self.assertIn(line, self.lines("pass\n"))
        self.assertEqual(self.lines("pass\n", has_report=True), ["pass"])
        self.assertEqual(self.lines(f"pass\n{line}\n"), ["pass", line])
        words = [program(), "show", str(self.write("own", "pass\n"))]
        shown = subprocess.run(words, stdout=subprocess.PIPE, text=True, check=True).stdout
        self.assertNotIn(line, self.lines(shown))


class General(unittest.TestCase):
    def test_version(self) -> None:
        done = pfplan("--version")
        (number,) = done.out.split()[1:]
        said = subprocess.run([program(), "--version"], capture_output=True, text=True, check=True).stdout
        self.assertEqual((done.status, said.split()[1]), (0, f"{number},"))

    def completed(self, *words: str) -> list[str]:
        """What bash completes of the last word."""
        script = 'source "$1"; shift; COMP_WORDS=("$@"); COMP_CWORD=$(($# - 1)); _pfplan; echo "${COMPREPLY[*]}"'
        with tempfile.NamedTemporaryFile("w", encoding="utf-8", prefix="pfplan-test-") as file:
            file.write(pfplan("--completion", "bash").out)
            file.flush()
            call = ["bash", "-c", script, "bash", file.name, *words]
            return subprocess.run(call, capture_output=True, text=True, check=True).stdout.split()

    def test_completion(self) -> None:
        self.assertEqual(self.completed("pfplan", "s"), ["scenario", "summary", "size"])
        options = ["--into", "--inside", "--if", "--ifconfig", "--interface"]
        self.assertEqual(self.completed("pfplan", "run", "--i"), options)
        self.assertEqual(self.completed("pfplan", "run", "pf"), [])
        script = pfplan("--completion", "zsh").out
        self.assertTrue(script.startswith("#compdef pfplan\n"))
        self.assertIn("*--into[the folder", script)
        self.assertEqual(pfplan("--completion", "fish").status, 2)


if __name__ == "__main__":
    unittest.main()
