"""The command `watch`: captures that come through a pipe, by their own clock, faster and slower, cut, stopped and
interrupted."""

import json
import os
import pty
import random
import re
import signal
import subprocess
import sys
import termios
import threading
import time
import unittest
from collections import Counter
from collections.abc import Callable, Iterator, Sequence
from dataclasses import fields
from pathlib import Path
from typing import Any

from pfplan.answers.connections import Connections
from pfplan.answers.legs import Reply
from pfplan.answers.counting import Answers, Moments
from pfplan.answers.live_counts import Fed, LiveMoments
from pfplan.answers.stepping import Steps
from pfplan.answers.watching import Shown, View
from pfplan.commands.words import networks
from pfplan.common.errors import Status
from pfplan.common.repository import TOP
from pfplan.pages.screens import plain_lines, screen_lines
from pfplan.pf.reading_canonical_text import Flushes
from pfplan.tests.packets import ETHERNET, ethernet, head, seen
from pfplan.tests.support import Done, FolderCase, heed_interrupts, pfplan
from pfplan.traces.moments import MOST_STEPS, step_of
from pfplan.traces.records import End, Record, read_record, records

CONF = """
set limit states 60
table <bad> persist
block log all
block in quick from <bad>
pass in on em0 proto tcp to port 80 keep state (max-src-conn-rate 5/2, overload <bad> flush)
"""
OTHER = "set limit states 500\npass in on em0 proto tcp to port 80 keep state\n"
WORDS = ("--if", "em0", "--inside", "192.0.2.0/24", "--users", "198.51.100.0/24")


def drawn(seconds: int, each: int) -> list[Record]:
    """A trace of so many seconds, with some connections of users in each, a source that opens too many, and forged
    ones."""
    draw = random.Random(7)
    lines: list[str] = []
    port = 1024
    for second in range(1000, 1000 + seconds):
        for _ in range(each):
            port = 1024 + (port - 1023) % 60000
            source = draw.choice((f"198.51.100.{draw.randrange(40)}", "203.0.113.9", f"100.64.{draw.randrange(200)}.1"))
            lines.append(f"{second},in,em0,tcp,{source},{port},192.0.2.1,80,S")
            if not source.startswith("100.64"):
                lines.append(f"{second},out,em0,tcp,192.0.2.1,80,{source},{port},SA")
                lines.append(f"{second},in,em0,tcp,{source},{port},192.0.2.1,80,A")
                lines.append(f"{second},in,em0,tcp,{source},{port},192.0.2.1,80,FA")
    return [read_record(it) for it in lines]


def frames_of(found: Sequence[Record]) -> list[tuple[int, bytes]]:
    """The frames of a capture, each with its second."""
    return [(it.time, seen(it.time, ethernet(it))) for it in found]


class Sender(threading.Thread):
    """Sends a capture into a pipe, its seconds so many times as fast as they were; 0 is as fast as it goes. `before` is
    called for each."""

    def __init__(
        self,
        pipe: Any,
        frames: Sequence[tuple[int, bytes]],
        speed: float,
        before: Callable[[int], object] | None = None,
    ) -> None:
        super().__init__(daemon=True)
        self._pipe, self._frames, self._speed, self._before = pipe, frames, speed, before
        self.closes = True

    def run(self) -> None:
        """Sends all, a second at a time, and closes the pipe."""
        try:
            self._pipe.write(head(ETHERNET))
            for second, octets in self._seconds():
                if self._before:
                    self._before(second)
                self._pipe.write(octets)
                self._pipe.flush()
                if self._speed:
                    time.sleep(1 / self._speed)
            if self.closes:
                self._pipe.close()
        except (BrokenPipeError, ValueError):
            pass  # the reader has gone away, or the test has closed the pipe

    def _seconds(self) -> Iterator[tuple[int, bytes]]:
        seconds = sorted({it for it, _ in self._frames})
        for second in seconds:
            yield second, b"".join(octets for it, octets in self._frames if it == second)


class Watching(FolderCase):
    def setUp(self) -> None:
        super().setUp()
        self.conf = self.write("new.conf", CONF)
        self.into = self.folder / "answer"

    def start(
        self, *words: object, rules: Sequence[Path] = (), out: int = subprocess.PIPE
    ) -> "subprocess.Popen[bytes]":
        """Starts it, with a pipe as its standard input."""
        given = [
            sys.executable,
            str(TOP / "pfplan"),
            "watch",
            *map(str, rules or [self.conf]),
            *WORDS,
            *map(str, words),
        ]
        process = subprocess.Popen(
            given, stdin=subprocess.PIPE, stdout=out, stderr=subprocess.PIPE, preexec_fn=heed_interrupts
        )
        for pipe in (process.stdin, process.stderr):
            if pipe:
                self.addCleanup(pipe.close)
        self.addCleanup(process.kill)
        return process

    def watch(self, sender_of: Callable[[Any], Sender], *words: object, rules: Sequence[Path] = ()) -> Done:
        """Runs it to its end over what a sender sends."""
        process = self.start(*words, "--into", self.into, rules=rules)
        sender = sender_of(process.stdin)
        sender.start()
        assert process.stdout and process.stderr
        out, err = process.stdout.read().decode(), process.stderr.read().decode()
        process.stdout.close()
        sender.join(30)
        return Done(process.wait(60), out, err)

    def check_as_run(
        self, found: Sequence[Record], folder: Path | None = None, conf: Path | None = None
    ) -> dict[str, Any]:
        """The folder has what `run` makes of the same trace; what its summary says."""
        trace = self.trace([",".join(str(getattr(it, field.name)) for field in fields(it)) for it in found])
        done = pfplan(
            "run", conf or self.conf, trace, "--users", "198.51.100.0/24", "--into", self.folder / "run", "--held", 0
        )
        self.assertEqual(done.status, 0, done.err)
        folder = folder or self.into
        for name in ("report", "rules", "left-out.txt"):
            self.assertEqual((folder / name).read_bytes(), (self.folder / "run" / name).read_bytes(), name)
        ours, theirs = (json.loads((it / "summary.json").read_text("utf-8")) for it in (folder, self.folder / "run"))
        ours |= {"held": theirs["held"], "frames": theirs["frames"]}
        self.assertEqual(ours, theirs)
        self.assertIn("<!doctype html>", (folder / "report.html").read_text("utf-8"))
        return dict(ours)

    def check_last(self, line: str, answer: dict[str, Any]) -> None:
        """The last line that is shown says what the summary says."""
        self.assertIn(f"; {answer['records']:,} records, at the end; {answer['end']['states']:,} of 60 states", line)
        for word, count in answer["words"].items():
            if word.startswith("drop:") and count:
                self.assertIn(f"{word} {count:,}", line)
        self.assertIn(f"blocked {answer['words']['block']:,}; ", line)
        self.assertIn(f"overload {answer['overloads']['added']:,} source", line)
        users = answer["users"]
        self.assertIn(f"users: {users['connections']:,} connections: {users['outcomes']['served']:,} served", line)

    def test_the_last_screen_says_what_run_says(self) -> None:
        found = drawn(4, 60)
        for speed in (1, 2, 0.8, 0):
            with self.subTest(speed=speed):
                done = self.watch(lambda pipe: Sender(pipe, frames_of(found), speed))
                self.assertEqual(done.status, 0, done.err)
                lines = done.out.splitlines()
                self.check_last(lines[-3], self.check_as_run(found))
                self.assertEqual((self.into / "trace.csv").read_bytes(), (self.folder / "trace").read_bytes())

    def test_several_rulesets(self) -> None:
        found, other = drawn(3, 60), self.write("other.conf", OTHER)
        done = self.watch(lambda pipe: Sender(pipe, frames_of(found), 0), rules=(self.conf, other))
        self.assertEqual(done.status, 0, done.err)
        for conf in (self.conf, other):
            self.check_as_run(found, self.into / conf.stem, conf)
        self.assertIn(f"{self.into}/other/report.html", done.out)

    def test_a_cut_packet(self) -> None:
        found = drawn(2, 20)
        frames = frames_of(found)
        frames[-1] = (frames[-1][0], frames[-1][1][:-5])
        done = self.watch(lambda pipe: Sender(pipe, frames, 0))
        self.assertEqual(done.status, Status.REFUSED)
        self.assertIn(
            f"standard input: pfstrace: capture: behind frame {len(found) - 1}: the file ends within it",
            done.err.splitlines()[-1],
        )
        self.check_as_run(found[:-1])

    def test_a_stop(self) -> None:
        found = drawn(3, 20)
        goes_on = threading.Event()
        process = self.start("--into", self.into)
        sender = Sender(process.stdin, frames_of(found), 0, lambda second: second == 1001 and goes_on.wait(60))
        sender.start()
        self.wait_for(process, b"no record for 3 seconds")
        goes_on.set()
        assert process.stdout
        out = process.stdout.read().decode()
        process.stdout.close()
        self.assertEqual(process.wait(60), 0)
        self.assertIn(f"; {len(found):,} records, at the end", out)
        self.check_as_run(found)

    def wait_for(self, process: "subprocess.Popen[bytes]", text: bytes) -> None:
        """Reads lines until one has a text."""
        assert process.stdout
        while text not in (line := process.stdout.readline()):
            self.assertTrue(line)

    def test_an_interrupt_and_a_time(self) -> None:
        found = drawn(2, 20)
        for number, words in ((signal.SIGINT, ()), (signal.SIGTERM, ()), (None, ("--seconds", 3))):
            with self.subTest(number=number):
                process = self.start("--into", self.into, *words)
                sender = Sender(process.stdin, frames_of(found), 0)
                sender.closes = False
                sender.start()
                self.wait_for(process, f"; {len(found):,} records".encode())
                if number:
                    process.send_signal(number)
                assert process.stdout and process.stderr and process.stdin
                out = process.stdout.read().decode()
                self.assertEqual((process.wait(30), process.stderr.read()), (0, b""))
                process.stdout.close()
                process.stdin.close()
                self.assertIn(f"; {len(found):,} records, at the end", out)
                self.check_as_run(found)

    def test_nobody_reads(self) -> None:
        found = drawn(5, 20)
        process = self.start("--into", self.into)
        sender = Sender(process.stdin, frames_of(found), 1)
        sender.start()
        self.wait_for(process, b"records")
        assert process.stdout and process.stderr
        process.stdout.close()
        err = process.stderr.read().decode()
        self.assertEqual(
            (process.wait(30), err.splitlines()[-1]),
            (Status.FAILED, "pfplan watch: standard output: can't be written: Broken pipe"),
        )
        self.check_as_run([*records(self.into / "trace.csv")])

    def screens(self, process: "subprocess.Popen[bytes]", terminal: int) -> list[str]:
        """What is drawn on a terminal until the end, screen by screen."""
        shown = b""
        try:
            while more := os.read(terminal, 4096):
                shown += more
        except OSError:
            pass  # the end of a terminal
        os.close(terminal)
        self.assertEqual(process.wait(30), 0)
        self.assertTrue(shown.startswith(b"\x1b[2J\x1b[H"))
        return shown.decode().split("\x1b[H")[1:]

    def test_on_a_terminal(self) -> None:
        found = drawn(5, 20)
        ours, theirs = pty.openpty()
        process = self.start(out=theirs)
        os.close(theirs)
        sender = Sender(process.stdin, frames_of(found), 1)
        sender.start()
        screens = self.screens(process, ours)
        self.assertGreater(len(screens), 1)
        self.assertIn(f"{len(found):,} records, at the end\x1b[K\r\n", screens[-1])
        self.assertIn("  held      ", screens[-1])
        self.assertFalse(self.into.exists())

    def test_what_the_example_shows(self) -> None:
        example = TOP / "examples" / "watch"
        ours, theirs = pty.openpty()
        termios.tcsetwinsize(theirs, (50, 200))
        words = ("--if", "em0", "--inside", "203.0.113.5/32", "--users", "192.0.2.0/25,198.51.100.0/24")
        given = [
            sys.executable,
            str(TOP / "pfplan"),
            "watch",
            *(str(example / it) for it in ("new.conf", "wider.conf")),
            *words,
        ]
        around = {name: it for name, it in os.environ.items() if name not in ("COLUMNS", "LINES")}
        with open(TOP / "examples" / "pf.conf" / "web.pcap", "rb") as capture:
            process = subprocess.Popen(given, stdin=capture, stdout=theirs, stderr=subprocess.DEVNULL, env=around)
        os.close(theirs)
        lines = self.screens(process, ours)[-1].replace("\x1b[K", "").partition("\x1b[J")[0].splitlines()[1:]
        self.assertEqual(len(lines), 16)
        shown = "".join(f"    {it}\n" if it else "\n" for it in lines)
        # what came since the screen before depends on when that one was drawn
        since = re.compile(r"\(\+\d+\)")
        self.assertIn(since.sub("(+N)", shown), since.sub("(+N)", (example / "README.md").read_text("utf-8")))

    def test_what_can_not_be_watched(self) -> None:
        text = "a text that is no capture"
        for given, status, why in (
            ("", Status.REFUSED, "pfplan watch: standard input: "),
            (text, Status.REFUSED, "standard input: pfstrace: "),
        ):
            done = pfplan("watch", self.conf, *WORDS, stdin=given)
            self.assertEqual(done.status, status, done.err)
            self.assertIn(why, done.err)
        done = pfplan("watch", self.write("bad.conf", "pas all\n"), *WORDS)
        self.assertEqual((done.status, done.out), (Status.RULES, ""))
        done = pfplan("watch", self.conf, *WORDS, env={"PFSTRACE": "/nowhere/pfstrace"})
        self.assertEqual(done.status, Status.NOT_BUILT)

    def test_a_program_that_dies(self) -> None:
        """Of memory, say: what stood in the folder stays, and no half file looks whole."""
        program = self.write(
            "pfsrc",
            f'#!/bin/sh\n[ "$1" = replay ] || exec {os.environ.get("PFSRC") or TOP / "pfsrc"} "$@"\n'
            "head -n 1 >&2; echo 'no memory' >&2; exit 4\n",
        )
        program.chmod(0o755)
        frames = b"".join([head(ETHERNET), *(octets for _, octets in frames_of(drawn(2, 20)))])
        given = [sys.executable, str(TOP / "pfplan"), "watch", str(self.conf), *WORDS, "--into", str(self.into)]
        done = subprocess.run(
            given, input=frames, capture_output=True, env=os.environ | {"PFSRC": str(program)}, check=False, timeout=60
        )
        self.assertEqual(done.returncode, Status.FAILED)
        self.assertEqual(done.stderr.decode().splitlines()[-1], f"pfplan watch: {program}: no memory (rules new.conf)")
        self.assertFalse(self.into.exists())


class Counts(unittest.TestCase):
    def test_steps_are_those_of_a_whole_trace(self) -> None:
        draw = random.Random(3)
        for span in (50, 119, 130, 300, 700, 1500, 3000, 8000, 20_000, 50_000, 300_000, 3_000_000):
            with self.subTest(span=span):
                times = sorted({1000, 1000 + span, *(1000 + draw.randrange(span) for _ in range(400))})
                lines = [f"{it},in,em0,udp,203.0.113.1,1,192.0.2.1,53," for it in times]
                texts = [draw.choice(("new @0", "state @0", "drop:states @0")) for _ in times]
                steps, most = self.live_steps(lines, texts)
                self.assertLess(most, 6 * MOST_STEPS)
                self.assertEqual(steps, self.whole_steps(lines, texts, step_of(times[0], times[-1])))

    def live_steps(self, lines: list[str], texts: list[str]) -> tuple[Any, int]:
        """The steps of a trace that is given in pieces, and the most there were at a time."""
        trace, answers, most = Fed(), Answers("report", 1), 0
        moments = LiveMoments(trace, answers, (), Flushes())
        for at in range(0, len(lines), 7):
            trace.put(lines[at : at + 7])
            moments.take(answers.take([f"{row} {text}" for row, text in enumerate(texts[at : at + 7], at + 1)]))
            most = max(most, len(moments.steps))
        moments.finish(True)
        return {it.moment: it.words for it in moments.steps.whole() if it.words}, most

    def whole_steps(self, lines: list[str], texts: list[str], seconds: int) -> Any:
        """The steps of a trace whose end is known."""
        trace, answers = Fed(), Answers("report", 1)
        trace.put(lines)
        moments = Moments(trace, answers, (), Steps(seconds))
        moments.take(answers.take([f"{row} {text}" for row, text in enumerate(texts, 1)]))
        return {it.moment: it.words for it in moments.steps.whole() if it.words}

    def test_open_connections_are_bounded(self) -> None:
        """Of many that never close, those that were quiet the longest go, and are counted as they were then."""
        ended: list[tuple[int, str]] = []
        connections = Connections(
            networks("198.51.100.0/24"), lambda begin, outcome: ended.append((begin, outcome)), None, Flushes(), 4, 10
        )
        talker = ("198.51.100.1", "1", "192.0.2.1", "53", "")
        for row in range(1, 1001):
            column = (str(row), "in", "em0", "udp", "198.51.100.2", str(1000 + row), "192.0.2.1", "53", "")
            connections.follow(2 * row, Reply("new", "@0"), column)
            connections.follow(
                2 * row + 1, Reply("new" if row == 1 else "state", "@0"), (str(row), "in", "em0", "udp", *talker)
            )
            connections.last = row
            self.assertLess(sum(connections.so_far().values()) - len(ended), 10 + 3 * 4 + 2)
        # the one that went on talking was kept
        self.assertEqual(connections.forgotten, len(ended))
        self.assertGreater(connections.forgotten, 970)
        self.assertEqual({it for _, it in ended}, {"unanswered"})
        connections.finish()
        self.assertEqual(connections.outcomes, Counter(unanswered=998, late=3))

    def test_forgotten_connections_are_told(self) -> None:
        view = View("x.conf", End(0, 1, 1, 0), {"states": 5}, {}, {}, 0, 0, (), Counter(served=1), (), 1234)
        shown = Shown(1, 5, 10, 2.0, [view])
        for lines in (plain_lines(shown), screen_lines(shown)):
            self.assertIn("1,234 open connections forgotten, the quietest past 100,000", "\n".join(lines))

    def test_cookies_are_told(self) -> None:
        """How many SYN packets got one, where some did; and what was dropped behind one."""
        words = {"cookie": 1200, "drop:cookie": 2}
        for given in (words, dict[str, int]()):
            view = View("x.conf", End(0, 1, 1, 0), {"states": 5}, given, {"cookie": 40} if given else {}, 0, 0)
            text = "\n".join(screen_lines(Shown(1, 5, 10, 2.0, [view])))
            self.assertEqual("  cookies   1,200 (+40)" in text, bool(given), text)
            self.assertEqual("drop:cookie 2" in text, bool(given), text)

    def test_names_are_text(self) -> None:
        view = View(
            "\x1b[2Jx.conf",
            End(0, 1, 1, 0),
            {"states": 2},
            {"drop:states": 3},
            {"drop:states": 1},
            0,
            1,
            ("\x1b[1m",),
            Counter(served=1),
            (),
        )
        shown = Shown(1, 1_700_000_000, 4, 4.0, (view, view))
        for lines in (screen_lines(shown), plain_lines(shown)):
            text = "\n".join(lines)
            self.assertNotIn("\x1b", text)
            self.assertIn("drop:states 3 (+1)", text)
            self.assertIn("2023-11-14 22:13:20 UTC", text)


if __name__ == "__main__":
    unittest.main()
