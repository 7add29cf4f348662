"""A property of every command, over folders, links, names and calls drawn at random, with fixed seeds: what was there
and was not pfplan's is there, byte for byte, whatever happens.

6 folders with 12 calls each, or as many folders as the environment names in PFPLAN_DRAWN, from the seed in PFPLAN_SEED
on. What pfplan wrote, the test knows by looking: what a call changed is pfplan's, until the test itself changes it.
And:

- an input of a call is as it was, also where pfplan had written it;
- a call that fails has changed nothing; no part of a file is left.
"""

import contextlib
import io
import os
import random
import shutil
import unittest
from collections.abc import Iterator
from pathlib import Path
from unittest import mock

from pfplan.__main__ import main
from pfplan.common.errors import Status, Trouble
from pfplan.common.inputs import HEADER
from pfplan.common.listings import NAME
from pfplan.common.repository import TOP, program
from pfplan.tests.support import FolderCase

EXAMPLES = TOP / "examples"
RECORDS = (
    "1,in,em0,tcp,198.51.100.7,1000,192.0.2.1,80,S", "1,out,em0,tcp,192.0.2.1,80,198.51.100.7,1000,SA",
    "1,in,em0,tcp,198.51.100.7,1000,192.0.2.1,80,A",
)  # fmt: skip
TEXTS = {
    "pf.conf": "set limit states 50\npass in proto tcp all keep state (max 9)\n",
    "other.conf": "block all\npass in proto tcp to port 80 keep state\n",
    "t.csv": "".join(f"{it}\n" for it in (HEADER, *RECORDS)),
    "answers": "1 new @0\n2 state @0\n3 state @0\nend rows=3 states=1 nodes=0 entries=0\n",
    "s.toml": 'seconds = 2\nserver = "192.0.2.1:80"\n[group.a]\nkind = "hold"\nfrom = "198.51.100.0/24"\nhosts = 2\n'
    "rate = 1\nusers = true\n",
}
FILES = {
    "log": EXAMPLES / "agree/pflog",
    "log.conf": EXAMPLES / "agree/pf.conf",
    "web.pcap": EXAMPLES / "pf.conf/web.pcap",
}
# what commands write, and what they are given: all that a drawn name may be
NAMES = (
    "rules", "rules.entries", "left-out.txt", "trace.csv", "told.csv", "report", "summary.txt", "summary.json",
    "report.html", "agree.txt", "agree.json", "DIFFERENCES.md", NAME, "a", *TEXTS, *FILES,
)  # fmt: skip
FOLDERS = (".", "x", "x/pf", "x/other", "y")
INSIDE = ("--inside", "203.0.113.5/32")
USERS = ("--users", "198.51.100.0/24")


class Drawing:
    """A folder with what a user has there, and what pfplan wrote."""

    def __init__(self, folder: Path, seed: int) -> None:
        self.folder = folder
        self.random = random.Random(seed)
        self.ours: dict[str, str] = {}

    def seen(self) -> dict[str, str]:
        """All that is in the folder: what each name is, and what it holds."""
        return {str(it.relative_to(self.folder)): _content(it) for it in sorted(self.folder.rglob("*"))}

    def place(self) -> Path:
        """A drawn name."""
        return Path(self.random.choice(FOLDERS), self.random.choice(NAMES))

    def given(self, *names: str) -> str:
        """A name of an input: mostly a good one, where there is one."""
        if self.random.random() < 0.1:
            return str(self.place())
        return self.random.choice(names)

    def act(self) -> None:
        """What a user does: makes, changes, links, renames, removes."""
        place = self.folder / self.place()
        doing = self.random.choice(("file", "file", "folder", "link", "hard", "remove", "change"))
        with contextlib.suppress(OSError):
            place.parent.mkdir(parents=True, exist_ok=True)
            if doing == "file" and not os.path.lexists(place):
                place.write_text(f"mine {self.random.random()}\n", "utf-8")
            elif doing == "folder":
                place.mkdir()
                (place / "mine").write_text("mine\n", "utf-8")
            elif doing == "link":
                place.symlink_to(os.path.relpath(self.folder / self.place(), place.parent))
            elif doing == "hard":
                os.link(self.folder / self.place(), place)
            elif doing == "remove" and place.name not in TEXTS and place.name not in FILES and place.is_file():
                place.unlink()
            elif doing == "change" and place.name not in TEXTS and place.name not in FILES and place.is_file():
                place.write_text(f"changed {self.random.random()}\n", "utf-8")

    def call(self) -> list[str]:
        """A drawn call."""
        rules, trace = self.given("pf.conf", "other.conf", "x/rules"), self.given("t.csv", "x/trace.csv", "s.toml")
        report, capture, out = self.given("answers", "x/report"), self.given("web.pcap"), str(self.place())
        into = self.random.choice((*FOLDERS, out))
        page = ["--page", str(self.place())] if self.random.random() < 0.5 else []
        return self.random.choice(
            [
                ["rules", rules, "--out", out], ["scenario", "--out", out], ["trace", capture, *INSIDE, "--out", out],
                ["trace", "log", "--out", out, "--answers", str(self.place())], ["trace", "s.toml", "--out", out],
                ["summary", report, "--trace", trace, "--out", out], ["measure", rules, trace],
                ["explain", report, "--trace", trace, "--rules", rules, "--row", "1", "--out", out],
                ["compare", rules, "other.conf", trace, "--out", out, *page],
                ["margins", rules, trace, "--out", out, *page],
                ["size", rules, "t.csv", "--vary", "states=1..5", "--runs", "2", *USERS, "--out", out, *page],
                ["run", rules, trace, "--into", into, "--held", "0"], ["run", rules, "t.csv", "--into", into, *USERS],
                ["run", rules, capture, *INSIDE, "--into", into, "--held", "2"],
                ["play", rules, "other.conf", "s.toml", "--into", into, "--jobs", "1"],
                ["agree", "log.conf", "log", "--into", into],
                ["watch", rules, "other.conf", *INSIDE, "--into", into],
            ]
        )  # fmt: skip


def _content(path: Path) -> str:
    if path.is_symlink():
        return f"link {os.readlink(path)}"
    return "folder" if path.is_dir() else f"file {path.read_bytes()!r}"


@contextlib.contextmanager
def quiet(capture: Path) -> Iterator[None]:
    """Standard output and error that nobody reads, and a capture as standard input."""
    before = os.dup(0)
    given = os.open(capture, os.O_RDONLY)
    os.dup2(given, 0)
    out, err = (io.TextIOWrapper(io.BytesIO(), "utf-8") for _ in range(2))
    try:
        with contextlib.redirect_stdout(out), contextlib.redirect_stderr(err):
            yield
    finally:
        os.dup2(before, 0)
        os.close(given)
        os.close(before)


class DrawnOutputs(FolderCase):
    def test_what_is_not_pfplans_stays(self) -> None:
        first = int(os.environ.get("PFPLAN_SEED", "1"))
        counts = {True: 0, False: 0}
        for seed in range(first, first + int(os.environ.get("PFPLAN_DRAWN", "6"))):
            drawing = Drawing(self.folder / str(seed), seed)
            drawing.folder.mkdir()
            for name, text in TEXTS.items():
                (drawing.folder / name).write_text(text, "utf-8")
            for name, path in FILES.items():
                shutil.copyfile(path, drawing.folder / name)
            for _ in range(12):
                for _ in range(drawing.random.randrange(3)):
                    drawing.act()
                words = drawing.call()
                with self.subTest(seed=seed, words=words):
                    counts[self.check(drawing, words) == 0] += 1
        self.assertGreater(min(counts.values()), sum(counts.values()) // 8, counts)

    def check(self, drawing: Drawing, words: list[str]) -> int:
        """Makes a call, and holds what is there after it beside what was there before."""
        before = drawing.seen()
        ours = {name for name, was in drawing.ours.items() if before.get(name) == was}
        status = self.run_it(drawing, words)
        after = drawing.seen()
        self.assertIn(status, set(Status))
        self.assertEqual([it for it in after if it.endswith(".part")], [])
        inputs = [os.path.realpath(drawing.folder / it) for it in self.inputs_of(words)]
        for name, was in before.items():
            is_input = os.path.realpath(drawing.folder / name) in inputs
            if status or name not in ours or is_input:
                self.assertEqual(after.get(name), was, f"{name} was touched")
        if status and words[0] != "watch":
            self.assertEqual(after, before)
        drawing.ours = {name: what for name, what in after.items() if name in ours or before.get(name) != what}
        return status

    def inputs_of(self, words: list[str]) -> list[str]:
        """The words that are no outputs and no options."""
        outputs = ("--out", "--page", "--into", "--answers")
        return [it for before, it in zip(words, words[1:]) if before not in outputs and not it.startswith("-")]

    def run_it(self, drawing: Drawing, words: list[str]) -> int:
        """The call's status; one in eight has a program that fails as it replays."""
        failing = self.folder / "failing"
        failing.write_text(f"#!/bin/sh\ntest \"$1\" = replay || exec '{program()}' \"$@\"\nexit 4\n", "utf-8")
        failing.chmod(0o755)
        around = {"PFSRC": str(failing)} if drawing.random.random() < 0.125 else {}
        no_pictures = mock.patch("pfplan.pages.pictures.drawn_by_gnuplot", side_effect=Trouble("no pictures"))
        here = os.getcwd()
        try:
            os.chdir(drawing.folder)
            with quiet(FILES["web.pcap"]), mock.patch.dict(os.environ, around), no_pictures:
                return main(words)
        except SystemExit as end:
            return int(end.code or 0)
        finally:
            os.chdir(here)


if __name__ == "__main__":
    unittest.main()
