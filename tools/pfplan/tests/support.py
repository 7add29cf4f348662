"""What tests share: calls of ./pfplan, a folder of their own, and records and reports that are drawn by hand."""

import os
import signal
import subprocess
import sys
import tempfile
import unittest
from collections.abc import Iterable, Mapping
from dataclasses import dataclass
from pathlib import Path

from pfplan.common.inputs import HEADER, take_none
from pfplan.common.listings import NAME as LIST
from pfplan.common.repository import TOP

STAND_IN = Path(__file__).resolve().parent / "stand_in.py"


def heed_interrupts() -> None:
    """For a program that a test interrupts: where the tests run in the background, an interrupt would be ignored."""
    signal.signal(signal.SIGINT, signal.SIG_DFL)


@dataclass(frozen=True)
class Done:
    """How a call ended."""

    status: int
    out: str
    err: str


def pfplan(*words: object, stdin: str = "", cwd: Path | None = None, env: Mapping[str, str] | None = None) -> Done:
    """Calls ./pfplan with some words."""
    given = [sys.executable, str(TOP / "pfplan"), *map(str, words)]
    around = os.environ | dict(env or {})
    ended = subprocess.run(
        given,
        input=stdin,
        capture_output=True,
        text=True,
        cwd=cwd,
        env=around,
        check=False,
        timeout=120,
        errors="surrogateescape",
    )
    return Done(ended.returncode, ended.stdout, ended.stderr)


class FolderCase(unittest.TestCase):
    """A test with a folder of its own."""

    def setUp(self) -> None:
        take_none()
        made = tempfile.TemporaryDirectory(prefix="pfplan-test-")
        self.addCleanup(made.cleanup)
        self.folder = Path(made.name)

    def write(self, name: str, text: str) -> Path:
        """A file in the folder."""
        path = self.folder / name
        path.write_text(text, encoding="latin-1", newline="\n")
        return path

    def trace(self, records: Iterable[str], name: str = "trace") -> Path:
        """A trace of some records."""
        return self.write(name, "".join(f"{it}\n" for it in (HEADER, *records)))

    def report(self, texts: Iterable[str], name: str = "report", end: str = "states=0 nodes=0 entries=0") -> Path:
        """A report with some texts behind the rows' numbers."""
        lines = [f"{row} {text}" for row, text in enumerate(texts, 1)]
        return self.write(name, "".join(f"{it}\n" for it in (*lines, f"end rows={len(lines)} {end}")))

    def left(self) -> list[str]:
        """The names of the files in the folder, hidden ones too, but for pfplan's own list of them."""
        return sorted(it.name for it in self.folder.iterdir() if it.name != LIST)
