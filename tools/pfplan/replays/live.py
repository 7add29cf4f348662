"""A replay of a capture while it comes: ./pfstrace makes records of it, and each of several ./pfsrc answers them before
more is read.

All run with --line-buffered, so no record waits for the next one. What is sent at a time fits into any pipe, and its
answers are read before more is sent: so neither side waits for the other, and memory is that of a block.
"""

import os
import stat
import subprocess
import tempfile
from collections.abc import Iterable, Sequence
from pathlib import Path
from typing import IO, NoReturn

from pfplan.common.errors import Status, Trouble, reason_of
from pfplan.common.inputs import HEADER, check_unpacking, packed_by
from pfplan.common.repository import program
from pfplan.traces.records import End, read_answer

# Bytes of a trace that are read and sent at a time: they and their answers fit into a pipe of any system.
PIECE = 8192


def started(
    words: Sequence[str], errors: IO[bytes], *, is_fed: bool, source: IO[bytes] | None = None
) -> "subprocess.Popen[bytes]":
    """A program of the pipeline. It is in a group of its own: an interrupt from the terminal is for us, who end the
    others in order.

    Its standard input is `source`, else ours, or where `is_fed` a pipe. Trouble with status 70 where it can't be run.
    """
    try:
        return subprocess.Popen(
            words,
            stdin=subprocess.PIPE if is_fed else source,
            stdout=subprocess.PIPE,
            stderr=errors,
            bufsize=0,
            process_group=0,
        )
    except OSError as error:
        raise Trouble(f"{words[0]}: can't be run: {reason_of(error)}", Status.NOT_BUILT) from None


def last_said(errors: IO[bytes], status: int) -> str:
    """The last line that a program wrote to standard error, or its status."""
    errors.seek(0)
    lines = errors.read(65536).decode("utf-8", "replace").splitlines()
    return lines[-1] if lines else f"ended with status {status} and said nothing"


class Lines:
    """The whole lines that a pipe has given."""

    def __init__(self, pipe: IO[bytes]) -> None:
        self._pipe = pipe
        self._rest = b""

    def fileno(self) -> int:
        """The descriptor, for `select`."""
        return self._pipe.fileno()

    def read(self, most: int = 65536) -> list[str] | None:
        """What is there now, of at most so many bytes, or waits for some. None at the end, where half a line is no
        line."""
        found = os.read(self._pipe.fileno(), most)
        if not found:
            return None
        *lines, self._rest = (self._rest + found).split(b"\n")
        return [it.decode("latin-1") for it in lines]


class Capture:
    """The records of the capture on standard input, as pfstrace makes them."""

    def __init__(self, words: Sequence[str]) -> None:
        self._errors = tempfile.TemporaryFile(prefix="pfplan-")
        self._unpacking = _unpacking(self._errors)
        source = self._unpacking.stdout if self._unpacking else None
        words = [program("pfstrace"), "--line-buffered", *words]
        self._process = started(words, self._errors, is_fed=False, source=source)
        if source:
            source.close()  # pfstrace has it
        assert self._process.stdout is not None
        self._lines = Lines(self._process.stdout)
        self._is_begun = False
        self._is_stopped = False

    def fileno(self) -> int:
        """The descriptor on which records come."""
        return self._lines.fileno()

    def read(self) -> list[str] | None:
        """The records that are there, or waits for some; None at the end."""
        lines = self._lines.read(PIECE)
        if lines and not self._is_begun:
            self._is_begun = True
            if lines.pop(0) != HEADER:
                raise Trouble(f"{program('pfstrace')}: no trace comes from it", Status.FAILED)
        return lines

    def stop(self) -> None:
        """Ends it where it has not ended. The records that it has made can still be read."""
        if self._process.poll() is None:
            self._is_stopped = True
            self._process.terminate()
        if self._unpacking:
            self._unpacking.terminate()
            self._unpacking.wait()

    def account(self) -> tuple[list[str], Trouble | None]:
        """What it told of its frames, once all is read, and what was wrong: a capture that ends within a packet, or
        memory."""
        status = self._process.wait()
        self._errors.seek(0)
        lines = self._errors.read(65536).decode("utf-8", "replace").splitlines()
        if status == 0 or self._is_stopped:
            return lines, None
        failed = status not in (Status.REFUSED, Status.WORDS)
        why = lines.pop() if lines else f"ended with status {status} and said nothing"
        return lines, Trouble(f"standard input: pfstrace: {why}", Status.FAILED if failed else Status.REFUSED)


def _unpacking(errors: IO[bytes]) -> "subprocess.Popen[bytes] | None":
    """What unpacks a file on standard input that gzip or zstd packed. A pipe is not looked into."""
    if not stat.S_ISREG(os.fstat(0).st_mode):
        return None
    command = packed_by(os.pread(0, 4, os.lseek(0, 0, os.SEEK_CUR)))
    if not command:
        return None
    check_unpacking(command, "standard input")
    return started([command, "-d", "-c"], errors, is_fed=False)


class Replaying:
    """One pfsrc: the answers to the records that it is sent."""

    def __init__(self, name: str, rules: Path) -> None:
        self.name = name
        self._errors = tempfile.TemporaryFile(prefix="pfplan-")
        self._process = started([program(), "replay", "--line-buffered", str(rules), "-"], self._errors, is_fed=True)
        assert self._process.stdin is not None and self._process.stdout is not None
        self._input = self._process.stdin
        self._lines = Lines(self._process.stdout)
        self._waiting: list[str] = []
        self._rows = 0
        self.send(f"{HEADER}\n")

    def send(self, text: str) -> None:
        """Sends lines of a trace, of at most PIECE bytes or one line."""
        data = memoryview(text.encode("latin-1"))
        try:
            while data:
                data = data[os.write(self._input.fileno(), data) :]
        except BrokenPipeError:
            self._fail()

    def take(self, count: int) -> list[str]:
        """The answers to the next so many records that were sent, without the numbers of their rows."""
        waiting = self._waiting
        while len(waiting) < count:
            lines = self._lines.read()
            if lines is None:
                self._fail()
            waiting += lines
        found = [it.partition(" ")[2] for it in waiting[:count]]
        self._rows += count
        if count and not waiting[count - 1].startswith(f"{self._rows} "):
            raise Trouble(
                f"{program()}: the report of {self.name}: row {self._rows} is wanted, not {waiting[count - 1][:80]!r}",
                Status.FAILED,
            )
        del waiting[:count]
        return found

    def enter(self, records: Iterable[str]) -> None:
        """Sends records of table entries that come before the first packet, whose answers nobody asks for."""
        waiting: list[str] = []
        for it in records:
            waiting.append(it)
            if sum(map(len, waiting)) > PIECE // 2:
                self._enter(waiting)
                waiting = []
        self._enter(waiting)

    def _enter(self, records: Sequence[str]) -> None:
        self.send("".join(f"{it}\n" for it in records))
        self.take(len(records))

    def held(self, moment: int) -> End:
        """What is held at a moment, which is not below that of the last record."""
        self.send(f"{moment},held,,,,,,,\n")
        return self._end_of(self.take(1)[0].removeprefix("held - "))

    def finish(self) -> End:
        """What the last line of the report says, where no more records come."""
        self._input.close()
        while (lines := self._lines.read()) is not None:
            self._waiting += lines
        if self._process.wait() or len(self._waiting) != 1:
            self._fail()
        return self._end_of(self._waiting[0].partition(" ")[2].partition(" ")[2])

    def stop(self) -> None:
        """Ends it where it has not ended."""
        if self._process.poll() is None:
            self._process.terminate()
        self._process.wait()

    def _end_of(self, text: str) -> End:
        try:
            end = read_answer(f"end rows=0 {text}")
        except ValueError as error:
            raise Trouble(f"{program()}: the report of {self.name}: {error}: {text[:80]!r}", Status.FAILED) from None
        assert isinstance(end, End)
        return end

    def _fail(self) -> NoReturn:
        """Trouble with what it said when it ended before its time."""
        self.stop()
        raise Trouble(
            f"{program()}: {last_said(self._errors, self._process.returncode)} (rules {self.name})", Status.FAILED
        )
