"""The firewall that a play asks: `./pfsrc replay --line-buffered`, behind one small interface.

What is asked is kept as a trace, and what is answered as its report, so that anybody can replay the one and compare
the other.
"""

import fcntl
import os
import subprocess
import tempfile
import time
from collections.abc import Sequence
from dataclasses import dataclass
from pathlib import Path
from types import TracebackType
from typing import Protocol

from pfplan.common.errors import Status, Trouble, reason_of
from pfplan.common.inputs import HEADER
from pfplan.common.repository import program
from pfplan.plays.turns import Turns
from pfplan.traces.records import End, read_answer

PIPE = 1 << 20
# Bytes that a record takes at most, and a line of a report. A part of what is asked fits into the pipe, whatever it is.
LONGEST = 160
# Lines that are waited for without a pause, and the pause for each where there are more.
FEW = 4
SECONDS_A_LINE = 0.000_002


class Firewall(Protocol):
    """What decides on packets."""

    def decide(self, texts: Sequence[str], second: str = "") -> list[str]:
        """The line of the report for each record: these texts behind the second.

        A text has its line feed; lines have none. Whole records are texts behind no second.
        """

    def end(self) -> End:
        """There are no more records: what is held at the end."""


class Writer(Protocol):
    """A file to write to."""

    def write(self, text: bytes, /) -> int:
        """Writes all of it."""


@dataclass(frozen=True)
class PlayFiles:
    """The files that a play keeps: what was asked, and what was answered. None keeps nothing."""

    trace: Writer | None = None
    report: Writer | None = None


class Pfsrc:
    """The program as a firewall. Leaving it ends the program."""

    def __init__(self, rules: Path, kept: PlayFiles) -> None:
        """Trouble with status 70 where the program can't be run, and as its own where it ends at once."""
        self._rules = rules
        self._kept = kept
        self._errors = tempfile.TemporaryFile(prefix="pfplan-")  # noqa: SIM115 (closed by _leave)
        self._turns = Turns()
        words = [program(), "replay", "--line-buffered", str(rules), "-"]
        try:
            self._turns.begin()
            self._process = subprocess.Popen(
                words, stdin=subprocess.PIPE, stdout=subprocess.PIPE, stderr=self._errors, bufsize=0
            )
        except OSError as error:
            self._turns.end()
            self._errors.close()
            raise Trouble(
                f"{words[0]}: can't be run: {reason_of(error)} (PFSRC names the program)", Status.NOT_BUILT
            ) from None
        self._turns.wait()
        assert self._process.stdin is not None and self._process.stdout is not None
        self._in, self._out = self._process.stdin.fileno(), self._process.stdout.fileno()
        self._most = max(1, min(_grown(self._in), _grown(self._out)) // LONGEST)
        self._rest = b""
        try:
            self._write(f"{HEADER}\n".encode())
        except BaseException:
            self._leave()
            raise

    def __enter__(self) -> "Pfsrc":
        return self

    def __exit__(
        self, kind: type[BaseException] | None, error: BaseException | None, trace: TracebackType | None
    ) -> None:
        self._leave()

    def _leave(self) -> None:
        """Ends the program, and goes on as before it."""
        assert self._process.stdin is not None and self._process.stdout is not None
        if self._process.poll() is None:
            self._process.terminate()
        for pipe in (self._process.stdin, self._process.stdout):
            try:
                pipe.close()
            except BrokenPipeError:
                pass
        self._process.wait()
        self._turns.end()
        self._errors.close()

    def decide(self, texts: Sequence[str], second: str = "") -> list[str]:
        """As `Firewall.decide`. Trouble as the program's own where it ends."""
        if not texts:
            return []
        if len(texts) <= self._most:
            self._write((second + second.join(texts)).encode("latin-1"))
            return self._read(len(texts))
        parts = (texts[at : at + self._most] for at in range(0, len(texts), self._most))
        return [line for part in parts for line in self.decide(part, second)]

    def end(self) -> End:
        """As `Firewall.end`. Trouble as the program's own where it does not end well."""
        assert self._process.stdin is not None
        self._process.stdin.close()
        (last,) = self._read(1)
        if os.read(self._out, 1) or self._process.wait():
            raise self._trouble()
        found = read_answer(last)
        assert isinstance(found, End)
        return found

    def _write(self, records: bytes) -> None:
        """Sends records, and keeps them while the program works on them."""
        try:
            sent = os.write(self._in, records)
            while sent < len(records):
                sent += os.write(self._in, memoryview(records)[sent:])
        except BrokenPipeError:
            raise self._trouble() from None
        if self._kept.trace:
            self._kept.trace.write(records)

    def _read(self, count: int) -> list[str]:
        """So many lines.

        The program writes line by line. Where the two do not take turns on one processor, to wait a little until it
        has written several costs less than to wake up for each. (To give the processor away by sched_yield costs less
        still, but on a busy machine it comes back late: Linux takes from who yields the rest of its turn.)
        """
        whole = self._rest
        found = whole.count(b"\n")
        while found < count:
            if count - found > FEW and not self._turns.is_waiting:
                time.sleep((count - found) * SECONDS_A_LINE)
            part = os.read(self._out, (count - found) * LONGEST)
            if not part:
                raise self._trouble()
            found += part.count(b"\n")
            whole = whole + part if whole else part
        lines = whole.decode("latin-1").split("\n")
        rest = lines.pop()
        if found == count and not rest:
            self._rest = b""
        else:
            self._rest = "\n".join([*lines[count:], rest]).encode("latin-1")
            whole = whole[: len(whole) - len(self._rest)]
            del lines[count:]
        if self._kept.report:
            self._kept.report.write(whole)
        return lines

    def _trouble(self) -> Trouble:
        """Why the program ended: its own line, with the name of the rules before it."""
        status = self._process.wait()
        self._errors.seek(0)
        said = (
            self._errors.read(4096).decode("latin-1").splitlines() or [f"ended with status {status} and said nothing"]
        )[-1]
        if said.startswith("rules: "):
            return Trouble(f"{self._rules}: {said.removeprefix('rules: ')}", Status.RULES)
        ends = {1: Status.REFUSED, 70: Status.NOT_BUILT}
        return Trouble(f"{program()}: {said} (rules {self._rules})", ends.get(status, Status.FAILED))


def check_records(trace: Path) -> None:
    """Trouble with status 1 where a record of a trace is none that the program takes: it says which, and why."""
    with tempfile.NamedTemporaryFile(prefix="pfplan-", suffix=".conf") as rules:
        rules.write(b"pass\n")
        rules.flush()
        words = [program(), "replay", rules.name, str(trace)]
        try:
            done = subprocess.run(words, stdout=subprocess.DEVNULL, stderr=subprocess.PIPE, check=False)
        except OSError as error:
            raise Trouble(f"{words[0]}: can't be run: {reason_of(error)}", Status.NOT_BUILT) from None
    said = done.stderr.decode("latin-1").strip()
    if done.returncode:
        if said.endswith(": table"):
            said = said.removesuffix("table") + "an administrator's record, which a play does not take"
        ends = {1: Status.REFUSED, 70: Status.NOT_BUILT}
        raise Trouble(f"{trace}: {said.removeprefix('trace: ')}", ends.get(done.returncode, Status.FAILED))


def _grown(pipe: int) -> int:
    """The bytes that a pipe holds, after it was asked to hold more."""
    try:
        return fcntl.fcntl(pipe, fcntl.F_SETPIPE_SZ, PIPE)
    except OSError:
        return fcntl.fcntl(pipe, fcntl.F_GETPIPE_SZ)


class Open:
    """A firewall that lets everything in, and keeps what it was asked as a trace."""

    def __init__(self, trace: Writer | None = None) -> None:
        self._trace = trace
        self._rows = 0
        self._keep(f"{HEADER}\n")

    def decide(self, texts: Sequence[str], second: str = "") -> list[str]:
        """As `Firewall.decide`."""
        if texts:
            self._keep(second + second.join(texts))
        first = self._rows + 1
        self._rows += len(texts)
        return [f"{row} pass -" for row in range(first, self._rows + 1)]

    def end(self) -> End:
        """As `Firewall.end`."""
        return End(self._rows, 0, 0, 0)

    def _keep(self, text: str) -> None:
        if self._trace is not None:
            self._trace.write(text.encode("latin-1"))
