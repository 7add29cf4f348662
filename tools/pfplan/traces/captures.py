"""A trace of a capture, which ./pfstrace makes."""

import contextlib
import os
import re
import shutil
import subprocess
import tempfile
from collections.abc import Iterable, Iterator, Sequence
from dataclasses import dataclass
from pathlib import Path
from typing import IO, TextIO

from pfplan.common.errors import Status, Trouble, reason_of
from pfplan.common.inputs import Kind, kind_of
from pfplan.common.networks import Network
from pfplan.common.repository import check_program, program
from pfplan.traces.accounts import NEITHER_WAY, frames_of, reasons_of

_CUT = re.compile(r"the file ends within")
_BY_NETWORKS = re.compile(r"directions: .*, by networks (\d+); networks contradict (\d+)")


def check_capture(path: Path, name: Path | str | None = None) -> None:
    """Trouble where the file can't be read (status 4) or is plainly no capture (status 1). `name` stands in messages
    for a copy."""
    kind = kind_of(path)
    name = name or path
    if kind in (Kind.EMPTY, Kind.TRACE, Kind.REPORT):
        raise Trouble(f"{name}: {kind.value}, where a capture is wanted", Status.REFUSED)
    if kind is Kind.OTHER:
        with open(path, "rb") as file:
            begin = file.read(256)
        if all(it in b"\t\n\r" or it >= 32 for it in begin):
            raise Trouble(f"{name}: a text, where a capture is wanted", Status.REFUSED)


@dataclass(frozen=True)
class Seen:
    """Where packets of a capture were seen: on which interface (that of pfstrace, em0, where it is None), with which
    addresses on its Ethernet, by which directions are sure, and which networks are behind it, or in front of an inner
    one (`outside`)."""

    name: str | None = None
    macs: Sequence[str] = ()
    inside: Sequence[Network] = ()
    outside: Sequence[Network] = ()

    def words(self) -> list[str]:
        """The words of pfstrace by which its packets have a direction and an interface."""
        lists = (("--mac", self.macs), ("--inside", self.inside), ("--outside", self.outside))
        words = [it for name, values in lists if values for it in (name, ",".join(map(str, values)))]
        return [*(["--interface", self.name] if self.name else []), *words]

    @property
    def has_networks(self) -> bool:
        """Whether networks tell directions."""
        return bool(self.inside or self.outside)


def make_trace(
    captures: Sequence[Path], seen: Sequence[Seen], out: TextIO, *, told: TextIO | None = None, is_zero: bool = False,
    is_partial: bool = False, shown: Path | str | None = None, is_log: bool = False,
) -> list[str]:  # fmt: skip
    """Writes the trace of a capture for each interface, or of one for all, and answers the lines of the account.
    Trouble where a capture is refused: what was written until then is not whole.

    `told` gets pf's own answers. With `is_zero` moments count from the first record's. With `is_partial` a capture that
    is cut is taken up to there. `shown` stands in messages for what was given. `is_log` says that a log of pflog(4) is
    wanted, which needs no networks.
    """
    shown = shown or ", ".join(map(str, captures))
    for it in captures:
        check_capture(it, shown if len(captures) == 1 else it)
    check_program("pfstrace")
    with contextlib.ExitStack() as stack:
        answers = ["--answers", stack.enter_context(_answers(told))] if told else []
        words = [program("pfstrace"), *answers, *_words(captures, seen)]
        with _running(words, shown, is_partial) as (lines, account):
            out.writelines(from_zero(lines) if is_zero else lines)
        check_account(account, shown, has_inside=is_log or any(it.has_networks for it in seen))
    return account + by_networks(account, seen)


def _words(captures: Sequence[Path], seen: Sequence[Seen]) -> Iterator[str]:
    """The words that name interfaces and captures: one capture alone is that of all interfaces."""
    # a name that begins with a hyphen is no option behind a folder's
    names = [f"./{it}" if str(it).startswith("-") else str(it) for it in captures]
    for at, it in enumerate(seen):
        yield from it.words()
        yield from names[at : at + 1] if len(names) > 1 else ()
    yield from names if len(names) == 1 else ()


def by_networks(account: Sequence[str], seen: Sequence[Seen]) -> list[str]:
    """What is to be said where only the networks of --inside tell directions, or say the other one, by the account of
    pfstrace."""
    counts = next((found for line in account if (found := _BY_NETWORKS.match(line))), None)
    if counts is None:
        return []
    alone, against = (int(it) for it in counts.groups())
    name = ", ".join(it.name or "em0" for it in seen if not it.outside)
    said = []
    if alone and name:
        said.append(
            f"directions of {alone} packets are by networks alone: all turned if {name} is an inner interface. "
            "With --ifconfig FILE and --if NAME its own address (lladdr) tells them"
        )
    if against:
        said.append(
            f"the networks of --inside say the other direction of {against} packets: is {name} an inner interface? "
            "Theirs is by their frames"
        )
    return said


def check_account(account: Sequence[str], capture: Path | str, *, has_inside: bool) -> None:
    """Trouble with status 1 for a capture without frames, and for one of which no frame is a record, with the
    reasons."""
    found = frames_of(account)
    if found is None or found.records:
        return
    if not found.frames:
        raise Trouble(f"{capture}: no frames in the capture", Status.REFUSED)
    if found.others.get(NEITHER_WAY) and not has_inside:
        raise Trouble(
            f"{capture}: it does not tell which way its packets go: give --inside or --ifconfig", Status.REFUSED
        )
    raise Trouble(f"{capture}: none of its {found.frames:,} frames is a record: {reasons_of(found)}", Status.REFUSED)


@contextlib.contextmanager
def _answers(told: TextIO) -> Iterator[str]:
    """The name of a file for pfstrace to write pf's answers to, which are in `told` once all has ended well. It makes
    that file anew."""
    with tempfile.TemporaryDirectory(prefix="pfplan-") as folder:
        name = Path(folder, "told")
        yield str(name)
        with open(name, encoding="latin-1") as file:
            shutil.copyfileobj(file, told)


@contextlib.contextmanager
def _running(
    words: Sequence[str], shown: Path | str, is_partial: bool
) -> Iterator[tuple[IO[str], list[str]]]:
    """What pfstrace prints, and once it has ended well the lines of its account. Trouble where it can't be run, or
    fails.

    It prints whole rows up to where a capture is cut; with `is_partial` these are taken.
    """
    account: list[str] = []
    with tempfile.TemporaryFile("w+", errors="replace", prefix="pfplan-") as errors:
        try:
            process = subprocess.Popen(
                words, stdin=subprocess.DEVNULL, stdout=subprocess.PIPE, stderr=errors, text=True, encoding="latin-1"
            )
        except OSError as error:
            raise Trouble(f"{words[0]}: can't be run: {reason_of(error)}", Status.FAILED) from None
        assert process.stdout is not None
        try:
            with process.stdout as lines:
                yield lines, account
        except BaseException:
            process.terminate()
            raise
        finally:
            process.wait()
        errors.seek(0)
        account += errors.read(65536).splitlines()
    if process.returncode:
        why = account[-1] if account else f"status {process.returncode}"
        is_cut = process.returncode == Status.REFUSED and bool(_CUT.search(why))
        if is_cut and is_partial:
            return
        why += " (--partial takes the frames before it)" if is_cut else ""
        status = Status.FAILED if process.returncode == Status.FAILED else Status.REFUSED
        raise Trouble(f"{shown}: {os.path.basename(words[0])}: {why}", status)


def from_zero(lines: Iterable[str]) -> Iterator[str]:
    """A trace whose moments count from that of its first record."""
    first = -1
    for line in lines:
        time, comma, rest = line.partition(",")
        if time.isdigit():
            first = int(time) if first < 0 else first
            time = str(int(time) - first)
        yield time + comma + rest
