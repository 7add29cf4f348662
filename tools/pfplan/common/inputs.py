"""Files that are given: whether each can be read, and what kind of file it is by its first bytes."""

import contextlib
import enum
import errno
import os
import re
import shutil
import stat
import subprocess
import sys
import tempfile
from collections.abc import Iterator
from pathlib import Path
from typing import BinaryIO

from pfplan.common.errors import Status, Trouble, reason_of

HEADER = "time,dir,if,proto,src,sport,dst,dport,flags"
_CAPTURES = (b"\xa1\xb2\xc3\xd4", b"\xd4\xc3\xb2\xa1", b"\xa1\xb2\x3c\x4d", b"\x4d\x3c\xb2\xa1", b"\x0a\x0d\x0d\x0a")
_REPORT = re.compile(rb"(1 [a-z]+[a-z:+-]* (@\d+|-)|end rows=0 )")

# Where a process has the files that it has open.
_OPEN_FILES = ("/dev/fd/", "/dev/stdin", "/proc/self/fd/")


class Kind(enum.Enum):
    """What a file holds, as far as its beginning shows."""

    EMPTY = "an empty file"
    TRACE = "a trace"
    CAPTURE = "a capture"
    REPORT = "a report"
    OTHER = "another text"


# Files that were given or read, by device and inode, with the name that the user knows: no output replaces one.
_taken: dict[tuple[int, int], Path] = {}


def take(path: Path) -> None:
    """Notes an input: a file on a disk, also behind links or as standard input. Of another nothing is noted."""
    found = _regular_file(path)
    if found:
        _taken.setdefault(found, path)


def _regular_file(path: Path | int) -> tuple[int, int] | None:
    """The device and the inode of a file on a disk."""
    try:
        found = os.stat(0 if str(path) == "-" else path)
    except (OSError, ValueError):
        return None
    return (found.st_dev, found.st_ino) if stat.S_ISREG(found.st_mode) else None


def taken_as(path: Path | int) -> str:
    """The name of the input that a file is, by device and inode, or that an open file is; nothing where it is none.

    An input that is no more is none: a system gives its inode to the next file.
    """
    found = _regular_file(path)
    taken = _taken.get(found) if found else None
    return name_of(taken) if taken and _regular_file(taken) == found else ""


def take_none() -> None:
    """Forgets all inputs: another command begins."""
    _taken.clear()


def check_readable(path: Path) -> None:
    """Trouble with status 4 where the file is not there, is a folder, or may not be read. A pipe is not opened: it is
    read once; of standard input (`-`) nothing is asked. The file is an input from here on."""
    take(path)
    if str(path) == "-":
        return
    try:
        mode = os.stat(path).st_mode
        if stat.S_ISREG(mode) or stat.S_ISDIR(mode):
            with open(path, "rb"):
                pass
        elif not os.access(path, os.R_OK):
            raise PermissionError(errno.EACCES, os.strerror(errno.EACCES))
    except FileNotFoundError:
        raise Trouble(f"{path}: no such file", Status.FAILED) from None
    except IsADirectoryError:
        raise Trouble(f"{path}: a folder, where a file is wanted", Status.FAILED) from None
    except OSError as error:
        raise Trouble(f"{path}: can't be read: {reason_of(error)}", Status.FAILED) from None


def name_of(path: Path) -> str:
    """How a message names a file that was given."""
    return "standard input" if str(path) == "-" else str(path)


def is_regular(path: Path) -> bool:
    """Whether the path leads to a file on a disk, and not to a pipe or a device. False where there is nothing."""
    try:
        return str(path) != "-" and stat.S_ISREG(os.stat(path).st_mode)
    except OSError:
        return False


def kind_of(path: Path) -> Kind | None:
    """The kind of a file; None for standard input, a pipe or a device, of which nothing is read. Trouble as
    `check_readable`."""
    check_readable(path)
    if not is_regular(path):
        return None
    with open(path, "rb") as file:
        begin = file.read(256)
    if not begin:
        return Kind.EMPTY
    if begin.startswith(_CAPTURES):
        return Kind.CAPTURE
    if begin.removeprefix(b"\xef\xbb\xbf").startswith(HEADER.encode()):
        return Kind.TRACE
    return Kind.REPORT if _REPORT.match(begin) else Kind.OTHER


def _kind_text(kind: Kind | None) -> str:
    return kind.value if kind else "a pipe"


def check_trace(path: Path) -> None:
    """Trouble where the file can't be read (status 4) or is no trace (status 1). Says what it is, and what to do."""
    kind = kind_of(path)
    if kind in (None, Kind.TRACE):
        return
    if kind is Kind.CAPTURE:
        raise Trouble(f"{path}: a capture, where a trace is wanted: pfplan trace makes one of it", Status.REFUSED)
    if kind is Kind.OTHER:
        raise Trouble(f"{path}: line 1: no header of a trace, which is {HEADER}", Status.REFUSED)
    raise Trouble(f"{path}: {_kind_text(kind)}, where a trace is wanted", Status.REFUSED)


def check_rules(path: Path) -> None:
    """Trouble where the file can't be read (status 4) or is a trace, a capture or a report (status 3). An empty file
    has no rule, as for pfctl."""
    kind = kind_of(path)
    if kind in (Kind.TRACE, Kind.CAPTURE, Kind.REPORT):
        raise Trouble(f"{path}: {_kind_text(kind)}, where rules are wanted", Status.RULES)


@contextlib.contextmanager
def regular(path: Path) -> Iterator[Path]:
    """The file itself, or a copy that goes at the end: of what a pipe gives, an open file or standard input (`-`), each
    of which is read once, and of what gzip or zstd packed. Messages name the file that was given.

    Trouble: as `check_readable`; status 4 where the copy fails or the command that unpacks is not installed; status 1
    where a file can't be unpacked.
    """
    check_readable(path)
    with contextlib.ExitStack() as stack:
        found = path if is_regular(path) and not _is_open_file(path) else stack.enter_context(_copied(path))
        command = packed_by(_beginning_of(found))
        if command:
            found = stack.enter_context(_unpacked(found, command, name_of(path)))
        try:
            yield found
        except Trouble as trouble:
            raise Trouble(trouble.message.replace(str(found), name_of(path)), trouble.status) from None


def _is_open_file(path: Path) -> bool:
    """Whether the name is that of an open file of this process, which no other process has."""
    return str(path) == "-" or os.path.abspath(path).startswith(_OPEN_FILES)


@contextlib.contextmanager
def _copied(path: Path) -> Iterator[Path]:
    """A copy of what a pipe, an open file or standard input gives."""
    with tempfile.NamedTemporaryFile(prefix="pfplan-") as copy:
        try:
            with _opened(path) as file:
                shutil.copyfileobj(file, copy)
            copy.flush()
        except OSError as error:
            raise Trouble(
                f"{name_of(path)}: can't be copied into {tempfile.gettempdir()}: {reason_of(error)}", Status.FAILED
            ) from None
        yield Path(copy.name)


@contextlib.contextmanager
def _opened(path: Path) -> Iterator[BinaryIO]:
    """A file, or standard input, which is not closed."""
    if str(path) == "-":
        yield sys.stdin.buffer
        return
    with open(path, "rb") as file:
        yield file


@contextlib.contextmanager
def _unpacked(path: Path, command: str, name: str) -> Iterator[Path]:
    """What a command unpacks of a file, in a copy. `name` stands in messages."""
    check_unpacking(command, name)
    with tempfile.NamedTemporaryFile(prefix="pfplan-") as copy:
        with open(path, "rb") as file:
            done = subprocess.run([command, "-d", "-c"], stdin=file, stdout=copy, stderr=subprocess.PIPE, check=False)
        if done.returncode:
            said = done.stderr.decode("utf-8", "replace").strip().splitlines()
            raise Trouble(f"{name}: {command} can't unpack it{': ' + said[-1] if said else ''}", Status.REFUSED)
        yield Path(copy.name)


def check_unpacking(command: str, name: str) -> None:
    """Trouble with status 4 where the command that unpacks a file is not installed."""
    if shutil.which(command) is None:
        raise Trouble(f"{name}: packed by {command}, which is not here (Debian package {command})", Status.FAILED)


def _beginning_of(path: Path) -> bytes:
    with open(path, "rb") as file:
        return file.read(4)


def packed_by(begin: bytes) -> str:
    """The command that packed a file, by its first four bytes; nothing where none did."""
    return "gzip" if begin.startswith(b"\x1f\x8b") else "zstd" if begin == b"\x28\xb5\x2f\xfd" else ""
