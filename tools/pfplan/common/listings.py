"""What pfplan wrote into a folder: a list with checksums, in a file of its own there. By it pfplan knows what it may
replace."""

from __future__ import annotations

import contextlib
import fcntl
import hashlib
import json
import os
import stat
from collections.abc import Iterator
from dataclasses import dataclass, field
from pathlib import Path

from pfplan.common.errors import Status, Trouble
from pfplan.common.inputs import taken_as

NAME = ".pfplan"
ABOUT = "What pfplan wrote here, with SHA-256. It replaces these files while they are as it wrote them, and no others."


@dataclass
class Listing:
    """The files of a folder that pfplan wrote, by name, with their checksums: those of an answer, which is renewed as a
    whole, and those that were written alone."""

    answer: dict[str, str] = field(default_factory=dict)
    alone: dict[str, str] = field(default_factory=dict)

    def sum_of(self, name: str) -> str | None:
        """The checksum of a file when it was written; None where pfplan did not write it."""
        return self.answer.get(name) or self.alone.get(name)

    def remember(self, name: str, checksum: str, *, is_answer: bool) -> None:
        """A file was written."""
        self.forget(name)
        (self.answer if is_answer else self.alone)[name] = checksum

    def forget(self, name: str) -> None:
        """A file is there no more."""
        self.answer.pop(name, None)
        self.alone.pop(name, None)

    def text(self) -> str:
        """What stands in the file."""
        kinds = {"about": ABOUT, "answer": self.answer, "alone": self.alone}
        return json.dumps(kinds, indent=1, sort_keys=True) + "\n"


def checksum_of(path: Path) -> str:
    """The checksum of what a file holds."""
    with open(path, "rb") as file:
        return hashlib.file_digest(file, "sha256").hexdigest()


def listing_of(folder: Path) -> Listing:
    """The list of a folder, empty where it has none. Trouble where a file of that name is another's."""
    path = folder / NAME
    try:
        if not stat.S_ISREG(os.lstat(path).st_mode):
            raise ValueError
        read = json.loads(path.read_text("utf-8"))
        listing = Listing(dict(read["answer"]), dict(read["alone"]))
        if read["about"] == ABOUT and all(map(_is_entry, (*listing.answer.items(), *listing.alone.items()))):
            return listing
    except (FileNotFoundError, NotADirectoryError):
        return Listing()
    except (ValueError, KeyError, TypeError, RecursionError):
        pass
    raise Trouble(f"{path}: is in the way: it is not the list that pfplan keeps of its files", Status.FAILED)


def _is_entry(entry: tuple[object, object]) -> bool:
    """Whether this is a file of the folder itself, with a checksum."""
    name, checksum = entry
    return isinstance(name, str) and isinstance(checksum, str) and name == os.path.basename(name) and bool(name)


def keeps_none(folder: Path) -> bool:
    """Whether the folder is one that users share, as /tmp, in which another user's list stands: it can't be renewed."""
    try:
        here, there = os.stat(folder), os.lstat(folder / NAME)
    except OSError:
        return False
    return bool(here.st_mode & stat.S_ISVTX) and os.geteuid() not in (0, here.st_uid, there.st_uid)


def in_the_way(place: Path, listing: Listing) -> str:
    """Why a file of this name may not be written; nothing where it may: nothing is there, or pfplan wrote it, and it is
    as it was then."""
    try:
        mode = os.lstat(place).st_mode
    except FileNotFoundError:
        return ""
    taken = taken_as(place)
    if taken:
        return f"it is the input {taken}"
    if not stat.S_ISREG(mode):
        kind = "a folder" if stat.S_ISDIR(mode) else "a link" if stat.S_ISLNK(mode) else "no regular file"
        return f"it is {kind}"
    written = listing.sum_of(place.name)
    if written is None:
        return "pfplan did not write it"
    return "" if written == checksum_of(place) else "it was changed since pfplan wrote it"


@contextlib.contextmanager
def locked(folder: Path) -> Iterator[None]:
    """One call at a time renews the list of a folder. A file system that knows no locks goes without."""
    with contextlib.ExitStack() as stack:
        with contextlib.suppress(OSError):
            opened = os.open(folder, os.O_RDONLY)
            stack.callback(os.close, opened)
            fcntl.flock(opened, fcntl.LOCK_EX)
        yield
