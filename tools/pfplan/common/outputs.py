"""Files that are written, in one place for every command: whole, all of an answer or none, and never in place of a file
that pfplan did not write itself."""

from __future__ import annotations

import contextlib
import io
import os
import re
import shutil
import stat
import sys
import tempfile
from collections.abc import Iterable, Iterator
from pathlib import Path
from typing import TextIO

from pfplan.common.errors import Status, Trouble, reason_of
from pfplan.common.exchanges import Put, check_way, keep_modes, put_all, uninterrupted, unused
from pfplan.common.inputs import taken_as
from pfplan.common.listings import NAME, Listing, checksum_of, listing_of

_OPEN_FILE = re.compile(r"/dev/(?:fd/([0-9]{1,9})|stdin|stdout|stderr)")
_OPEN_NAMES = {"/dev/stdin": 0, "/dev/stdout": 1, "/dev/stderr": 2}
# Bytes that go to a file at a time.
_AT_A_TIME = 1 << 20


def is_file_place(path: Path | None) -> bool:
    """Whether an output of this name is a file on a disk, and not standard output (None, `-`), an open file, a device
    or a pipe."""
    if path is None or _open_file(path) is not None:
        return False
    try:
        mode = os.stat(path).st_mode
    except (OSError, ValueError):
        return True
    return stat.S_ISREG(mode) or stat.S_ISDIR(mode)


def _open_file(path: Path) -> int | None:
    """The number of the open file that a name means: `-` is standard output."""
    found = _OPEN_FILE.fullmatch(str(path))
    if found:
        return int(found[1]) if found[1] else _OPEN_NAMES[found[0]]
    return 1 if str(path) == "-" else None


def check_files(paths: Iterable[Path | None]) -> None:
    """Trouble where outputs of these names can't be: an input, or a file that pfplan did not write, stands there, or
    two have one name. None is standard output, which may be no input either."""
    places: dict[Path, Path] = {}
    for path in paths:
        if path is None or not is_file_place(path):
            _check_open(path)
            continue
        place = _place_of(path)
        if place in places:
            raise Trouble(f"{path}: two outputs of one name")
        places[place] = path
        if not place.parent.is_dir():
            raise Trouble(f"{path}: can't be written: No such file or directory", Status.FAILED)
        check_way(place, listing_of(place.parent), path)


def _check_open(path: Path | None) -> None:
    opened = 1 if path is None else _open_file(path)
    taken = "" if opened is None else taken_as(opened)
    if taken:
        raise Trouble(f"{_name_of(path)}: it is the input {taken}, which no output may change")


def check_folder(path: Path, names: Iterable[str]) -> None:
    """Trouble where a folder can't get files of these names, which may be below folders of their own: an input, or a
    file that pfplan did not write, stands there."""
    place = Path(os.path.realpath(path))
    if os.path.lexists(place) and not place.is_dir():
        raise Trouble(f"{path}: a file, where a folder is wanted", Status.FAILED)
    for name in names:
        for above in reversed(Path(name).parents[:-1]):
            if os.path.lexists(place / above) and not (place / above).is_dir():
                raise Trouble(f"{path / above}: a file, where a folder is wanted", Status.FAILED)
        if (place / name).parent.is_dir():
            check_way(place / name, listing_of((place / name).parent), path / name)


def _place_of(path: Path) -> Path:
    """Where the file of an output is, behind links. Trouble for a folder."""
    place = Path(os.path.realpath(path))
    if place.is_dir():
        raise Trouble(f"{path}: a folder, where a file is to be written", Status.FAILED)
    return place


def _name_of(path: Path | None) -> str:
    return "standard output" if path is None or str(path) == "-" else str(path)


@contextlib.contextmanager
def whole_file(path: Path | None) -> Iterator[TextIO]:
    """`whole_files` of one."""
    with whole_files(path) as (file,):
        yield file


@contextlib.contextmanager
def whole_files(*paths: Path | None) -> Iterator[list[TextIO]]:
    """Text files to write to, which stand under their names only once all is written: all of them or none.

    Each is written beside its place and renamed at the end; any exception removes it, and leaves what stood there
    before. None is standard output, which like a device or a pipe gets what was written at the end, all at once.
    Trouble with status 4 where one is in the way (`check_files`), or where writing fails: an OSError of the body counts
    as one, so a body turns those of its reading into Trouble itself.
    """
    check_files(paths)
    spools = [not is_file_place(it) for it in paths]
    name = tempfile.gettempdir() if spools[0] else str(paths[0])
    with _told(name), contextlib.ExitStack() as stack:
        puts = [
            (stack.enter_context(_part(_place_of(it))), _place_of(it))
            for it, is_spool in zip(paths, spools)
            if it and not is_spool
        ]
        parts = iter(new for new, _ in puts)
        openings = [_spool() if is_spool else _closing(next(parts)) for is_spool in spools]
        files = [stack.enter_context(it) for it in openings]
        yield files
        for path, is_spool, file in zip(paths, spools, files):
            with _told(tempfile.gettempdir() if is_spool else str(path)):
                file.flush()
            with _told(_name_of(path)):
                _pour(path, file) if is_spool else file.close()
        keep_modes(puts)
        put_all(puts, is_answer=False)


@contextlib.contextmanager
def _told(name: str) -> Iterator[None]:
    """Has a failure of the system told as that of an output."""
    try:
        yield
    except OSError as error:
        raise Trouble(f"{name}: can't be written: {reason_of(error)}", Status.FAILED) from None


@contextlib.contextmanager
def part_file(path: Path) -> Iterator[TextIO]:
    """A text file in a folder that pfplan itself has made for its work (`whole_folder`), or in a temporary one. Trouble
    with status 4 where writing fails."""
    with _told(str(path)), _opened(path) as file:
        yield file


def _opened(path: Path) -> TextIO:
    return open(path, "w", _AT_A_TIME, encoding="utf-8", errors="surrogateescape", newline="\n")


@contextlib.contextmanager
def _closing(path: Path) -> Iterator[TextIO]:
    with _opened(path) as file:
        yield file


@contextlib.contextmanager
def _part(place: Path) -> Iterator[Path]:
    """A new file beside its place, which goes at the end if it is still there."""
    part = unused(place)
    try:
        with open(part, "x", encoding="utf-8"):
            pass
        yield part
    finally:
        part.unlink(missing_ok=True)


@contextlib.contextmanager
def _spool() -> Iterator[TextIO]:
    with tempfile.TemporaryFile(prefix="pfplan-") as kept:
        yield io.TextIOWrapper(kept, encoding="utf-8", errors="surrogateescape", newline="\n")


def _pour(path: Path | None, spool: TextIO) -> None:
    """Writes what was kept to standard output, an open file, a device or a pipe."""
    spool.buffer.seek(0)
    opened = 1 if path is None else _open_file(path)
    try:
        if path is None or opened == 1:
            sys.stdout.flush()
            shutil.copyfileobj(spool.buffer, sys.stdout.buffer)
            sys.stdout.flush()
            return
        with open(path if opened is None else os.dup(opened), "wb") as device:
            shutil.copyfileobj(spool.buffer, device)
    except BrokenPipeError:
        # what waits in Python's buffer would be told once more when it ends
        os.dup2(os.open(os.devnull, os.O_WRONLY), sys.stdout.fileno())
        raise


@contextlib.contextmanager
def whole_folder(path: Path) -> Iterator[Path]:
    """A folder to write into, whose files stand in the one of that name only once all are written: all or none.

    It is made beside its place. What an earlier answer left in the folder goes, as `put_all` says; all else stays. Any
    exception leaves all as it was. Trouble with status 4 where that fails or something is in the way (`check_folder`,
    which a command calls before anything runs); messages name the folder that was asked for.
    """
    check_folder(path, ())
    place = Path(os.path.realpath(path))
    made = unused(_beside(place) / (place.name or "answer"))
    try:
        made.mkdir()
        yield made
        _exchange(made, place, path)
    except Trouble as trouble:
        raise Trouble(trouble.message.replace(str(made), str(path)), trouble.status) from None
    except OSError as error:
        raise Trouble(f"{path}: can't be made: {reason_of(error)}", Status.FAILED) from None
    finally:
        shutil.rmtree(made, ignore_errors=True)


def _beside(place: Path) -> Path:
    """The folder in which the one of this place is made: where it can be renamed into its place."""
    if not place.is_dir():
        return next(it for it in place.parents if it.is_dir())
    above = place.parent
    return above if os.access(above, os.W_OK) and os.stat(above).st_dev == os.stat(place).st_dev else place


def _exchange(made: Path, place: Path, shown: Path) -> None:
    """Puts what was made in its place."""
    files = sorted(it for it in made.rglob("*") if not it.is_dir())
    if os.path.lexists(place):
        check_folder(shown, [str(it.relative_to(made)) for it in files])
        puts: list[Put] = [(it, place / it.relative_to(made)) for it in files]
        keep_modes(puts)
        put_all(puts, is_answer=True)
        return
    for folder in {it.parent for it in files}:
        sums = {it.name: checksum_of(it) for it in files if it.parent == folder}
        (folder / NAME).write_text(Listing(answer=sums).text(), "utf-8")
    place.parent.mkdir(parents=True, exist_ok=True)
    with uninterrupted():
        os.rename(made, place)


def make_folder(path: Path) -> None:
    """Makes a folder below one that pfplan itself has made for its work. Trouble with status 4 where that fails."""
    try:
        path.mkdir(parents=True, exist_ok=True)
    except OSError as error:
        raise Trouble(f"{path}: can't be made: {reason_of(error)}", Status.FAILED) from None
