"""New files that are put into their places, all or none, and are remembered in the lists of their folders
(listings.py)."""

from __future__ import annotations

import contextlib
import os
import shutil
import signal
from collections.abc import Iterator, Sequence
from pathlib import Path

from pfplan.common.errors import Status, Trouble, reason_of
from pfplan.common.inputs import taken_as
from pfplan.common.listings import NAME, Listing, checksum_of, in_the_way, keeps_none, listing_of, locked

# What ends pfplan: from the keyboard, by kill, and as a terminal goes.
ENDING = (signal.SIGINT, signal.SIGTERM, signal.SIGHUP)
# A new file, and its place.
Put = tuple[Path, Path]


def check_way(place: Path, listing: Listing, shown: Path) -> None:
    """Trouble where a file can't be written under its name: an input, or a file that pfplan did not write, stands
    there."""
    taken = taken_as(place)
    if taken:
        raise Trouble(f"{shown}: it is the input {taken}, which no output may replace")
    if place.name == NAME:
        raise Trouble(f"{shown}: the name of the list that pfplan keeps of its files")
    try:
        why = in_the_way(place, listing)
    except OSError as error:
        raise Trouble(f"{shown}: can't be written: {reason_of(error)}", Status.FAILED) from None
    if why:
        raise Trouble(f"{shown}: is in the way: {why}; pfplan replaces only what it wrote itself", Status.FAILED)


def unused(place: Path) -> Path:
    """A hidden name beside a place that nothing has."""
    for number in range(1_000_000):
        name = f".{place.name[:200]}.{os.getpid()}{f'-{number}' if number else ''}.part"
        if not os.path.lexists(place.with_name(name)):
            return place.with_name(name)
    raise Trouble(f"{place.parent}: too many files whose names end in .part", Status.FAILED)


def put_all(puts: Sequence[Put], *, is_answer: bool) -> None:
    """Puts new files in their places; where one step fails, the steps before it are undone. Of an answer, what the last
    one left in these folders goes, if it is as it was written, and is no input.

    Trouble where something is in the way.
    """
    folders: dict[Path, list[Put]] = {}
    for new, place in puts:
        folders.setdefault(place.parent, []).append((new, place))
    replaced: list[Path] = []
    with uninterrupted(), contextlib.ExitStack() as locks, contextlib.ExitStack() as undo:
        for folder, here in sorted(folders.items()):
            if not folder.is_dir():
                folder.mkdir()
                undo.callback(folder.rmdir)
            locks.enter_context(locked(folder))
            replaced += _put(folder, here, is_answer, undo)
        undo.pop_all()
        for it in replaced:
            it.unlink()


def _put(folder: Path, puts: Sequence[Put], is_answer: bool, undo: contextlib.ExitStack) -> list[Path]:
    """Puts the files of one folder. Answers what they replace, under other names, from which `undo` brings it back."""
    listing = listing_of(folder)
    for _, place in puts:
        check_way(place, listing, place)
    names = {place.name for _, place in puts}
    old = [it for it in listing.answer if is_answer and it not in names and not in_the_way(folder / it, listing)]
    for name in old:
        listing.forget(name)
    for new, place in puts:
        listing.remember(place.name, checksum_of(new), is_answer=is_answer)
    steps = list(puts)
    if not keeps_none(folder):
        part = unused(folder / NAME)
        undo.callback(part.unlink, missing_ok=True)
        part.write_text(listing.text(), "utf-8")
        steps.append((part, folder / NAME))
    replaced = []
    for place in [*(folder / it for it in old), *(it for _, it in steps)]:
        if os.path.lexists(place):
            before = unused(place)
            os.rename(place, before)
            undo.callback(os.rename, before, place)
            replaced.append(before)
    for new, place in steps:
        put_new(new, place)
        undo.callback(place.unlink)
    return replaced


def put_new(new: Path, place: Path) -> None:
    """Renames a file to a name that nothing has. FileExistsError where something has it."""
    try:
        os.link(new, place)
    except FileExistsError:
        raise
    except OSError:  # (a file system without links)
        if os.path.lexists(place):
            raise FileExistsError(place) from None
        os.rename(new, place)
        return
    new.unlink()


def keep_modes(puts: Sequence[Put]) -> None:
    """A file that is written anew may be read by whom the one before it might."""
    for new, place in puts:
        if os.path.lexists(place):
            shutil.copymode(place, new)


@contextlib.contextmanager
def uninterrupted() -> Iterator[None]:
    """An interrupt waits until the body is done."""
    before = signal.pthread_sigmask(signal.SIG_BLOCK, ENDING)
    try:
        yield
    finally:
        signal.pthread_sigmask(signal.SIG_SETMASK, before)
