"""docs/DIFFERENCES.md: its lines that explain why pf answers otherwise, and its copy beside a page."""

import os
import re
import shutil
from functools import cache
from pathlib import Path

from pfplan.common.errors import Status, Trouble, reason_of
from pfplan.common.repository import DIFFERENCES, TOP


def differences_beside(folder: Path, place: Path | None = None) -> str:
    """A link from the folder to docs/DIFFERENCES.md: in the repository to the file itself, elsewhere to a copy that is
    put beside the page.

    `place` is where the folder will be, if it is elsewhere.
    """
    resolved = (place or folder).resolve()
    if resolved.is_relative_to(TOP):
        return os.path.relpath(DIFFERENCES, resolved)
    try:
        shutil.copyfile(DIFFERENCES, folder / DIFFERENCES.name)
    except OSError as error:
        raise Trouble(f"{folder / DIFFERENCES.name}: can't be written: {reason_of(error)}", Status.FAILED) from None
    return DIFFERENCES.name


@cache
def cells_of(beginning: str) -> tuple[str, ...]:
    """The cells of the document's line that begins so. KeyError where there is none, or more than one."""
    lines = DIFFERENCES.read_text("utf-8").splitlines()
    found = [it for it in lines if it.startswith(f"| {beginning}")]
    if len(found) != 1:
        raise KeyError(beginning)
    return tuple(it.strip() for it in found[0].strip("|").split("|"))


def explanation(beginning: str) -> str:
    """The document's line in one, as plain text: what is here, what is in pf, and which way pf differs."""
    here, pf, answers, *see = map(_plain, cells_of(beginning))
    if not see:  # (a line of what is left out has three cells; the last cell says how to see it on a firewall)
        return f"left out: {here}; then a report is wrong about {pf}"
    return f"here {here}; in pf {pf}; pf answers: {answers}"


def _plain(text: str) -> str:
    """A text without the marks of Markdown."""
    text = re.sub(r"\[([^\]]*)\]\([^)]*\)", r"\1", text.replace("`", ""))
    return re.sub(r"\*{1,2}([^*\s][^*]*)\*{1,2}", r"\1", text)
