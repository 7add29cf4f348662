"""The folder that `play` makes: a folder for each ruleset, and the page of all."""

import json
import os
from collections.abc import Sequence
from pathlib import Path

from pfplan.answers.plays_beside import PlaysBeside, json_of_side
from pfplan.common.outputs import part_file
from pfplan.common.repository import DIFFERENCES
from pfplan.pages.differences import differences_beside
from pfplan.pages.doubt_texts import doubt_lines
from pfplan.pages.frames import PAGE, PICTURE_STYLE
from pfplan.pages.pictures import standalone
from pfplan.pages.play_pages import drawn_of, page_of
from pfplan.pages.play_texts import text_of
from pfplan.pages.record_texts import letters
from pfplan.pages.timeline_pictures import FILES


def names_of(paths: Sequence[Path]) -> list[str]:
    """A name for each ruleset and its folder, each another one: that of its file without the ending, with a letter
    before it where several have one, and a number behind it where that is another's."""
    stems = [it.stem or it.name for it in paths]
    taken = {"report", "summary", "summary.txt", PAGE, DIFFERENCES.name, *FILES.values()}
    is_plain = [stems.count(it) == 1 and it not in taken and not it.startswith(".") for it in stems]
    names = [it for it, is_its_own in zip(stems, is_plain) if is_its_own]
    found = []
    for letter, stem, is_its_own in zip(letters(len(stems)), stems, is_plain):
        name = stem if is_its_own else f"{letter}-{stem.strip('.')}"
        while not is_its_own and name in names:
            name = f"{name}-{letter}"
        names += [] if is_its_own else [name]
        found.append(name)
    return found


def files_of(folders: Sequence[str]) -> list[str]:
    """The files that plays make, with those of each ruleset in its folder; that of one alone has no name."""
    each = ("rules", "rules.entries", "left-out.txt", "trace.csv", "report", "summary.json", *FILES.values())
    return ["summary.txt", PAGE, DIFFERENCES.name, *(os.path.join(folder, it) for folder in folders for it in each)]


def write_plays(into: Path, folders: Sequence[Path], played: PlaysBeside, place: Path) -> None:
    """Writes what the plays came to: the numbers of each into its folder, and text, page and pictures. `place` is where
    the folder will be."""
    for folder, it in zip(folders, played.sides):
        with part_file(folder / "summary.json") as out:
            out.write(json.dumps(json_of_side(it), indent=2) + "\n")
    with part_file(into / "summary.txt") as out:
        out.writelines(f"{it}\n" for it in doubt_lines(played.doubts))
        out.write(text_of(played))
    drawn, why_none = drawn_of(played)
    for kind, pictures in drawn.items():
        for place, picture in zip(folders, pictures):
            with part_file(place / FILES[kind]) as out:
                out.write(standalone(picture, PICTURE_STYLE))
    with part_file(into / PAGE) as out:
        out.write(page_of(played, drawn, why_none, differences_beside(into, place)))
