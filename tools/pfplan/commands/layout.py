"""How `--help` is laid out: all its texts are wrapped to the width of the terminal."""

from __future__ import annotations

import argparse
import itertools
import re
import textwrap
from collections.abc import Iterator, Sequence

# a row of a list: a name, two spaces or more, and what is said of it
_ROW = re.compile(r"  (\S.*?) {2,}(\S.*)")
# Letters of a name that has its text beside it and not below.
_LONGEST = 24


class Formatter(argparse.HelpFormatter):
    """argparse's own, whose texts may have paragraphs, lists and examples.

    Lines that begin with two spaces are a list where they have a name and what is said of it, else they stay as they
    are. A line that begins with more goes on with a row of a list above it. What lies between them is wrapped.
    """

    def _fill_text(self, text: str, width: int, indent: str) -> str:
        """A text whose lines have no more than `width` letters, if they can."""
        lines = [line for part in _parts(text) for line in _laid_out(part, width - len(indent))]
        return "".join(f"{indent}{it}".rstrip() + "\n" for it in lines)

    def _format_args(self, action: argparse.Action, default_metavar: str) -> str:
        """What stands for the words of an argument. A name with a space says itself how often each may stand."""
        if isinstance(action.metavar, str) and " " in action.metavar:
            return action.metavar
        return super()._format_args(action, default_metavar)


def _parts(text: str) -> Iterator[list[str]]:
    """The paragraphs, lists, examples and empty lines of a text."""
    lines: list[str] = []
    for line in text.splitlines():
        if line.startswith("   ") and lines and _kind(lines[-1]) == "list":
            lines[-1] += f" {line.strip()}"
        else:
            lines.append(line)
    yield from (list(part) for _, part in itertools.groupby(lines, _kind))


def _kind(line: str) -> str:
    """What a line is part of."""
    if not line.startswith("  "):
        return "paragraph" if line else "nothing"
    return "list" if _ROW.fullmatch(line) else "example"


def _laid_out(part: Sequence[str], width: int) -> Iterator[str]:
    """The lines of a part."""
    kind = _kind(part[0])
    if kind == "paragraph":
        yield from textwrap.wrap(" ".join(part), width)
    elif kind == "list":
        rows = [found.groups() for it in part if (found := _ROW.fullmatch(it))]
        column = 4 + max((len(name) for name, _ in rows if len(name) <= _LONGEST), default=4)
        for name, text in rows:
            yield from _row(name, text, column, width)
    else:
        yield from part


def _row(name: str, text: str, column: int, width: int) -> Iterator[str]:
    """The lines of a row of a list, whose text begins at a column."""
    first, *others = textwrap.wrap(text, max(11, width - column))
    is_beside = len(name) + 4 <= column
    if not is_beside:
        yield f"  {name}"
    yield f"{f'  {name}' if is_beside else '':<{column}}{first}"
    yield from (f"{'':<{column}}{it}" for it in others)
