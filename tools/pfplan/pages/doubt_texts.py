"""How it is told that an answer may be of something else than what was meant: first of all."""

from collections.abc import Iterator, Sequence

from pfplan.common.visible import visible
from pfplan.pages.frames import answer, bullets
from pfplan.pages.markup import Child, Markup


def doubt_lines(doubts: Sequence[str]) -> Iterator[str]:
    """The lines of a text, before all others."""
    for it in doubts:
        yield f"in doubt: {visible(it)}"


def doubt_parts(doubts: Sequence[str]) -> Iterator[Child]:
    """The part of a page, before all others."""
    if doubts:
        yield doubt_box(doubts)


def doubt_box(doubts: Sequence[str]) -> Markup:
    """A red box with them."""
    return answer(f"In doubt: {doubts[0]}.", False, bullets([f"{it}." for it in doubts[1:]]))
