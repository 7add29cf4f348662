"""The pictures of a run over time: states held, states a second, and what became of the users' connections."""

from collections.abc import Callable, Sequence
from dataclasses import dataclass

from pfplan.answers.timelines import Timeline
from pfplan.pages.frames import figure, key
from pfplan.pages.markup import Child, Markup
from pfplan.pages.pictures import Across, Picture, Role, Series, Style, draw

# the files of the pictures, by their kind
FILES = {"held": "held.svg", "made": "states.svg", "users": "users.svg"}
TITLES = {
    "held": "states held",
    "made": "states a second",
    "users": "users' connections a second, by their first packet",
}
KEYS = {
    "held": (),
    "made": (("new", Role.NEW), ("dropped by a limit", Role.DROPPED), ("killed", Role.KILLED)),
    "users": (("let through", Role.SERVED), ("refused", Role.REFUSED), ("lost their state", Role.LOST)),
}
# the room above the greatest value
ROOM = 1.08


@dataclass(frozen=True)
class Drawn:
    """A picture that was drawn, and its kind."""

    kind: str
    picture: Markup

    def figure(self, name: str = "") -> Markup:
        """The picture below its caption: whose it is where there are several, what it shows, and its colours."""
        title = f"{name}: {TITLES[self.kind]}" if name else TITLES[self.kind]
        words: list[Child] = [title, *(key(word, role) for word, role in KEYS[self.kind])]
        return figure(words, self.picture)


def kinds_of(line: Timeline) -> list[str]:
    """The pictures that a run has: what is held where that was asked for, states a second, and users where there are
    some."""
    return [
        kind for kind, is_there in (("held", bool(line.held)), ("made", True), ("users", line.has_users)) if is_there
    ]


def drawn_kinds(line: Timeline) -> dict[str, Drawn]:
    """The pictures of a run. Trouble as `draw`."""
    kinds = kinds_of(line)
    drawn = draw([MAKERS[it](line, most_of(it, [line])) for it in kinds])
    return {kind: Drawn(kind, picture) for kind, picture in zip(kinds, drawn)}


def drawn_beside(lines: Sequence[Timeline]) -> dict[str, list[Drawn]]:
    """The pictures of several runs, those of a kind on one scale. Trouble as `draw`."""
    found: dict[str, list[Drawn]] = {}
    for kind in kinds_of(lines[0]):
        most = most_of(kind, lines)
        found[kind] = [Drawn(kind, it) for it in draw([MAKERS[kind](line, most) for line in lines])]
    return found


def most_of(kind: str, lines: Sequence[Timeline]) -> float:
    """The greatest value that some runs have in a kind of picture."""
    if kind == "held":
        return max((states for line in lines for _, states in line.held), default=0.0)
    moments = [it for line in lines for it in line.moments]
    if kind == "made":
        return max((max(it.new, it.dropped, it.killed) for it in moments), default=0.0)
    return max((it.served + it.refused + it.lost for it in moments), default=0.0)


def held_picture(line: Timeline, most: float) -> Picture:
    """States held."""
    series = (Series(Role.HELD_AREA, Style.AREA, line.held), Series(Role.HELD, Style.LINE, line.held))
    return Picture(series, Across.SECONDS, 0.0, line.end, most * ROOM)


def made_picture(line: Timeline, most: float) -> Picture:
    """States that were made, refused by a limit, and killed."""
    series = (
        Series(Role.NEW, Style.LINE, tuple((it.begin, it.new) for it in line.moments)),
        Series(Role.DROPPED, Style.LINE, tuple((it.begin, it.dropped) for it in line.moments)),
        Series(Role.KILLED, Style.LINE, tuple((it.begin, it.killed) for it in line.moments)),
    )
    return Picture(series, Across.SECONDS, 0.0, line.end, most * ROOM)


def users_picture(line: Timeline, most: float) -> Picture:
    """What became of the users' connections, one above the other."""
    served = [it.served for it in line.moments]
    refused = [it.served + it.refused for it in line.moments]
    lost = [it.served + it.refused + it.lost for it in line.moments]
    heights = ((Role.LOST, lost), (Role.REFUSED, refused), (Role.SERVED, served))
    series = tuple(Series(role, Style.AREA, stairs(line, values)) for role, values in heights)
    return Picture(series, Across.SECONDS, 0.0, line.end, most * ROOM)


def stairs(line: Timeline, heights: Sequence[float]) -> tuple[tuple[float, float], ...]:
    """The outline of steps: each height from its moment to the next, the last one to the end of the axis."""
    begins = [it.begin for it in line.moments]
    return tuple(
        (at, height) for begin, end, height in zip(begins, [*begins[1:], line.end], heights) for at in (begin, end)
    )


MAKERS: dict[str, Callable[[Timeline, float], Picture]] = {
    "held": held_picture,
    "made": made_picture,
    "users": users_picture,
}
