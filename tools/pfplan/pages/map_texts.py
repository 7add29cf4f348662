"""How a map of two numbers is told: as a text, and as a page with the border drawn."""

from __future__ import annotations

from collections.abc import Iterator, Sequence

from pfplan.answers import grids
from pfplan.answers.maps import Border, Map, Pair
from pfplan.common.errors import Trouble
from pfplan.common.figures import counted, share_text
from pfplan.common.visible import visible
from pfplan.pages.doubt_texts import doubt_parts
from pfplan.pages.frames import answer, bullets, document, figure, gallery, key, section, soft, table
from pfplan.pages.markup import Child, tag
from pfplan.pages.pictures import Across, Picture, Role, Series, Style, draw
from pfplan.pages.size_texts import want_text


def cell_of(found: Map, pair: Pair) -> str:
    """The share that a pair serves in per cent, rounded down; a star where that is enough."""
    measure = found.measures[pair]
    if measure.refused or not measure.counted:
        return "-"
    return f"{100 * measure.served // measure.counted}{'*' if found.meets(pair) else ' '}"


def subject_of(found: Map) -> str:
    """What was varied, under what."""
    connections = [it.connections for it in found.measures.values()]
    most = counted(max(connections), "connection")
    return (
        f"{visible(found.trace)}; users {found.users}: up to {most}; wanted (*): at least {want_text(found.want)} "
        "served"
    )


def text_of(found: Map) -> str:
    """The map for people: the first number down, the second across."""
    first, second = found.varied
    heads = [f"{it:,}" for it in found.grid[1]]
    rows = [(f"{value:,}", [cell_of(found, (value, it)) for it in found.grid[1]]) for value in reversed(found.grid[0])]
    width = max(len(name) for name, _ in rows)
    widths = [max(len(head) + 1, *(len(cells[at]) for _, cells in rows)) for at, head in enumerate(heads)]
    lines = [
        f"{first.title} (down), now {first.value:,}, by {second.title} (across), now {second.value:,}:"
        " share served in per cent",
        subject_of(found),
        "",
    ]
    lines += [
        f"{name.rjust(width)} |" + "".join(f" {cell.rjust(one)}" for cell, one in zip(cells, widths)).rstrip()
        for name, cells in rows
    ]
    lines.append(" " * width + " +" + "-" * sum(it + 1 for it in widths))
    lines.append(
        (" " * width + "  " + "".join(f" {(head + ' ').rjust(one)}" for head, one in zip(heads, widths))).rstrip()
    )
    return "\n".join([*lines, "", *verdicts(found)]) + "\n"


def now_text(found: Map) -> str:
    """What the present values serve, and whether that is enough."""
    first, second = found.varied
    place = f"{first.name} {first.value:,} and {second.name} {second.value:,}"
    measure = found.measures.get(found.now)
    if measure is None:
        return f"The present values, {place}, were not tried."
    if measure.refused:
        return f"With the present values, {place}, the rules are refused."
    share = share_text(measure.served, measure.counted)
    enough = "enough" if found.meets(found.now) else f"too few: {want_text(found.want)} are wanted"
    return f"The present values, {place}, serve {share} of the users, which is {enough}."


def verdicts(found: Map) -> Iterator[str]:
    """The present values, and the border, in sentences."""
    first, second = found.varied
    yield now_text(found)
    for it in found.border():
        yield f"{second.title} {it.second:,}: {runs_text(it, first.name)}."
    if found.is_cut:
        yield f"More runs (--runs) would tell the border finer: {len(found.measures)} pairs were tried."
    yield "Between two values that were tried nothing is known."


def runs_text(border: Border, name: str) -> str:
    """The values of the first number that serve the users at one value of the second."""
    if not border.served:
        return f"no {name} that was tried serves them"
    parts = []
    for (low, high), below, above in zip(border.served, border.below, border.above):
        beside = [f"{it:,}" for it in (below, above) if it is not None]
        parts.append(f"{low:,}" if low == high else f"{low:,} to {high:,}")
        parts[-1] += f" (not at {' and '.join(beside)})" if beside else ""
    return f"served at {name} {', '.join(parts)}"


def page_of(found: Map) -> str:
    """The same as a page."""
    first, second = found.varied
    answers = list(verdicts(found))
    title = f"{first.title} by {second.title}"
    rows: list[Sequence[Child]] = [
        [f"{value:,}", *(coloured(found, (value, it)) for it in found.grid[1])] for value in reversed(found.grid[0])
    ]
    heads = [first.name, *(f"{it:,}" for it in found.grid[1])]
    is_good = found.meets(found.now) and not found.doubts if found.now in found.measures else None
    parts: list[Child] = [
        tag("h1", title),
        *doubt_parts(found.doubts),
        soft(subject_of(found)),
        answer(answers[0], is_good, bullets(answers[1:])),
        section("The border", *border_parts(found)),
        section(
            f"Shares served in per cent: {first.name} down, {second.name} across", table(heads, rows, "n" * len(heads))
        ),
        tag("footer", "Made by pfplan, which is tested and not proved; the firewall is the proved program pfsrc."),
    ]
    return document(title, parts)


def coloured(found: Map, pair: Pair) -> Child:
    """The cell of a pair in its colour: green where enough are served, else the more red the fewer are. That of the
    present values has a frame."""
    measure = found.measures[pair]
    text = cell_of(found, pair).strip()
    if measure.refused or not measure.counted:
        return text
    now = " now" if pair == found.now else ""
    if found.meets(pair):
        return tag("span", text, class_=f"share served{now}")
    lack = 15 + 50 * (measure.counted - measure.served) // measure.counted
    return tag("span", text, class_=f"share failed{now}", style=f"--lack: {lack}%")


def edges(found: Map) -> tuple[list[tuple[float, float]], list[tuple[float, float]]]:
    """The upper and the lower border: between the last value that serves the users and the nearest that does not."""
    upper, lower = [], []
    for it in found.border():
        if it.served and it.above[-1] is not None:
            upper.append((float(it.second), (it.served[-1][1] + it.above[-1]) / 2))
        if it.served and it.below[0] is not None:
            lower.append((float(it.second), (it.served[0][0] + it.below[0]) / 2))
    return upper, lower


def border_parts(found: Map) -> Iterator[Child]:
    """The pairs that were tried and the border between them drawn, or why they are not."""
    values = found.grid[1]
    tried = {
        role: tuple(
            (float(second), float(first))
            for (first, second), it in sorted(found.measures.items())
            if not it.refused and found.meets((first, second)) == is_met
        )
        for role, is_met in ((Role.SERVED, True), (Role.REFUSED, False))
    }
    lines = [Series(Role.WANTED, Style.LINE, tuple(it)) for it in edges(found) if it]
    dots = [Series(role, Style.DOTS, points) for role, points in tried.items() if points]
    most = float(max(found.grid[0])) * 1.05
    log = grids.is_logarithmic(values)
    picture = Picture(
        (*lines, *dots), Across.VALUE, float(values[0]), float(values[-1]), most, logarithmic=log
    )
    first, second = found.varied
    words: list[Child] = [
        f"{first.name} by {second.name}",
        key("serves the users", Role.SERVED),
        key("does not", Role.REFUSED),
        key("the border, somewhere between the two", Role.WANTED),
    ]
    try:
        yield gallery([figure(words, drawn) for drawn in draw([picture])])
    except Trouble as trouble:
        yield soft(f"No pictures: {trouble.message}.")
