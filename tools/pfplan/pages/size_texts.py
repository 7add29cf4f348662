"""How it is told which values serve the users: as a text with a curve, and as a page."""

from __future__ import annotations

from collections.abc import Iterator, Sequence
from fractions import Fraction

from pfplan.answers import grids
from pfplan.answers.connections import KINDS, REMOVED, kinds_told
from pfplan.answers.measures import Measure
from pfplan.answers.plays_measured import GAVE_UP, WAITED
from pfplan.answers.sizes import Sizing
from pfplan.common.errors import Trouble
from pfplan.common.figures import counted, share_text
from pfplan.common.visible import visible
from pfplan.pages.doubt_texts import doubt_parts
from pfplan.pages.frames import answer, bullets, document, figure, gallery, key, section, soft, table
from pfplan.pages.markup import Child, Markup, tag
from pfplan.pages.pictures import Across, Picture, Role, Series, Style, draw

WIDTH = 25
FATES = tuple(it for it in KINDS[1:] if it != REMOVED)
PLAYED = (WAITED, GAVE_UP)


def fates_of(found: Sizing) -> tuple[str, ...]:
    """What may become of a connection that was not served: under a trace, or in a play."""
    outcomes = [it.outcomes for it in found.measures.values()]
    return PLAYED if any(GAVE_UP in it for it in outcomes) else kinds_told(*outcomes)[1:]


def want_text(want: Fraction) -> str:
    """A wanted share: `99 %`, `99.5 %`."""
    return f"{float(100 * want):g} %"


def cells_of(value: int, measure: Measure, moments: int, fates: Sequence[str] = FATES) -> list[str]:
    """The cells of a value's row: the value, served, its share, what became of the others, dropped, held."""
    outcomes = measure.outcomes
    held = measure.most_held if moments else measure.end.states
    shares = [share_text(measure.served, measure.counted), *(f"{outcomes.get(it, 0):,}" for it in fates)]
    return [f"{value:,}", f"{measure.served:,}", *shares, f"{measure.dropped:,}", f"{held or 0:,}"]


def bar(measure: Measure) -> str:
    """The share as a bar of signs; full only where all are served, empty only where none is."""
    if not measure.counted:
        return ""
    signs = WIDTH * measure.served // measure.counted
    return "#" * (max(signs, 1) if measure.served else 0)


def verdicts(found: Sizing) -> Iterator[str]:
    """What the values come to, in sentences."""
    want = want_text(found.want)
    runs = grids.intervals(found.meets)
    if not runs:
        best = max(found.shares, key=lambda it: found.shares[it], default=None)
        best_text = f"; the best is {share_of(found, best)} at {best:,}" if best is not None else ""
        yield f"No value that was tried serves {want}{best_text}."
    for low, high in runs:
        yield (
            f"At least {want} are served "
            f"{f'at {low:,}' if low == high else f'from {low:,} to {high:,}'}{beyond(found, low, high)}."
        )
    now = found.measures.get(found.varied.value)
    if now is not None and not found.meets[found.varied.value]:
        why = "the rules are refused" if now.refused else f"it serves {share_of(found, found.varied.value)}"
        yield f"The present value, {found.varied.value:,}, fails: {why}."
    if found.is_cut:
        yield f"More runs (--runs) would tell the edges finer: {len(found.measures)} values were tried."
    falls = grids.valleys(found.shares)
    if not falls:
        yield "Over the values that were tried the share rises and falls no more than once."
    for fall in falls[:5]:
        yield (
            f"The share does not rise and fall once: from {share_of(found, fall.top)} at {fall.top:,} it falls to "
            f"{share_of(found, fall.bottom)} "
            f"at {fall.bottom:,}, and is {share_of(found, fall.again)} at {fall.again:,}. Between values that were not "
            "tried it may do so too."
        )
    if found.is_cut or falls or runs:
        yield "Between two values that were tried nothing is known."


def beyond(found: Sizing, low: int, high: int) -> str:
    """What the nearest values serve that were tried outside of a run."""
    values = sorted(found.measures)
    before = [it for it in values if it < low][-1:]
    after = [it for it in values if it > high][:1]
    nearest = [
        f"at {it:,} {'the rules are refused' if found.measures[it].refused else 'it is ' + share_of(found, it)}"
        for it in before + after
    ]
    return f"; {', '.join(nearest)}" if nearest else ""


def share_of(found: Sizing, value: int) -> str:
    """The share that a value serves."""
    measure = found.measures[value]
    return share_text(measure.served, measure.counted)


def subject_of(found: Sizing) -> str:
    """What was varied, under what."""
    connections = max(it.connections for it in found.measures.values())
    return (
        f"{visible(found.trace)}; users {found.users}: {counted(connections, 'connection')}; wanted: at least "
        f"{want_text(found.want)} served"
    )


def text_of(found: Sizing) -> str:
    """The table with a curve, and what it comes to, for people."""
    values = sorted(found.measures)
    lines = [
        f"{found.varied.title}, now {found.varied.value:,}: {counted(len(values), 'value')} from {values[0]:,} to "
        f"{values[-1]:,}",
        subject_of(found),
        "",
    ]
    fates = fates_of(found)
    rows = [(value, cells_of(value, found.measures[value], found.moments, fates)) for value in values]
    heads = ["value", "served", "share", *fates, "dropped", "most held" if found.moments else "held last"]
    widths = [max(len(head), *(len(cells[at]) for _, cells in rows)) for at, head in enumerate(heads)]
    lines.append("  " + "  ".join(head.rjust(width) for head, width in zip(heads, widths)) + "  share")
    for value, cells in rows:
        measure = found.measures[value]
        mark = "* " if found.meets[value] else "  "
        now = " now" if value == found.varied.value else ""
        if measure.refused:
            lines.append(f"  {cells[0].rjust(widths[0])}  the rules are refused: {visible(measure.refused)}{now}")
            continue
        row = "  ".join(cell.rjust(width) for cell, width in zip(cells, widths))
        lines.append(f"{mark}{row}  |{bar(measure).ljust(WIDTH)}|{now}")
    return "\n".join([*lines, "", *verdicts(found)]) + "\n"


def page_of(found: Sizing) -> str:
    """The same as a page."""
    answers = list(verdicts(found))
    title = f"Which value of {found.varied.title}?"
    parts: list[Child] = [
        tag("h1", title),
        *doubt_parts(found.doubts),
        soft(subject_of(found)),
        answer(
            answers[0],
            found.meets.get(found.varied.value, any(found.meets.values())) and not found.doubts,
            bullets(answers[1:]),
        ),
        section("Curve", *curve_parts(found)),
        section("Values", table_of(found)),
        tag(
            "footer",
            "Made by pfplan, which is tested and not proved; the replays are those of the proved program pfsrc.",
        ),
    ]
    return document(title, parts)


def table_of(found: Sizing) -> Markup:
    """The table of the page. Rows of values that serve the wanted share stand out."""
    rows: list[Sequence[Child]] = []
    bold = set()
    for at, value in enumerate(sorted(found.measures)):
        measure = found.measures[value]
        note = "refused: " + measure.refused if measure.refused else "now" if value == found.varied.value else ""
        rows.append([*cells_of(value, measure, found.moments, fates_of(found)), note])
        if found.meets[value]:
            bold.add(at)
    held = f"most states at {counted(found.moments, 'moment')}" if found.moments else "states at the end"
    heads = ["value", "served", "share", *fates_of(found), "dropped by limits", held]
    return table([*heads, ""], rows, "n" * len(heads) + "t", frozenset(bold))


def curve_parts(found: Sizing) -> Iterator[Child]:
    """The curves of the share and of what is held, or why there are none."""
    values = [it for it in sorted(found.measures) if not found.measures[it].refused]
    shares = tuple((float(it), 100 * found.shares[it]) for it in values)
    held = tuple(
        (float(it), float((found.measures[it].most_held if found.moments else found.measures[it].end.states) or 0))
        for it in values
    )
    if not values:
        return
    first, last = float(values[0]), float(values[-1])
    wanted = Series(Role.WANTED, Style.LINE, ((first, float(100 * found.want)), (last, float(100 * found.want))))
    log = grids.is_logarithmic(values)
    most = max(it[1] for it in held) * 1.08
    served = Picture(
        (wanted, Series(Role.SERVED, Style.POINTS, shares)),
        Across.VALUE,
        first,
        last,
        104.0,
        per_cent=True,
        logarithmic=log,
    )
    states = Picture((Series(Role.HELD, Style.POINTS, held),), Across.VALUE, first, last, most, logarithmic=log)
    try:
        drawn = draw([served, states])
    except Trouble as trouble:
        yield soft(f"No pictures: {trouble.message}.")
        return
    captions: list[list[Child]] = [
        ["connections of users", key("served", Role.SERVED), key("wanted", Role.WANTED)],
        ["most states held" if found.moments else "states held at the end"],
    ]
    yield gallery([figure(caption, picture) for caption, picture in zip(captions, drawn)])
