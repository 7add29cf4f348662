"""How a comparison of rulesets is told: as a text, and as a page."""

from __future__ import annotations

from collections import Counter
from collections.abc import Iterator, Sequence

from pfplan.answers.comparisons import Against, Comparison, Parting
from pfplan.answers.connections import LATE, MEANINGS, kinds_told
from pfplan.answers.measures import Measure
from pfplan.common.errors import Trouble
from pfplan.common.figures import counted, moment_text, share_text
from pfplan.common.visible import visible
from pfplan.pages.doubt_texts import doubt_parts
from pfplan.pages.frames import answer, bullets, code, document, gallery, paragraph, section, soft, table
from pfplan.pages.markup import Child, Markup, join, tag
from pfplan.pages.record_texts import connection_text, letters, record_text, why
from pfplan.pages.timeline_pictures import drawn_beside
from pfplan.traces.orders import rows_told
from pfplan.traces.records import WORDS

Row = tuple[str, list[str]]
MOST_LINES = 12


def rows_of(found: Comparison) -> Iterator[Row]:
    """The table: a name and a cell for each ruleset."""
    measures = found.measures
    if found.users:
        yield "users' connections", [f"{it.connections:,}" for it in measures]
        for kind in kinds_told(*(it.outcomes for it in measures)):
            yield f"  {kind}", [kind_text(it, kind) for it in measures]
    for word in WORDS:
        limits = [next((limit for limit in it.limits if limit.word == word), None) for it in measures]
        if any(limits):
            yield word, [f"{it.records:,}" if it else "0" for it in limits]
            yield f"  {word}: first at", [moment_text(it.first) if it else "-" for it in limits]
            yield f"  {word}: last at", [moment_text(it.last) if it else "-" for it in limits]
    if any(it.states_killed for it in measures):
        yield "states killed", [f"{it.states_killed:,}" for it in measures]
    for word in ("added", "full"):
        if any(it.overloads.get(word) for it in measures):
            name = "sources put into an overload table" if word == "added" else "sources for which tables were full"
            yield name, [f"{it.overloads.get(word, 0):,}" for it in measures]
    for name, several in rows_told([[it] for it in found.effects]):
        yield name, [f"{it:,}" for (it,) in several]
    yield "states held at the end", [f"{it.end.states:,}" for it in measures]
    yield "source nodes at the end", [f"{it.end.nodes:,}" for it in measures]
    yield "table entries at the end", [f"{it.end.entries:,}" for it in measures]
    if found.moments:
        yield f"most states at {counted(found.moments, 'moment')}", [f"{it.most_held or 0:,}" for it in measures]


def kind_text(measure: Measure, kind: str) -> str:
    """How many connections had an outcome, with their share of those that are counted."""
    count = measure.outcomes.get(kind, 0)
    return f"{count:,} (not counted)" if kind == LATE else f"{count:,} ({share_text(count, measure.counted)})"


def text_of(found: Comparison) -> str:
    """The comparison for people."""
    names = letters(len(found.names))
    lines = [f"{visible(found.trace)}: {subject_of(found)}"]
    lines += [f"  {letter}  {visible(name)}" for letter, name in zip(names, found.names)]
    lines += ["", winner_text(found, names)] if found.users else []
    rows = list(rows_of(found))
    first = max(len(name) for name, _ in rows)
    widths = [max(len(cells[at]) for _, cells in rows) for at in range(len(names))]
    lines += ["", " " * first + "".join(f"  {letter.rjust(width)}" for letter, width in zip(names, widths))]
    lines += [
        name.ljust(first) + "".join(f"  {cell.rjust(width)}" for cell, width in zip(cells, widths))
        for name, cells in rows
    ]
    for letter, against in zip(names[1:], found.against):
        lines += ["", *against_lines(against, letter, bool(found.users))]
    return "\n".join(lines) + "\n"


def against_lines(against: Against, letter: str, has_users: bool) -> Iterator[str]:
    """How one ruleset differs from A."""
    total = sum(against.words.values())
    yield (
        f"A and {letter}: {counted(against.differing, 'record')} of {total:,} ({share_text(against.differing, total)}) "
        "have another word"
    )
    for (one, other), count in changed_words(against.words):
        yield f"  {one} -> {other}".ljust(48) + f"{count:>12,}"
    if against.parting:
        yield (
            f"they part at row {against.parting.row:,}, moment {moment_text(against.parting.record.time)}: "
            f"{visible(record_text(against.parting.record))}"
        )
        for name, text, rule in zip(("A", letter), against.parting.texts, against.parting.rules):
            yield f"  {name.ljust(2)} {text}: {why(text)}"
            yield from (f"       {it}" for it in [rule] if it)
    else:
        yield "they part nowhere: each record has one word in both"
    yield from lines_only(against, letter)
    if has_users:
        yield from fate_lines(against)


def lines_only(against: Against, letter: str) -> Iterator[str]:
    """The lines by which the rulesets differ."""
    for name, lines in zip(("A", letter), against.only):
        if lines:
            yield f"  {counted(len(lines), 'line')} in {name} alone:"
            yield from (f"    {it}" for it in lines[:MOST_LINES])
            yield from (f"    .. and {len(lines) - MOST_LINES} more" for _ in range(len(lines) > MOST_LINES))


def fate_lines(against: Against) -> Iterator[str]:
    """The connections whose fate changes."""
    changed = {it: count for it, count in against.fates.items() if it[0] != it[1]}
    total = sum(against.fates.values())
    yield f"connections of users whose fate changes: {sum(changed.values()):,} of {total:,}"
    for (one, other), count in sorted(changed.items(), key=lambda it: -it[1]):
        yield f"  {one} -> {other}".ljust(48) + f"{count:>12,}"
    for it in against.changed:
        yield f"  row {it.row:,}: {visible(connection_text(it.key))}: {it.fates[0]} -> {it.fates[1]}"
    if any("-" in it for it in changed):
        yield "  (-: its first packet belongs there to a connection that began before)"


def changed_words(words: Counter[tuple[str, str]]) -> list[tuple[tuple[str, str], int]]:
    """The pairs of words that differ, the most frequent first."""
    return sorted(((it, count) for it, count in words.items() if it[0] != it[1]), key=lambda it: (-it[1], it[0]))


def page_of(found: Comparison) -> str:
    """The comparison as a page."""
    title = f"{len(found.names)} rulesets under {found.trace}"
    parts: list[Child] = [
        tag("h1", title),
        *doubt_parts(found.doubts),
        soft(subject_of(found)),
        answer_of(found),
        section("Side by side", table_of(found)),
    ]
    parts.extend(pictures_parts(found))
    for name, against in zip(found.names[1:], found.against):
        parts.append(section(f"{found.names[0]} and {name}", *against_parts(found, name, against)))
    parts.append(
        tag(
            "footer",
            "Made by pfplan, which is tested and not proved; the replays are those of the proved program pfsrc.",
        )
    )
    return document(title, parts)


def subject_of(found: Comparison) -> str:
    """What was replayed, in a line."""
    users = f"; users {found.users}" if found.users else ""
    orders = f", and {visible(found.orders)}" if found.orders else ""
    return f"{counted(found.records, 'record')}{orders}{users}"


def answer_of(found: Comparison) -> Markup:
    """Which ruleset serves the most users."""
    if not found.users:
        return answer("No users were named (--users), so it is not told who was served.", None)
    others = [
        f"{name}: {it.served:,} of {it.counted:,} ({share_text(it.served, it.counted)})"
        for name, it in zip(found.names, found.measures)
    ]
    are_alike = len({it.served for it in found.measures}) == 1
    return answer(winner_text(found, found.names), None, *([] if are_alike else [bullets(others)]))


def winner_text(found: Comparison, names: Sequence[str]) -> str:
    """Which ruleset serves the most users, by these names."""
    most = max(it.served for it in found.measures)
    best = [name for name, it in zip(names, found.measures) if it.served == most]
    connections = max(it.counted for it in found.measures)
    share = share_text(most, connections)
    if len(best) == len(names):
        return f"All serve alike: {most:,} of {connections:,} connections of users, {share}."
    verb = "serves" if len(best) == 1 else "serve"
    return f"{' and '.join(best)} {verb} the most users: {most:,} of {connections:,} connections, {share}."


def table_of(found: Comparison) -> Markup:
    """The table of the page; a column for each ruleset."""
    rows: list[list[Child]] = [[name_cell(name), *cells] for name, cells in rows_of(found)]
    return table(["", *found.names], rows, "t" + "n" * len(found.names))


def pictures_parts(found: Comparison) -> Iterator[Child]:
    """The rulesets over time, pictures of a kind on one scale; or why there are none."""
    if not found.timelines or not found.measures[0].records:
        return
    try:
        beside = drawn_beside(found.timelines)
    except Trouble as trouble:
        yield section("Over time", soft(f"No pictures: {trouble.message}."))
        return
    galleries = [gallery([it.figure(name) for it, name in zip(drawn, found.names)]) for drawn in beside.values()]
    yield section("Over time", *galleries)


def name_cell(name: str) -> Child:
    """A name of the table, with what it means where that is no plain word."""
    meaning = MEANINGS.get(name.strip())
    return join([name.strip(), tag("span", f" {meaning}", class_="soft")]) if meaning else name.strip()


def against_parts(found: Comparison, name: str, against: Against) -> Iterator[Child]:
    """How one ruleset differs from the first, on the page."""
    first = found.names[0]
    total = sum(against.words.values())
    yield paragraph(
        f"{counted(against.differing, 'record')} of {total:,} ({share_text(against.differing, total)}) have another "
        "word."
    )
    if against.parting:
        yield parting_part(against.parting, first, name)
    words = changed_words(against.words)
    if words:
        yield tag("h3", "Words in the one and in the other")
        yield table([first, name, "records"], [[one, other, f"{count:,}"] for (one, other), count in words], "ccn")
    for title, lines in zip((first, name), against.only):
        if lines:
            yield tag("h3", f"Lines in {title} alone")
            yield bullets([code(it) for it in lines[:MOST_LINES]])
            if len(lines) > MOST_LINES:
                yield soft(f"and {len(lines) - MOST_LINES} more")
    if found.users:
        yield from fate_parts(against, first, name)


def parting_part(parting: Parting, first: str, name: str) -> Markup:
    """The record at which they part."""
    record = record_text(parting.record)
    said = [
        join(
            [
                f"{title}: ",
                code(text),
                f", {why(text)}" if why(text) else "",
                *([tag("br"), code(rule)] if rule else []),
            ]
        )
        for title, text, rule in zip((first, name), parting.texts, parting.rules)
    ]
    head = paragraph(f"They part at row {parting.row:,}, moment {moment_text(parting.record.time)}: ", code(record))
    return join([tag("h3", "The first record at which they part"), head, bullets(said)])


def fate_parts(against: Against, first: str, name: str) -> Iterator[Child]:
    """The connections whose fate changes, on the page."""
    changed = sorted(((it, count) for it, count in against.fates.items() if it[0] != it[1]), key=lambda it: -it[1])
    total = sum(against.fates.values())
    yield tag("h3", "Connections of users whose fate changes")
    yield paragraph(f"{sum(count for _, count in changed):,} of {total:,}.")
    if changed:
        yield table(
            [first, name, "connections"], [[one, other, f"{count:,}"] for (one, other), count in changed], "ssn"
        )
    if against.changed:
        rows: Sequence[Sequence[Child]] = [
            [f"{it.row:,}", connection_text(it.key), *it.fates] for it in against.changed
        ]
        yield table(["row", "the first of them", first, name], rows, "ncss")
    if any("-" in it for it, _ in changed):
        yield soft("-: its first packet belongs there to a connection that began before.")
