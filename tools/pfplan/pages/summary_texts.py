"""A summary as a text for people."""

from __future__ import annotations

from collections.abc import Iterable, Iterator, Sequence

from pfplan.answers.connections import LATE, MEANINGS, kinds_told
from pfplan.answers.counting import Limit
from pfplan.answers.sources import Source
from pfplan.answers.summaries import Interfaces, Summary, Users
from pfplan.common.figures import moment_text, share_text
from pfplan.common.limits import ADVICE, BY_WORD
from pfplan.pages.doubt_texts import doubt_lines
from pfplan.pages.rule_notes import (
    TWO_STATES,
    does_fill_decide,
    entering_of,
    frame_lines,
    note_of,
    refusal_note,
    removed_lines,
    skipped_lines,
    way_lines,
)
from pfplan.traces.insertions import HeldCounts

# rules that are named for a limit
FEW_RULES = 5


def text_of(summary: Summary) -> str:
    """The lines of a summary, each with its line feed."""
    return "".join(f"{it}\n" for it in _lines(summary))


def _lines(summary: Summary) -> Iterator[str]:
    yield from doubt_lines(summary.doubts)
    yield from _head(summary)
    if summary.users:
        yield from _part(_users_title(summary.users), _users(summary, summary.users))
    title = "answers, of both interfaces" if summary.both else "answers"
    yield from _part(title, _answers(summary))
    if summary.rules:
        answered = {int(rule[1:]) for rules in summary.answers.values() for rule in rules if rule != "-"}
        yield from _part("rules that answered", (_rule(summary, it) for it in sorted(answered)))
        yield from _part("rules that never decided", (_rule(summary, it) for it in summary.undecided))
    yield from _part("limits met", _limits(summary))
    if does_fill_decide(summary):
        yield f"  {TWO_STATES}"
    yield from _part("sources refused by a limit most", _sources(summary.sources.refused, "records"))
    yield from _part("sources of the most states killed", _sources(summary.sources.killed, "states"))
    yield from _part("sources that made the most states", _sources(summary.sources.made, "states"))
    yield from _part("sources of the most records", _sources(summary.sources.seen, "records"))
    if not summary.sources.is_exact:
        yield (
            "  there are so many sources that those with few records were not counted on: each count is at least what "
            "is told"
        )
    if summary.interfaces:
        yield from _part("interfaces", _interfaces(summary.interfaces))
    yield from _part("held", _held(summary.held))


def _part(title: str, lines: Iterable[str]) -> Iterator[str]:
    """An empty line, the title and the lines; nothing where there are no lines."""
    shown = list(lines)
    if shown:
        yield ""
        yield title
        yield from shown


def _head(summary: Summary) -> Iterator[str]:
    line = f"{summary.records:,} {'record' if summary.records == 1 else 'records'}"
    if summary.first_moment is not None:
        line += f", moments {moment_text(summary.first_moment)} to {moment_text(summary.last_moment or 0)}"
    yield line
    if summary.frames:
        yield from frame_lines(summary.frames)
    yield from way_lines(summary)
    yield from skipped_lines(summary)
    yield from removed_lines(summary)
    end = summary.end
    if end:
        yield f"held at the end: {end.states:,} states, {end.nodes:,} source nodes, {end.entries:,} table entries"
    else:
        yield "the report has no last line: it is cut, or a fault stopped it"


def share(part: int, whole: int) -> str:
    """A share in a column of them, as `share_text` writes it."""
    return f"{share_text(part, whole):>8}"


def _users_title(users: Users) -> str:
    late = users.connections - users.counted
    return f"users {users.of}: {users.connections:,} connections" + (f", {late:,} of them not counted" if late else "")


def _users(summary: Summary, users: Users) -> Iterator[str]:
    for kind in kinds_told(users.outcomes):
        number = users.outcomes.get(kind, 0)
        shown = " " * 8 if kind == LATE else share(number, users.counted)
        yield f"  {kind:<10} {number:>10,}  {shown}   {MEANINGS[kind]}"
        if kind == "refused":
            yield from _refusals(summary, users)
    if users.without_beginning:
        yield f"  not counted: {users.without_beginning:,} whose beginning is not in the trace"
    if users.begun_by_others:
        yield f"  not counted: {users.begun_by_others:,} that others began"


def _refusals(summary: Summary, users: Users) -> Iterator[str]:
    """By which words of which rules connections were refused, and how their sources got into a table."""
    for it in users.refusals:
        note = refusal_note(summary, it)
        yield f"    {it.word + ' ' + it.rule.removeprefix('-'):<26} {it.connections:,}" + (f"   {note}" if note else "")
        entering = entering_of(summary, it)
        if entering:
            yield f"      {entering}"


def _answers(summary: Summary) -> Iterator[str]:
    for word, records in summary.words().items():
        if records:
            rules = "".join(f"  {rule} {number:,}" for rule, number in summary.answers[word].items() if rule != "-")
            yield f"  {word:<36} {records:>10,}  {share(records, summary.records + summary.both)}{rules}"


def _rule(summary: Summary, item: int) -> str:
    label = f"   ({summary.labels[item]})" if item in summary.labels else ""
    places = summary.origins.items
    width = max(map(len, places.values()), default=0)
    place = f"{places.get(item, ''):<{width}}  " if places else ""
    return f"  @{item:<4} {place}{summary.rules[item]}{label}"


def _limits(summary: Summary) -> Iterator[str]:
    if not summary.limits:
        return
    for limit in summary.limits:
        killed = f"; states killed: {limit.killed:,}" if limit.word.startswith("kill:") else ""
        out = f"; on the way out: {limit.on_way_out:,}" if limit.on_way_out else ""
        yield f"  {limit.word:<36} {limit.records:>10,} times, {_when(limit)}{out}{killed}"
        yield from _limiting_rules(summary, limit.word)
        if limit.word in ADVICE:
            yield f"    {ADVICE[limit.word]}"
    if "added" in summary.overloads:
        yield f"  sources put into an overload table: {summary.overloads['added']:,}"
    if "full" in summary.overloads:
        yield f"  sources for which the tables had no room: {summary.overloads['full']:,}"


def _limiting_rules(summary: Summary, word: str) -> Iterator[str]:
    """The limit that a word is about, by its rules; that of all rules once."""
    rules = summary.answers.get(word, {})
    notes = {rule: note for rule in rules if (note := note_of(summary, word, rule))}
    if word in BY_WORD:
        yield from (f"    {it}" for it in list(notes.values())[:1])
        return
    for rule, note in sorted(notes.items(), key=lambda it: -rules[it[0]])[:FEW_RULES]:
        yield f"    {rule} {note}: {rules[rule]:,}"
    if len(notes) > FEW_RULES:
        yield f"    and {len(notes) - FEW_RULES} more rules"


def _when(limit: Limit) -> str:
    if limit.first_moment is None or limit.last_moment is None:
        return f"first in row {limit.first_row}, last in row {limit.last_row}"
    return (
        f"first at {moment_text(limit.first_moment)}, last at {moment_text(limit.last_moment)}, in {limit.seconds:,} "
        f"{'second' if limit.seconds == 1 else 'seconds'}"
    )


def _sources(sources: Sequence[Source], unit: str) -> Iterator[str]:
    for source in sources:
        yield f"  {source.address:<15} {source.count:>10,} {unit}"


def _interfaces(found: Interfaces) -> Iterator[str]:
    if found.without_records:
        yield f"  named by rules, and no record is of them: {', '.join(found.without_records)}"
    if found.without_rules:
        yield f"  of records, and no rule names them: {', '.join(found.without_rules)}"


def _held(held: Sequence[HeldCounts]) -> Iterator[str]:
    if not held:
        return
    width = max(10, *(len(moment_text(it.moment)) for it in held))
    yield f"  {'moment':>{width}} {'states':>10} {'source nodes':>12} {'table entries':>13}"
    for it in held:
        yield f"  {moment_text(it.moment):>{width}} {it.states:>10,} {it.nodes:>12,} {it.entries:>13,}"
