"""What is said beside a word and a rule of a report: where the rule stands, its table, its limit, and how a source got
into the table."""

from __future__ import annotations

from collections.abc import Iterator

from pfplan.answers.connections import Refusal
from pfplan.answers.legs import place_text
from pfplan.answers.summaries import Summary
from pfplan.common.figures import counted, moment_text
from pfplan.pf.reading_canonical_text import limit_of, limit_of_all, overload_of, tables_of
from pfplan.traces.accounts import Frames, reasons_of
from pfplan.traces.records import KILL

FILL = ("drop:states", "drop:max")
TWO_STATES = (
    "a forwarded connection holds two states in pf, and one here, as the trace is of one interface: pf's table is "
    "full sooner"
)
NOT_SEEN = (
    "the rules let packets through on {}, of which no record is: a forwarded connection holds a second state there, "
    "which is not seen, so pf holds more states than are told here, and near a limit it serves fewer (--routes FILE, "
    "what netstat -rn prints, has both interfaces asked)"
)
MOST_NAMES = 5


def note_of(summary: Summary, word: str, rule: str) -> str:
    """`pf.conf:7, max-src-conn-rate 3/10, overload <bad>`: what is known of the rule or the limit behind an answer."""
    text = text_of_rule(summary, rule)
    limit = limit_of_all(summary.settings, word)
    if limit:
        return ", ".join(it for it in (summary.origins.limits.get(limit.split(" ")[2], ""), limit) if it)
    overload = overload_of(text) if word.startswith("kill:") else None
    tables = [f"<{it}>" for it in tables_of(text)] if word == "block" else []
    parts = [
        summary.origins.of(rule),
        *tables,
        limit_of(text, word),
        f"overload <{overload.table}>" if overload else "",
    ]
    return ", ".join(it for it in parts if it)


def refusal_note(summary: Summary, refusal: Refusal) -> str:
    """The same of a refusal, behind the interface that refused where there are two."""
    place = place_text((refusal.way, refusal.interface)) if refusal.way else ""
    return ", ".join(it for it in (place, note_of(summary, refusal.word, refusal.rule)) if it)


def text_of_rule(summary: Summary, rule: str) -> str:
    """The canonical text of `@N`; nothing where it is not known."""
    item = -1 if rule == "-" else int(rule[1:])
    return summary.rules[item] if 0 <= item < len(summary.rules) else ""


def entering_of(summary: Summary, refusal: Refusal) -> str:
    """When and why the sources got into the table of the rule that refused them; nothing where no kill put them
    there."""
    if not refusal.entered or refusal.by is None or refusal.first is None or refusal.last is None:
        return ""
    word, rule = refusal.by
    overload = overload_of(text_of_rule(summary, rule))
    tables = tables_of(text_of_rule(summary, refusal.rule))
    if overload and overload.table not in tables:
        return ""
    name = f"<{overload.table}>" if overload else "an overload table"
    place = summary.origins.of(rule)
    by = f"{word} {rule}" + (f" ({place})" if place else "")
    when = f"at {moment_text(refusal.first)}"
    if refusal.last != refusal.first:
        when = f"from {moment_text(refusal.first)} to {moment_text(refusal.last)}"
    return f"{refusal.entered:,} of sources that {by} had put into {name} {when}"


def way_lines(summary: Summary) -> Iterator[str]:
    """What is to know of the two interfaces of a forwarded packet: that a second state is not seen, and which way the
    answer errs by it; or, with routes, what was asked on both."""
    if summary.has_routes or summary.both:
        yield from summary.taken.notes() if summary.taken else ()
        yield f"{counted(summary.both, 'record was', 'records were')} asked on both interfaces of the packet's way"
        return
    if summary.forwarding:
        more = len(summary.forwarding) - MOST_NAMES
        names = ", ".join(summary.forwarding[:MOST_NAMES]) + (f" and {more} more" if more > 0 else "")
        yield NOT_SEEN.format(names)


def does_fill_decide(summary: Summary) -> bool:
    """Whether a table was full for the trace of one interface, and nothing else is told of the other one: pf's then is
    sooner."""
    is_told = summary.has_routes or summary.both or summary.forwarding
    return not is_told and len(summary.seen_on) < 2 and any(it.word in FILL for it in summary.limits)


def skipped_lines(summary: Summary) -> Iterator[str]:
    """What became of the records on interfaces of `set skip`."""
    for item in sorted(summary.origins.skipped):
        records = sum(rules.get(f"@{item}", 0) for rules in summary.answers.values())
        place = summary.origins.items.get(item, "")
        name = (text_of_rule(summary, f"@{item}").split(" on ") + [""])[1].split(" ")[0]
        yield f"set skip on {name}" + (
            f" ({place})" if place else ""
        ) + f": pf passes all packets there, and asks no rule: {counted(records, 'record')}"


def removed_lines(summary: Summary) -> Iterator[str]:
    """How many states an administrator took out, where records did."""
    records = sum(summary.answers.get(KILL, {}).values())
    if records:
        states = counted(summary.removed, "state")
        yield f"an administrator took out {states}, by {counted(records, 'record')} (kill)"


def frame_lines(frames: Frames) -> Iterator[str]:
    """How many frames of the capture are no records, by why, and what else is to know of it."""
    left = frames.frames - frames.records
    if left > 0:
        verb = "is no record" if left == 1 else "are no records"
        yield f"{left:,} of {counted(frames.frames, 'frame')} of the capture {verb}: {reasons_of(frames)}"
    yield from frames.notes
