"""report.html: what a replay came to, in one file to read in a browser, to print, and to send to a colleague. The
answer stands first."""

import json
import re
from collections.abc import Iterator, Mapping, Sequence
from dataclasses import dataclass
from fractions import Fraction
from pathlib import Path
from typing import Protocol

from pfplan.answers import timelines
from pfplan.answers.connections import KINDS, LATE, MEANINGS, kinds_told
from pfplan.answers.counting import Limit
from pfplan.answers.margins import Margins
from pfplan.answers.sources import Source
from pfplan.answers.summaries import Summary, Users
from pfplan.answers.timelines import Timeline
from pfplan.common.errors import Trouble
from pfplan.common.figures import SINCE_1970, counted, moment_text, share_text
from pfplan.common.limits import ADVICE, BY_WORD
from pfplan.common.outputs import part_file
from pfplan.pages.differences import differences_beside
from pfplan.pages.doubt_texts import doubt_parts
from pfplan.pages.frames import (
    PAGE,
    PICTURE_STYLE,
    answer,
    bullets,
    code,
    document,
    gallery,
    more_of,
    paragraph,
    section,
    soft,
    table,
)
from pfplan.pages.margin_texts import table_of as margins_table
from pfplan.pages.margin_texts import verdict
from pfplan.pages.markup import Child, Markup, join, tag
from pfplan.pages.pictures import standalone
from pfplan.pages.rule_notes import (
    TWO_STATES,
    does_fill_decide,
    entering_of,
    frame_lines,
    note_of,
    refusal_note,
    removed_lines,
    skipped_lines,
    way_lines,
)
from pfplan.pages.summary_texts import text_of
from pfplan.pages.timeline_pictures import FILES, Drawn, drawn_kinds

LIMITS_OF_A_REPLAY = (
    "Nobody in a trace reacts: a client that is refused does not try again, and its other packets come all the same.",
    "pf lets states that have expired or were killed go later, by up to some interval seconds, so near a limit it "
    "refuses more than is told here.",
    "What the trace lacks is not counted: ICMP, other interfaces, sequence numbers, and states from before its first "
    "packet.",
)
# The last of these where rules have routes.
OF_ROUTES = (
    "What the trace lacks is not counted: ICMP, packets that neither come in nor leave on its interface, sequence "
    "numbers, and states from before its first packet. The other interface of a packet is that of the routes, which "
    "are taken to be the same all the time; a packet whose way pf changes (route-to, reply-to) leaves elsewhere."
)
# What is said too where a rule has `synproxy state`.
OF_SYNPROXY = (
    "A rule has synproxy state: pf answers a SYN itself, and asks the server once the client has answered. A capture "
    "has the server's SYN and ACK before that, as it answered what pf would have answered itself. Here they come too "
    "early and change nothing; a connection is served once the server's next packet has come through. When the server "
    "would have answered pf, and whether, a capture can't tell."
)
# What is said too where SYN packets got a cookie.
OF_SYNCOOKIES = (
    "pf answered SYN packets with a cookie, and makes a state once the client has brought it back; then it asks the "
    "server. A capture has the server's SYN and ACK before that. Here they come too early: the rules are asked, as no "
    "state is held, and what they say changes nothing of the connection. It is served once the server's next packet "
    "has come through. When the server would have answered pf, and whether, a capture can't tell."
)
# What is said too where rules with routes translate sources of packets out.
OF_TRANSLATION = (
    "Rules translate sources (nat-to). A capture of the outer interface shows a connection from inside with its "
    "translated source: it is asked by that, where it leaves alone. So the rules of the interface where it came in are "
    "not asked, its state there is not held, and rules and limits that ask for the source see the firewall's address."
)
FOOTER = (
    "Made by pfplan, which is tested and not proved. The replay is that of the proved program pfsrc; how far its "
    "answers agree with a running pf is not proved."
)
# Rules that are shown of a long text, besides those that decided; missing things that are named first; rules named for
# a limit.
MOST_RULES, MOST_MISSING, MOST_LIMITING = 200, 20, 5


class Left(Protocol):
    """What was left out of a pf.conf: where it stands, why, and whether that can change an answer."""

    @property
    def file(self) -> str:
        """The file's name."""

    @property
    def line(self) -> int:
        """The line."""

    @property
    def text(self) -> str:
        """What stands there."""

    @property
    def reason(self) -> str:
        """Why it is left out."""

    @property
    def changes_answer(self) -> bool:
        """Whether that can change an answer."""

    @property
    def way(self) -> str:
        """Which way pf answers otherwise."""

    @property
    def is_missing(self) -> bool:
        """Whether a word of the command line gives what is not there, and the reason names it."""


@dataclass(frozen=True)
class Subject:
    """What was replayed, by the names that the user gave, and what is told of it beside the summary."""

    rules: str
    trace: str
    leftovers: Sequence[Left] = ()
    notes: Sequence[str] = ()
    margins: Margins | None = None
    want: Fraction = Fraction(99, 100)  # the share of the users' connections that makes the answer a good one


def write_answer(folder: Path, summary: Summary, subject: Subject, place: Path | None = None) -> None:
    """Writes summary.txt, summary.json and the page with its pictures into a folder. Trouble as `write_page`."""
    texts = {"summary.txt": text_of(summary), "summary.json": json.dumps(summary.to_json(), indent=2) + "\n"}
    for name, text in texts.items():
        with part_file(folder / name) as file:
            file.write(text)
    write_page(folder, summary, subject, place)


def write_page(folder: Path, summary: Summary, subject: Subject, place: Path | None = None) -> list[Path]:
    """Writes report.html and its pictures into a folder, and answers what was written, the page first.

    `place` is where the folder will be, if it is elsewhere. Without gnuplot, or where it fails, the page has no
    pictures, and says why. Trouble with status 4 where writing fails.
    """
    pictures: dict[str, Drawn] = {}
    why = ""
    if summary.steps:
        try:
            pictures = drawn_kinds(timeline_of(summary))
        except Trouble as trouble:
            why = trouble.message
    written = []
    for kind, figure in pictures.items():
        path = folder / FILES[kind]
        with part_file(path) as file:
            file.write(standalone(figure.picture, PICTURE_STYLE))
        written.append(path)
    with part_file(folder / PAGE) as file:
        file.write(
            page_of(summary, subject, [it.figure() for it in pictures.values()], differences_beside(folder, place), why)
        )
    return [folder / PAGE, *written]


def page_of(summary: Summary, subject: Subject, figures: Sequence[Markup], differences: str, why_none: str = "") -> str:
    """The text of the page. `why_none` says why there are no pictures."""
    title = f"{subject.rules} under {subject.trace}"
    parts: list[Child] = [
        tag("h1", title),
        *doubt_parts(summary.doubts),
        soft(span_of(summary)),
        *([soft(summary.profile.told())] if summary.profile else []),
        *missing_parts(subject),
        answer_of(summary, subject),
    ]
    parts.extend(pictures_parts(summary, figures, why_none))
    parts.extend(limits_parts(summary))
    parts.extend(users_parts(summary))
    parts.extend(leftovers_parts(subject))
    parts.extend(margins_parts(subject))
    parts.extend(rules_parts(summary))
    parts.extend(sources_parts(summary))
    parts.extend(interfaces_parts(summary))
    has_proxy = any(re.search(r"\bsynproxy state\b", it) for it in summary.rules)
    limits = (*LIMITS_OF_A_REPLAY[:-1], OF_ROUTES) if summary.has_routes else LIMITS_OF_A_REPLAY
    unknown = [*limits, *([OF_SYNPROXY] if has_proxy else [])]
    unknown += [OF_SYNCOOKIES] if summary.words()["cookie"] else []
    unknown += [OF_TRANSLATION] if any(re.match(r"(pass|match) out .*nat-to ", it) for it in summary.rules) else []
    parts.append(section("What a replay can't know", bullets(unknown), more_of(differences)))
    parts.append(tag("footer", FOOTER))
    return document(title, parts)


def span_of(summary: Summary) -> str:
    """How much was replayed."""
    if summary.first_moment is None or summary.last_moment is None:
        return counted(summary.records, "record")
    seconds = summary.last_moment - summary.first_moment
    begin = f", from {moment_name(summary.first_moment)}" if summary.first_moment else ""
    return f"{counted(summary.records, 'record')} over {counted(seconds, 'second')}{begin}"


def moment_name(moment: int) -> str:
    """A moment in a sentence: a date and time of day, or `moment 100`."""
    return moment_text(moment) if moment >= SINCE_1970 else f"moment {moment}"


def missing_parts(subject: Subject) -> Iterator[Child]:
    """What the pf.conf leaves to its machine and nobody gave, before any answer: it may be wrong by that alone."""
    missing = [it for it in subject.leftovers if it.changes_answer and it.is_missing]
    if missing:
        rows: list[Sequence[Child]] = [
            [f"{it.file}:{it.line}", it.text, it.way, it.reason] for it in missing[:MOST_MISSING]
        ]
        more = [soft(f"And {len(missing) - MOST_MISSING:,} more.")] if len(missing) > MOST_MISSING else []
        yield section(
            "Missing, so the answer may be wrong",
            table(["where", "what", "which way", "how to give it"], rows, "cctt"),
            *more,
        )


def answer_of(summary: Summary, subject: Subject) -> Markup:
    """The answer: users served, refused and killed, by which limit, and when."""
    points = list(answer_points(summary, subject))
    users = summary.users
    if users is None:
        return answer(
            limits_headline(summary),
            None,
            bullets(points),
            soft("No users were named (--users), so it is not told who was served."),
        )
    if users.counted == 0:
        why = f"All {users.connections:,} connections of the users {users.of} were cut by the end of the trace."
        return answer(
            why if users.connections else f"No connection of the users {users.of} is in the trace.",
            None,
            bullets(points),
        )
    served = users.outcomes["served"]
    headline = (
        f"{share_text(served, users.counted)} of the users' connections were served: {served:,} of {users.counted:,}."
    )
    wanted = soft(f"Users: {users.of}; wanted: at least {float(100 * subject.want):g} % served")
    is_good = served >= subject.want * users.counted and not summary.doubts
    return answer(headline, is_good, bullets(points), wanted)


def answer_points(summary: Summary, subject: Subject) -> Iterator[Child]:
    """What stands below the headline of the answer."""
    yield from fate_points(summary)
    yield from limit_points(summary)
    if does_fill_decide(summary):
        yield TWO_STATES
    yield held_point(summary)
    yield from way_lines(summary)
    yield from skipped_lines(summary)
    yield from removed_lines(summary)
    yield from frame_lines(summary.frames) if summary.frames else ()
    doubts = [it for it in subject.leftovers if it.changes_answer]
    if doubts:
        told = f"{counted(len(doubts), 'thing')} left out of the pf.conf can change this answer"
        yield join([tag("strong", told), "; see below."])


def fate_points(summary: Summary) -> Iterator[Child]:
    """What became of those that were not served."""
    users = summary.users
    if users is None:
        return
    for kind in KINDS[1:]:
        count = users.outcomes.get(kind, 0)
        if count and kind == LATE:
            yield f"not counted: {count:,}, {MEANINGS[kind]}"
        elif count:
            by = (
                ", ".join(f"{number:,} by {word}" for word, number in users.refused_by.items())
                if kind == "refused"
                else MEANINGS[kind]
            )
            yield f"{kind}: {count:,} ({share_text(count, users.counted)}): {by}"


def limit_points(summary: Summary) -> Iterator[Child]:
    """The limits that were met, and when."""
    for it in summary.limits:
        killed = f"; {counted(it.killed, 'state')} killed" if it.killed else ""
        killed = (f", {it.on_way_out:,} of them on the way out" if it.on_way_out else "") + killed
        by = "; ".join(limiting(summary, it.word)[:2])
        yield join(
            [code(it.word), f" {counted(it.records, 'time')}, {when(it, summary)}{killed}", f" ({by})" if by else ""]
        )
        if it.word in ADVICE:
            yield join([code(it.word), f": {ADVICE[it.word]}"])
    if not summary.limits:
        yield "no limit was met"


def when(limit: Limit, summary: Summary) -> str:
    """When a limit was met: seconds from the first moment of the trace, and times of day where moments are since
    1970."""
    if limit.first_moment is None or limit.last_moment is None or summary.first_moment is None:
        return f"in rows {limit.first_row:,} to {limit.last_row:,}"
    first, last = limit.first_moment - summary.first_moment, limit.last_moment - summary.first_moment
    seconds = f"at second {first:,}" if first == last else f"from second {first:,} to {last:,}"
    if limit.first_moment < SINCE_1970:
        return seconds
    begin, end = moment_text(limit.first_moment), moment_text(limit.last_moment)
    return f"{seconds} ({begin})" if first == last else f"{seconds} ({begin} to {end})"


def limiting(summary: Summary, word: str) -> list[str]:
    """The limits that a word is about, as `@2 pf.conf:7, max-src-conn 5`, by the rules that named it most; that of all
    rules once."""
    rules = summary.answers.get(word, {})
    notes = {rule: note for rule in sorted(rules, key=lambda it: -rules[it]) if (note := note_of(summary, word, rule))}
    if word in BY_WORD:
        return list(notes.values())[:1]
    return [f"{rule} {note}" for rule, note in notes.items()][:MOST_LIMITING]


def held_point(summary: Summary) -> str:
    """What is held."""
    most = max((it.states for it in summary.held), default=None)
    end = (
        f"{counted(summary.end.states, 'state')} held at the end" if summary.end else "the report is cut before its end"
    )
    return (
        f"{counted(most, 'state')} held at most, at {counted(len(summary.held), 'moment')} that were asked for; {end}"
        if most is not None
        else end
    )


def limits_headline(summary: Summary) -> str:
    """The headline where no users are named."""
    if not summary.limits:
        return "No limit was met."
    return (
        f"{counted(len(summary.limits), 'limit was', 'limits were')} met: "
        f"{', '.join(it.word for it in summary.limits)}."
    )


def pictures_parts(summary: Summary, figures: Sequence[Markup], why_none: str) -> Iterator[Child]:
    """The pictures, or why there are none."""
    if figures:
        yield section("Over time", gallery(figures))
    elif summary.steps and why_none:
        yield section("Over time", soft(f"No pictures: {why_none}."))


def limits_parts(summary: Summary) -> Iterator[Child]:
    """The table of limits that were met."""
    if not summary.limits:
        return
    rows: list[Sequence[Child]] = [
        [
            it.word,
            "; ".join(limiting(summary, it.word)),
            f"{it.records:,}",
            when(it, summary),
            f"{it.seconds:,}",
            f"{it.killed:,}",
        ]
        for it in summary.limits
    ]
    extra = []
    if summary.overloads.get("added"):
        extra.append(soft(f"Sources put into an overload table: {summary.overloads['added']:,}."))
    if summary.overloads.get("full"):
        extra.append(soft(f"Sources for which the tables had no room: {summary.overloads['full']:,}."))
    heads = ["word", "limit, and where it stands", "times", "when", "in seconds", "states killed"]
    yield section("Limits met", table(heads, rows, "ccntnn"), *extra)


def users_parts(summary: Summary) -> Iterator[Child]:
    """The table of the users' connections."""
    users = summary.users
    if users is None:
        return
    counts = {it: users.outcomes.get(it, 0) for it in kinds_told(users.outcomes)}
    rows: list[Sequence[Child]] = [
        [it, f"{count:,}", "not counted" if it == LATE else share_text(count, users.counted), MEANINGS[it]]
        for it, count in counts.items()
    ]
    rows.append(["all", f"{users.connections:,}", f"of {users.counted:,}", ""])
    parts: list[Child] = [
        table(["connections", "number", "share", "what it means"], rows, "snnt"),
        *refusals_parts(summary, users),
    ]
    if users.without_beginning:
        parts.append(soft(f"Not counted: {users.without_beginning:,} whose beginning is not in the trace."))
    if users.begun_by_others:
        parts.append(soft(f"Not counted: {users.begun_by_others:,} that others began."))
    yield section("What became of the users", *parts)


def refusals_parts(summary: Summary, users: Users) -> Iterator[Child]:
    """By which words of which rules connections were refused, and how their sources got into a table."""
    if users.refusals:
        rows: list[Sequence[Child]] = [
            [it.word, it.rule, refusal_note(summary, it), f"{it.connections:,}", entering_of(summary, it)]
            for it in users.refusals
        ]
        yield tag("h3", "Refused by")
        yield table(
            ["word", "rule", "where, table, limit", "connections", "how the source got into the table"], rows, "cccnt"
        )


def leftovers_parts(subject: Subject) -> Iterator[Child]:
    """What was left out of the pf.conf and can change the answer; and what is told of it."""
    doubts = [it for it in subject.leftovers if it.changes_answer]
    others = len(subject.leftovers) - len(doubts)
    parts: list[Child] = []
    if doubts:
        rows: list[Sequence[Child]] = [[f"{it.file}:{it.line}", it.text, it.way, it.reason] for it in doubts]
        parts.append(table(["where", "left out", "which way", "why"], rows, "cctt"))
    if subject.notes:
        parts.append(bullets(subject.notes))
    if others:
        parts.append(
            soft(f"{counted(others, 'thing was', 'things were')} left out besides, which can change no answer.")
        )
    if parts:
        yield section(
            "Left out of the pf.conf, and can change the answer" if doubts else "Left out of the pf.conf", *parts
        )


def margins_parts(subject: Subject) -> Iterator[Child]:
    """How sure the answer is."""
    if subject.margins:
        yield section("How sure it is", paragraph(verdict(subject.margins)), margins_table(subject.margins))


def rules_parts(summary: Summary) -> Iterator[Child]:
    """The rules, with how often each decided."""
    if not summary.rules:
        return
    decided = decisions_of(summary.answers)
    shown = [it for it in range(len(summary.rules)) if it in decided or it < MOST_RULES]
    has_labels = any(it in summary.labels for it in shown)
    places = summary.origins.items
    rows: list[Sequence[Child]] = []
    for item in shown:
        words = decided.get(item, {})
        counts = ", ".join(f"{word} {count:,}" for word, count in words.items()) or (
            "never" if item in summary.undecided else ""
        )
        label = [summary.labels.get(item, "")] if has_labels else []
        place = [places.get(item, "")] if places else []
        rows.append([f"@{item}", *place, f"{sum(words.values()):,}", counts, *label, summary.rules[item]])
    heads = [
        "rule",
        *(["stands at"] if places else []),
        "records",
        "answers",
        *(["label"] if has_labels else []),
        "text",
    ]
    parts: list[Child] = [table(heads, rows, "s" + ("c" if places else "") + "nt" + ("c" if has_labels else "") + "c")]
    if len(shown) < len(summary.rules):
        parts.append(soft(f"Not shown: {len(summary.rules) - len(shown):,} rules that never decided."))
    yield section("Rules, and how often each decided", *parts)


def decisions_of(answers: Mapping[str, Mapping[str, int]]) -> dict[int, dict[str, int]]:
    """For each rule that was named, how many records had each word."""
    found: dict[int, dict[str, int]] = {}
    for word, rules in answers.items():
        for rule, count in rules.items():
            if rule != "-":
                found.setdefault(int(rule[1:]), {})[word] = count
    return found


def sources_parts(summary: Summary) -> Iterator[Child]:
    """The sources with the greatest counts."""
    tops = summary.sources
    named: list[tuple[str, str, Sequence[Source]]] = [
        ("Refused by a limit most", "records", tops.refused),
        ("Most states killed", "states", tops.killed),
        ("Made the most states", "states", tops.made),
        ("Most records", "records", tops.seen),
    ]
    parts: list[Child] = []
    for title, unit, sources in named:
        if sources:
            rows: list[Sequence[Child]] = [[it.address, f"{it.count:,}"] for it in sources]
            parts.append(tag("div", tag("h3", title), table(["source", unit], rows, "cn")))
    if not parts:
        return
    exact = [] if tops.is_exact else [soft("There are so many sources that each count is at least what is told.")]
    yield section("Top sources", gallery([it for it in parts if isinstance(it, Markup)]), *exact)


def interfaces_parts(summary: Summary) -> Iterator[Child]:
    """Interfaces of rules that no record has, and the other way round."""
    if summary.interfaces is None:
        return
    points: list[Child] = []
    if summary.interfaces.without_records:
        points.append(join(["rules name, and no record has: ", *names_in(summary.interfaces.without_records)]))
    if summary.interfaces.without_rules:
        points.append(join(["records have, and no rule names: ", *names_in(summary.interfaces.without_rules)]))
    if points:
        yield section("Interfaces", bullets(points))


def names_in(names: Sequence[str]) -> list[Child]:
    """Names in a row, at most 50."""
    parts: list[Child] = [join([code(it)]) for it in names[:50]]
    return [join(parts, " "), f" and {len(names) - 50} more" if len(names) > 50 else ""]


def timeline_of(summary: Summary) -> Timeline:
    """The run over time, of a summary with a trace."""
    has_users = summary.users is not None and summary.users.connections > 0
    held = [(it.moment, it.states) for it in summary.held]
    return timelines.timeline_of(
        summary.steps, max(1, summary.step_seconds), held, summary.first_moment or 0, has_users
    )
