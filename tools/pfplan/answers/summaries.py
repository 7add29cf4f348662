"""What a report holds, and what became of the users."""

import json
from collections import Counter
from collections.abc import Iterable, Mapping, Sequence
from dataclasses import asdict, dataclass, field
from pathlib import Path
from typing import Any

from pfplan.answers.doubts import (
    of_directions,
    of_frames,
    of_interfaces,
    of_kills,
    of_tags,
    of_translation,
    of_users,
    of_ways,
)
from pfplan.answers.connections import KINDS, LATE, Refusal
from pfplan.answers.counting import Answers, Limit, Moments, count
from pfplan.answers.held_states import HeldStates, followed_again
from pfplan.answers.sources import Source
from pfplan.answers.stepping import Step, Steps
from pfplan.common.errors import Status, Trouble
from pfplan.common.inputs import Kind, check_trace, kind_of, regular
from pfplan.common.networks import Network
from pfplan.common.visible import visible
from pfplan.pf.origins import Origins
from pfplan.pf.profiles import Profile, profile_of
from pfplan.pf.reading_canonical_text import flushes_of, forwarding_in, items_of, redirected_to, settings_of
from pfplan.pf.routes import LOCAL, routes_of
from pfplan.replays.runs import show_rules, stream_blocks
from pfplan.traces.accounts import Frames
from pfplan.traces.entries import entries_of_rules
from pfplan.traces.insertions import HeldCounts, asking
from pfplan.traces.moments import first_moment_of, last_moment_of, step_of
from pfplan.traces.records import WORDS, End, Traces, line_blocks
from pfplan.traces.ways import Taken

MOST_SERIES = 100_000


@dataclass(slots=True)
class Users:
    """What became of the connections of users: how many had which outcome (connections.KINDS), and by what they were
    refused.

    `connections` are all; those that the end of the trace cut are among them, and count for no share.
    """

    of: str
    connections: int
    outcomes: dict[str, int]
    refused_by: dict[str, int]
    without_beginning: int
    begun_by_others: int = 0
    refusals: list[Refusal] = field(default_factory=list)

    @property
    def counted(self) -> int:
        """Of how many connections the shares are told: all but those that the end of the trace cut."""
        return self.connections - self.outcomes.get(LATE, 0)

    @property
    def served(self) -> float:
        """The share of the counted connections that were served, 0 to 1; 1 where there were none."""
        return self.outcomes["served"] / self.counted if self.counted else 1.0


@dataclass(slots=True)
class Interfaces:
    """Interfaces of rules that no record has, and those of records that no rule names, where some rule names one."""

    without_records: list[str]
    without_rules: list[str]


@dataclass(slots=True)
class Tops:
    """Sources with the greatest counts: records refused by a limit, states killed, states made, and records."""

    refused: list[Source] = field(default_factory=list)
    killed: list[Source] = field(default_factory=list)
    made: list[Source] = field(default_factory=list)
    seen: list[Source] = field(default_factory=list)
    is_exact: bool = True


@dataclass(slots=True)
class Summary:
    """All counts of a report, and with a trace those that need moments and sources."""

    records: int
    answers: dict[str, dict[str, int]]  # word -> `@N` or `-` -> records
    limits: list[Limit]
    overloads: dict[str, int]
    end: End | None
    first_moment: int | None = None
    last_moment: int | None = None
    step_seconds: int = 0
    steps: list[Step] = field(default_factory=list)
    users: Users | None = None
    sources: Tops = field(default_factory=Tops)
    rules: list[str] = field(default_factory=list)  # the n-th is the text of `@n`
    labels: dict[int, str] = field(default_factory=dict)
    undecided: list[int] = field(default_factory=list)  # rules that may decide, and no record has
    interfaces: Interfaces | None = None
    held: list[HeldCounts] = field(default_factory=list)
    profile: Profile | None = None  # of the rules text, where it is known
    settings: dict[str, int] = field(default_factory=dict)  # the limits for all rules
    origins: Origins = field(default_factory=Origins)
    frames: Frames | None = None  # of the capture that the trace was made of
    taken: Taken | None = None  # of the trace's records
    both: int = 0  # records that were asked on both interfaces
    has_routes: bool = False  # whether the rules text says which these are
    forwarding: list[str] = field(default_factory=list)  # interfaces whose packets the rules let through, and not seen
    seen_on: list[str] = field(default_factory=list)  # the interfaces that records have
    removed: int = 0  # states that an administrator took out
    doubts: list[str] = field(default_factory=list)  # why it may be of something else than what was meant

    def words(self) -> dict[str, int]:
        """How many records have each word, in the order of the report's words."""
        return {word: sum(self.answers.get(word, {}).values()) for word in WORDS}

    def to_json(self) -> dict[str, Any]:
        """The counts for machines (man/pfplan.1)."""
        return {
            "doubts": self.doubts,
            "records": self.records,
            "asked_on_both_interfaces": self.both,
            "forwarded_unseen": self.forwarding,
            "moments": None if self.first_moment is None else [self.first_moment, self.last_moment],
            "words": self.words(),
            "rules": self._rules(),
            "undecided": [self._rule(it) for it in self.undecided],
            "interfaces": asdict(self.interfaces) if self.interfaces else None,
            "limits": [asdict(it) for it in self.limits],
            "overloads": self.overloads,
            "states_removed": self.removed,
            "sources": asdict(self.sources),
            "users": asdict(self.users) | {"counted": self.users.counted, "served": self.users.served}
            if self.users
            else None,
            "series": {"seconds": self.step_seconds, "steps": [_step_json(it) for it in self.steps]},
            "held": [asdict(it) for it in self.held],
            "frames": asdict(self.frames) if self.frames else None,
            "left_out_on_their_way_out": self.taken.left_out if self.taken else 0,
            "end": asdict(self.end) if self.end else None,
        }

    def _rules(self) -> list[dict[str, Any]]:
        return [
            ({"rule": rule} if rule == "-" else self._rule(int(rule[1:]))) | {"word": word, "records": records}
            for word, rules in self.answers.items()
            for rule, records in rules.items()
        ]

    def _rule(self, item: int) -> dict[str, Any]:
        text = self.rules[item] if item < len(self.rules) else None
        return {"rule": f"@{item}", "text": text, "label": self.labels.get(item), "place": self.origins.items.get(item)}


@dataclass(frozen=True, slots=True)
class Wanted:
    """What a summary is made of besides the report, and what it shows.

    `trace` and `rules` are those of the replay; `labels` and `origins` are of items of the rules; `taken` is what was
    taken of the trace that was given; `every` is the
    seconds in a step of the series, 0 for what gives at most 120 steps; `top` is how many sources are named;
    `is_partial` takes a report without its last line. `rules_name` is the name of the rules where `rules` is a copy:
    entries that come by records stand beside it.
    """

    trace: Path | None = None
    users: Sequence[Network] = ()
    rules: Path | None = None
    labels: Mapping[int, str] = field(default_factory=dict)
    origins: Origins = field(default_factory=Origins)
    frames: Frames | None = None
    taken: Taken | None = None
    every: int = 0
    top: int = 5
    is_partial: bool = False
    rules_name: Path | None = None


def summarize(report: Path, wanted: Wanted) -> Summary:
    """Sums up a report in a file. Trouble where a file can't be read, is none, or they are not of one replay."""
    if kind_of(report) in (Kind.TRACE, Kind.CAPTURE):
        raise Trouble(f"{report}: a trace or a capture, where a report is wanted", Status.REFUSED)
    return summarize_blocks(line_blocks(report), report, wanted)


def summarize_blocks(blocks: Iterable[list[str]], name: Path | str, wanted: Wanted) -> Summary:
    """Sums up the lines of a report as they come (records.blocks_of_lines, runs.stream_blocks); `name` stands in
    messages."""
    shown = show_rules(wanted.rules) if wanted.rules else []
    texts = items_of(shown)
    answers = Answers(name, len(texts) if wanted.rules else None)
    if wanted.trace is None:
        count(blocks, answers, None, wanted.is_partial)
        return summary_of(answers, None, shown, wanted)
    check_trace(wanted.trace)
    with regular(wanted.trace) as kept:
        flushes = flushes_of(shown) if wanted.rules else None
        steps = Steps(_step(kept, wanted.every))
        holding = HeldStates() if wanted.rules else None
        moments = Moments(Traces(kept, wanted.trace), answers, wanted.users, steps, flushes, holding)
        count(blocks, answers, moments, wanted.is_partial)
        if wanted.rules and holding and holding.is_asked and answers.end:
            entries = entries_of_rules(wanted.rules, wanted.rules_name)
            steps.forget_outcomes()
            again = followed_again(wanted.rules, kept, wanted.users, flushes, entries, holding, steps.hear)
            if (again.answers.by_rule, again.answers.end) != (answers.by_rule, answers.end):
                raise Trouble(f"{name}: not the report of {wanted.rules} on {wanted.trace}", Status.REFUSED)
            moments.connections = again.connections
    return summary_of(answers, moments, shown, wanted)


def _step(trace: Path, every: int) -> int:
    """Seconds in a step of the series."""
    first, last = first_moment_of(trace) or 0, last_moment_of(trace) or 0
    if every and (last - first) // every > MOST_SERIES:
        raise Trouble(f"--every: {every} seconds make more than {MOST_SERIES} steps from moment {first} to {last}")
    return every or step_of(first, last)


def summary_of(answers: Answers, moments: Moments | None, shown: list[str], wanted: Wanted) -> Summary:
    """The summary of what was counted to the end. `shown` is the canonical text of the rules, or nothing."""
    rules = items_of(shown)
    by_rule = {word: _by_number(answers.by_rule[word]) for word in WORDS if word in answers.by_rule}
    summary = Summary(
        answers.rows, by_rule, [answers.limits[it] for it in WORDS if it in answers.limits], dict(answers.overloads),
        answers.end, rules=rules, labels=dict(wanted.labels), undecided=_undecided(rules, by_rule),
        settings=settings_of(shown), origins=wanted.origins, frames=wanted.frames, taken=wanted.taken,
        profile=profile_of(shown) if shown else None, both=answers.both, has_routes=bool(routes_of(shown)),
        removed=answers.removed,
    )  # fmt: skip
    summary.doubts = [*of_frames(wanted.frames), *(wanted.taken.doubts() if wanted.taken else [])]
    if moments is None or moments.first is None:
        return summary
    summary.first_moment, summary.last_moment, summary.step_seconds = moments.first, moments.last, moments.steps.seconds
    summary.steps = moments.steps.whole()
    tops = (moments.refused, moments.killed, moments.made, moments.seen)
    refused, killed, made, seen = (it.top(wanted.top) for it in tops)
    summary.sources = Tops(refused, killed, made, seen, not any(it.dropped for it in tops))
    summary.seen_on = sorted(moments.interfaces)
    if wanted.users:
        summary.users = _users(moments, wanted.users)
    if rules:
        _hold_beside_rules(summary, moments, shown, wanted)
    if summary.users:
        summary.doubts += of_users(summary.users.of, summary.users.connections)
        summary.doubts += of_kills(moments.connections.kills_guessed) if rules else []
    return summary


def _hold_beside_rules(summary: Summary, moments: Moments, shown: list[str], wanted: Wanted) -> None:
    """Says of the summary where rules and records name other interfaces, what is forwarded, and what is in doubt."""
    rules, routes, seen = summary.rules, routes_of(shown), moments.interfaces
    named = {name for it in rules for name in _interfaces(it)}
    if LOCAL in moments.onward:
        moments.onward |= redirected_to(rules, routes)
    summary.interfaces = Interfaces(sorted(named - seen - moments.onward), sorted(seen - named) if named else [])
    if not summary.has_routes:
        summary.forwarding = forwarding_in(rules, seen, wanted.origins.skipped)
    summary.doubts += of_interfaces(rules, seen, wanted.origins.skipped, moments.onward)
    summary.doubts += of_directions(rules, moments.connections.begun)
    summary.doubts += of_tags(rules, routes)
    summary.doubts += of_translation(rules, seen, routes)
    summary.doubts += of_ways(moments.twice)


def _users(moments: Moments, users: Sequence[Network]) -> Users:
    connections = moments.connections
    outcomes = {it: connections.outcomes[it] for it in KINDS}
    by_word = connections.refused_by
    refused_by = {it: by_word[it] for it in WORDS if it in by_word}
    refusals = sorted(connections.refusals.values(), key=lambda it: (WORDS.index(it.word), -it.connections, it.rule))
    return Users(
        ",".join(_short(it) for it in users), sum(outcomes.values()), outcomes, refused_by,
        connections.without_beginning, connections.begun_by_others, refusals,
    )  # fmt: skip


def _short(network: Network) -> str:
    """A network, without the length where that is the whole address's."""
    return str(network.network_address) if network.num_addresses == 1 else str(network)


def _by_number(rules: "Counter[str]") -> dict[str, int]:
    return dict(sorted(rules.items(), key=lambda it: -1 if it[0] == "-" else int(it[0][1:])))


def _undecided(rules: Sequence[str], by_rule: Mapping[str, Mapping[str, int]]) -> list[int]:
    answered = {rule for rules_of in by_rule.values() for rule in rules_of}
    deciding = [it for it, text in enumerate(rules) if not text.startswith(("anchor", "match"))]
    return [it for it in deciding if f"@{it}" not in answered]


def _interfaces(rule: str) -> list[str]:
    """The interface that the canonical text of a rule names, without `!`."""
    part = rule.split(" ")
    if "on" not in part:
        return []
    at = part.index("on") + 1
    return [part[at + 1] if part[at] == "!" else part[at].removeprefix("!")]


def _step_json(step: Step) -> dict[str, Any]:
    return {
        "moment": step.moment,
        "words": dict(step.words),
        "killed": step.killed,
        "tried": step.tried,
        "outcomes": dict(step.outcomes),
    }


def origins_told(summary: Path, items: Sequence[str]) -> Origins:
    """Where rules stand, as a summary for machines tells it that `run` or `watch` wrote beside a rules text.

    `items` are the canonical texts of its rules. Nothing where there is no such summary, or it is of other rules.
    """
    try:
        read = json.loads(summary.read_text("utf-8"))
        named = [it for it in (*read["rules"], *read["undecided"]) if it["rule"] != "-" and it["place"]]
        places = {int(it["rule"][1:]): visible(it["place"]) for it in named}
        is_theirs = all(it["text"] == items[int(it["rule"][1:])] for it in named)
    except (OSError, ValueError, LookupError, TypeError, AttributeError):
        return Origins()
    return Origins(places) if is_theirs else Origins()


def held_at(rules: Path, trace: Path, count: int, entries: Sequence[str] = ()) -> list[HeldCounts]:
    """What is held at so many moments of a trace, evenly from its first to its last.

    A report does not tell when states run out, so the program is asked in a replay of its own, with records that are
    put into the trace. `entries` are those that come by records (traces/entries.py).
    """
    with asking(trace, count, entries) as asked:
        heard = asked.heard(rules)
        if asked.moments:
            for _ in stream_blocks(rules, trace, asked, heard):
                pass
    return heard.held
