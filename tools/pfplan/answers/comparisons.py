"""Rulesets under one trace, side by side."""

import contextlib
from collections import Counter
from collections.abc import Callable, Collection, Iterator, Sequence
from dataclasses import asdict, dataclass, field, replace
from itertools import groupby
from pathlib import Path
from typing import Any

from pfplan.answers.connections import Key
from pfplan.answers.doubts import of_interfaces, of_kills, of_routes, of_tags, of_translation, of_users
from pfplan.answers.held_states import states_held
from pfplan.answers.measures import Measure, measure_of, most_of
from pfplan.answers.sides import Side, follow, side_of
from pfplan.answers.stepping import Steps, steps_of
from pfplan.answers.timelines import Timeline, timeline_of
from pfplan.common.networks import Network
from pfplan.common.progress import Progress
from pfplan.pf.reading_canonical_text import flushes_of, items_of
from pfplan.pf.routes import Routes
from pfplan.replays.runs import records_of, replayed, show_rules
from pfplan.traces.entries import mark_of
from pfplan.traces.insertions import HeldCounts, asking
from pfplan.traces.orders import Effects
from pfplan.traces.records import ONWARD, Record, read_record
from pfplan.traces.rows import Rows
from pfplan.traces.ways import interfaces_in


@dataclass(frozen=True)
class Parting:
    """The first record that two rulesets answer with other words: what each said, and the rule that it named."""

    row: int
    record: Record
    texts: tuple[str, str]
    rules: tuple[str, str]


@dataclass(frozen=True)
class Changed:
    """A connection of a user whose fate is another under the second ruleset. `-`: there it is no connection of its
    own."""

    key: Key
    row: int
    fates: tuple[str, str]


@dataclass
class Against:
    """A ruleset against the first: pairs of words with how many records had them, the parting, and pairs of fates."""

    words: Counter[tuple[str, str]] = field(default_factory=Counter)
    parting: Parting | None = None
    fates: Counter[tuple[str, str]] = field(default_factory=Counter)
    changed: list[Changed] = field(default_factory=list)
    only: tuple[Sequence[str], Sequence[str]] = ((), ())

    @property
    def differing(self) -> int:
        """How many records had another word."""
        return sum(count for (one, other), count in self.words.items() if one != other)


@dataclass
class Comparison:
    """Rulesets under one trace. `against` has one for each ruleset but the first. `orders` tells of the records of an
    administrator that were merged into the trace, and `effects` what they did under each; rows are the trace's own."""

    trace: str
    users: str
    names: list[str]
    measures: list[Measure]
    against: list[Against]
    moments: int
    timelines: list[Timeline] = field(default_factory=list)
    doubts: list[str] = field(default_factory=list)
    orders: str = ""
    effects: list[Effects] = field(default_factory=list)

    @property
    def records(self) -> int:
        """How many records the trace has."""
        return self.measures[0].records - (self.effects[0].records if self.effects else 0)

    def to_json(self) -> dict[str, Any]:
        """The numbers for machines (man/pfplan.1)."""
        sides: list[dict[str, Any]] = [
            {"rules": name, **it.to_json()} for name, it in zip(self.names, self.measures)
        ]
        for side, it in zip(sides, self.effects):
            side["administrator"] = it.to_json()
        return {
            "doubts": self.doubts,
            "trace": self.trace,
            "users": self.users,
            "sides": sides,
            "against_first": [_against_json(it) for it in self.against],
        }


def _against_json(against: Against) -> dict[str, Any]:
    return {
        "words": [[one, other, count] for (one, other), count in against.words.items()],
        "parting": asdict(against.parting) if against.parting else None,
        "fates": [[one, other, count] for (one, other), count in against.fates.items()],
        "changed": [asdict(it) for it in against.changed],
        "lines": {"first_only": against.only[0], "other_only": against.only[1]},
    }


class Fates:
    """Puts together what became of each connection under the rulesets. A connection is told by its ends and the row of
    its first packet."""

    def __init__(self, sides: int, most: int) -> None:
        self._sides = sides
        self._most = most
        self._open: dict[tuple[Key, int], list[str]] = {}
        self.counts = [Counter[tuple[str, str]]() for _ in range(sides - 1)]
        self.changed: list[list[Changed]] = [[] for _ in range(sides - 1)]

    def ended(self, side: int) -> Callable[[Key, int, str], None]:
        """What a side tells of its connections."""

        def tell(key: Key, row: int, outcome: str) -> None:
            fates = self._open.setdefault((key, row), ["-"] * self._sides)
            fates[side] = outcome
            if "-" not in fates:
                self._count((key, row), self._open.pop((key, row)))

        return tell

    def finish(self, merged: Rows | None = None) -> None:
        """Counts those that not all sides have as a connection. `merged` says which rows are the trace's own."""
        for place, fates in self._open.items():
            self._count(place, fates)
        self._open.clear()
        for changed in self.changed:
            changed.sort(key=lambda it: it.row)
            del changed[self._most :]
            if merged:
                changed[:] = [replace(it, row=merged.own(it.row) or 0) for it in changed]

    def _count(self, place: tuple[Key, int], fates: Sequence[str]) -> None:
        for at, other in enumerate(fates[1:]):
            self.counts[at][fates[0], other] += 1
            if fates[0] == other:
                continue
            changed = self.changed[at]
            changed.append(Changed(*place, (fates[0], other)))
            if len(changed) > 64 * (self._most + 1):
                changed.sort(key=lambda it: it.row)
                del changed[self._most :]


def count_steps(steps: Steps, side: Side, lines: Sequence[str]) -> None:
    """Counts the block whose texts the side holds, by its steps."""
    at = 0
    for moment, group in groupby(lines, key=lambda it: it.partition(",")[0]):
        count = sum(1 for _ in group)
        step = steps.at(int(moment))
        for text, times in Counter(side.texts[at : at + count]).items():
            reply = side.answers.reply_of(text)
            for word in reply.words:
                step.words[word] += times
            step.killed += reply.all_killed * times
        taken = {
            it for it in set(side.texts[at : at + count]) if side.answers.reply_of(it).word in ("proxy", "cookie")
        }
        for text, line in zip(side.texts[at : at + count], lines[at : at + count], strict=True) if taken else ():
            if text in taken:
                column = line.split(",")
                word, ends = side.answers.reply_of(text).word, tuple(column[3:8])
                way, _ = side.legs.first((column[1], column[2]), column[4])
                step.proxied += side.cookies.makes(word, step.moment, way, ends, column[8])
        at += count


class Pairs:
    """Counts, block by block, how the words of each side go with those of the first, and notes where they part.

    `merged` says which rows are of records that were put into the trace: of these it counts what they did.
    """

    def __init__(
        self,
        sides: Sequence[Side],
        rules: Sequence[Sequence[str]],
        progress: Progress,
        steps: Sequence[Steps] = (),
        merged: Rows | None = None,
    ) -> None:
        self._sides = sides
        self._rules = rules
        self._progress = progress
        self._steps = steps
        self._merged = merged or Rows(())
        self._own = 0
        self.effects = [Effects() for _ in sides] if merged else []
        self.texts = [Counter[tuple[str, str]]() for _ in sides[1:]]
        self.partings: list[Parting | None] = [None for _ in sides[1:]]

    def take(self, row: int, lines: Sequence[str]) -> None:
        """Counts the block whose texts the sides hold."""
        self._progress.at(row + len(lines))
        for steps, side in zip(self._steps, self._sides):
            count_steps(steps, side, lines)
        parted = [self._merged.parted(row + 1, side.texts) for side in self._sides]
        for effects, (_, others) in zip(self.effects, parted):
            effects.take(others)
        own, _ = self._merged.parted(row + 1, list(lines))
        self._count(own, [texts for texts, _ in parted])
        self._own += len(own)

    def _count(self, lines: Sequence[str], texts: Sequence[Sequence[str]]) -> None:
        """Counts records of the trace, and the texts of each side."""
        for at, others in enumerate(texts[1:]):
            counts = Counter(zip(texts[0], others))
            parts = self.partings[at] is None and {it for it in counts if _word(it[0]) != _word(it[1])}
            if parts:
                place = next(i for i, it in enumerate(zip(texts[0], others)) if it in parts)
                self.partings[at] = self._parting(at + 1, place, lines[place], (texts[0][place], others[place]))
            for (one, other), count in counts.items():
                self.texts[at][_word(one), _word(other)] += count

    def _parting(self, side: int, place: int, line: str, texts: tuple[str, str]) -> Parting:
        rules = (_rule(texts[0], self._rules[0]), _rule(texts[1], self._rules[side]))
        return Parting(self._own + place + 1, read_record(line), texts, rules)


def _word(text: str) -> str:
    """The word of an answer: of two interfaces that of each, as `new > block`."""
    return ONWARD.join(it.partition(" ")[0] for it in text.split(ONWARD))


def _rule(text: str, rules: Sequence[str]) -> str:
    """The text of the rule that an answer names, of two interfaces that of each; nothing where it names none."""
    names = [it.split(" ")[1] for it in text.split(ONWARD)]
    found = [rules[int(it[1:])] if it != "-" and int(it[1:]) < len(rules) else "" for it in names]
    return ONWARD.join(it for it in found if it)


def names_of(paths: Sequence[Path]) -> list[str]:
    """A name for each ruleset: its file's, or the whole path where two files have one name."""
    names = [it.name for it in paths]
    return names if len(set(names)) == len(names) else [str(it) for it in paths]


@dataclass(frozen=True)
class Asked:
    """What is asked of a comparison: about whose connections, of how many moments what is held, how many of the
    connections that change are named, and whether it is told over time; and which rows of the trace are of records that
    were merged into it."""

    users: Sequence[Network] = ()
    moments: int = 0
    most: int = 5
    over_time: bool = False
    merged: Rows | None = None


def compare(
    names: Sequence[str], paths: Sequence[Path], trace: Path, entries: Sequence[Sequence[str]], wanted: Asked
) -> Comparison:
    """Replays the trace under each ruleset, all at once. `entries` are those of each that come by records. Trouble as
    the program's own for each."""
    shown = [show_rules(it) for it in paths]
    rules = [items_of(it) for it in shown]
    fates = Fates(len(paths), wanted.most)
    flushes = [flushes_of(it) for it in shown]
    held = [states_held(it, trace, wanted.users, flushes[at], entries[at]) for at, it in enumerate(paths)]
    progress = Progress("compare", records_of(trace), "records")
    with contextlib.ExitStack() as stack:
        stack.callback(progress.finish)
        asked = [stack.enter_context(asking(trace, wanted.moments, it)) for it in entries]
        heard = [one.heard(it) for one, it in zip(asked, paths)]
        reports = [stack.enter_context(replayed(it, trace, asked[at], heard[at])) for at, it in enumerate(paths)]
        steps = [steps_of(trace) for _ in paths] if wanted.over_time else []
        hear = [steps[at].hear if steps else None for at in range(len(paths))]
        sides = [
            side_of(it, reports[at], wanted.users, fates.ended(at), hear[at], flushes[at], asked[at].numbers, held[at])
            for at, it in enumerate(names_of(paths))
        ]
        pairs = Pairs(sides, rules, progress, steps, wanted.merged)
        follow(trace, sides, wanted.users, pairs.take)
    fates.finish(wanted.merged)
    measures = [measure_of(side, most_of(it.held, measure_of(side).end)) for side, it in zip(sides, heard)]
    lines_of = [[*lines, *([mark_of(it)] if it else [])] for lines, it in zip(shown, entries)]
    lines = [_timeline(it, said.held, any(one.connections for one in measures)) for it, said in zip(steps, heard)]
    users = ",".join(map(str, wanted.users))
    against = _against(pairs, fates, lines_of)
    found = Comparison(
        trace.name, users, list(names), measures, against, wanted.moments, lines, effects=pairs.effects
    )
    routes = [it.routes for it in flushes]
    found.doubts = [*of_routes(names, routes), *_doubts(names, rules, routes, interfaces_in(trace))]
    found.doubts += [f"{name}: {why}" for name, it in zip(names, measures) for why in of_kills(it.kills_guessed)]
    found.doubts += of_users(users, measures[0].connections)
    return found


def _doubts(
    names: Sequence[str], rules: Sequence[Sequence[str]], routes: Sequence[Routes], seen: Collection[str]
) -> Iterator[str]:
    """What is in doubt of each ruleset, by its name, where records are seen on these interfaces."""
    for name, items, it in zip(names, rules, routes):
        doubts = [*of_interfaces(items, seen, (), it.interfaces), *of_tags(items, it), *of_translation(items, seen, it)]
        yield from (f"{name}: {why}" for why in doubts)


def _against(pairs: Pairs, fates: Fates, lines_of: Sequence[Sequence[str]]) -> list[Against]:
    """Each ruleset but the first against it."""
    found = zip(pairs.texts, pairs.partings, fates.counts, fates.changed, lines_of[1:])
    return [
        Against(words, parting, counts, changed, _only(lines_of[0], lines))
        for words, parting, counts, changed, lines in found
    ]


def _timeline(steps: Steps, held: Sequence[HeldCounts], has_users: bool) -> Timeline:
    """A ruleset over time."""
    points = [(it.moment, it.states) for it in held]
    return timeline_of(steps.whole(), steps.seconds, points, steps.first or 0, has_users)


def _only(one: Sequence[str], other: Sequence[str]) -> tuple[list[str], list[str]]:
    """The lines of canonical texts that only one of the two has; of limits and timeouts, each is a line."""
    here, there = Counter(_lines(one)), Counter(_lines(other))
    return list((here - there).elements()), list((there - here).elements())


def _lines(shown: Sequence[str]) -> Iterator[str]:
    for line in shown:
        if line.startswith("set "):
            head, _, inner = line.partition("{")
            yield from (f"{head}{it.strip()}" for it in inner.rstrip(" }").split(","))
        elif line.strip() != "}":
            yield line
