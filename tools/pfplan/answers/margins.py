"""How sure an answer is. Each number of the rules is moved by a tenth, and each timeout made longer."""

import re
from collections.abc import Iterator, Mapping, Sequence
from dataclasses import dataclass
from fractions import Fraction
from pathlib import Path
from typing import Any

from pfplan.answers.changed_rules import ADAPTIVE, Kind, Number, RulesText
from pfplan.answers.doubts import of_kills, of_replay, of_users
from pfplan.answers.measures import Measure, from_json
from pfplan.answers.plays_measured import Subject, users_text
from pfplan.answers.sizes import serves
from pfplan.common.errors import Status, Trouble
from pfplan.common.limits import LIMITING
from pfplan.common.networks import Network
from pfplan.common.progress import Progress
from pfplan.plays.reading import is_scenario
from pfplan.replays.machines import Machines, Runs
from pfplan.traces.records import WORDS, Traces

# limits that have no other effect than to be met, and what rules have that count sources
_PLAIN = ("max-src-nodes", "max-src-states", "max-src-conn", "max-src-conn-rate")
_SOURCES = re.compile(r"\b(max-src-|source-track)")
LONGER = "each timeout longer by interval"
# timeouts that say nothing of states of a protocol
_ANY = ("src.track", "interval")


@dataclass(frozen=True)
class Move:
    """A change of the rules: the numbers that take other values. `title` says which, `step` what was done to them."""

    title: str
    step: str
    values: Mapping[Number, int]


@dataclass(frozen=True)
class Margin:
    """What a change came to. `turns` are the answers that turn over, each in words; none where all stand."""

    title: str
    step: str
    values: str
    measure: Measure
    turns: tuple[str, ...]

    def to_json(self) -> dict[str, Any]:
        """The numbers for machines."""
        return {
            "what": self.title,
            "step": self.step,
            "values": self.values,
            "turns": list(self.turns),
            **self.measure.to_json(),
        }


@dataclass(frozen=True)
class Margins:
    """The answer of the rules as they are, and of each change."""

    trace: str
    users: str
    want: Fraction
    base: Measure
    margins: tuple[Margin, ...]
    doubts: Sequence[str] = ()

    @property
    def turning(self) -> list[Margin]:
        """The changes under which some answer turns over."""
        return [it for it in self.margins if it.turns]

    def to_json(self) -> dict[str, Any]:
        """The numbers for machines (man/pfplan.1)."""
        return {
            "doubts": list(self.doubts),
            "trace": self.trace,
            "users": self.users,
            "want": float(self.want),
            "as_is": self.base.to_json(),
            "moved": [it.to_json() for it in self.margins],
        }


def protocols_of(trace: Path) -> set[str]:
    """The words with which timeouts of states begin that a trace can have: `tcp`, `udp`, `other`."""
    found: set[str] = set()
    for lines in Traces(trace).blocks():
        found.update(it.split(",", 4)[3].lower() for it in lines if it.count(",") >= 4)
    numbers = {"tcp": ("tcp", "6"), "udp": ("udp", "17"), "none": ("", "icmp", "icmp6", "1", "58")}
    named = {name for name, words in numbers.items() if {it.lstrip("0") for it in found} & set(words)}
    others = {it for it in found if it.lstrip("0") not in {word for words in numbers.values() for word in words}}
    return (named | ({"other"} if others else set())) - {"none"}


def moves_of(text: RulesText, protocols: set[str]) -> Iterator[Move]:
    """The changes that are tried. Numbers of states of protocols that the trace lacks are left out; so are those that
    are 0, of which a tenth is nothing, and `tables`, which is asked only when the rules are read."""
    settings = {it.name: it for it in text.settings()}
    limits = [it for it in settings.values() if it.kind is Kind.LIMIT and it.name != "tables"]
    times = [it for it in settings.values() if it.kind is Kind.TIMEOUT and _is_asked(it, protocols)]
    options = [it for it in together(text.options()) if it.kind is not Kind.TIMEOUT or _is_asked(it, protocols)]
    for number in [*limits, *options, *times]:
        yield from tenths(number)
    interval = settings["interval"].value
    longer = [
        it
        for it in [*settings.values(), *together(text.options())]
        if it.kind is Kind.TIMEOUT and it.name != "interval"
    ]
    yield Move(LONGER, f"+{interval} seconds", {it: min(it.bounds[1], it.value + interval) for it in longer})


def together(options: Sequence[Number]) -> list[Number]:
    """Options of rules, those of one name and value as one."""
    rules: dict[Number, list[int]] = {}
    for it in options:
        rules.setdefault(Number(it.name, it.value, (), it.period), []).extend(it.rules)
    return [Number(it.name, it.value, tuple(numbers), it.period) for it, numbers in rules.items()]


def _is_asked(number: Number, protocols: set[str]) -> bool:
    return number.name in _ANY or number.name.partition(".")[0] in protocols


def tenths(number: Number) -> Iterator[Move]:
    """A tenth lower and a tenth higher, at least by one, within what a rules text may have."""
    step = max(1, number.value // 10) if number.value else 0
    for value, name in ((number.value - step, "a tenth lower"), (number.value + step, "a tenth higher")):
        low, high = number.bounds
        if step and low <= value <= high and not (number.name in ADAPTIVE and value == 0):
            yield Move(number.title, name, {number: value})


def is_alike(move: Move, base: Measure, items: Sequence[str]) -> bool:
    """Whether a change leaves each answer as it is, by what the replay under the rules as they are came to.

    A higher limit that was never met is met no sooner. Where entries only come, as many as there are at the end were
    the most; and where no rule asks for sources, there are no source nodes. Other limits do more than that: `max` and
    `states` bring adaptive timeouts, and `states` and `src-nodes` say how many a purge looks at.
    """
    if len(move.values) != 1 or base.refused:
        return False
    number, value = next(iter(move.values.items()))
    if number.name == "table-entries":
        has_left = any(base.words.get(it) for it in ("expire", "delete"))
        is_met = base.overloads.get("full") or base.words.get("add")
        return not (has_left or is_met) and base.end.entries <= value
    if number.name in ("src-nodes", "src.track") and not any(_SOURCES.search(it) for it in items):
        return True
    is_met = any(number.name in word.partition(":")[2].split("+") for word in base.words)
    return value > number.value and number.name in _PLAIN and not is_met


def turns_of(base: Measure, moved: Measure, want: Fraction, has_users: bool) -> tuple[str, ...]:
    """The answers that turn over from the one measure to the other."""
    if moved.refused:
        return ()
    found = []
    if has_users and serves(base, want) != serves(moved, want):
        found.append(f"the wanted share is {'no longer' if serves(base, want) else 'now'} served")
    for word in WORDS:
        if word in LIMITING and bool(base.words.get(word)) != bool(moved.words.get(word)):
            found.append(f"{word} is {'no longer' if base.words.get(word) else 'now'} met")
    return tuple(found)


def values_text(move: Move) -> str:
    """The values that a change moves: `1,500 to 1,350`; of many, how many they are."""
    if len(move.values) != 1:
        return f"{len(move.values)} timeouts"
    number, value = next(iter(move.values.items()))
    return f"{number.value:,} to {value:,}"


def measure_margins(
    rules: Path,
    trace: Path,
    users: Sequence[Network],
    want: Fraction,
    where: Machines,
    words: Sequence[str],
    names: tuple[str, str],
    entries: Sequence[str] = (),
) -> Margins:
    """Replays the rules as they are and under each change. `names` are those of trace and rules in what is told, and
    `entries` come by records. Trouble as the program's."""
    text = RulesText(rules)
    subject = Subject(text, trace if is_scenario(trace) else None)
    if not where.is_here:
        subject.check_elsewhere()
    moves = list(moves_of(text, subject.protocols() or protocols_of(trace)))
    progress = Progress("margins", len(moves) + 1, "runs")
    with Runs(where, trace, words, entries) as runs:
        try:
            base = from_json(runs.measure([subject.run_of({})], progress)[0])
            if base.refused:
                raise Trouble(f"{names[1]}: {base.refused}", Status.RULES)
            alike = [not subject.scenario and is_alike(it, base, text.items()) for it in moves]
            progress.advance(sum(alike))
            tried = [subject.run_of(dict(it.values.items())) for it, is_known in zip(moves, alike) if not is_known]
            found = map(from_json, runs.measure(tried, progress))
            moved = [base if is_known else next(found) for is_known in alike]
        finally:
            progress.finish()
    who = users_text(subject.scenario) if subject.scenario else ",".join(map(str, users))
    margins = tuple(
        Margin(it.title, it.step, values_text(it), measure, turns_of(base, measure, want, bool(who)))
        for it, measure in zip(moves, moved)
    )
    doubts = of_replay(text.items(), trace, subject.scenario, text.routes) + of_users(who, base.connections)
    doubts += of_kills(max(it.kills_guessed for it in [base, *moved]))
    return Margins(names[0], who, want, base, margins, doubts)
