"""A play in a few numbers, as `size` and `margins` compare them; and the values that a run of theirs is to have."""

from __future__ import annotations

from collections.abc import Mapping, Sequence
from dataclasses import dataclass
from pathlib import Path
from typing import Any

from pfplan.answers.changed_rules import Number, RulesText
from pfplan.answers.measures import LimitMet, Measure
from pfplan.common.errors import Status, Trouble, reason_of
from pfplan.pf.routes import routes_of
from pfplan.plays.expecting import MOST, check_expected
from pfplan.plays.model import Askers, Forgers, Laid, Scenario
from pfplan.plays.options import ENDING, PlayOptions
from pfplan.plays.playing import Played, Task, play
from pfplan.plays.reading import numbers_of, read_scenario, read_tables, scenario_of, value_of
from pfplan.plays.returning import answers_of, words_of
from pfplan.replays.machines import Run
from pfplan.replays.runs import show_rules
from pfplan.traces.records import WORDS


@dataclass(frozen=True)
class Amount:
    """A number of a scenario: `botnet.rate`. It is told as a number of a rules text is."""

    name: str
    value: int
    bounds: tuple[int, int]
    rules: tuple[int, ...] = ()

    @property
    def title(self) -> str:
        """How it is told."""
        return self.name


class Subject:
    """What runs have in common: the rules, and the scenario where it is one and not a trace."""

    def __init__(self, text: RulesText, scenario: Path | None, most: int = MOST) -> None:
        """`most` are the records that a play may be expected to have. Trouble where the scenario is none, or has
        more."""
        self._text = text
        self._path = scenario
        self._tables: Mapping[str, Any] = read_tables(scenario) if scenario else {}
        self.scenario: Scenario | None = scenario_of(self._tables, scenario) if scenario else None
        self._words = words_of(_read(text.path)) if scenario else {}
        self._most = most
        if self.scenario:
            check_expected(self.scenario, most)

    def find(self, name: str) -> Number | Amount:
        """The number of a name, of the scenario or of the rules. Trouble where neither has one."""
        numbers = numbers_of(self._tables) if self.scenario else {}
        if name in numbers:
            return Amount(name, value_of(self._tables, name), numbers[name])
        try:
            return self._text.find(name)
        except Trouble as trouble:
            if (
                self._path
                and "." in name
                and not name.startswith("@")
                and name.split(".")[0] in self._tables.get("group", {})
            ):
                known = [it.partition(".")[2] for it in numbers if it.startswith(f"{name.split('.')[0]}.")]
                raise Trouble(f"{self._path}: no number is named '{name}'; the group has {', '.join(known)}") from None
            raise trouble from None

    def check_value(self, values: Mapping[Number | Amount, int]) -> None:
        """Trouble where a play with other values is expected to have too many records."""
        amounts = {it.name: value for it, value in values.items() if isinstance(it, Amount)}
        if self._path and amounts:
            check_expected(scenario_of(self._tables, self._path, amounts), self._most)

    def run_of(self, values: Mapping[Number | Amount, int]) -> Run:
        """A run with other values: those of the rules stand in its text, and those of the scenario among the options of
        the play."""
        text = self._text.changed({it: value for it, value in values.items() if isinstance(it, Number)})
        if self.scenario is None:
            return Run(text)
        amounts = {it.name: value for it, value in values.items() if isinstance(it, Amount)}
        return Run(text, {ENDING: PlayOptions(self._words, amounts, self._most).to_json()})

    def protocols(self) -> set[str]:
        """The words with which timeouts of states begin that the packets of a scenario can have. Without one, none."""
        if self.scenario is None:
            return set()
        found = {
            "udp" if isinstance(it, Askers) or it.kind == "udp" else "tcp"
            for it in self.scenario.groups
            if not isinstance(it, Laid)
        }
        return found | ({"tcp", "udp", "other"} if any(isinstance(it, Laid) for it in self.scenario.groups) else set())

    def check_elsewhere(self) -> None:
        """Trouble where other machines lack files that the scenario names."""
        if self.scenario and any(isinstance(it, Laid) for it in self.scenario.groups):
            raise Trouble(
                f"--sshlogin: {self._path} lays a trace or a capture over the play,"
                " which is not brought to other machines"
            )


def _read(path: Path) -> str:
    try:
        return path.read_bytes().decode("latin-1")
    except OSError as error:
        raise Trouble(f"{path}: can't be read: {reason_of(error)}", Status.FAILED) from None


def measure_play(rules: Path, scenario: Path, entries: Sequence[str], options: PlayOptions) -> Measure:
    """Plays a scenario by its options, and counts it.

    Rules that are refused are a measure that says why.
    """
    read = read_scenario(scenario, options.numbers)
    check_expected(read, options.most)
    try:
        routes = routes_of(show_rules(rules))
        return measure_of(read, play(Task(read, rules, answers_of(options.returning), entries, routes=routes)))
    except Trouble as trouble:
        if trouble.status != Status.RULES:
            raise
        return Measure(refused=trouble.message.removeprefix(f"{rules}: "))


def measure_of(scenario: Scenario, played: Played) -> Measure:
    """The numbers of a play. Served are the users who are served without waiting."""
    counts = played.tally.counts
    words: dict[str, int] = {}
    limits = []
    for word in WORDS:
        refusals = [it.refused[word] for it in counts if word in it.refused]
        if refusals:
            words[word] = sum(it.packets for it in refusals)
            if word != "block":
                limits.append(
                    LimitMet(word, words[word], min(it.first for it in refusals), max(it.last for it in refusals))
                )
    users = played.tally.users()
    at_once, served = sum(it.served_at_once for it in users), sum(it.served for it in users)
    gave_up = sum(it.gave_up for it in users)
    refused_by = {word: sum(it.refused[word].packets for it in users if word in it.refused) for word in WORDS}
    return Measure(
        records=played.end.rows,
        words=words,
        limits=tuple(limits),
        states_killed=played.tally.states_killed,
        overloads=dict(played.tally.overloads),
        outcomes={"served": at_once, WAITED: served - at_once, GAVE_UP: gave_up},
        refused_by={word: count for word, count in refused_by.items() if count},
        end=played.end,
        most_held=played.most_held,
    )


# what became of connections that were not served without waiting
WAITED, GAVE_UP = "waited", "gave up"


def users_text(scenario: Scenario) -> str:
    """The groups of users, as they are told."""
    return ", ".join(it.name for it in scenario.groups if it.users and not isinstance(it, Forgers | Laid))
