"""Plays of one scenario under several rulesets, side by side."""

import os
import tempfile
from collections.abc import Sequence
from dataclasses import asdict, dataclass, replace
from pathlib import Path
from typing import Any

from pfplan.answers.doubts import (
    interfaces_played,
    of_forwarding,
    of_interfaces,
    of_missing,
    of_profiles,
    of_routes,
    of_tags,
    of_translated_play,
)
from pfplan.common.outputs import make_folder
from pfplan.pf.conversion import Ruleset, with_routes, write_rules, write_ruleset
from pfplan.pf.profiles import Profile, profile_of
from pfplan.pf.reading_canonical_text import items_of
from pfplan.pf.routes import routes_of
from pfplan.plays.counts import Count
from pfplan.plays.fields import MOST_SEED
from pfplan.plays.model import Scenario
from pfplan.plays.playing import Played, Task, play_all
from pfplan.plays.returning import answers_of, words_of
from pfplan.plays.routing import routes_of_scenario
from pfplan.replays.runs import show_rules
from pfplan.traces.orders import Orders


FROM_SCENARIO = "the routes are those of the scenario (forward): each packet is asked on both interfaces of its way"


@dataclass(frozen=True)
class PlaysBeside:
    """Plays of one scenario under several rulesets, by the names that the user gave: of each ruleset the play of the
    scenario's own seed, and those of the seeds behind it."""

    scenario: Scenario
    names: Sequence[str]
    sides: Sequence[Sequence[Played]]
    left_out: Sequence[int]  # things that can change the answer
    doubts: Sequence[str] = ()  # why it may be of something else than what was meant
    profiles: Sequence[Profile] = ()  # of each rules text
    orders: str = ""  # which records of an administrator came into the plays

    @property
    def plays(self) -> Sequence[Played]:
        """The plays of the scenario's own seed."""
        return [it[0] for it in self.sides]

    def to_json(self) -> dict[str, Any]:
        """The numbers for machines (man/pfplan.1)."""
        sides = [{"rules": name, **json_of_side(it)} for name, it in zip(self.names, self.sides)]
        return {"doubts": list(self.doubts), "sides": sides}


def json_of_side(side: Sequence[Played]) -> dict[str, Any]:
    """The numbers of the plays under one ruleset for machines: those of the scenario's own seed, and who was served
    with each other."""
    others = [
        {
            "seed": play.scenario.seed,
            "groups": [
                {
                    "name": it.group.name,
                    "connections": it.connections,
                    "served": it.served,
                    "served_without_waiting": it.served_at_once,
                    "gave_up": it.gave_up,
                }
                for it in play.tally.counts
            ],
            "most_held": play.most_held,
        }
        for play in side[1:]
    ]
    return json_of(side[0].scenario, side[0]) | ({"other_seeds": others} if others else {})


def json_of(scenario: Scenario, play: Played) -> dict[str, Any]:
    """The numbers of one play for machines (man/pfplan.1)."""
    backlog = {
        "bound": scenario.backlog,
        "most_half_open": play.tally.most_half_open,
        "unanswered": play.tally.unanswered,
    }
    found = {
        "scenario": scenario.name,
        "seed": scenario.seed,
        "seconds": scenario.seconds,
        "last": play.last,
        "wait": scenario.wait,
        "groups": [_json_of_group(it) for it in play.tally.counts],
        "held": [asdict(it) for it in play.tally.fills],
        "most_held": play.most_held,
        "limit_met": play.is_full,
        "states_killed": play.tally.states_killed,
        "overloads": dict(play.tally.overloads),
        "end": asdict(play.end),
    }
    orders = {"administrator": play.tally.effects.to_json()} if play.tally.effects.records else {}
    return found | ({"backlog": backlog} if scenario.backlog else {}) | orders


def _json_of_group(it: Count) -> dict[str, Any]:
    """The numbers of one group of a play."""
    return {
        "name": it.group.name,
        "kind": it.group.kind,
        "users": it.group.users,
        "connections": it.connections,
        "opened": it.opened,
        "served": it.served,
        "served_without_waiting": it.served_at_once,
        "gave_up": it.gave_up,
        "hosts": len(it.hosts),
        "hosts_shut_out": len(it.hosts) - len(it.served_hosts),
        "killed": it.killed,
        "tries": it.tries,
        "packets": it.packets,
        "let_in": it.passed,
        "not_played": it.left_over,
        "wait": {"median": it.wait_at(0.5), "95_of_100": it.wait_at(0.95), "longest": it.wait_at(1.0)},
        "refused": {word: asdict(one) for word, one in it.refused.items()},
    }


def play_into(
    scenario: Scenario,
    names: Sequence[str],
    rulesets: Sequence[Ruleset],
    folders: Sequence[Path],
    jobs: int | None,
    seeds: int = 1,
    orders: Orders | None = None,
) -> PlaysBeside:
    """Plays a scenario under each ruleset, with so many seeds. Each has a folder, which gets its rules, and the trace
    and the report of the scenario's own seed. Records of an administrator come into each.

    Trouble where the program refuses rules.
    """
    tasks = []
    rulesets = [_routed(it, scenario) for it in rulesets]
    for folder, it in zip(folders, rulesets):
        make_folder(folder)
        write_ruleset(folder, it)
        tasks.append(_task(scenario, folder / "rules", it, folder / "trace.csv", folder / "report"))
    return _beside(scenario, names, rulesets, _play_seeds(_with_orders(tasks, orders), seeds, jobs), orders)


def play_apart(
    scenario: Scenario,
    names: Sequence[str],
    rulesets: Sequence[Ruleset],
    paths: Sequence[Path],
    seeds: int = 1,
    orders: Orders | None = None,
) -> PlaysBeside:
    """Plays a scenario under each ruleset, of files with these names, and keeps nothing but what is told. Trouble as
    `play_into`."""
    rulesets = [_routed(it, scenario) for it in rulesets]
    with tempfile.TemporaryDirectory(prefix="pfplan-") as folder:
        tasks = []
        for at, it in enumerate(rulesets):
            rules = Path(folder, str(at), paths[at].name)
            make_folder(rules.parent)
            write_rules(rules, it)
            tasks.append(_task(scenario, rules, it))
        return _beside(scenario, names, rulesets, _play_seeds(_with_orders(tasks, orders), seeds, None), orders)


def _with_orders(tasks: Sequence[Task], orders: Orders | None) -> Sequence[Task]:
    """The tasks with records of an administrator."""
    return [replace(it, orders=orders.lines) for it in tasks] if orders else tasks


def _routed(ruleset: Ruleset, scenario: Scenario) -> Ruleset:
    """A ruleset with the routes that the scenario says, where it has none."""
    return ruleset if ruleset.routes else with_routes(ruleset, routes_of_scenario(scenario), FROM_SCENARIO)


def _play_seeds(tasks: Sequence[Task], seeds: int, jobs: int | None) -> list[list[Played]]:
    """The plays of each task: that of its own seed, and those of the seeds behind it, of which no file is kept."""
    every = [_with_seed(it, number) for it in tasks for number in range(seeds)]
    played = play_all(every, jobs or os.cpu_count() or 1)
    return [played[at : at + seeds] for at in range(0, len(played), seeds)]


def _with_seed(task: Task, number: int) -> Task:
    if not number:
        return task
    seed = (task.scenario.seed + number - 1) % MOST_SEED + 1
    return replace(task, scenario=replace(task.scenario, seed=seed), trace=None, report=None)


def _task(
    scenario: Scenario, rules: Path, ruleset: Ruleset, trace: Path | None = None, report: Path | None = None
) -> Task:
    routes = routes_of(show_rules(rules))
    return Task(scenario, rules, answers_of(words_of(ruleset.text)), ruleset.records, trace, report, routes)


def _beside(
    scenario: Scenario,
    names: Sequence[str],
    rulesets: Sequence[Ruleset],
    sides: Sequence[Sequence[Played]],
    orders: Orders | None,
) -> PlaysBeside:
    left_out = [sum(it.changes_answer for it in ruleset.leftovers) for ruleset in rulesets]
    seen = interfaces_played(scenario)
    doubts = [
        f"{name}: {it}" if len(names) > 1 else it
        for name, ruleset in zip(names, rulesets)
        for it in (
            *of_missing(ruleset.leftovers),
            *of_interfaces(
                items_of(ruleset.text.splitlines()), seen, ruleset.skipped, ruleset.routes.interfaces
            ),
            *of_tags(items_of(ruleset.text.splitlines()), ruleset.routes),
            *of_translated_play(items_of(ruleset.text.splitlines()), scenario, ruleset.routes),
            *of_forwarding(scenario, ruleset.routes),
        )
    ]
    profiles = [profile_of(it.text.splitlines()) for it in rulesets]
    doubts[:0] = [*of_profiles(names, profiles), *of_routes(names, [it.routes for it in rulesets])]
    doubts += orders.doubts(0, scenario.seconds - 1, "the scenario") if orders else []
    return PlaysBeside(scenario, names, sides, left_out, doubts, profiles, orders.told() if orders else "")
