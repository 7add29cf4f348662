"""The command `measure`: one replay in a few numbers, as a line of JSON. It is what `size` and `margins` run, here and
on other machines."""

import argparse
import contextlib
import json
import sys
from collections.abc import Callable
from pathlib import Path

from pfplan.answers.measures import Measure, Measurer, measure
from pfplan.commands.words import add_asked, file, folder
from pfplan.common.errors import Status
from pfplan.common.inputs import Kind, kind_of, regular
from pfplan.traces.entries import entries_of_rules, read_entries
from pfplan.traces.insertions import asking

DESCRIPTION = """Replays a trace, or plays a scenario, and prints a line of JSON: records by word, limits that were
met and when, what became of the users' connections, and what is held. Rules that are refused are told in it, as
"refused"."""


def add_arguments(parser: argparse.ArgumentParser) -> None:
    """The words of `measure`."""
    parser.description = DESCRIPTION
    parser.add_argument(
        "rules",
        type=file,
        metavar="RULES",
        help="a rules text; - for those whose names come on standard input, a line each",
    )
    parser.add_argument("trace", type=file, metavar="TRACE", help="the trace to replay, or the scenario to play")
    add_asked(parser, 0)
    parser.add_argument(
        "--entries",
        type=file,
        metavar="FILE",
        help="entries of tables that come by records (the file that the rules name)",
    )
    parser.add_argument(
        "--kept",
        type=folder,
        metavar="FOLDER",
        help="keeps there the first of several, beside which others then count no more than what differs",
    )
    parser.add_argument("--named", action="store_true", help="the name of the rules before the line")


def _is_scenario(path: Path) -> bool:
    """Whether a file is a scenario. A run of a trace does not load their code: `size` starts many."""
    if path.suffix != ".toml" and kind_of(path) in (None, Kind.TRACE):
        return False
    from pfplan.plays.reading import is_scenario

    return is_scenario(path)


def run(arguments: argparse.Namespace) -> int:
    """Prints the measure of one replay, or of one after another."""
    if str(arguments.rules) == "-":
        return _run_many(arguments)
    with regular(arguments.rules) as rules:
        entries = read_entries(arguments.entries) if arguments.entries else entries_of_rules(rules, arguments.rules)
        if _is_scenario(arguments.trace):
            from pfplan.answers.plays_measured import measure_play
            from pfplan.plays.options import options_beside

            options = options_beside(rules, arguments.rules)
            line = json.dumps(measure_play(rules, arguments.trace, entries, options).to_json())
        else:
            with regular(arguments.trace) as trace:
                line = json.dumps(measure(rules, trace, arguments.users, arguments.held, entries).to_json())
    print(f"{arguments.rules.name} {line}" if arguments.named else line)
    return Status.DONE


def _run_many(arguments: argparse.Namespace) -> int:
    """Prints the measure of each rules text that is named on standard input, before it reads the next name."""
    with contextlib.ExitStack() as stack:
        measured = _measurer(arguments, stack)
        for line in sys.stdin:
            print(json.dumps(measured(Path(line.removesuffix("\n"))).to_json()), flush=True)
    return Status.DONE


def _measurer(arguments: argparse.Namespace, stack: contextlib.ExitStack) -> Callable[[Path], Measure]:
    """What measures a rules text. What it needs of the trace is made once, and goes with the stack."""
    entries = read_entries(arguments.entries) if arguments.entries else []
    if _is_scenario(arguments.trace):
        from pfplan.answers.plays_measured import measure_play
        from pfplan.plays.options import options_beside

        return lambda rules: measure_play(rules, arguments.trace, entries, options_beside(rules, rules))
    trace = stack.enter_context(regular(arguments.trace))
    asked = stack.enter_context(asking(trace, arguments.held, entries))
    return stack.enter_context(Measurer(trace, arguments.users, asked, entries, arguments.kept)).measure
