"""The command `compare`: rulesets under one trace or one scenario, side by side."""

import argparse
import contextlib
from dataclasses import replace
from pathlib import Path

from pfplan.answers.comparisons import Asked, compare, names_of
from pfplan.answers.doubts import of_profiles
from pfplan.answers.plays_beside import PlaysBeside, json_of_side, play_apart
from pfplan.commands.given_rules import rules_given, ruleset_given, ways_given
from pfplan.commands.play_words import add_most, add_seeds
from pfplan.commands.record_words import add_records, check_tables, orders_given
from pfplan.commands.rule_words import add_rule_words, options_of
from pfplan.commands.run_words import add_answer_words, add_check, checked, in_doubt, write_answer
from pfplan.commands.words import add_asked, file, number
from pfplan.common.errors import Status, Trouble
from pfplan.common.figures import counted
from pfplan.common.inputs import check_readable, check_trace, regular
from pfplan.common.repository import check_program
from pfplan.pages import comparison_texts, play_folder, play_pages, play_texts
from pfplan.pages.differences import differences_beside
from pfplan.pf.profiles import profile_of
from pfplan.pf.reading_canonical_text import tables_in
from pfplan.plays.expecting import check_expected
from pfplan.plays.reading import is_scenario, read_scenario
from pfplan.replays.runs import show_rules
from pfplan.traces.insertions import merged
from pfplan.traces.moments import first_moment_of, last_moment_of
from pfplan.traces.orders import Orders

DESCRIPTION = """Replays one trace under several rulesets and tells how they differ: what became of the users,
which limits were met, what is held; the first record at which they part and why; how many records had which word in
the one and in the other; and which connections of users change their fate. The first ruleset is the one that the
others are held against. Of a pf.conf a rules text is made, and standard error says what is left out of it."""


def add_arguments(parser: argparse.ArgumentParser) -> None:
    """The words of `compare`."""
    parser.description = DESCRIPTION
    parser.add_argument("rules", nargs="+", type=file, metavar="RULES", help="two rules texts or more, or a pf.conf")
    parser.add_argument(
        "trace",
        type=file,
        metavar="TRACE",
        help="the trace under which they are replayed, or the scenario that is played against each",
    )
    add_asked(parser, 0)
    parser.add_argument(
        "--top",
        type=number(0, 1000),
        default=5,
        metavar="N",
        help="how many of the connections that change are named (5)",
    )
    add_seeds(parser)
    add_most(parser)
    add_records(parser)
    add_check(parser, "something differs, or the answer is in doubt")
    add_answer_words(parser)
    add_rule_words(parser)


def run(arguments: argparse.Namespace) -> Status:
    """Compares rulesets and tells how they differ."""
    if len(arguments.rules) < 2:
        raise Trouble("two rulesets or more are wanted, and then a trace (pfplan compare --help)")
    if is_scenario(arguments.trace):
        return _compare_plays(arguments)
    check_program()
    names = names_of(arguments.rules)
    with contextlib.ExitStack() as stack:
        given = [stack.enter_context(rules_given(it, options_of(arguments))) for it in arguments.rules]
        trace = stack.enter_context(regular(arguments.trace))
        check_trace(trace)
        orders = stack.enter_context(orders_given(arguments.records))
        shown = [show_rules(it.path) for it in given]
        check_tables(orders, names, [tables_in(it) | made.tables() for it, made in zip(shown, given)])
        trace, doubts = stack.enter_context(ways_given(trace, [it.path for it in given]))
        wanted = Asked(arguments.users, arguments.held, arguments.top, bool(arguments.page))
        if orders:
            doubts += _of_moments(orders, trace)
            trace, rows = stack.enter_context(merged(trace, orders.lines))
            wanted = replace(wanted, merged=rows)
        found = compare(names, [it.path for it in given], trace, [it.records for it in given], wanted)
        profiles = [profile_of(it) for it in shown]
    found.trace, found.orders = arguments.trace.name, orders.told() if orders else ""
    missing = [f"{name}: {why}" for name, it in zip(names, given) for why in it.doubts()]
    found.doubts[:0] = [*of_profiles(names, profiles), *missing, *doubts]
    write_answer(arguments, found, comparison_texts.text_of, comparison_texts.page_of)
    differing = (
        f"{counted(it.differing, 'record')} have another word under {name} than under {names[0]}"
        for name, it in zip(names[1:], found.against)
        if it.differing
    )
    return checked(arguments, (*in_doubt(found.doubts), *differing))


def _of_moments(orders: Orders, trace: Path) -> list[str]:
    """That records are of other moments than the trace; nothing where it has none."""
    first, last = first_moment_of(trace), last_moment_of(trace)
    return [] if first is None or last is None else orders.doubts(first, last, "the trace")


def _compare_plays(arguments: argparse.Namespace) -> Status:
    """Plays a scenario against each ruleset, and tells how they differ."""
    if arguments.users:
        raise Trouble(f"--users: {arguments.trace} is a scenario, which says itself who the users are")
    for path in (arguments.trace, *arguments.rules):
        check_readable(path)
    scenario = read_scenario(arguments.trace)
    check_expected(scenario, arguments.most)
    rulesets = [ruleset_given(it, replace(options_of(arguments), by_records=True)) for it in arguments.rules]
    check_program()
    names = play_folder.names_of(arguments.rules)
    with orders_given(arguments.records) as orders:
        check_tables(orders, names, [it.tables for it in rulesets])
    played = play_apart(scenario, names, rulesets, arguments.rules, arguments.seeds, orders)

    def page_of(played: PlaysBeside) -> str:
        return play_pages.page_of(played, *play_pages.drawn_of(played), differences_beside(arguments.page.parent))

    write_answer(arguments, played, play_texts.text_of, page_of)
    first, *others = map(json_of_side, played.sides)
    differing = (
        f"the play under {name} comes out otherwise than that under {played.names[0]}"
        for name, it in zip(played.names[1:], others)
        if it != first
    )
    return checked(arguments, (*in_doubt(played.doubts), *differing))
