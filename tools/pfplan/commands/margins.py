"""The command `margins`: how sure an answer is."""

import argparse
import contextlib
from collections.abc import Iterator
from dataclasses import replace
from fractions import Fraction

from pfplan.answers.margins import Margins, measure_margins
from pfplan.commands.given_rules import rules_given, ways_given
from pfplan.commands.rule_words import add_rule_words, options_of
from pfplan.commands.run_words import (
    add_answer_words,
    add_check,
    add_machine_words,
    checked,
    in_doubt,
    machines_of,
    too_few,
    write_answer,
)
from pfplan.commands.words import add_asked, file, share_word
from pfplan.common.errors import Trouble
from pfplan.common.figures import counted
from pfplan.common.inputs import check_trace, regular
from pfplan.common.repository import check_program
from pfplan.pages import margin_texts
from pfplan.plays.reading import is_scenario
from pfplan.replays.machines import measure_words

DESCRIPTION = """Replays a trace under the rules, or plays a scenario, and again with each limit, maximum and
timeout a tenth lower and a tenth higher, and with all timeouts longer by `interval` seconds, as if pf's purge
always came last. Tells which answers turn over: whether the wanted share of the users is served, and whether each
limit is met. Rules that state the same number of one option are moved together."""


def add_arguments(parser: argparse.ArgumentParser) -> None:
    """The words of `margins`."""
    parser.description = DESCRIPTION
    parser.add_argument("rules", type=file, metavar="RULES", help="a rules text, or a pf.conf")
    parser.add_argument(
        "trace", type=file, metavar="TRACE", help="the trace under which it is replayed, or the scenario that is played"
    )
    add_asked(parser, 0)
    parser.add_argument(
        "--want",
        type=share_word,
        default=Fraction(99, 100),
        metavar="SHARE",
        help="of the users' connections, as 99%% (99%%)",
    )
    add_check(parser, "fewer are served than --want, an answer turns over, or is in doubt")
    add_answer_words(parser)
    add_machine_words(parser)
    add_rule_words(parser)


def run(arguments: argparse.Namespace) -> int:
    """Moves each number and tells which answers turn over."""
    where = machines_of(arguments)
    check_program()
    is_played = is_scenario(arguments.trace)
    if is_played and arguments.users:
        raise Trouble(f"--users: {arguments.trace} is a scenario, which says itself who the users are")
    names = (arguments.trace.name, str(arguments.rules))
    with contextlib.ExitStack() as stack:
        rules = stack.enter_context(rules_given(arguments.rules, options_of(arguments)))
        trace, doubts = stack.enter_context(regular(arguments.trace)), list[str]()
        if not is_played:
            check_trace(trace)
            trace, doubts = stack.enter_context(ways_given(trace, [rules.path]))
        found = measure_margins(
            rules.path,
            trace,
            arguments.users,
            arguments.want,
            where,
            measure_words(arguments.users, arguments.held),
            names,
            rules.records,
        )
        found = replace(found, doubts=[*rules.doubts(), *doubts, *found.doubts])
    write_answer(arguments, found, margin_texts.text_of, margin_texts.page_of)
    return checked(arguments, reasons_of(found))


def reasons_of(found: Margins) -> Iterator[str]:
    """Why the answer is not sure, or not a good one."""
    yield from in_doubt(found.doubts)
    if found.users:
        yield from too_few(found.base.served, found.base.counted, found.want)
    if found.turning:
        yield f"an answer turns over in {counted(len(found.turning), 'run')} of {len(found.margins)}"
