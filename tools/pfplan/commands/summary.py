"""The command `summary`: what a report holds, and what became of the users."""

import argparse
import concurrent.futures
import contextlib
import json
from dataclasses import replace

from pfplan.answers.connections import RULES
from pfplan.answers.summaries import Wanted, held_at, summarize
from pfplan.commands.given_rules import GivenRules, rules_given
from pfplan.commands.parser import Parser
from pfplan.commands.rule_words import add_rule_words, options_of
from pfplan.commands.words import add_users, file, number, output
from pfplan.common.errors import Status, Trouble
from pfplan.common.inputs import check_trace, regular
from pfplan.common.outputs import whole_file
from pfplan.common.repository import check_program
from pfplan.pages import summary_texts
from pfplan.pf.origins import origins_of
from pfplan.traces.insertions import HeldCounts

LEGEND = "\n".join(
    f"  {kind:<12}{rule}" + (" (with --rules: of which states)" if kind == "killed" else "")
    for kind, rule in RULES.items()
)
DESCRIPTION = f"""Sums up a report of ./pfsrc replay.

A connection is of who began it: with a SYN, and for other protocols with its first packet. A SYN that is repeated
belongs to its connection, until that was closed, or was quiet for 4 minutes, or its handshake was done and its state
is gone; a packet of UDP, until it was quiet for 4 minutes and its state is gone. The connection of a user is
{LEGEND}
Where a connection has no first packet in the trace it is counted apart, as are those that others began."""


def add_arguments(parser: Parser) -> None:
    """The words of the command."""
    parser.description = DESCRIPTION
    parser.add_argument("report", type=file, metavar="REPORT", help="- is standard input")
    parser.add_argument(
        "--trace",
        type=file,
        metavar="TRACE",
        help="the trace that was replayed: adds moments, sources, and what is said of users",
    )
    parser.add_argument(
        "--rules",
        type=file,
        metavar="RULES",
        help="the rules that were replayed, or the pf.conf that they were made of: adds the text of each rule, as "
        "./pfsrc show prints it",
    )
    add_users(parser, "the networks of the users (with --trace)")
    _add_words_of_the_answer(parser)
    parser.add_argument("--json", action="store_true", help="for machines")
    parser.add_argument(
        "--partial", action="store_true", help="takes a report without its last line, as a fault in the trace leaves it"
    )
    parser.add_argument("--out", type=output, metavar="FILE", help="where the summary goes (standard output)")
    add_rule_words(parser)


def _add_words_of_the_answer(parser: Parser) -> None:
    """How much is told."""
    parser.add_argument(
        "--held",
        type=number(1, 10_000),
        metavar="N",
        help="asks the program how much was held at N moments, in one replay (with --trace and --rules)",
    )
    parser.add_argument(
        "--jobs", type=number(1, 1000), metavar="N", default=1, help="has no effect: --held takes one replay"
    )
    parser.add_argument(
        "--every",
        type=number(1, 4294967295),
        metavar="N",
        default=0,
        help="seconds in a step of the series (so that there are at most 120)",
    )
    parser.add_argument("--top", type=number(1, 1000), metavar="N", default=5, help="how many sources are named (5)")


def run(arguments: argparse.Namespace) -> int:
    """Runs the command."""
    if arguments.users and not arguments.trace:
        raise Trouble("--users wants --trace")
    if arguments.held and not (arguments.trace and arguments.rules):
        raise Trouble("--held wants --trace and --rules")
    if arguments.rules:
        check_program()
    wanted = Wanted(
        arguments.trace,
        arguments.users,
        arguments.rules,
        every=arguments.every,
        top=arguments.top,
        is_partial=arguments.partial,
    )
    with contextlib.ExitStack() as stack:
        held: concurrent.futures.Future[list[HeldCounts]] | None = None
        if arguments.trace:
            trace = stack.enter_context(regular(arguments.trace))
            check_trace(trace)
            wanted = replace(wanted, trace=trace)
        if arguments.rules:
            rules = stack.enter_context(rules_given(arguments.rules, options_of(arguments), has_report=True))
            wanted = _with_rules(wanted, rules)
        if arguments.held:
            # this replay goes on beside the counting
            pool = stack.enter_context(concurrent.futures.ThreadPoolExecutor(1))
            held = pool.submit(held_at, rules.path, trace, arguments.held, rules.records)
        summary = summarize(stack.enter_context(regular(arguments.report)), wanted)
        summary.held = held.result() if held else []
        summary.doubts[:0] = rules.doubts() if arguments.rules else []
    with whole_file(arguments.out) as out:
        out.write(json.dumps(summary.to_json(), indent=2) + "\n" if arguments.json else summary_texts.text_of(summary))
    return Status.DONE


def _with_rules(wanted: Wanted, rules: GivenRules) -> Wanted:
    """What is wanted, with the rules; where these were made of a pf.conf, with their lines of it."""
    if rules.made is None:
        return replace(wanted, rules=rules.path, rules_name=rules.name)
    return replace(wanted, rules=rules.path, labels=rules.made.labels, origins=origins_of(rules.made))
