"""The command `size`: which values of a limit, a maximum or a timeout serve the users, and what is held then."""

from __future__ import annotations

import argparse
import contextlib
import re
from collections.abc import Iterable
from dataclasses import replace
from fractions import Fraction
from pathlib import Path

from pfplan.answers.changed_rules import RulesText
from pfplan.answers.doubts import of_kills, of_replay
from pfplan.answers.maps import map_of
from pfplan.answers.measures import Measure
from pfplan.answers.plays_measured import Subject
from pfplan.answers.sizes import Vary, Wanted, size
from pfplan.commands.given_rules import rules_given, ways_given
from pfplan.commands.play_words import add_most
from pfplan.commands.rule_words import add_rule_words, options_of
from pfplan.commands.run_words import add_answer_words, add_machine_words, machines_of, write_answer
from pfplan.commands.words import add_asked, file, number, share_word
from pfplan.common.errors import Status, Trouble
from pfplan.common.inputs import check_trace, regular
from pfplan.common.repository import check_program
from pfplan.pages import map_texts, size_texts
from pfplan.plays.reading import is_scenario

DESCRIPTION = """Replays a trace, or plays a scenario, with several values of one number, and tells which of them
serve the users. Served in a scenario is who is served without waiting.

NAME is a number of the scenario (botnet.rate, homes.hosts, seconds), a limit (states, src-nodes, tables,
table-entries), a timeout (tcp.first, interval, adaptive.start ..), or a maximum or timeout of rules: max-src-conn
is that of all rules that state one, @5.max-src-conn that of rule @5. Of max-src-conn-rate the handshakes are
varied. Values are tried evenly from FROM to TO, and then around each edge where the wanted share begins or ends to
be served."""


def check_users(arguments: argparse.Namespace, is_played: bool) -> None:
    """Trouble where it is not told who the users are, or told twice."""
    if is_played and arguments.users:
        raise Trouble(f"--users: {arguments.trace} is a scenario, which says itself who the users are")
    if not is_played and not arguments.users:
        raise Trouble("--users: whose connections are to be served? (networks, split by commas)")


def vary_word(text: str) -> Vary:
    """A reader of `NAME=FROM..TO` for argparse."""
    found = re.fullmatch(r"([@A-Za-z0-9_.-]{1,128})=([0-9]{1,10})\.\.([0-9]{1,10})", text)
    if not found:
        raise argparse.ArgumentTypeError(f"'{text}' is not NAME=FROM..TO, as states=500..5000")
    if int(found[2]) >= int(found[3]):
        raise argparse.ArgumentTypeError(f"'{text}': {found[3]} is not above {found[2]}")
    return Vary(found[1], int(found[2]), int(found[3]))


def add_arguments(parser: argparse.ArgumentParser) -> None:
    """The words of `size`."""
    parser.description = DESCRIPTION
    parser.add_argument("rules", type=file, metavar="RULES", help="a rules text, or a pf.conf")
    parser.add_argument(
        "trace", type=file, metavar="TRACE", help="the trace under which it is replayed, or the scenario that is played"
    )
    parser.add_argument(
        "--vary", type=vary_word, required=True, action="append", metavar="NAME=FROM..TO",
        help="the number, and its bounds; given twice it makes a map",
    )  # fmt: skip
    parser.add_argument(
        "--want",
        type=share_word,
        default=Fraction(99, 100),
        metavar="SHARE",
        help="of the users' connections, as 99%% (99%%)",
    )
    add_asked(parser, 8)
    parser.add_argument("--grid", type=number(2, 1000), default=9, metavar="N", help="values at first (9)")
    parser.add_argument("--runs", type=number(2, 10000), default=60, metavar="N", help="values at most (60)")
    add_most(parser)
    add_answer_words(parser)
    add_machine_words(parser)
    add_rule_words(parser)


def run(arguments: argparse.Namespace) -> int:
    """Tries values and tells which serve the users."""
    is_played = is_scenario(arguments.trace)
    check_users(arguments, is_played)
    if len(arguments.vary) > 2 or len({it.name for it in arguments.vary}) != len(arguments.vary):
        raise Trouble("--vary: one number, or two different ones for a map")
    where = machines_of(arguments)
    check_program()
    with contextlib.ExitStack() as stack:
        rules = stack.enter_context(rules_given(arguments.rules, options_of(arguments)))
        trace, doubts = stack.enter_context(regular(arguments.trace)), list[str]()
        if not is_played:
            check_trace(trace)
            trace, doubts = stack.enter_context(ways_given(trace, [rules.path]))
        text = RulesText(rules.path)
        subject = Subject(text, arguments.trace if is_played else None, arguments.most)
        doubts = rules.doubts() + doubts + of_replay(text.items(), trace, subject.scenario, text.routes)
        if not where.is_here:
            subject.check_elsewhere()
        entries = rules.records
        name, users = arguments.trace.name, arguments.users
        wanted = Wanted(name, users, arguments.want, arguments.grid, arguments.runs, arguments.held)
        if len(arguments.vary) == 2:
            border = map_of(arguments.vary, subject, trace, where, entries, wanted)
            border = replace(border, doubts=[*doubts, *_of_kills(border.measures.values())])
            _check_connections(arguments.trace, border.users, border.measures.values(), "")
            return write_answer(arguments, border, map_texts.text_of, map_texts.page_of)
        found = size(arguments.vary[0], subject, trace, where, entries, wanted)
    found = replace(found, doubts=[*doubts, *_of_kills(found.measures.values())])
    _check_connections(arguments.trace, found.users, found.measures.values(), "; --users names their networks")
    return write_answer(arguments, found, size_texts.text_of, size_texts.page_of)


def _of_kills(measures: Iterable[Measure]) -> list[str]:
    """The doubt of whom kills took, of the run with the most such kills."""
    return of_kills(max((it.kills_guessed for it in measures), default=0))


def _check_connections(trace: Path, users: str, measures: Iterable[Measure], more: str) -> None:
    """Trouble where no run had a connection of the users."""
    if not any(it.connections for it in measures):
        raise Trouble(f"{trace}: no connection of the users {users} is in it{more}", Status.REFUSED)
