"""The command `explain`: the story of one source or one record."""

from __future__ import annotations

import argparse
import ipaddress
import json
from collections.abc import Sequence
from dataclasses import replace
from typing import Any

from pfplan.answers.summaries import origins_told
from pfplan.commands.given_rules import NO_WORDS, GivenRules, rules_given, ruleset_given
from pfplan.commands.parser import Parser
from pfplan.commands.rule_words import add_rule_words, options_of
from pfplan.commands.words import file, number, output
from pfplan.common.errors import Status, Trouble
from pfplan.common.inputs import check_trace, regular
from pfplan.common.outputs import whole_file
from pfplan.common.repository import check_program
from pfplan.pages.story_texts import Story, Told
from pfplan.pf.named_files import read_text
from pfplan.pf.origins import Origins, origins_of
from pfplan.pf.profiles import profile_of
from pfplan.pf.reading_canonical_text import items_of
from pfplan.replays.runs import show_rules
from pfplan.traces.entries import marked

DESCRIPTION = """Tells in plain words what a replay or a play did with one source, or with one record: when it came,
which rule decided, what was held then,
which limit was met, what was killed with it, and when the same packet would have been let in. For that the program is
asked anew."""


def add_arguments(parser: Parser) -> None:
    """The words of `explain`."""
    parser.description = DESCRIPTION
    parser.add_argument("report", type=file, metavar="REPORT", help="the report")
    parser.add_argument(
        "--trace",
        type=file,
        required=True,
        metavar="TRACE",
        help="the trace that was replayed, or that came of the play",
    )
    parser.add_argument(
        "--rules", type=file, required=True, metavar="RULES", help="the rules under which it was: a text, or a pf.conf"
    )
    parser.add_argument(
        "--conf",
        type=file,
        metavar="PF.CONF",
        help="the pf.conf that the rules text was made of, by the same words: its lines are told beside the rules. The "
        "folders of run and watch tell them without it",
    )
    what = parser.add_mutually_exclusive_group(required=True)
    what.add_argument("--source", type=_address, metavar="ADDRESS", help="tells of this source")
    what.add_argument("--row", type=number(1, 1_000_000_000), metavar="N", help="tells of this record")
    parser.add_argument("--json", action="store_true", help="for machines")
    parser.add_argument("--out", type=output, metavar="FILE", help="where the text goes (standard output)")
    add_rule_words(parser)


def run(arguments: argparse.Namespace) -> int:
    """Tells the story."""
    check_program()
    # where a pf.conf is given beside the rules text, the words are about that one
    options = NO_WORDS if arguments.conf else options_of(arguments)
    with (
        regular(arguments.trace) as trace,
        regular(arguments.report) as report,
        rules_given(arguments.rules, options, has_report=True) as rules,
    ):
        check_trace(trace)
        shown = show_rules(rules.path)
        story = Story(rules.path, trace, report, shown, _origins(arguments, rules, shown))
        told = list(story.of_source(arguments.source)) if arguments.source else [story.of_row(arguments.row)]
    with whole_file(arguments.out) as out:
        if arguments.json:
            out.write(json.dumps(_json_of(told), indent=1) + "\n")
        else:
            out.writelines(f"{line}\n" for it in told for line in it.lines)
    return Status.DONE


def _json_of(told: Sequence[Told]) -> dict[str, Any]:
    """A story for machines: what is said of the source, with its runs, or of the record."""
    head, *runs = (it.facts for it in told)
    return head | {"runs": runs} if "source" in head else head


def _origins(arguments: argparse.Namespace, rules: GivenRules, shown: Sequence[str]) -> Origins:
    """Where the rules stand in the pf.conf. Trouble where the one that was given makes other rules."""
    if rules.made:
        return origins_of(rules.made)
    if arguments.conf is None:
        return origins_told(arguments.rules.with_name("summary.json"), items_of(shown))
    text = read_text(rules.path)
    options = options_of(arguments)
    profile = options.profile or profile_of(shown)
    made = ruleset_given(arguments.conf, replace(options, by_records=marked(text) is not None, profile=profile))
    if made.written != text:
        raise Trouble(f"{arguments.conf}: by these words it makes other rules than {arguments.rules}", Status.RULES)
    return origins_of(made)


def _address(text: str) -> str:
    try:
        return str(ipaddress.ip_address(text))
    except ValueError:
        raise argparse.ArgumentTypeError(f"'{text}' is no address") from None
