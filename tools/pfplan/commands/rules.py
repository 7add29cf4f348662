"""The command `rules`: a rules text of a pf.conf, and what was left out of it."""

import argparse
import json
import sys
from dataclasses import replace
from pathlib import Path

from pfplan.commands.given_rules import ruleset_given, tell_left_out
from pfplan.commands.rule_words import add_rule_words, options_of
from pfplan.commands.words import file, output
from pfplan.common.errors import Status
from pfplan.common.outputs import is_file_place, whole_files
from pfplan.traces.entries import beside, write_entries

DESCRIPTION = """Makes a rules text for ./pfsrc of a pf.conf as it stands in /etc, with no OpenBSD at hand, or of
what pfctl -nvf prints. Macros and lists are expanded as pfctl does. Standard error says what is left out, a line
each:
  FILE: line N: left out: TEXT: can change an answer (WHICH WAY): WHY
  FILE: line N: left out: TEXT: changes no answer: WHY
No rule comes out wider than it was: a part goes alone only where the rule matches the same packets without it, else
the whole rule does. docs/PFCONF.md says of each construct of pf.conf(5) what becomes of it."""


def add_arguments(parser: argparse.ArgumentParser) -> None:
    """The words of `pfplan rules`."""
    parser.description = DESCRIPTION
    parser.add_argument(
        "file",
        type=file,
        nargs="?",
        default=Path("-"),
        metavar="PF.CONF",
        help="the text; - or nothing is standard input",
    )
    parser.add_argument(
        "--out", type=output, metavar="FILE", help="where the rules text goes; nothing is standard output"
    )
    parser.add_argument(
        "--json", action="store_true", help="for machines: the text, its rules with their places, and what is left out"
    )
    add_rule_words(parser)


def run(arguments: argparse.Namespace) -> int:
    """Writes the rules text, and tells on standard error what was left out. Nothing is written where the text is
    refused."""
    out: Path | None = arguments.out if is_file_place(arguments.out) else None
    options = replace(options_of(arguments), by_records=out is not None or arguments.json)
    ruleset = ruleset_given(arguments.file, options)
    has_entries = out is not None and bool(ruleset.records) and not arguments.json
    outputs = (arguments.out, beside(out)) if out and has_entries else (arguments.out,)
    with whole_files(*outputs) as (file, *entries):
        file.write(json.dumps(ruleset.to_json(), indent=1) + "\n" if arguments.json else ruleset.written)
        for it in entries:
            write_entries(it, ruleset.records)
    if out and has_entries:
        print(f"note: entries by records: {beside(out)}", file=sys.stderr)
    tell_left_out(arguments.file, ruleset)
    return Status.DONE
