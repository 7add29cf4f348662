"""The command `play`: a scenario against rulesets, with clients and servers that act by what the firewall answers."""

from __future__ import annotations

import argparse
from collections.abc import Sequence
from dataclasses import replace
from pathlib import Path

from pfplan.answers.plays_beside import PlaysBeside, play_into
from pfplan.commands.given_rules import ruleset_given
from pfplan.commands.parser import Parser
from pfplan.commands.play_words import add_most, add_seeds
from pfplan.commands.record_words import add_records, check_tables, orders_given
from pfplan.commands.rule_words import add_rule_words, options_of
from pfplan.commands.run_words import checked, in_doubt, too_few
from pfplan.commands.words import file, folder, number, words_in
from pfplan.common.errors import Status, Trouble
from pfplan.common.inputs import check_readable
from pfplan.common.outputs import check_folder, whole_folder
from pfplan.common.repository import check_program
from pfplan.pages.doubt_texts import doubt_lines
from pfplan.pages.frames import PAGE
from pfplan.pages.play_folder import files_of, names_of, write_plays
from pfplan.pages.play_texts import headline_of, users_of
from pfplan.pages.record_texts import letters
from pfplan.plays.expecting import MOST, check_expected
from pfplan.plays.model import Scenario
from pfplan.plays.reading import read_scenario

DESCRIPTION = """Plays a scenario against each ruleset: clients repeat what is not answered, wait, give up and come
back, servers answer, and the firewall
is ./pfsrc, which is asked packet by packet. pfplan scenario prints examples of what a scenario may say. Puts into a
folder:

  report.html, *.svg             who was served under each ruleset, and how long they waited (pictures where gnuplot
                                 is installed)
  summary.txt                    the same as a text
  and for each ruleset a folder of its name:
  rules, left-out.txt            the rules text, and what of the pf.conf is not in it
  trace.csv, report              the packets that came of it, and what became of each: ./pfsrc replay
                                 gives the same report
  summary.json                   the numbers"""


def add_arguments(parser: Parser) -> None:
    """The words of `play`."""
    parser.description = DESCRIPTION
    parser.add_argument(
        "rules", type=file, metavar="RULES", help="a pf.conf, what pfctl -nvf prints, or a rules text"
    )
    parser.add_argument(
        "others", type=file, nargs="+", metavar="[RULES ...] SCENARIO",
        help="more of these, and the scenario, a file of TOML; one whose name ends in .toml may also stand first",
    )  # fmt: skip
    parser.add_argument(
        "--into", type=folder, required=True, metavar="FOLDER", help="the folder; it is made where it is not there"
    )
    parser.add_argument("--jobs", type=number(1, 1000), metavar="N", help="plays side by side (one for each processor)")
    add_seeds(parser)
    add_most(parser)
    add_records(parser)
    add_rule_words(parser)


def run(arguments: argparse.Namespace) -> int:
    """Plays, and writes the folder."""
    scenario, rules = scenario_and_rules([arguments.rules, *arguments.others])
    for path in (scenario, *rules):
        check_readable(path)
    play_rules(read_scenario(scenario), rules, arguments)
    return Status.DONE


def scenario_and_rules(files: Sequence[Path]) -> tuple[Path, Sequence[Path]]:
    """The scenario, which stands behind all rulesets, and these. It may stand before them where its name alone of the
    two ends in .toml."""
    if files[0].suffix == ".toml" and files[-1].suffix != ".toml":
        return files[0], files[1:]
    return files[-1], files[:-1]


def run_play(arguments: argparse.Namespace) -> Status:
    """`run` with a scenario: plays it against one ruleset, into one folder. Served is who is served without
    waiting."""
    scenario = arguments.captures[0]
    for word in ("users", "inside", "outside", "if", "zero", "margins"):
        if getattr(arguments, word, None) or word in words_in(arguments.seen):
            raise Trouble(
                f"--{word}: {scenario} is a scenario, and the word is for traces"
                + ("; pfplan margins takes it" if word == "margins" else "")
            )
    if len(arguments.captures) > 1:
        raise Trouble(f"{scenario}: a scenario, which comes alone")
    played = play_rules(read_scenario(scenario), [arguments.rules_from], arguments, is_flat=True)
    connections, at_once, _ = users_of(played.plays[0])
    return checked(arguments, (*in_doubt(played.doubts), *too_few(at_once, connections, arguments.want)))


def play_rules(
    scenario: Scenario, paths: Sequence[Path], arguments: argparse.Namespace, is_flat: bool = False
) -> PlaysBeside:
    """Plays a scenario against rulesets, writes the folder, and prints the answer and where the page is.

    Each ruleset has a folder of its own in it; one that `is_flat` has none.
    """
    check_expected(scenario, getattr(arguments, "most", MOST))
    names = names_of(paths)
    below = [""] if is_flat else names
    rulesets = [ruleset_given(it, replace(options_of(arguments), by_records=True)) for it in paths]
    check_folder(arguments.into, files_of(below))
    check_program()
    with orders_given(getattr(arguments, "records", None)) as orders:
        check_tables(orders, names, [it.tables for it in rulesets])
    with whole_folder(arguments.into) as made:
        folders = [made / it for it in below]
        seeds = getattr(arguments, "seeds", 1)
        played = play_into(scenario, names, rulesets, folders, arguments.jobs, seeds, orders)
        write_plays(made, folders, played, arguments.into)
    for line in doubt_lines(played.doubts):
        print(line)
    for letter, name, at in zip(letters(len(names)), names, range(len(names))):
        print(f"{letter}  {name}: {headline_of(played, at)}")
    print(arguments.into / PAGE)
    return played
