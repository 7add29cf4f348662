"""The command `agree`: what a running pf said of the packets of its log, beside what pfsrc says of them."""

import argparse
import json
import sys
import tempfile
from collections.abc import Iterator
from dataclasses import replace
from pathlib import Path

from pfplan.answers.agreements import Agreement, agreement_of
from pfplan.answers.hiding import Hider
from pfplan.answers.judging import Verdict
from pfplan.commands.given_rules import ruleset_given
from pfplan.commands.parser import Parser
from pfplan.commands.rule_words import add_rule_words, options_of
from pfplan.commands.run_words import add_check, checked
from pfplan.commands.words import file, folder, number
from pfplan.common.errors import Status, Trouble
from pfplan.common.figures import counted
from pfplan.common.inputs import regular
from pfplan.common.outputs import check_folder, part_file, whole_folder
from pfplan.common.repository import DIFFERENCES, check_program
from pfplan.pages.agreement_texts import page_of, text_of
from pfplan.pages.differences import differences_beside
from pfplan.pages.frames import PAGE
from pfplan.pf.conversion import Ruleset, write_ruleset
from pfplan.replays.runs import replay_into
from pfplan.traces.captures import Seen, make_trace
from pfplan.traces.pf_answers import Merged, forwarded_once, merge, packets_of

DESCRIPTION = """Holds what a running pf said of the packets of its log beside what pfsrc says of them. On the firewall:

  rules with log (all)            tcpdump -n -e -w pflog -i pflog0 (or the file that pflogd writes)
  pfctl -nvf /etc/pf.conf > pf.conf.txt    has the rules as pf numbers them

Then pfplan agree pf.conf.txt pflog --into answer. It makes rules and trace, replays, and counts on how many packets
both agree: the same action by the same rule, or a refusal by the same kind of limit. Of those that differ it tells
both sides, what was held, and what explains it. What is printed has no addresses in it (--addresses shows them):
it can be sent to the makers of pfsrc as it is."""
# The files that a folder gets.
OURS = (
    "rules", "rules.entries", "left-out.txt", "trace.csv", "told.csv", "report", "agree.txt", "agree.json", PAGE,
    DIFFERENCES.name,
)  # fmt: skip
FILES = """Into the folder: rules, left-out.txt, trace.csv, told.csv (pf's answers), report, agree.txt, agree.json,
report.html. Rules, trace and told.csv have addresses in them, also where what is printed has none."""


def add_arguments(parser: Parser) -> None:
    """The words of the command."""
    parser.description = f"{DESCRIPTION}\n\n{FILES}"
    parser.add_argument(
        "rules_from",
        type=file,
        metavar="PF.CONF",
        help="the rules that pf had: what pfctl -nvf prints there, or a pf.conf",
    )
    parser.add_argument("log", type=file, metavar="PFLOG", help="a log of pflog(4), as pflogd or tcpdump writes it")
    parser.add_argument(
        "--into", type=folder, required=True, metavar="FOLDER", help="the folder; it is made where it is not there"
    )
    parser.add_argument(
        "--addresses",
        dest="shows_addresses",
        action="store_true",
        help="shows addresses; else each has a name of its own, a1, a2 ..",
    )
    parser.add_argument(
        "--top", type=number(0, 10_000), metavar="N", default=10,
        help="how many of the packets that differ are told one by one (10); agree.json has them all",
    )  # fmt: skip
    add_check(parser, "a packet differs, or none can be compared")
    parser.add_argument("--partial", action="store_true", help="takes a log that is cut at its end, up to there")
    add_rule_words(parser)


def run(arguments: argparse.Namespace) -> int:
    """Runs the command."""
    ruleset = ruleset_given(arguments.rules_from, replace(options_of(arguments), by_records=True))
    check_folder(arguments.into, OURS)
    for name in ("pfsrc", "pfstrace"):
        check_program(name)
    with regular(arguments.log) as log, whole_folder(arguments.into) as folder:
        found, text = _fill(arguments, log, folder, ruleset)
    sys.stdout.write(text)
    print(arguments.into / PAGE)
    return checked(arguments, _reasons(found))


def _reasons(found: Agreement) -> Iterator[str]:
    """Why it does not hold that all agree."""
    if not found.compared:
        yield "no packet of the log can be compared"
    if differing := found.count(Verdict.DIFFERS):
        yield f"{counted(differing, 'packet')} of {found.compared:,} differ"


def _fill(
    arguments: argparse.Namespace, log: Path, folder: Path, ruleset: Ruleset
) -> tuple[Agreement, str]:
    """Writes all files of the folder, and answers what was found, with the text that is printed."""
    write_ruleset(folder, ruleset)
    merged = _make_trace(log, folder, is_partial=arguments.partial, has_routes=bool(ruleset.routes))
    replay_into(folder, folder / "trace.csv", ruleset.records)
    found = agreement_of(folder, ruleset, merged)
    hider = Hider(shows=arguments.shows_addresses)
    text = hider.text(text_of(found, arguments.top))
    page = page_of(found, hider, differences_beside(folder, arguments.into), arguments.top)
    as_json = json.dumps(found.to_json(hider), indent=2) + "\n"
    for name, whole in (("agree.txt", text), ("agree.json", as_json), (PAGE, page)):
        with part_file(folder / name) as out:
            out.write(whole)
    return found, text


def _make_trace(log: Path, folder: Path, *, is_partial: bool, has_routes: bool) -> Merged:
    """The trace of the log's packets, and what pf answered for each: with routes on either interface. Trouble where it
    is no log."""
    with tempfile.TemporaryDirectory(prefix="pfplan-") as made:
        trace, told = Path(made, "trace"), Path(made, "told")
        with part_file(trace) as trace_out, part_file(told) as told_out:
            account = make_trace([log], [Seen()], trace_out, told=told_out, is_partial=is_partial, is_log=True)
        for line in account:
            print(line, file=sys.stderr)
        with part_file(folder / "trace.csv") as trace_out, part_file(folder / "told.csv") as told_out:
            packets = packets_of(trace, told, log)
            merged = merge(forwarded_once(packets) if has_routes else packets, trace_out, told_out)
            if not merged.answers:
                raise Trouble(
                    f"{log}: no packet of a log of pflog(4) in it, so it does not say what pf answered", Status.REFUSED
                )
    return merged
