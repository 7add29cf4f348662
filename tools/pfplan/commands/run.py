"""The command `run`: from a pf.conf and a capture to a folder with the answer."""

import argparse
import contextlib
import sys
from collections.abc import Iterator, Sequence
from dataclasses import replace
from fractions import Fraction
from pathlib import Path

from pfplan.answers.doubts import of_missing
from pfplan.answers.margins import Margins, measure_margins
from pfplan.answers.summaries import Summary, Wanted, summarize
from pfplan.commands.given_rules import ruleset_given
from pfplan.commands.interfaces import seen_on
from pfplan.commands.parser import Parser
from pfplan.commands.play import run_play
from pfplan.commands.rule_words import add_rule_words, options_of
from pfplan.commands.run_words import add_check, add_machine_words, checked, in_doubt, machines_of, too_few
from pfplan.commands.words import add_capture_words, add_users, file, folder, number, share_word
from pfplan.common.errors import Trouble
from pfplan.common.figures import counted, share_text
from pfplan.common.inputs import Kind, check_readable, kind_of, name_of, regular
from pfplan.common.outputs import check_folder, part_file, whole_folder
from pfplan.common.repository import DIFFERENCES, check_program
from pfplan.pages.doubt_texts import doubt_lines
from pfplan.pages.frames import PAGE
from pfplan.pages.report_page import Subject, write_answer
from pfplan.pages.rule_notes import frame_lines, way_lines
from pfplan.pages.timeline_pictures import FILES
from pfplan.pf.conversion import Ruleset, machine_of, write_ruleset
from pfplan.pf.lexer import printable
from pfplan.pf.origins import origins_of
from pfplan.plays.reading import is_scenario
from pfplan.replays.machines import Machines, measure_words
from pfplan.replays.runs import replay_into
from pfplan.traces.accounts import Frames, frames_of
from pfplan.traces.captures import make_trace
from pfplan.traces.ways import Taken, take_ways

DESCRIPTION = """Makes a rules text and a trace where they are not yet, replays, and puts into a folder:

  rules, left-out.txt            the rules text, and what of the pf.conf is not in it
  rules.entries                  entries of tables that come by records, where there are any
  trace.csv                      the trace, where it was not given as one
  report                         what became of each record
  summary.txt, summary.json      counts, and what became of the users
  report.html, *.svg             the answer to look at (pictures where gnuplot is installed)"""
OURS = (
    "rules", "rules.entries", "left-out.txt", "trace.csv", "report", "summary.txt", "summary.json", PAGE,
    DIFFERENCES.name, *FILES.values(),
)  # fmt: skip
MOST_MISSING = 5
# Moments at which the program is asked what is held.
MOMENTS = 20


def add_arguments(parser: Parser) -> None:
    """The words of the command."""
    parser.description = DESCRIPTION
    parser.add_argument(
        "rules_from",
        type=file,
        metavar="PF.CONF",
        help="a pf.conf as it stands in /etc, what pfctl -nvf prints, or a rules text; - is standard input",
    )
    parser.add_argument(
        "captures",
        nargs="+",
        type=file,
        metavar="CAPTURE",
        help="a capture, a trace, or a scenario, which is played; also packed by gzip or zstd; - is standard input. Of "
        "several interfaces one capture for each, or one pcapng file",
    )
    parser.add_argument(
        "--into", type=folder, required=True, metavar="FOLDER", help="the folder; it is made where it is not there"
    )
    add_users(parser, "the networks of the users: says who of them was served")
    add_capture_words(parser)
    _add_words_of_the_answer(parser)
    parser.add_argument("--partial", action="store_true", help="takes a capture that is cut at its end, up to there")
    add_check(parser, "fewer of the users are served than --want, an answer turns over (--margins), or is in doubt")
    add_machine_words(parser)
    add_rule_words(parser)


def _add_words_of_the_answer(parser: Parser) -> None:
    """What is told, and how much of it."""
    parser.add_argument(
        "--zero", action="store_true", help="moments of the capture count from that of its first record"
    )
    parser.add_argument(
        "--held",
        type=number(0, 10_000),
        metavar="N",
        default=MOMENTS,
        help=f"asks the program how much is held at N moments ({MOMENTS})",
    )
    parser.add_argument("--top", type=number(1, 1000), metavar="N", default=5, help="how many sources are named (5)")
    parser.add_argument(
        "--margins",
        action="store_true",
        help="also tells how sure the answer is, as pfplan margins does, which takes many replays",
    )
    parser.add_argument(
        "--want",
        type=share_word,
        default=Fraction(99, 100),
        metavar="SHARE",
        help="of the users' connections: with as many served the answer is a good one (99%%)",
    )


def run(arguments: argparse.Namespace) -> int:
    """Runs the command."""
    where = machines_of(arguments)
    for path in (arguments.rules_from, *arguments.captures):
        check_readable(path)
    if is_scenario(arguments.captures[0]):
        return run_play(arguments)
    if arguments.check and not arguments.users:
        raise Trouble("--check wants --users: whose connections are to be served?")
    with contextlib.ExitStack() as stack:
        ruleset = ruleset_given(arguments.rules_from, replace(options_of(arguments), by_records=True))
        is_made = kind_of(arguments.captures[0]) is not Kind.TRACE or bool(ruleset.routes)
        check_folder(arguments.into, [it for it in OURS if it != "trace.csv" or is_made])
        check_program()
        captures = [stack.enter_context(regular(it)) for it in arguments.captures]
        with whole_folder(arguments.into) as folder:
            summary, margins = _fill(arguments, where, folder, captures, ruleset)
    _tell(arguments, ruleset, summary)
    return checked(arguments, _reasons(arguments, summary, margins))


def _reasons(arguments: argparse.Namespace, summary: Summary, margins: Margins | None) -> Iterator[str]:
    """Why the answer is not a good one."""
    yield from in_doubt(summary.doubts)
    if summary.users:
        yield from too_few(summary.users.outcomes["served"], summary.users.counted, arguments.want)
    if margins and margins.turning:
        yield f"an answer turns over in {counted(len(margins.turning), 'run')} of {len(margins.margins)}"


def _fill(
    arguments: argparse.Namespace, where: Machines, folder: Path, captures: Sequence[Path], ruleset: Ruleset
) -> tuple[Summary, Margins | None]:
    """Writes all files of the folder, and answers the summary, with the margins where they are asked for."""
    write_ruleset(folder, ruleset)
    trace, frames = _trace(arguments, captures, folder, ruleset)
    trace, taken = _ways(trace, folder, ruleset)
    held = replay_into(folder, trace, ruleset.records, arguments.held)
    wanted = Wanted(
        trace, arguments.users, folder / "rules", ruleset.labels, origins_of(ruleset), frames, top=arguments.top,
        taken=taken,
    )  # fmt: skip
    summary = summarize(folder / "report", wanted)
    summary.doubts = of_missing(ruleset.leftovers) + summary.doubts
    summary.held = held
    subject = _subject(arguments, where, folder, trace, ruleset)
    write_answer(folder, summary, subject, arguments.into)
    return summary, subject.margins


def _trace(
    arguments: argparse.Namespace, given: Sequence[Path], folder: Path, ruleset: Ruleset
) -> tuple[Path, Frames | None]:
    """The trace that was given, or that of the captures with what became of their frames."""
    if len(given) == 1 and kind_of(given[0]) is Kind.TRACE:
        return given[0], None
    seen = seen_on(arguments.seen, given, [ruleset], machine_of(arguments.ifconfig))
    with part_file(folder / "trace.csv") as out:
        account = make_trace(
            given, seen, out, is_zero=arguments.zero, is_partial=arguments.partial,
            shown=", ".join(map(name_of, arguments.captures)),
        )  # fmt: skip
    for line in account:
        print(line, file=sys.stderr)
    return folder / "trace.csv", frames_of(account)


def _ways(trace: Path, folder: Path, ruleset: Ruleset) -> tuple[Path, Taken | None]:
    """The trace, without the records of packets that routes say came in on another interface of it."""
    if not ruleset.routes:
        return trace, None
    taken = take_ways(trace, ruleset.routes, folder / "trace.csv")
    for line in taken.notes():
        print(line, file=sys.stderr)
    return folder / "trace.csv" if taken.left_out else trace, taken


def _subject(arguments: argparse.Namespace, where: Machines, folder: Path, trace: Path, ruleset: Ruleset) -> Subject:
    """What the page tells beside the summary."""
    captures = ", ".join(Path(name_of(it)).name for it in arguments.captures)
    names = (captures, name_of(arguments.rules_from))
    found = None
    if arguments.margins:
        words = measure_words(arguments.users, 0)
        found = measure_margins(
            folder / "rules", trace, arguments.users, arguments.want, where, words, names, ruleset.records
        )
    return Subject(names[1], names[0], ruleset.leftovers, ruleset.notes, found, arguments.want)


def _tell(arguments: argparse.Namespace, ruleset: Ruleset, summary: Summary) -> None:
    """The answer in a line, and where the rest is; why it is in doubt stands first."""
    for line in doubt_lines(summary.doubts):
        print(printable(line))
    missing = [it for it in ruleset.leftovers if it.changes_answer and it.is_missing]
    for it in missing[:MOST_MISSING]:
        print(f"missing: {it.text} ({printable(it.file)}:{it.line}): {it.reason} ({it.way})")
    if len(missing) > MOST_MISSING:
        print(f"missing: {len(missing) - MOST_MISSING} things more")
    users = summary.users
    if users and users.counted:
        served = users.outcomes["served"]
        print(
            f"{share_text(served, users.counted)} of the users' connections were served: {served:,} of "
            f"{users.counted:,}"
        )
    for line in (*(frame_lines(summary.frames) if summary.frames else ()), *way_lines(summary)):
        print(line)
    doubts = sum(it.changes_answer for it in ruleset.leftovers)
    if doubts:
        print(
            printable(
                f"left out of {name_of(arguments.rules_from)}: {doubts} that can change this answer "
                f"({arguments.into / 'left-out.txt'})"
            )
        )
    print(printable(str(arguments.into / PAGE)))
