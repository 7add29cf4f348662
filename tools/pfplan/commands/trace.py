"""The command `trace`: a trace of a capture, which ./pfstrace makes, or of a scenario in which nobody reacts."""

import argparse
import contextlib
import sys

from pfplan.commands.interfaces import seen_on
from pfplan.commands.parser import Parser
from pfplan.commands.words import add_capture_words, file, output, words_in
from pfplan.common.errors import Status, Trouble
from pfplan.common.inputs import name_of, regular
from pfplan.common.outputs import whole_files
from pfplan.pf.conversion import machine_of
from pfplan.plays.plain import write_plain
from pfplan.plays.reading import is_scenario
from pfplan.traces.captures import make_trace
from pfplan.traces.pf_answers import HEAD

DESCRIPTION = """Makes a trace of a capture, by ./pfstrace; or of a scenario, as it were if the firewall let
everything in and nobody reacted.

Standard error says how many frames came and how many records were made, and why the others could not be: later
fragments (of a fragmented packet its first, which has the ports, is taken), what is not IP, packets that pf drops
as too short, and packets neither in nor out. A frame that was seen before the one in front gets the second of that
one; such records are counted. ICMP is a record: the program says skip. With --ifconfig and --if the interface's own
address tells the directions; else the networks of --inside do, which is right on an outer interface alone. A pflog
has only the packets that rules log, often the first of a state: a trace of it lacks all others."""


def add_arguments(parser: Parser) -> None:
    """The words of the command."""
    parser.description = DESCRIPTION
    parser.add_argument(
        "captures", nargs="+", type=file, metavar="CAPTURE",
        help="a file of tcpdump or pflogd, also packed by gzip or zstd, - is standard input; or a scenario",
    )
    add_capture_words(parser, "--interface")
    parser.add_argument(
        "--ifconfig",
        type=file,
        metavar="FILE",
        help="what ifconfig prints on the firewall, in place of --inside; with --if it also tells the interface's own "
        "address",
    )
    parser.add_argument(
        "--answers",
        type=output,
        metavar="FILE",
        help=f"for a pflog: writes there what pf answered for each record, as {HEAD}",
    )
    # the word of before
    parser.add_argument(
        "--told", dest="answers", type=output, metavar="FILE", default=argparse.SUPPRESS, help=argparse.SUPPRESS
    )
    parser.add_argument("--partial", action="store_true", help="takes a capture that is cut at its end, up to there")
    parser.add_argument(
        "--zero",
        action="store_true",
        help="moments count from that of the first record; else they are those of the capture, since 1970",
    )
    parser.add_argument("--out", type=output, metavar="FILE", help="where the trace goes (standard output)")


def run(arguments: argparse.Namespace) -> int:
    """Runs the command."""
    if is_scenario(arguments.captures[0]):
        _refuse_words(arguments)
        write_plain(arguments.captures[0], arguments.out)
        return Status.DONE
    machine = machine_of(arguments.ifconfig)
    outputs = (arguments.out, arguments.answers) if arguments.answers else (arguments.out,)
    with contextlib.ExitStack() as stack:
        captures = [stack.enter_context(regular(it)) for it in arguments.captures]
        seen = seen_on(arguments.seen, captures, [], machine)
        out, *told = stack.enter_context(whole_files(*outputs))
        made = make_trace(
            captures, seen, out, told=told[0] if told else None, is_zero=arguments.zero, is_partial=arguments.partial,
            shown=", ".join(map(name_of, arguments.captures)),
        )  # fmt: skip
    for line in made:
        print(line, file=sys.stderr)
    return Status.DONE


def _refuse_words(arguments: argparse.Namespace) -> None:
    """Trouble where a word is given that asks something of a capture."""
    for word in ("inside", "outside", "ifconfig", "interface", "answers", "zero"):
        if getattr(arguments, word, None) or word in words_in(arguments.seen):
            raise Trouble(f"--{word}: {arguments.captures[0]} is a scenario, and the word is for captures")
    if len(arguments.captures) > 1:
        raise Trouble(f"{arguments.captures[0]}: a scenario, which comes alone")
