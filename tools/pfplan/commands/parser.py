"""The command line: one parser, to which each command adds its own words."""

import argparse
import difflib
import importlib
import re
from collections.abc import Collection, Iterator, Sequence
from pathlib import Path
from typing import Any, NoReturn

from pfplan import VERSION
from pfplan.commands.layout import Formatter
from pfplan.commands.words import output
from pfplan.common.errors import Trouble
from pfplan.common.inputs import take, take_none
from pfplan.common.outputs import check_files

# each command, whose module has its name, and what it does
COMMANDS = (
    ("rules", "a rules text of a pf.conf, and what was left out of it"),
    ("trace", "a trace of a capture, or of a scenario"),
    ("scenario", "a commented example of a scenario, to begin with"),
    ("play", "a scenario against rulesets, with clients that react"),
    ("run", "all at once: rules, trace, report, summary, pictures and report.html in a folder"),
    ("watch", "new limits beside the traffic of this minute, without touching the firewall"),
    ("agree", "what a running pf said of the packets of its log, beside what pfsrc says"),
    ("summary", "what a report holds, and what became of the users"),
    ("explain", "the story of one source or one record in plain words"),
    ("compare", "rulesets under one trace, side by side"),
    ("size", "which values of a limit, a maximum or a timeout serve the users"),
    ("margins", "how sure an answer is"),
    ("measure", "one replay in a few numbers, as a line of JSON: what size and margins run"),
)
ENDS = """pfsrc replays, pfstrace reads captures: beside pfplan, else on the PATH, or what PFSRC and PFSTRACE name.
Status: 0 done; 1 a trace, a report or a capture is refused; 2 a word of the command line; 3 a pf.conf or a rules text
is refused; 4 reading or writing failed, or no memory; 70 pfsrc is not there or could not be built; 130 interrupted.
pfplan is tested, not proved. pfplan(1) says more."""


class Parser(argparse.ArgumentParser):
    """A parser whose refusals are Trouble, with the word that may have been meant."""

    def __init__(self, *words: Any, **more: Any) -> None:
        more.setdefault("allow_abbrev", False)
        more.setdefault("formatter_class", Formatter)
        super().__init__(*words, **more)

    def error(self, message: str) -> NoReturn:
        """Trouble with argparse's message, as `--rate: no value`."""
        message = message.removeprefix("argument ")
        message = message.replace("expected one argument", "no value").replace(
            "expected at least one argument", "no value"
        )
        message = re.sub(r"^unrecognized arguments: (.*)$", lambda it: self.unknown(it[1]), message)
        raise Trouble(message)

    def unknown(self, words: str) -> str:
        """What is said of words that no command has, with the nearest word that there is."""
        word = words.split(" ")[0]
        known = [it for action in self._actions for it in action.option_strings]
        near = difflib.get_close_matches(word.split("=")[0], known, 1)
        return f"'{word}': no such word" + (f"; is {near[0]} meant?" if near else "") + f" ({self.prog} --help)"

    def parse_known_args(self, args: Any = None, namespace: Any = None) -> Any:
        """As argparse's, but a word that this command does not know is refused by the command itself, which knows the
        near ones."""
        parsed, rest = super().parse_known_args(args, namespace)
        if rest:
            self.error("unrecognized arguments: " + " ".join(rest))
        return parsed, rest


def make_parser(asked: Collection[str]) -> Parser:
    """The parser with every command, and with the words of those that are asked for: the code of no other is
    loaded."""
    parser = Parser(
        prog="pfplan",
        description="From a pf.conf and a capture, or a scenario, to an answer that one can look at.",
        epilog=ENDS,
    )
    parser.add_argument("-V", "--version", action="version", version=f"pfplan {VERSION}", help="prints the version")
    parser.add_argument(
        "--completion", choices=("bash", "zsh"), metavar="SHELL", help="prints what completes words in bash or zsh"
    )
    commands = parser.add_subparsers(dest="command", metavar="COMMAND", parser_class=Parser)
    for name, does in COMMANDS:
        words = commands.add_parser(name, help=does)
        if name in asked:
            code = importlib.import_module(f"pfplan.commands.{name}")
            words.description = f"{does[0].upper()}{does[1:]}."
            code.add_arguments(words)
            words.set_defaults(run=code.run, own=words)
    return parser


def parse(words: Sequence[str]) -> argparse.Namespace:
    """The words of the command line, read. Trouble with status 2 says which word is refused, and why."""
    parser = make_parser(words[:1])
    names = [name for name, _ in COMMANDS]
    if words and not words[0].startswith("-") and words[0] not in names:
        near = difflib.get_close_matches(words[0], names, 1)
        raise Trouble(
            f"'{words[0]}': no such command" + (f"; is {near[0]} meant?" if near else f"; there are {', '.join(names)}")
        )
    arguments = parser.parse_args(words)
    if arguments.completion:
        return arguments
    if arguments.command is None:
        raise Trouble(f"a command is wanted: {', '.join(names)} (pfplan --help)")
    _check_outputs(arguments)
    return arguments


def _check_outputs(arguments: argparse.Namespace) -> None:
    """Trouble where a file that the command is to write is an input, or in the way. All files that it is to read are
    inputs from here on."""
    take_none()
    outputs: list[Path | None] = []
    inputs: list[Path] = []
    for action in arguments.own._actions:
        if action.default == argparse.SUPPRESS:  # another word for one that is there too
            continue
        given = getattr(arguments, action.dest, None)
        if action.type is output:
            outputs += [given] if given or action.dest == "out" else []
        else:
            inputs += _paths_in(given)
    for path in inputs:
        take(path)
    if sum(str(it) == "-" for it in inputs) > 1:
        raise Trouble("-: standard input can be one of the inputs, and not several")
    check_files(outputs or [None])


def _paths_in(given: object) -> Iterator[Path]:
    """The files in what words gave."""
    if isinstance(given, Path):
        yield given
    elif isinstance(given, list | tuple):
        for it in given:
            yield from _paths_in(it)
