"""The command `scenario`: prints a commented example of a scenario, with a group of each kind, to begin with."""

import argparse
from importlib import resources

from pfplan import plays
from pfplan.commands.parser import Parser
from pfplan.commands.words import output
from pfplan.common.errors import Status
from pfplan.common.outputs import whole_file

SKETCH = resources.files(plays) / "sketch.toml"
DESCRIPTION = """Prints an example of a scenario: a group of each kind, and a comment on each word. Take out what is
not wanted, and change the rest.
examples/scenarios/ has twelve that are shorter."""


def add_arguments(parser: Parser) -> None:
    """The words of `scenario`."""
    parser.description = DESCRIPTION
    parser.add_argument("--out", type=output, metavar="FILE", help="where it goes (standard output)")


def run(arguments: argparse.Namespace) -> int:
    """Prints it."""
    with whole_file(arguments.out) as out:
        out.write(SKETCH.read_text("utf-8"))
    return Status.DONE
