"""The words that say where many runs go on, and how their answer is told."""

import argparse
import json
from collections.abc import Callable, Iterable, Iterator, Sequence
from fractions import Fraction
from typing import Any, Protocol, TypeVar

from pfplan.commands.words import file, number, output
from pfplan.common.errors import Status, Trouble
from pfplan.common.figures import share_text
from pfplan.common.inputs import check_readable
from pfplan.common.outputs import whole_files
from pfplan.pages.doubt_texts import doubt_lines
from pfplan.replays.machines import Machines, check_parallel


def add_machine_words(parser: argparse.ArgumentParser) -> None:
    """The words that say where runs go on."""
    group = parser.add_argument_group("where it runs")
    group.add_argument(
        "--jobs", type=number(1, 1000), metavar="N", help="runs side by side on each machine (one for each processor)"
    )
    group.add_argument(
        "--sshlogin",
        action="append",
        default=[],
        metavar="LOGIN",
        help="another machine, by GNU parallel: user@host, 8/host, : for this one",
    )
    group.add_argument(
        "--sshloginfile",
        action="append",
        default=[],
        type=file,
        metavar="FILE",
        help="a file with such logins, one a line",
    )
    group.add_argument("--there", metavar="PATH", help="where pfplan is on the other machines (by default as here)")


def machines_of(arguments: argparse.Namespace) -> Machines:
    """The machines that the words name. Trouble where a file of logins can't be read, or a Debian package is
    missing."""
    for path in arguments.sshloginfile:
        check_readable(path)
    for login in arguments.sshlogin:
        if not login.strip() or not login.isprintable():
            raise Trouble(f"--sshlogin: {login!r} is no login")
    machines = Machines(arguments.jobs, tuple(arguments.sshlogin), tuple(arguments.sshloginfile), arguments.there)
    if not machines.is_here:
        check_parallel()
    return machines


def add_check(parser: argparse.ArgumentParser, what: str) -> None:
    """The word by which the status tells whether the answer is a good one."""
    parser.add_argument("--check", action="store_true", help=f"ends with status 1 if {what}")


def checked(arguments: argparse.Namespace, reasons: Iterable[str]) -> Status:
    """The status of an answer that was told. Trouble with status 1 where `--check` was given, and there are reasons why
    it is not a good one."""
    found = list(reasons) if arguments.check else []
    if found:
        raise Trouble(f"--check: {'; '.join(found)}", Status.REFUSED)
    return Status.DONE


def in_doubt(doubts: Sequence[str]) -> Iterator[str]:
    """That an answer is in doubt, if it is."""
    if doubts:
        yield "the answer is in doubt"


def too_few(served: int, connections: int, want: Fraction) -> Iterator[str]:
    """That fewer of the users' connections are served than are wanted, if so."""
    if served < want * connections:
        yield f"{share_text(served, connections)} of the users are served, and {float(100 * want):g} % are wanted"


class Answer(Protocol):
    """What many runs came to."""

    @property
    def doubts(self) -> Sequence[str]:
        """Why it may be of something else than what was meant."""

    def to_json(self) -> dict[str, Any]:
        """The numbers for machines."""


AnyAnswer = TypeVar("AnyAnswer", bound=Answer)


def add_answer_words(parser: argparse.ArgumentParser) -> None:
    """The words that say how the answer is told, and where."""
    parser.add_argument("--json", action="store_true", help="for machines")
    parser.add_argument("--out", type=output, metavar="FILE", help="where the text goes (standard output)")
    parser.add_argument("--page", type=output, metavar="FILE", help="also a page to look at in a browser")


def write_answer(
    arguments: argparse.Namespace,
    found: AnyAnswer,
    text_of: Callable[[AnyAnswer], str],
    page_of: Callable[[AnyAnswer], str],
) -> Status:
    """Tells an answer: as a text or for machines, and as a page where one is asked for."""
    outputs = (arguments.out, arguments.page) if arguments.page else (arguments.out,)
    with whole_files(*outputs) as files:
        if arguments.json:
            files[0].write(json.dumps(found.to_json(), indent=1) + "\n")
        else:
            files[0].writelines(f"{it}\n" for it in doubt_lines(found.doubts))
            files[0].write(text_of(found))
        for page in files[1:]:
            page.write(page_of(found))
    return Status.DONE
