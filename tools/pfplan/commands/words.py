"""Words that several commands take, and their readers, for argparse."""

import argparse
import ipaddress
import re
from collections.abc import Callable, Sequence
from dataclasses import dataclass, field, fields, replace
from fractions import Fraction
from pathlib import Path
from typing import Any

from pfplan.common.networks import Network, interface_name


def number(least: int, most: int) -> Callable[[str], int]:
    """A reader of numbers from `least` to `most`, for argparse."""

    def read(text: str) -> int:
        if not re.fullmatch(r"[0-9]{1,10}", text):
            raise argparse.ArgumentTypeError(f"'{text}' is no number")
        if not least <= int(text) <= most:
            raise argparse.ArgumentTypeError(f"'{text}' is not from {least} to {most}")
        return int(text)

    return read


def network(text: str) -> Network:
    """A reader of a prefix of either family, for argparse; bits past its length are cleared."""
    try:
        return ipaddress.ip_network(text, strict=False)
    except ValueError:
        raise argparse.ArgumentTypeError(f"'{text}' is no prefix") from None


def networks(text: str) -> tuple[Network, ...]:
    """A reader of prefixes that are split by commas, for argparse."""
    found = tuple(network(it) for it in re.split(r"[ ,]+", text) if it)
    if not found:
        raise argparse.ArgumentTypeError(f"'{text}' is no prefix")
    return found


def interface(text: str) -> str:
    """A reader of a name that an interface may have in a trace, for argparse."""
    try:
        return interface_name(text)
    except ValueError as error:
        raise argparse.ArgumentTypeError(str(error)) from None


def file(text: str) -> Path:
    """A reader of a file's name, for argparse."""
    if not text:
        raise argparse.ArgumentTypeError("an empty name of a file")
    # a path forgets the folder of ./-, which is a file and not standard input
    return Path.cwd() / "-" if text != "-" and Path(text) == Path("-") else Path(text)


def output(text: str) -> Path:
    """A reader of the name of a file that is written, for argparse; `-` is standard output."""
    return Path("-") if text == "-" else file(text)


def folder(text: str) -> Path:
    """A reader of the name of a folder that is written into, for argparse."""
    return file(text)


def share_word(text: str) -> Fraction:
    """A reader of a share for argparse: `99%`, `99.5%` or `99`. One that may be meant as a part of 1 is refused."""
    if not re.fullmatch(r"[0-9]{0,3}(\.[0-9]{1,6})? ?%?", text) or not re.search("[0-9]", text):
        raise argparse.ArgumentTypeError(f"'{text}' is no share, as 99%")
    number = Fraction(text.rstrip("% "))
    if 0 < number <= 1 and "%" not in text:
        meant = f"{float(100 * number):g}%", f"{float(number):g}%"
        raise argparse.ArgumentTypeError(f"'{text}': a share is in per cent: is {meant[0]} meant, or {meant[1]}?")
    if number > 100:
        raise argparse.ArgumentTypeError(f"'{text}' is more than 100%")
    return number / 100


@dataclass
class Named:
    """What the command line says of an interface on which packets were seen."""

    name: str | None = None
    inside: list[Network] = field(default_factory=list)
    outside: list[Network] = field(default_factory=list)


def words_in(seen: Sequence[Named]) -> set[str]:
    """The names of the words that were given of interfaces, without hyphens."""
    return {it.name for named in seen for it in fields(named) if getattr(named, it.name)} - {"name"} | {
        word for named in seen if named.name for word in ("if", "interface")
    }


class _Interface(argparse.Action):
    """The name of an interface, behind which come the words of it, as of pfstrace."""

    def __call__(self, parser: Any, namespace: Any, values: Any, option: Any = None) -> None:
        seen = namespace.seen = [*namespace.seen]
        if seen and seen[-1].name is None:
            seen[-1] = replace(seen[-1], name=values)
        else:
            seen.append(Named(values))


class _Networks(argparse.Action):
    """Networks behind an interface, or in front of it: of the one that was named last."""

    def __call__(self, parser: Any, namespace: Any, values: Any, option: Any = None) -> None:
        *before, last = namespace.seen or [Named()]
        way = str(option).removeprefix("--")
        namespace.seen = [*before, replace(last, **{way: [*getattr(last, way), *values]})]


def add_capture_words(parser: argparse.ArgumentParser, *names: str) -> None:
    """The words that say of a capture which way its packets go, and where they are seen. `names` are more names of
    `--if`."""
    parser.add_argument(
        "--inside", dest="seen", action=_Networks, type=networks, metavar="PREFIX,..", default=[],
        help="the networks behind the firewall, and its own addresses: a packet to them from elsewhere is in, one from "
        "them to elsewhere is out (those of --ifconfig). A pflog tells the direction itself",
    )  # fmt: skip
    parser.add_argument(
        "--outside", dest="seen", action=_Networks, type=networks, metavar="PREFIX,..", default=[],
        help="of an inner interface, in place of --inside: the networks in front of it, as the local ones",
    )  # fmt: skip
    parser.add_argument(
        "--if", *names, dest="seen", action=_Interface, type=interface, metavar="NAME", default=[],
        help="the interface of every record of the capture; given again, it begins the words of another interface, "
        "whose capture is the next one, or one pcapng file has them all",
    )  # fmt: skip


def add_users(parser: argparse.ArgumentParser, help_text: str) -> None:
    """The word that says who the users are."""
    parser.add_argument("--users", type=networks, metavar="PREFIX,..", action="extend", default=[], help=help_text)


def add_asked(parser: argparse.ArgumentParser, moments: int) -> None:
    """The words that say what is asked of a replay."""
    add_users(parser, "the networks of the users, split by commas; may stand more than once")
    parser.add_argument(
        "--held", type=number(0, 1000), default=moments, metavar="N",
        help=f"asks at N moments how many states are held ({moments})",
    )  # fmt: skip
