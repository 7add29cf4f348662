"""The words that say what a pf.conf leaves to its machine, for every command that takes one."""

import argparse
import ipaddress
import re
from pathlib import Path

from pfplan.commands.words import file, interface
from pfplan.pf.conversion import RuleOptions
from pfplan.pf.interfaces import Given
from pfplan.pf.profiles import Profile
from pfplan.pf.writing_lists import NAME


def _pair(text: str) -> tuple[str, str]:
    name, sign, value = text.partition("=")
    if not name or not sign or not value:
        raise argparse.ArgumentTypeError(f"'{text}' is not NAME=VALUE")
    return name, value


def _macro(text: str) -> tuple[str, str]:
    name, sign, value = text.partition("=")
    if not sign or not re.fullmatch(r"[A-Za-z0-9_]+", name):
        raise argparse.ArgumentTypeError(f"'{text}' is not NAME=VALUE, with letters, digits and _ in the name")
    if "\n" in value:
        raise argparse.ArgumentTypeError(f"the value of {name} has more than one line")
    return name, value


def _address(text: str) -> tuple[str, Given]:
    name, value = _pair(text)
    try:
        given = ipaddress.ip_interface(value)
    except ValueError:
        raise argparse.ArgumentTypeError(f"'{value}' is no address and no prefix") from None
    is_network = given.ip == given.network.network_address and given.network.prefixlen < given.max_prefixlen - 1
    if is_network and "network" not in name.split(":"):
        plain = name.split(":")[0]
        raise argparse.ArgumentTypeError(
            f"'{value}' is a network, and {name} is an address; {plain}:network={value} gives the network of {plain}"
        )
    return name, given


def _interface(text: str) -> tuple[str, str]:
    name, value = _pair(text)
    if not NAME.fullmatch(name):
        raise argparse.ArgumentTypeError(f"'{name}' is no name of a group")
    return name, interface(value)


def _file(text: str) -> tuple[str, Path]:
    name, value = _pair(text)
    return name, file(value)


def _profile(text: str) -> Profile:
    try:
        return Profile(text)
    except ValueError:
        names = " nor ".join(it.value for it in Profile)
        raise argparse.ArgumentTypeError(f"'{text}' is neither {names}") from None


def add_profile(parser: argparse.ArgumentParser) -> None:
    """The word that says whose pf a pf.conf is answered by."""
    parser.add_argument(
        "--profile", type=_profile, metavar="openbsd-7.4|papers",
        help="whose pf answers: that of OpenBSD 7.4, by a line of the rules text, which a pf.conf gets by itself; or "
        "the machine of pfsrc's own (papers), without that line",
    )  # fmt: skip


def add_rule_words(parser: argparse.ArgumentParser) -> None:
    """The words that say what a pf.conf leaves to its machine. `options_of` makes RuleOptions of them."""
    add = parser.add_argument
    add(
        "--strict",
        action="store_true",
        help="stop at the first thing left out that can change an answer, with status 3",
    )
    add(
        "-D",
        dest="macros",
        type=_macro,
        action="append",
        default=[],
        metavar="NAME=VALUE",
        help="define a macro, which the text does not change",
    )
    add(
        "--ifconfig",
        type=file,
        metavar="FILE",
        help="what ifconfig prints on the firewall: interfaces, groups, addresses",
    )
    add(
        "--routes",
        type=file,
        metavar="FILE",
        help="what netstat -rn prints on the firewall: each packet is then asked on both interfaces of its way",
    )
    _add_names(parser)
    add_profile(parser)
    add("--root", type=file, metavar="FOLDER", help="where files with absolute names are looked for: FOLDER/etc/..")


def _add_names(parser: argparse.ArgumentParser) -> None:
    """The words that say what a name of the text stands for: an address, a group, a table, an anchor."""
    add = parser.add_argument
    add(
        "--address", dest="addresses", type=_address, action="append", default=[], metavar="NAME=ADDRESS",
        help="an address of NAME, as em0, self or a host's name, with its length where NAME:network is asked for; or "
        "NAME:network=PREFIX. May stand more than once",
    )  # fmt: skip
    add(
        "--interface",
        dest="interfaces",
        type=_interface,
        action="append",
        default=[],
        metavar="GROUP=IF",
        help="an interface of a group",
    )
    add(
        "--entries",
        type=_file,
        action="append",
        default=[],
        metavar="TABLE=FILE",
        help="the entries of a table, in place of its files; also what pfctl -t TABLE -T show prints",
    )
    add(
        "--anchor",
        dest="anchors",
        type=_file,
        action="append",
        default=[],
        metavar="NAME=FILE",
        help="the rules of an anchor by name",
    )


def options_of(arguments: argparse.Namespace) -> RuleOptions:
    """The options that `add_rule_words` has read."""
    return RuleOptions(
        tuple(arguments.macros),
        tuple(arguments.addresses),
        tuple(arguments.interfaces),
        tuple(arguments.entries),
        tuple(arguments.anchors),
        arguments.ifconfig,
        arguments.root,
        arguments.strict,
        profile=arguments.profile,
        routes=arguments.routes,
    )
