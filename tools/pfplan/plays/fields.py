"""The words of a scenario's tables: which there are, what each takes, and what it is where it is not given."""

import difflib
import ipaddress
import re
from collections.abc import Callable, Mapping, Sequence
from dataclasses import dataclass
from fractions import Fraction
from typing import Any

from pfplan.common.networks import Network, interface_name
from pfplan.plays.model import Endpoint

REQUIRED = object()
SECONDS = 1_000_000
HOSTS = 16_777_216
RATE = 1_000_000
MOST_SEED = 2_147_483_646
# what is said of a number that Python does not write out
TOO_LONG = "a number of more than 4,300 digits"


class Wanted(ValueError):
    """What stands there is none of what is taken; the text says what was wanted."""


@dataclass(frozen=True)
class Field:
    """A word: how its value is read, and its default. `low` and `high` bound it where it is a whole number."""

    name: str
    read: Callable[[Any], Any]
    default: Any = REQUIRED
    low: int = 0
    high: int = 0

    @property
    def is_number(self) -> bool:
        """Whether it takes whole numbers, so that --vary can move it."""
        return self.high > 0


def whole(name: str, low: int, high: int, default: Any = REQUIRED) -> Field:
    """A whole number."""

    def read(value: Any) -> int:
        if not isinstance(value, int) or isinstance(value, bool) or not low <= value <= high:
            raise Wanted(f"a whole number from {low} to {high}")
        return value

    return Field(name, read, default, low, high)


def rate(name: str) -> Field:
    """How many a second: a whole number, or one with up to three decimals."""

    def read(value: Any) -> Fraction:
        is_number = isinstance(value, int | float) and not isinstance(value, bool)
        if not is_number or not 0.001 <= value <= RATE:
            raise Wanted(f"a number a second, from 0.001 to {RATE}")
        return Fraction(value).limit_denominator(1000)

    return Field(name, read, REQUIRED, 1, RATE)


def flag(name: str, default: bool) -> Field:
    """`true` or `false`."""

    def read(value: Any) -> bool:
        if not isinstance(value, bool):
            raise Wanted("true or false")
        return value

    return Field(name, read, default)


def one_of(name: str, known: Sequence[str], default: Any = REQUIRED) -> Field:
    """One of the known words."""

    def read(value: Any) -> str:
        if value not in known:
            raise Wanted(f"one of {', '.join(known)}{near(value, known)}")
        return str(value)

    return Field(name, read, default)


def network(name: str) -> Field:
    """A prefix of either family."""
    return Field(name, lambda value: _network(_string(value, 'a network, as "198.51.100.0/24"')))


def networks(name: str) -> Field:
    """One prefix or a list of them."""
    return Field(
        name, lambda value: tuple(_network(it) for it in strings(value, "a network, or a list of networks")), ()
    )


def interface(name: str, default: Any) -> Field:
    """A name that an interface may have."""
    return Field(name, _interface, default)


def text(name: str) -> Field:
    """A text that is not empty."""
    return Field(name, lambda value: _string(value, "a text"))


def _string(value: Any, wanted: str) -> str:
    if not isinstance(value, str) or not value or "\0" in value:
        raise Wanted(wanted)
    return value


def strings(value: Any, wanted: str) -> list[str]:
    """One text or a list of texts, as a list."""
    found = value if isinstance(value, list) else [value]
    if not found:
        raise Wanted(wanted)
    return [_string(it, wanted) for it in found]


def _network(value: str) -> Network:
    try:
        return ipaddress.ip_network(value, strict=False)
    except ValueError:
        raise Wanted(f"a network, as \"198.51.100.0/24\", and '{value}' is none") from None


def _interface(value: Any) -> str:
    try:
        return interface_name(_string(value, 'the name of an interface, as "em0"'))
    except ValueError as error:
        raise Wanted(f'the name of an interface, as "em0" ({error})') from None


def endpoint(value: str) -> Endpoint:
    """An address and a port."""
    found = re.fullmatch(r"\[([0-9A-Fa-f:.]+)\]:([0-9]{1,5})|([0-9.]+):([0-9]{1,5})", value)
    try:
        if found is None or int(found[2] or found[4]) > 65535:
            raise ValueError
        return Endpoint(ipaddress.ip_address(found[1] or found[3]), int(found[2] or found[4]))
    except ValueError:
        raise Wanted(
            f'an address and a port, as "192.0.2.1:80" or "[2001:db8::1]:80", and \'{value}\' is none'
        ) from None


def near(word: Any, known: Sequence[str]) -> str:
    """What is asked of a word that is not known, where it is near to one that is."""
    found = difflib.get_close_matches(str(word), known, 1)
    return f"; is {found[0]} meant?" if found else ""


def read_table(table: Mapping[str, Any], fields: Sequence[Field], others: Sequence[str] = ()) -> dict[str, Any]:
    """The values of a table by their words.

    Wanted with the word before its text where one is not there, not known, or not read.
    """
    known = [it.name for it in fields]
    for word in table:
        if word not in known and word not in others:
            everything = [*known, *others]
            raise Wanted(f"{word}: no such word" + (near(word, everything) or f"; there are {', '.join(everything)}"))
    found = {}
    for it in fields:
        if it.name not in table:
            if it.default is REQUIRED:
                raise Wanted(f"{it.name} is wanted, and is not there")
            found[it.name] = it.default
            continue
        try:
            found[it.name] = it.read(table[it.name])
        except Wanted as error:
            raise Wanted(f"{it.name}: wanted {error}; there is {shown(table[it.name])}") from None
    return found


def shown(value: Any) -> str:
    """A value of a table as it is told."""
    if isinstance(value, bool):
        return "true" if value else "false"
    try:
        whole_text = f'"{value}"' if isinstance(value, str) else str(value)
    except ValueError:
        return TOO_LONG
    return whole_text if len(whole_text) <= 60 else whole_text[:57] + ".."
