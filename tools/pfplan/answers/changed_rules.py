"""A rules text with some of its numbers changed: its limits, its timeouts, and the maxima and timeouts of its rules.

A limit, a timeout or a share of `set syncookies adaptive` for all rules is changed by a `set` at the end of the text,
which replaces an earlier one (pf.conf(5), OPTIONS); so what pf derives from it, as the adaptive values from the
`states` limit, follows. A number of a rule is changed in the canonical text, which reads as the same configuration.
There, under the profile of OpenBSD, a `max` has the adaptive values that pfctl derives from it: they follow it, too.
"""

import difflib
import enum
import re
from collections.abc import Mapping, Sequence
from dataclasses import dataclass
from pathlib import Path

from pfplan.common.errors import Status, Trouble, reason_of
from pfplan.common.limits import NAT_PORTS, OF_ALL, OF_RULES
from pfplan.pf.profiles import Profile, profile_of
from pfplan.pf.reading_canonical_text import items_of
from pfplan.pf.routes import Routes, routes_of
from pfplan.replays.runs import show_rules

ADAPTIVE = ("adaptive.start", "adaptive.end")
# the shares of `set syncookies adaptive`, in percent of `states`
SYNCOOKIES = ("syncookies.start", "syncookies.end")
# how many ports `nat-to` of a rule takes from: two addresses have twice as many as one
PORTS = "nat-to.ports"
_NAT = re.compile(r" nat-to (\S+)(?: port (\d+)(?::(\d+))?|(?! static-port))(?= |$)")
_SHARES = re.compile(r"set syncookies adaptive \(start (\d+)%, end (\d+)%\)")
_OPTIONS = re.compile(r"^(.* (?:keep|synproxy) state \()(.*)\)$")
_COUNT = 4294967295
_RATE = 4294967
_SECONDS = 2147483647


class Kind(enum.Enum):
    """What a number bounds."""

    LIMIT = "limit"
    MAXIMUM = "maximum"
    TIMEOUT = "timeout"


@dataclass(frozen=True)
class Number:
    """A number of a rules text: `states`, `tcp.first`, `max-src-conn`. `rules` are the rules that state it; none where
    it is for all rules.

    `period` is `/60` for a rate of so many handshakes in 60 seconds, of which the number is that of handshakes.
    """

    name: str
    value: int
    rules: tuple[int, ...] = ()
    period: str = ""

    @property
    def kind(self) -> Kind:
        """Whether it is a limit, a maximum or a timeout; adaptive values are numbers of states, so limits, and those of
        syncookies shares of one."""
        if self.name in OF_ALL or self.name in ADAPTIVE or self.name in SYNCOOKIES:
            return Kind.LIMIT
        return Kind.MAXIMUM if self.name in OF_RULES or self.name == PORTS else Kind.TIMEOUT

    @property
    def title(self) -> str:
        """How it is told: `set limit states`, `max-src-conn-rate N/60 of @5`."""
        if self.name in SYNCOOKIES:
            return f"set {self.name.replace('.', ' ')}"
        if not self.rules:
            return f"set {'limit' if self.name in OF_ALL else 'timeout'} {self.name}"
        name = f"{self.name} N{self.period}" if self.period else self.name
        return f"{name} of {', '.join(f'@{it}' for it in self.rules)}"

    @property
    def unit(self) -> str:
        """What it counts."""
        if self.name in SYNCOOKIES:
            return "% of states"
        return "seconds" if self.kind is Kind.TIMEOUT else ""

    @property
    def bounds(self) -> tuple[int, int]:
        """The least and the greatest value that a rules text may have (docs/FORMATS.md, 1)."""
        if self.name == "max-src-conn-rate":
            return 1, _RATE
        if self.name == PORTS:
            return 1, NAT_PORTS[1]
        if self.name in ADAPTIVE:
            return 0, _COUNT
        if self.name in SYNCOOKIES:
            return 0, 100
        if self.kind is Kind.TIMEOUT:
            return (1 if self.name == "interval" else 0), _SECONDS
        return 1, _COUNT


class RulesText:
    """A rules text that `./pfsrc` accepts, with the numbers that stand in it."""

    def __init__(self, path: Path) -> None:
        """Reads the file and its canonical text. Trouble where it can't be read or is refused, as `show_rules`."""
        self.path = path
        self._shown = show_rules(path)
        self._derives_pairs = profile_of(self._shown) is Profile.OPENBSD
        try:
            self._text = path.read_bytes().decode("latin-1")
        except OSError as error:
            raise Trouble(f"{path}: can't be read: {reason_of(error)}", Status.FAILED) from None

    def items(self) -> list[str]:
        """The texts of the rules by number."""
        return items_of(self._shown)

    @property
    def routes(self) -> Routes:
        """The routes that it has."""
        return routes_of(self._shown)

    def settings(self) -> list[Number]:
        """The limits, timeouts and shares for all rules, as resolved."""
        found = []
        for line in self._shown[:2]:
            for part in line[line.index("{") + 1 : line.rindex("}")].split(","):
                name, value = part.split()
                found.append(Number(name, int(value)))
        shares = next(filter(None, map(_SHARES.match, self._shown)), None)
        return found + [Number(name, int(it)) for name, it in zip(SYNCOOKIES, shares.groups() if shares else ())]

    def options(self) -> list[Number]:
        """The maxima and timeouts of rules, one for each rule and option, and how many ports their `nat-to` takes
        from."""
        found = []
        for rule, line in enumerate(it for it in self._shown if _is_item(it)):
            ports = _ports_of(line)
            if ports is not None:
                found.append(Number(PORTS, len(ports), (rule,)))
            for option in _options_of(line):
                number = _number_of(option, rule)
                if number is not None:
                    found.append(number)
        return found

    def find(self, name: str) -> Number:
        """The number of a name: `states`, `tcp.first`, `max-src-conn` (of all rules that state it), `@5.max-src-conn`
        (of that rule).

        Of several rules the first one's value is told. Trouble with status 2 where the text has no such number.
        """
        settings = {it.name: it for it in self.settings()}
        if name in settings:
            return settings[name]
        place = re.fullmatch(r"@(\d{1,5})\.(.+)", name)
        options = self.options()
        found = [
            it for it in options if (it.name == place[2] and it.rules == (int(place[1]),) if place else it.name == name)
        ]
        if found:
            return Number(found[0].name, found[0].value, tuple(it.rules[0] for it in found), found[0].period)
        known = [*settings, *dict.fromkeys(it.name for it in options), *(f"@{it.rules[0]}.{it.name}" for it in options)]
        near = difflib.get_close_matches(name, known, 1)
        if place is None and name in OF_RULES:
            stated = ", ".join(dict.fromkeys(it.name for it in options if it.name in OF_RULES))
            raise Trouble(
                f"{self.path}: no rule states {name}; --vary takes {stated + ', ' if stated else ''}a limit as states, "
                "or a timeout as tcp.first"
            )
        raise Trouble(
            f"{self.path}: no number is named '{name}'"
            + (f"; is {near[0]} meant?" if near else f"; there are {', '.join(known)}")
        )

    def changed(self, values: Mapping[Number, int]) -> bytes:
        """The rules text in which the numbers have these values."""
        wanted = {(rule, number.name): value for number, value in values.items() for rule in number.rules}
        text = "\n".join(self._changed_lines(wanted)) if wanted else self._text
        lines = _settings_text(
            {number.name: value for number, value in values.items() if not number.rules}, self.settings()
        )
        return (text + "\n\n" + lines).encode("latin-1")

    def _changed_lines(self, wanted: Mapping[tuple[int, str], int]) -> list[str]:
        lines, rule = [], 0
        for line in self._shown:
            if not _is_item(line):
                lines.append(line)
                continue
            values = {name: value for (it, name), value in wanted.items() if it == rule}
            derives = "max" in values and not values.keys() & set(ADAPTIVE) and self._derives_pairs
            line = _with_ports(line, values.pop(PORTS)) if PORTS in values else line
            lines.append(_with_options(_underived(line) if derives else line, values))
            rule += 1
        return lines


def _is_item(line: str) -> bool:
    """Whether a line of a canonical text is a rule or the head of an anchor."""
    return line.strip() != "}" and not line.startswith(("set ", "table "))


def _options_of(line: str) -> list[str]:
    found = _OPTIONS.match(line)
    return found[2].split(", ") if found else []


def _ports_of(line: str) -> range | None:
    """The ports that `nat-to` of a rule takes from; None where it takes none."""
    found = _NAT.search(line)
    if found is None:
        return None
    first, last = (int(found[2]), int(found[3] or found[2])) if found[2] else NAT_PORTS
    return range(first, last + 1)


def _with_ports(line: str, count: int) -> str:
    """The line of a rule whose `nat-to` takes from so many ports: up to the same last one, unless there are too few."""
    ports = _ports_of(line)
    last = max(ports[-1] if ports else 0, count)
    return _NAT.sub(rf" nat-to \1 port {last - count + 1}:{last}", line)


def _number_of(option: str, rule: int) -> Number | None:
    """The number of an option, or None where it has none, as `source-track rule`."""
    found = re.fullmatch(r"([a-z][a-z.-]*) (\d+)(/\d+)?", option)
    return Number(found[1], int(found[2]), (rule,), found[3] or "") if found else None


def _underived(line: str) -> str:
    """The line of a rule without the adaptive values that pfctl derives from its `max`, if it has these."""
    most = re.search(r"\bmax (\d+)", line)
    tens = int(most[1]) // 10 if most else 0
    return line.replace(f", adaptive.start {6 * tens}, adaptive.end {min(_COUNT, 12 * tens)}", "", 1)


def _with_options(line: str, values: Mapping[str, int]) -> str:
    """The line of a rule with other values for some of its options."""
    found = _OPTIONS.match(line)
    if not values or not found:
        return line
    parts = []
    for option in found[2].split(", "):
        number = _number_of(option, 0)
        parts.append(
            f"{number.name} {values[number.name]}{number.period}" if number and number.name in values else option
        )
    return f"{found[1]}{', '.join(parts)})"


def _settings_text(values: Mapping[str, int], settings: Sequence[Number]) -> str:
    """The `set` lines that give these values. Of the adaptive values one is not accepted without the other."""
    known = {it.name: it.value for it in settings}
    given = dict(values)
    if any(name in given for name in ADAPTIVE):
        given = {**{name: known[name] for name in ADAPTIVE}, **given}
    start, end = (given.pop(name, known.get(name)) for name in SYNCOOKIES)
    limits = [f"{name} {value}" for name, value in given.items() if name in OF_ALL]
    times = [f"{name} {value}" for name, value in given.items() if name not in OF_ALL]
    text = f"set limit {{ {', '.join(limits)} }}\n" if limits else ""
    text += f"set timeout {{ {', '.join(times)} }}\n" if times else ""
    has_shares = any(name in values for name in SYNCOOKIES)
    return text + (f"set syncookies adaptive (start {start}%, end {end}%)\n" if has_shares else "")
