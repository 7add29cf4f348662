"""What stands in the canonical text of rules, as `./pfsrc show` prints it: the items, and of each the tables that it
names, its limits, and what a kill of it flushes."""

import re
from collections.abc import Collection, Mapping, Sequence
from dataclasses import dataclass, field

from pfplan.common.figures import counted
from pfplan.common.limits import BY_WORD, NAT_PORTS, NO_KEY, NO_PORT, OF_RULES
from pfplan.pf.profiles import Profile, profile_of
from pfplan.pf.routes import LOCAL, NO_ROUTES, Routes, routes_of

_LOOPBACK = re.compile(r"lo[0-9]*|any")
_TABLE = re.compile(r"<([A-Za-z0-9_.-]+)>")
_TRANSLATION = re.compile(r"( nat-to \S+(?: static-port| port (\d+)(?::(\d+))?)?| rdr-to \S+(?: port \d+)?)")
_REDIRECTED = re.compile(r" rdr-to (\S+)")
_OVERLOAD = re.compile(r"overload <([A-Za-z0-9_.-]+)>( flush)?( global)?")


@dataclass(frozen=True, slots=True)
class Overload:
    """The `overload` of a rule: its table, whether a kill takes the source's other states of the rule, and whether
    those of all rules."""

    table: str
    flushes: bool
    is_global: bool


def items_of(shown: Sequence[str]) -> list[str]:
    """The rules and heads of anchors of a canonical text: the n-th is that of `@n`."""
    return [it.strip() for it in shown if it.strip() != "}" and not it.startswith(("set ", "table "))]


def interfaces_of(items: Sequence[str], skipped: Collection[int] = ()) -> set[str]:
    """The interfaces whose packets some rule is for: those that rules name, but for `!` and loopback, on which nothing
    comes from elsewhere. The items in `skipped` stand for `set skip`, which asks no rule."""
    found = set()
    for number, text in enumerate(items):
        words = text.split(" ")
        if number not in skipped and "on" in words[:-1]:
            found.add(words[words.index("on") + 1])
    return {it for it in found if not it.startswith("!") and not _LOOPBACK.fullmatch(it)}


def forwarding_in(items: Sequence[str], seen: Collection[str], skipped: Collection[int] = ()) -> list[str]:
    """The interfaces of rules that let packets through, but for loopback and those of which records were seen: what
    goes through there is forwarded, or of another network."""
    if not seen:
        return []
    passing = {number for number, text in enumerate(items) if text.startswith("pass ")}
    return sorted(interfaces_of(items, set(range(len(items))) - passing | set(skipped)) - set(seen))


def overload_of(text: str) -> Overload | None:
    """The overload of a rule's text, or None."""
    found = _OVERLOAD.search(text)
    return Overload(found[1], bool(found[2]), bool(found[3])) if found else None


def tables_of(text: str) -> list[str]:
    """The tables that a rule asks for as hosts, without that of its overload."""
    return list(dict.fromkeys(_TABLE.findall(_OVERLOAD.sub("", text))))


def tables_in(lines: Sequence[str]) -> dict[str, bool]:
    """The tables that a text names, in any place, and whether each is `const`. The lines are as pfsrc shows them, or as
    they are written of a pf.conf."""
    found: dict[str, bool] = {}
    for line in lines:
        head = line.partition("{")[0] if line.startswith("table <") else ""
        for it in _TABLE.findall(head or line if not line.startswith("#") else ""):
            found[it] = found.get(it, False) or "const" in head.split()
    return found


@dataclass(frozen=True, slots=True)
class Flushes:
    """What kills take besides the state past a limit: the rules with `flush`, by `@N`, and whether it is `flush
    global`.

    Of a source they take the states that it made. As pf has it they `go_by_ends`: of a state made by a packet in, they
    take those of which the source is the end from which packets come in; of one made by a packet out, the other end.
    With `routes` either may be the state of one of a packet's two interfaces.
    """

    rules: Mapping[str, bool] = field(default_factory=dict)
    go_by_ends: bool = False
    routes: Routes = NO_ROUTES


def flushes_of(shown: Sequence[str]) -> Flushes:
    """What kills flush by a canonical text."""
    found = {f"@{number}": overload_of(text) for number, text in enumerate(items_of(shown))}
    rules = {rule: it.is_global for rule, it in found.items() if it is not None and it.flushes}
    return Flushes(rules, profile_of(shown) is Profile.OPENBSD, routes_of(shown))


def redirected_to(items: Sequence[str], routes: Routes) -> set[str]:
    """The interfaces by which packets leave that `rdr-to` has given another destination."""
    found = (it for text in items for it in _REDIRECTED.findall(text))
    return {routes.to(it) for it in found} - {LOCAL}


def limit_of(text: str, word: str) -> str:
    """The options of a rule that a word of a report names, as `max-src-conn-rate 3/10`, or what it translates, with the
    ports that it has; nothing where it names none of the rule's."""
    if word in (NO_PORT, NO_KEY):
        found = _TRANSLATION.findall(text)
        return ", ".join(f"{it[0].strip()}{_ports_text(it) if word == NO_PORT else ''}" for it in found)
    names = word.partition(":")[2].split("+")
    options = {name: value for name, value in re.findall(r"[(,] ?([a-z-]+) (\d+(?:/\d+)?)", text)}
    return ", ".join(f"{name} {options[name]}" for name in names if name in OF_RULES and name in options)


def _ports_text(found: Sequence[str]) -> str:
    """How many ports a `nat-to` has to take from; nothing where it takes none."""
    text, low, high = found
    if not text.startswith(" nat-to") or text.endswith("static-port"):
        return ""
    first, last = (int(low), int(high or low)) if low else NAT_PORTS
    return f", {counted(last - first + 1, 'port')} for each remote address and port"


def limit_of_all(settings: Mapping[str, int], word: str) -> str:
    """The limit for all rules that a word names, as `set limit states 100000`; nothing where it names none."""
    name = BY_WORD.get(word, "")
    return f"set limit {name} {settings[name]}" if name in settings else ""


def settings_of(shown: Sequence[str]) -> dict[str, int]:
    """The limits for all rules, by the first line of a canonical text."""
    line = next((it for it in shown if it.startswith("set limit ")), "")
    return {name: int(value) for name, value in re.findall(r"([a-z-]+) (\d+)", line.removeprefix("set limit "))}
