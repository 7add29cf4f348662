"""The texts of cases/pf_conf, one for a kind of site: each construct comes whole or is told, and no rule comes out
wider.

A plain reader, which shares nothing with pfplan's, splits a text into statements: macros put in, continued lines
joined, lists kept together. It writes the combinations that a rule stands for. Each must be one of an item that came of
the statement, or what it is made of must be told by the statement's line. So must each other part: a translation, a
tag, an option of a state. An item may be no other combination, and may lack no part that makes it match less.

The test says nothing of which parts a rules text can carry: it holds whether translation is carried or told. Whether
the older translation has the same effect, with tags of pfplan's own and states of its own, test_old_order.py says.
"""

import contextlib
import functools
import io
import ipaddress
import itertools
import json
import re
import subprocess
import tempfile
import unittest
from collections.abc import Iterable, Iterator, Sequence
from dataclasses import dataclass, field, replace
from pathlib import Path
from typing import TypeVar

from pfplan.__main__ import main
from pfplan.common.inputs import take_none
from pfplan.common.repository import TOP, program
from pfplan.tests.support import Done

FOLDER = TOP / "cases/pf_conf"
IFCONFIG = FOLDER / "ifconfig"
WORD = re.compile(r'"[^"]*"|->|[!<>=]=|><|<>|<[A-Za-z0-9_.:-]+>|[{}(),=!<>]|[^\s{}(),=!<>"]+')
TOLD = re.compile(r".*: line (\d+): left out: (.*): (?:can change an answer \(([a-z ]+)\)|changes no answer): .*")
COUNT = re.compile(r".*: (\d+) items?; left out: (\d+) that can change an answer, (\d+) that change none")
OPENED = {"{": 1, "(": 1, "}": -1, ")": -1}
NUMBERS = {
    "icmp": "1", "ipencap": "4", "tcp": "6", "udp": "17", "esp": "50", "icmp6": "58", "carp": "112", "pfsync": "240",
    "ftp-data": "20", "ftp": "21", "ssh": "22", "smtp": "25", "domain": "53", "bootps": "67", "bootpc": "68",
    "http": "80", "www": "80", "pop3": "110", "auth": "113", "nntp": "119", "ntp": "123", "https": "443",
    "isakmp": "500", "syslog": "514", "dhcpv6-client": "546", "dhcpv6-server": "547", "submission": "587",
    "imaps": "993", "pop3s": "995", "openvpn": "1194", "cvspserver": "2401", "ipsec-nat-t": "4500", "sip": "5060",
    "spamd": "8025", "spamd-sync": "8025",
}  # fmt: skip
TRANSLATIONS = ("nat-to", "rdr-to", "binat-to", "af-to")
ELSEWHERE = ("route-to", "reply-to", "divert-to")
NARROWING = (
    "tagged", "user", "group", "received-on", "os", "tos", "icmp-type", "icmp6-type", "probability", "max-pkt-rate",
    "flags",
)  # fmt: skip
FILTER = ("in", "out", "on", "inet", "inet6", "proto", "all", "from", "to")
PARTS = (
    *FILTER, *NARROWING, *TRANSLATIONS, *ELSEWHERE, "log", "quick", "keep", "modulate", "synproxy", "no", "label",
    "tag", "set", "queue", "rtable", "scrub",
)  # fmt: skip
ANSWERS = ("drop", "return")
OLD = {"nat": "nat-to", "rdr": "rdr-to", "binat": "binat-to"}
OLD_WAYS: dict[str, tuple[tuple[str, ...], ...]] = {"nat": (("out",),), "rdr": (("in",),), "binat": ()}
NEVER_ITEMS = ("scrub", "altq", "queue")
# words that a rules text has, or that are told by themselves where one address stands for a pool
NEVER_IN_A_POOL = ("static-port", "sticky-address")
PORTS = re.compile(r"\d+(:\d+|:\*)?")
# tags that pfplan gives by itself, in place of the first match of the older translation
OWN_TAGS = ("translated-out", "translated-in")
OPTIMIZATIONS = {
    "normal": "tcp.first 120 tcp.opening 30 tcp.established 86400 tcp.closing 900 tcp.finwait 45 tcp.closed 90",
    "aggressive": "tcp.first 30 tcp.opening 5 tcp.established 18000 tcp.closing 60 tcp.finwait 30 tcp.closed 30",
    "conservative": "tcp.first 3600 tcp.opening 900 tcp.established 432000 tcp.closing 3600 tcp.finwait 600"
    " tcp.closed 180",
}
# what a line on standard error may say beside words of the statement
ABOUT = {"of", "entry", "const", "that", "is", "a", "group", "antispoof"}

T = TypeVar("T")
Words = tuple[str, ...]
Network = ipaddress.IPv4Network | ipaddress.IPv6Network
Combination = tuple[str, ...]


@dataclass(frozen=True)
class Statement:
    """A statement: its line, its words, how many anchors are around it, and what stood before it and gives it a part
    that it does not write."""

    line: int
    words: Words
    depth: int = 0
    policy: str = "drop"
    defaults: tuple[Words, ...] = ()


@dataclass(frozen=True)
class Told:
    """What a line of standard error says of a line of the text."""

    line: int
    words: Words
    way: str
    puts: str = ""  # the one address or port that stands for several

    @property
    def changes(self) -> bool:
        """Whether it is said to change an answer."""
        return bool(self.way)


@dataclass(frozen=True)
class Answer:
    """What came of a statement: its items, how many anchors are around them, what is told of its line, and the settings
    and tables of the whole text."""

    items: tuple[Words, ...]
    told: tuple[Told, ...]
    lines: tuple[Words, ...] = ()
    depths: frozenset[int] = frozenset()

    def is_told(self, words: Words) -> bool:
        """Whether something is told that has these words side by side, and not of an item of a list alone."""
        return any(has_words(it.words, words) for it in self.told if "of:" not in it.words)

    def is_told_whole(self, words: Words) -> bool:
        """Whether a statement is told as it stands."""
        return any(it.words == words for it in self.told)

    def is_gap(self, item: Words) -> bool:
        """Whether an item of a list is told as one that is not there."""
        return any(it.words[: len(item) + 1] == (*item, "of:") for it in self.told)


@dataclass(frozen=True)
class Machine:
    """The interfaces of the site: the addresses of each with their networks, and the members of groups."""

    addresses: dict[str, list[tuple[Network, Network]]] = field(default_factory=dict)
    groups: dict[str, list[str]] = field(default_factory=dict)

    def members(self, name: str) -> list[str]:
        """The interfaces of a group, or the one of this name."""
        return [name] if name in self.addresses else self.groups.get(name, ["lo0"] if name == "lo" else [name])

    def networks(self, text: str, is_dynamic: bool) -> list[Network] | None:
        """What a name of an interface stands for, or None."""
        name, *modifiers = text.split(":")
        names = list(self.addresses) if name == "self" else self.members(name)
        if not all(it in self.addresses for it in names) or not names:
            return None
        found = [pair for it in names for pair in self.addresses[it]]
        if is_dynamic and "0" in modifiers or "network" in modifiers:
            found = [pair for pair in found if not pair[0].is_link_local]
        if "0" in modifiers:
            versions = {pair[0].version for pair in found}
            found = [next(pair for pair in found if pair[0].version == it) for it in versions]
        return [pair["network" in modifiers] for pair in found]

    def zone(self, network: Network) -> str:
        """The interface that has this address, where it is link-local."""
        if not network.is_link_local:
            return ""
        return next((name for name, pairs in self.addresses.items() if network in (it[0] for it in pairs)), "")


def read_machine(text: str) -> Machine:
    """The machine of which ifconfig told."""
    machine, name = Machine(), ""
    for line in text.splitlines():
        words = line.split()
        if not line.startswith("\t"):
            name = words[0].rstrip(":")
            machine.addresses[name] = []
        elif words[0] == "groups:":
            for it in words[1:]:
                machine.groups.setdefault(it, []).append(name)
        elif words[0] in ("inet", "inet6"):
            address = ipaddress.ip_address(words[1].split("%")[0])
            behind = dict(itertools.pairwise(words))
            length = int(behind.get("prefixlen", 0)) or int(behind["netmask"], 16).bit_count()
            network = ipaddress.ip_network(f"{address}/{length}", strict=False)
            machine.addresses[name].append((ipaddress.ip_network(address), network))
    return machine


def has_words(whole: Sequence[str], part: Words) -> bool:
    """Whether words stand side by side in others."""
    return any(tuple(whole[at : at + len(part)]) == part for at in range(len(whole) - len(part) + 1))


def words_of(text: str) -> Words:
    """The words of a text on one line, without commas."""
    return tuple(it for it in WORD.findall(text) if it != ",")


def without_comment(line: str) -> str:
    """A line up to the mark of a comment that is in no quotes."""
    found = re.match(r'(?:[^"#]|"[^"]*")*', line)
    return found[0] if found else ""


def statements(text: str) -> list[Statement]:
    """The statements of a text, but for macros, which are put in."""
    macros: dict[str, str] = {}
    found: list[Statement] = []
    open_words: list[str] = []
    first, anchors = 0, 0
    for number, raw in enumerate(text.splitlines(), 1):
        line = without_comment(raw).rstrip()
        first = first if open_words else number
        for word in WORD.findall(line.removesuffix("\\")):
            is_put_in = "$" in word and not word.startswith('"')
            open_words += words_of(re.sub(r"\$(\w+)", lambda it: macros[it[1]], word)) if is_put_in else [word]
        depth = sum(OPENED.get(it, 0) for it in open_words)
        if line.endswith("\\") or depth > 0 and open_words[0] != "anchor":
            continue
        words = tuple(it for it in open_words if it != ",")
        open_words = []
        if words[1:2] == ("=",):
            macros[words[0]] = " ".join(it.strip('"') for it in words[2:])
        elif words == ("}",):
            anchors -= 1
        elif words:
            is_opened = words[0] == "anchor" and words[-1] == "{"
            found.append(Statement(first, words[:-1] if is_opened else words, anchors))
            anchors += is_opened
    return list(with_settings(found))


def with_settings(found: Iterable[Statement]) -> Iterator[Statement]:
    """The statements, each with what `set block-policy` and `set state-defaults` above it give it."""
    policy = "drop"
    defaults: tuple[Words, ...] = ()
    for it in found:
        if it.words[:2] == ("set", "block-policy"):
            policy = it.words[2]
        elif it.words[:2] == ("set", "state-defaults"):
            defaults = tuple((word,) for word in it.words[2:] if word != "pflow")
        yield replace(it, policy=policy, defaults=defaults)


def parts_of(words: Words) -> tuple[Words, ...]:
    """The parts of a rule behind its action, each from its first word on."""
    parts: list[list[str]] = []
    depth = 0
    for word in words:
        last = parts[-1] if parts else []
        is_inside = last[:1] == ["af-to"] and word in FILTER or last == ["set"]
        if last[-1:] == ["!"] and word in NARROWING:
            last.pop()
            parts.append(["!", word])
        elif not parts or depth == 0 and word in PARTS and not is_inside:
            parts.append([word])
        else:
            last.append(word)
        depth += OPENED.get(word, 0)
    return tuple(tuple(it) for it in parts if it)


def kind_of(part: Words) -> str:
    """The word that says what a part is."""
    return part[1] if part[0] == "!" else part[0]


def listed(words: Words) -> list[Words]:
    """The items of a list, or the one that stands alone."""
    found: list[list[str]] = []
    is_open = False
    for word in words:
        if word in ("{", "}"):
            continue
        if is_open or word in (")", "-", "><"):
            found[-1].append(word)
        else:
            found.append([word])
        is_open = word in ("!", "(", "=", "!=", ">", ">=", "-", "><", "rdomain") or "(" in found[-1] and word != ")"
    return [tuple(it) for it in found]


@dataclass(frozen=True)
class Rule:
    """A rule or the head of an anchor: its action, what it filters by, and its other parts."""

    action: Words
    parts: tuple[Words, ...]
    is_old: bool = False

    def part(self, *kinds: str) -> Words:
        """What stands behind the first word of a part of these kinds; nothing where there is none."""
        return next((it[1:] for it in self.parts if kind_of(it) in kinds), ())

    def word(self, *kinds: str) -> str:
        """Which of these parts it has, or nothing."""
        return next((kind_of(it) for it in self.parts if kind_of(it) in kinds), "")

    def others(self) -> list[Words]:
        """The parts that are neither hosts, ports, protocols nor interfaces."""
        return [it for it in self.parts if kind_of(it) not in FILTER]


def read_rule(words: Words) -> Rule:
    """The rule that words write, of the text or of the rules that came of it; the older translations too."""
    if words[0] == "no" and words[1] in OLD:
        return Rule(("match",), (*OLD_WAYS[words[1]], *parts_of(words[2:])), is_old=True)
    if words[0] in OLD:
        return old_rule(words)
    more = 2 if words[0] == "block" and words[1:2] and words[1] in ANSWERS else 1
    if words[0] == "anchor" and words[1:2] and words[1] not in PARTS:
        more = 2
    return Rule(words[:more], parts_of(tuple(it for it in words[more:] if words[0] != "anchor" or it != "{")))


def old_rule(words: Words) -> Rule:
    """`nat`, `rdr` or `binat` as the rule that says the same today."""
    behind = words.index("->")
    kind, *head = words[:behind]
    action = "pass" if head[:1] == ["pass"] else "match"
    direction = OLD_WAYS[kind] or (("out",),)
    asked = tuple(head[1:] if action == "pass" else head)
    return Rule((action,), (*direction, *parts_of(asked), (OLD[kind], *words[behind + 1 :])), is_old=True)


@dataclass(frozen=True)
class Reader:
    """Writes the combinations that a rule stands for. `made` are tables that are not of the text, `known` the
    combinations that were asked for before, by a rule's parts."""

    machine: Machine
    made: dict[str, list[Network]]
    known: dict[tuple[Words, ...], dict[Combination, list[Words]]] = field(default_factory=dict)

    def combinations(self, rule: Rule) -> dict[Combination, list[Words]]:
        """Each combination, with the items of lists that it is made of: pf has those of the same items in one rule."""
        if rule.parts not in self.known:
            self.known[rule.parts] = self.combined(rule)
        return self.known[rule.parts]

    def combined(self, rule: Rule) -> dict[Combination, list[Words]]:
        """As `combinations`, made anew."""
        family = rule.word("inet", "inet6")
        axes: list[list[tuple[Words, Combination]]] = [
            [((), (it,)) for it in ([rule.word("in", "out")] if rule.word("in", "out") else ["in", "out"])],
            [(it, (name,)) for it in listed(rule.part("on")) or [()] for name in self.interfaces(it)],
            [(it, (NUMBERS.get(it[0], it[0]) if it else "",)) for it in listed(rule.part("proto")) or [()]],
            self.side(rule.part("from"), family),
            self.side(rule.part("to"), family),
        ]
        found: dict[Combination, list[Words]] = {}
        for chosen in itertools.product(*axes):
            texts, values = [it[0] for it in chosen], [it[1] for it in chosen]
            families = {family, values[3][0], values[4][0]} - {""}
            on = {*values[1], values[3][1], values[4][1]} - {""}
            if len(families) < 2 and len(on) < 2:
                hosts = itertools.chain.from_iterable(it[2:] for it in values[3:])
                found[(*values[0], "".join(on), *values[2], "".join(families), *hosts)] = texts
        return found

    def interfaces(self, item: Words) -> list[str]:
        """The interfaces that an item behind `on` stands for."""
        if not item or item[0] == "rdomain":
            return [" ".join(item)]
        members = self.machine.members(item[-1])
        if item[0] != "!":
            return members
        if len(members) == 1:
            return [f"! {members[0]}"]
        return [it for it in self.machine.addresses if it not in members]

    def side(self, words: Words, family: str) -> list[tuple[Words, Combination]]:
        """The hosts and ports of one side: their items, where a static name has its address for its own; the family of
        the host, the interface that it is on, and both."""
        at = words.index("port") if "port" in words else len(words)
        ports = [(item, it) for item in listed(words[at + 1 :]) for it in ranges(item)] or [((), "")]
        hosts = [(item, it) for item in listed(words[:at]) or [("any",)] for it in self.host(item, family)]
        found = []
        for (item, host), (number, port) in itertools.product(hosts, ports):
            is_static = item[-1] != ")" and host[-1] != " ".join(item)
            found.append(((*(host[-1:] if is_static else item), *number), (*host, port)))
        return found

    def host(self, item: Words, family: str) -> list[Combination]:
        """Each address that an item stands for: its family, the interface that it is on where it is link-local and
        named by its interface, and its text."""
        is_negated, text = item[0] == "!", item[-2] if item[-1] == ")" else item[-1]
        if "-" in item:
            ends = [ipaddress.ip_address(it) for it in item[::2]]
            networks: list[Network] | None = [*ipaddress.summarize_address_range(ends[0], ends[1])]
        elif text.startswith("<"):
            networks = self.made.get(text)
        else:
            networks = self.networks(text, is_dynamic=item[-1] == ")")
        if networks is None:
            return [("", "", " ".join(item))]
        fitting = [it for it in networks if not family or family_of(it) == family]
        if is_negated and (item[-1] == ")" or text.startswith("<")):
            return [(family_of(fitting[0]), "", f"! {' '.join(sorted(map(str, fitting)))}")]
        is_named = item[-1] != ")" and text[0].isalpha() and ":" not in text
        zones = [self.machine.zone(it) if is_named else "" for it in fitting]
        return [(family_of(it), zone, f"{'! ' if is_negated else ''}{it}") for it, zone in zip(fitting, zones)]

    def networks(self, text: str, is_dynamic: bool) -> list[Network] | None:
        """What an address or the name of an interface stands for; None where it is neither."""
        if re.fullmatch(r"[0-9.]+/[0-9]+", text):
            address, _, length = text.partition("/")
            text = f"{address}{'.0' * (3 - address.count('.'))}/{length}"
        try:
            return [ipaddress.ip_network(text, strict=False)]
        except ValueError:
            return self.machine.networks(text, is_dynamic)

    def pool(self, part: Words, family: str) -> tuple[set[str], set[str]]:
        """The addresses of a family that a translation puts in, and its other words."""
        hosts: set[str] = set()
        others: set[str] = set()
        for item in listed(part[1:]):
            networks = None if item[-1].isdecimal() else self.networks(item[-2] if item[-1] == ")" else item[-1], True)
            if networks or item[-1].startswith("<"):
                fitting = [it for it in networks or () if not family or family_of(it) == family]
                hosts.update(map(str, fitting or item))
            else:
                others.update(NUMBERS.get(it, it) for it in item)
        return hosts, others


def family_of(network: Network) -> str:
    """The family of a network, as a rule writes it."""
    return "inet" if network.version == 4 else "inet6"


def ranges(item: Words) -> list[str]:
    """The ranges of ports that an item stands for, with both ends in them."""
    numbers = [int(NUMBERS.get(it, it)) for it in ":".join(item).split(":") if it not in ("=", "!=", ">", ">=", "><")]
    low, high = numbers[0], numbers[-1]
    found = {
        "!=": [(0, low - 1), (low + 1, 65535)],
        ">": [(low + 1, 65535)],
        ">=": [(low, 65535)],
    }.get(item[0], [(low, high)])
    return [f"{first}:{last}" for first, last in ([(low + 1, high - 1)] if "><" in item else found)]


@dataclass(frozen=True)
class Checker:
    """Says what is wrong with what came of a statement: what is lost, what is wider, what is told and is not so."""

    reader: Reader

    def faults(self, statement: Statement, answer: Answer) -> list[str]:
        """All that is wrong, or nothing."""
        words = statement.words
        found = list(self.false_words(statement, answer))
        found += ["in another anchor"] * (not answer.depths <= {statement.depth})
        if answer.is_told_whole(words):
            return found + ["told as left out, and it is there"] * bool(answer.items)
        if words[0] == "set":
            return found + list(self.setting(statement, answer))
        if words[0] == "table":
            return found + list(self.table(words, answer))
        if words[0] == "antispoof":
            return found + list(self.antispoof(statement, answer))
        if not answer.items:
            return [*found, "lost"]
        if words[0] in NEVER_ITEMS:
            return [*found, "it makes rules"]
        if words[0] == "no" or words[0].endswith("-anchor"):
            found += ["it passes or blocks"] * any(it[0] in ("pass", "block") for it in answer.items)
            items = [as_old(read_rule(it)) for it in answer.items]
            wanted = self.reader.combinations(read_rule(words)) if words[0] == "no" else {}
            count = sum(len(self.reader.combinations(it)) for it in items)
            found += ["it asks the same twice"] * (count > len(wanted))
            return found + list(self.compared(wanted, answer, items))
        return found + list(self.rule(statement, answer))

    def false_words(self, statement: Statement, answer: Answer) -> Iterator[str]:
        """What is told and does not stand in the statement, or is said to change nothing and does."""
        own = {*statement.words, *ABOUT}
        for it in answer.told:
            if not {word.removesuffix(":") for word in it.words} <= {word.removesuffix(":") for word in own}:
                yield f"told of a statement that does not say it: {' '.join(it.words)}"
            is_old = it.words[0] in OLD or it.words[0] == "no" and it.words[1] in OLD
            does = is_old or {*TRANSLATIONS, *ELSEWHERE} & {*it.words}
            if does and not it.changes and "icmp-type" not in it.words and "icmp6-type" not in it.words:
                yield f"told as changing no answer: {' '.join(it.words)}"
            if it.words == statement.words and it.changes and it.way not in ways_of(statement.words):
                yield f"told as changing answers the other way: {it.way}"

    def setting(self, statement: Statement, answer: Answer) -> Iterator[str]:
        """What is lost of a setting."""
        _, name, *words = statement.words
        if name in ("limit", "timeout"):
            flat = [it for it in words if it not in ("{", "}")]
            for what, value in zip(flat[::2], flat[1::2], strict=True):
                lines = [it for it in answer.lines if it[:2] == ("set", name) and what in it]
                is_there = bool(lines) and lines[-1][lines[-1].index(what) + 1] == value
                if not is_there and not answer.is_told(("set", name, what)):
                    yield f"lost: {name} {what} {value}"
        elif name == "optimization":
            flat = OPTIMIZATIONS[words[0]].split()
            if not any(has_words(it, tuple(flat)) for it in answer.lines):
                yield "lost: its timeouts"
        elif name == "skip":
            names = {it for item in listed(tuple(words[1:])) for it in self.reader.machine.members(item[0])}
            if {*answer.items} != {("pass", "quick", "on", it, "all", "no", "state") for it in names}:
                yield "it skips other interfaces"
        elif name == "syncookies":
            if not any(it[: len(statement.words)] == statement.words for it in answer.lines):
                yield "lost"
        elif name == "state-defaults":
            if not all((it,) in statement.defaults or answer.is_told((it,)) for it in words):
                yield "lost"
        elif name != "block-policy":
            yield "lost"

    def table(self, words: Words, answer: Answer) -> Iterator[str]:
        """What is lost of a table, or is more in it."""
        lines = [it for it in answer.lines if it[:2] == words[:2]]
        if len(lines) != 1:
            yield "lost"
            return
        wanted, there = table_of(words), table_of(lines[0])
        for part in wanted - there:
            if not answer.is_told(part) and not answer.is_told(("entry", *part)):
                yield f"lost: {part}"
        if there - wanted:
            yield f"more: {there - wanted}"

    def antispoof(self, statement: Statement, answer: Answer) -> Iterator[str]:
        """What is lost of the rules that block spoofed addresses, or is more."""
        words = statement.words
        at = words.index("for")
        family = tuple(it for it in words[at:] if it in ("inet", "inet6"))
        head = ("block", "drop", "in", *(it for it in ("log", "quick") if it in words[:at]))
        behind = next((number for number, it in enumerate(words) if it in ("inet", "inet6", "label")), len(words))
        wanted: dict[Combination, list[Words]] = {}
        for (name,) in listed(words[at + 1 : behind]):
            wanted |= self.reader.combinations(
                read_rule((*head, "on", "!", name, *family, "from", f"{name}:network", "to", "any"))
            )
            if name != "lo0":
                wanted |= self.reader.combinations(read_rule((*head, *family, "from", name, "to", "any")))
        yield from self.compared(wanted, answer, [read_rule(it) for it in answer.items])
        if any(it[: len(head)] != head for it in answer.items):
            yield "its rules do something else"
        if "label" in words and not answer.is_told(words[words.index("label") :]):
            yield "lost: its label"

    def compared(self, wanted: dict[Combination, list[Words]], answer: Answer, rules: list[Rule]) -> Iterator[str]:
        """The combinations that are wider than those that are wanted, and those that are lost."""
        found = {it for rule in rules for it in self.reader.combinations(rule)}
        for it in found - wanted.keys():
            yield f"wider: {' '.join(it)}"
        for it in wanted.keys() - found:
            if not any(item[:length] and answer.is_gap(item[:length]) for item in wanted[it] for length in (1, 2, 3)):
                yield f"lost: {' '.join(it)}"

    def rule(self, statement: Statement, answer: Answer) -> Iterator[str]:
        """What is lost of a rule or the head of an anchor, and what makes it wider."""
        rule = read_rule(statement.words)
        items = [read_rule(it) for it in answer.items]
        if rule.is_old:
            bases = [it for it in items if rule.action == ("match",) and is_base(it)]
            items = [as_old(it) for it in items if it not in bases]
            yield from self.old(rule, items, bases)
        actions = {rule.action, (*rule.action, statement.policy) if rule.action == ("block",) else rule.action}
        if rule.action == ("block",) and statement.policy == "drop":
            actions.add(("block",))
        if statement.words[1:2] == ("pass",) and answer.is_told(("pass",)):
            actions.add(("match",))
        if any(it.action not in actions for it in items):
            yield "another action"
        yield from self.compared_both_ways(rule, answer, items)
        for part in rule.others():
            for it in items:
                yield from self.part(part, it, answer)
        yield from self.more_parts(statement, rule, items)
        if counts(statement.words):
            wanted = self.reader.combinations(rule)
            one = [{tuple(wanted.get(key, ())) for key in self.reader.combinations(it)} for it in items]
            if any(first & second for first, second in itertools.combinations(one, 2)):
                yield "several rules that count apart"

    def old(self, rule: Rule, items: list[Rule], bases: list[Rule]) -> Iterator[str]:
        """What is wider or lost of the states that an older translation makes: by rules in front of it, or by a rule
        that passes itself."""
        asked = {it for item in items for it in self.reader.combinations(item)}
        if not {it for base in bases for it in self.reader.combinations(base)} <= asked:
            yield "wider: a state of other packets"
        is_passing = rule.action == ("pass",) and all(it.action == ("pass",) for it in items)
        if is_passing and any(not (it.part("flags") and it.part("keep") and it.word("quick")) for it in items):
            yield "lost: it passes without the rules, with a state for all flags"

    def compared_both_ways(self, rule: Rule, answer: Answer, items: list[Rule]) -> Iterator[str]:
        """As `compared`. A rule with binat-to stands for packets out, and for those in to the address that it puts in;
        the first of them may be told apart."""
        wanted = self.reader.combinations(rule)
        pool = rule.part("binat-to")
        if not pool:
            yield from self.compared(wanted, answer, items)
            return
        back = [("in",), ("from", *(rule.part("to") or ("any",))), ("to", *pool)]
        kept = [it for it in rule.parts if kind_of(it) not in ("in", "out", "all", "from", "to", "binat-to")]
        turned = self.reader.combinations(Rule(rule.action, (*back, *kept)))
        inward = [it for it in items if it.word("in", "out") == "in" and it.part("rdr-to")]
        if inward or answer.is_told(("binat-to",)):
            wanted = {key: it for key, it in wanted.items() if key[0] == "out"}
        yield from self.compared(wanted, answer, [it for it in items if it not in inward])
        if inward:
            yield from self.compared(turned, answer, inward)
        elif any(it.part("nat-to") for it in items) and not answer.is_told(("binat-to",)):
            yield "lost: packets in to its address"

    def part(self, part: Words, item: Rule, answer: Answer) -> Iterator[str]:
        """Whether an item lacks a part that is not told, or one without which it is wider."""
        kind = kind_of(part)
        if kind in TRANSLATIONS:
            yield from self.translation(part, item, answer)
        elif kind in ("keep", "modulate", "synproxy"):
            clause = next((it for it in item.parts if it[0] in ("keep", kind)), ())
            if clause[:1] != part[:1] and not answer.is_told((kind, "state")) or not clause:
                yield f"lost: {kind} state"
            for option in options_of(part):
                if option not in options_of(clause) and not answer.is_told(option):
                    yield f"lost: {option}"
        elif part not in item.parts and (kind in NARROWING or not answer.is_told(part)):
            yield f"{'wider' if kind in NARROWING else 'lost'}: without {' '.join(part)}"

    def translation(self, part: Words, item: Rule, answer: Answer) -> Iterator[str]:
        """Whether an item translates as its rule does, or that is told."""
        wholes = (part, ("->", *part[1:]))
        told = next((it for it in answer.told if any(has_words(it.words, whole) for whole in wholes)), None)
        if told is not None and not told.puts:
            return
        kinds = ("binat-to", "nat-to", "rdr-to") if part[0] == "binat-to" else part[:1]
        families = {it[3] for it in self.reader.combinations(item)}
        family = part[1] if kind_of(part) == "af-to" else "".join(families) if len(families) == 1 else ""
        hosts, others = self.reader.pool(part, family)
        there = next((it for it in item.parts if it[0] in kinds), ())
        if not there:
            yield f"lost: {' '.join(part)}"
            return
        hosts_there, others_there = self.reader.pool(there, family)
        if told is not None:
            hosts = {str(ipaddress.ip_network(told.puts))}
            said = {it.words[-1] for it in answer.told if it is not told}
            others = {it for it in others if it in NEVER_IN_A_POOL or PORTS.fullmatch(it)} - said
            yield from (f"lost: {it} of {' '.join(part)}" for it in others - others_there)
            others = set()
        if there[0] == part[0] and hosts_there != hosts:
            yield f"translated to other addresses: {' '.join(there)}"
        for it in others - others_there:
            if not answer.is_told((it,)):
                yield f"lost: {it} of {' '.join(part)}"

    def more_parts(self, statement: Statement, rule: Rule, items: list[Rule]) -> Iterator[str]:
        """What items have and the rule has not."""
        given = {*options_of(next((it for it in rule.parts if it[-2:] != ("no", "state") and "state" in it), ()))}
        has_state = rule.word("keep", "modulate", "synproxy", "no")
        if not has_state and rule.action == ("pass",):
            given |= {*statement.defaults}
        for it in items:
            for part in it.others():
                kind = kind_of(part)
                is_of_old = kind in ("quick", "flags", "keep") and rule.is_old and rule.action == ("pass",)
                is_state = kind in ("keep", "synproxy") and bool(has_state or given) and not is_of_old
                if not is_state and part not in rule.parts and kind not in TRANSLATIONS and not is_of_old:
                    yield f"more: {' '.join(part)}"
                if is_state and not {*options_of(part)} <= given:
                    yield f"more: {' '.join(part)}"
            if not has_state and given and not {*statement.defaults} <= {*options_of(("keep", *it.part("keep")))}:
                yield "lost: set state-defaults"


def is_base(item: Rule) -> bool:
    """Whether an item makes the state of an older translation behind it, where no filter rule decides."""
    is_whole = ("flags", "any") in item.parts and ("keep", "state") in item.parts
    return item.action == ("pass",) and is_whole and not item.word("quick", *TRANSLATIONS)


def as_old(item: Rule) -> Rule:
    """An item without the tags that are pfplan's own."""
    return replace(item, parts=tuple(it for it in item.parts if it[-1] not in OWN_TAGS))


def ways_of(words: Words) -> set[str]:
    """The ways in which pf can answer otherwise than without a statement. What asks for the tag that it gives may be of
    another way."""
    if "tag" in words:
        own = {"pf blocks more", "pf passes more"} if words[0] in ("match", *OLD) else set()
        return {*ways_of(tuple(it for it in words if it != "tag")), "pf may block or pass more", *own}
    if words[0] in ("block", "antispoof"):
        return {"pf blocks more"}
    if words[0] == "pass" and not counts(words) or words[0] in OLD and words[1] == "pass":
        return {"pf passes more"}
    if "reassemble" in words:
        return {"pf blocks more"}
    if words[0] in ("match", "no", *OLD):
        return {"pf makes other states"}
    return {"pf may block or pass more", "pf makes other states"}


def counts(words: Words) -> bool:
    """Whether a rule counts its states or sources, so that two in its place would count apart."""
    return any(it == "max" or it.startswith("max-src-") for it in words)


def options_of(part: Words) -> list[Words]:
    """The options between the parentheses of a state."""
    names = {
        "max", "max-src-nodes", "max-src-states", "max-src-conn", "max-src-conn-rate", "source-track", "overload",
        "no-sync", "if-bound", "sloppy", "pflow", "floating",
    }  # fmt: skip
    found: list[list[str]] = []
    for word in part[part.index("(") + 1 : -1] if part[1:2] == ("state",) and "(" in part else ():
        if word in names or re.fullmatch(r"(tcp|udp|other|src|adaptive)\.[a-z]+", word):
            found.append([word])
        else:
            found[-1].append(word)
    return [tuple(it) for it in found]


def table_of(words: Words) -> set[Words]:
    """The words of a table, its files and its entries, addresses in one form."""
    found: set[Words] = set()
    opened = words.index("{") if "{" in words else len(words)
    named = [number for number in range(opened) if words[number] == "file"]
    found.update((words[it], words[it + 1]) for it in named)
    found.update((it,) for it in words[2:opened] if it in ("persist", "const", "counters"))
    for item in listed(words[opened:]):
        networks = Reader(Machine(), {}).networks(item[-1], False)
        found.add((*item[:-1], str(networks[0]) if networks else item[-1]))
    return found


@functools.cache
def called(name: str, *words: str) -> Done:
    """What `pfplan rules` writes and says of a text. A traceback fails the test."""
    take_none()
    with tempfile.TemporaryDirectory() as folder, contextlib.redirect_stderr(io.StringIO()) as errors:
        made = Path(folder, "made")
        status = main(["rules", str(FOLDER / name), "--out", str(made), *words])
        return Done(status, made.read_text("utf-8") if made.exists() else "", errors.getvalue())


def answers(name: str, words: Words) -> tuple[Checker, list[tuple[Statement, Answer]]]:
    """Each statement of a text, with what came of it."""
    done = called(name, "--json", *words)
    made = json.loads(done.out)
    lines = [words_of(it) for it in made["rules"].splitlines() if not it.startswith("#")]
    anchors = [*itertools.accumulate((it[-1] == "{") - (it == ("}",)) for it in lines)]
    items, depths = zip(
        *((it, depth - (it[-1] == "{")) for it, depth in zip(lines, anchors) if it[0] not in ("set", "table", "}"))
    )
    told = [told_of(it) for it in done.err.splitlines()[:-1] if not it.startswith("note: ")]
    origins = [it["line"] for it in made["items"]]
    found = [
        (
            it,
            Answer(
                tuple(item for item, line in zip(items, origins, strict=True) if line == it.line),
                tuple(one for one in told if one.line == it.line),
                tuple(line for line in lines if line[0] in ("set", "table")),
                frozenset(depth for depth, line in zip(depths, origins, strict=True) if line == it.line),
            ),
        )
        for it in statements((FOLDER / name).read_text("utf-8"))
    ]
    own = {it.words[1] for it, _ in found if it.words[0] == "table"}
    own |= {word for it, _ in found for word in it.words if word.startswith("<")}
    tables = {it[1]: it for it in lines if it[0] == "table" and it[1] not in own}
    networks = {
        it: [ipaddress.ip_network(one[0]) for one in listed(line[line.index("{") :])] for it, line in tables.items()
    }
    machine = read_machine(IFCONFIG.read_text("utf-8")) if "--ifconfig" in words else Machine()
    return Checker(Reader(machine, networks)), found


def told_of(line: str) -> Told:
    """What a line on standard error says. A line of another form fails the test."""
    found = TOLD.fullmatch(line)
    if found is None:
        raise AssertionError(f"a line of no form that is known: {line}")
    said = words_of(found[2])
    puts = re.search(r" here all have (\S+)$", line)
    words = said[:-3] if said[-3:] == ("{", "..", "}") else said
    return Told(int(found[1]), words, found[3] or "", puts[1] if puts else "")


def wrong_answers(answer: Answer, reader: Reader) -> Iterator[tuple[str, Answer]]:
    """Answers with one thing wrong: what is told, an item, a part of one, an option or an anchor is lost, or a rule
    that counts is several."""
    if answer.items:
        yield "another anchor", replace(answer, depths=frozenset((7,)))
    for at, one in enumerate(answer.told):
        yield f"not told: {' '.join(one.words)}", replace(answer, told=without(answer.told, at))
    for at, item in enumerate(answer.items):
        if not is_base(read_rule(item)):
            yield f"no item: {' '.join(item)}", replace(answer, items=without(answer.items, at))
        for wrong in wrong_items(item):
            changed = (*answer.items[:at], wrong, *answer.items[at + 1 :])
            yield f"item: {' '.join(wrong)}", replace(answer, items=changed)
        split = [*split_items(item, reader)] if counts(item) else []
        if len(split) > 1:
            changed = (*answer.items[:at], *split, *answer.items[at + 1 :])
            yield f"several items: {' '.join(item)}", replace(answer, items=changed)


def split_items(item: Words, reader: Reader) -> Iterator[Words]:
    """The items, one for each address, that match what one item with a table in place of an interface does."""
    table = next((it for it in item if it in reader.made), "")
    for one in reader.made.get(table, []):
        made = tuple(str(one) if it == table else it for it in item)
        if reader.combinations(read_rule(made)):
            yield made


def wrong_items(item: Words) -> Iterator[Words]:
    """Items that match more, do something else, or count less."""
    yield ({"pass": "block", "block": "pass"}.get(item[0], "pass"), *item[1:])
    rule = read_rule(item)
    for part in rule.parts:
        if part[-1] in OWN_TAGS:
            continue
        kept = tuple(itertools.chain(*(it for it in rule.parts if it is not part)))
        if kind_of(part) not in ("all", "inet", "inet6") and part[1:] != ("any",):
            yield (*rule.action, *kept)
        for option in options_of(part):
            at = next(at for at in range(len(item)) if item[at : at + len(option)] == option)
            yield item[:at] + item[at + len(option) :]
            if option[1:] and option[1].isdecimal():
                yield (*item[: at + 1], f"{option[1]}0", *item[at + 2 :])


def wrong_lines(words: Words, lines: tuple[Words, ...]) -> Iterator[tuple[Words, ...]]:
    """Settings and tables of which one that a statement asks for is lost, or its last word."""
    for at, line in enumerate(lines):
        is_table = words[0] == "table" and line[:2] == words[:2]
        is_set = words[0] == "set" and words[:2] == line[:2] and {*words[2:]} <= {*line[2:], "{", "}"}
        if is_table or is_set:
            yield without(lines, at)
        if is_table and line[-1] == "}":
            yield (*lines[:at], (*line[:-2], line[-1]), *lines[at + 1 :])
            yield (*lines[:at], (*line[:-1], "0.0.0.0/0", line[-1]), *lines[at + 1 :])


def without(values: tuple[T, ...], at: int) -> tuple[T, ...]:
    """The values but one."""
    return values[:at] + values[at + 1 :]


# a statement of a site with --ifconfig, what a pfplan that carries translation may make of it, and what it tells
CARRIED = (
    ("match out on em0 inet from em1:network nat-to (em0:0)",
     ("match out on em0 inet from 192.168.1.0/24 to any nat-to 203.0.113.2",), ()),
    ("pass in on em0 inet proto tcp to (em0) port { http https } rdr-to <web> round-robin sticky-address",
     ("pass in on em0 inet proto tcp from any to 203.0.113.2 port = 80 rdr-to <web> round-robin",
      "pass in on em0 inet proto tcp from any to 203.0.113.2 port = 443 rdr-to <web> round-robin"),
     ("sticky-address",)),
    ("pass on em0 inet from 192.168.2.80 to any binat-to 203.0.113.5",
     ("pass out on em0 inet from 192.168.2.80 to any nat-to 203.0.113.5 static-port",
      "pass in on em0 inet from any to 203.0.113.5 rdr-to 192.168.2.80"), ()),
    ("pass on em0 inet from 192.168.2.80 to any binat-to 203.0.113.5",
     ("pass on em0 inet from 192.168.2.80 to any binat-to 203.0.113.5",), ()),
    ("pass in on em1 inet6 to 64:ff9b::/96 af-to inet from { 203.0.113.12 203.0.113.13 }",
     ("pass in on em1 inet6 from any to 64:ff9b::/96 af-to inet from { 203.0.113.12, 203.0.113.13 }",), ()),
    ("nat on fxp0 inet from fxp1:network to any -> (fxp0)",
     ("match out on fxp0 inet from 10.1.0.0/16 to any nat-to 192.0.2.2",), ()),
    ("rdr on fxp0 inet proto tcp from any to (fxp0) port 80 -> 10.2.0.80 port 8080",
     ("match in on fxp0 inet proto tcp from any to 192.0.2.2 port = 80 rdr-to 10.2.0.80 port 8080",), ()),
    ("rdr pass on fxp0 inet proto tcp from any to (fxp0) port 80 -> 10.2.0.80",
     ("pass in quick on fxp0 inet proto tcp from any to 192.0.2.2 port = 80 flags any rdr-to 10.2.0.80 keep state",),
     ()),
    ("rdr pass on fxp0 inet proto tcp from any to (fxp0) port 80 -> 10.2.0.80",
     ("match in on fxp0 inet proto tcp from any to 192.0.2.2 port = 80 rdr-to 10.2.0.80",), ("pass",)),
    ("no nat on fxp0 inet from 10.1.0.0/16 to 10.9.0.0/16",
     ("match out on fxp0 inet from 10.1.0.0/16 to 10.9.0.0/16",), ()),
)  # fmt: skip
# the same, where something is lost or wider
NOT_CARRIED = (
    ("match out on em0 inet from em1:network nat-to (em0:0)",
     ("match out on em0 inet from 192.168.1.0/24 to any",), ()),
    ("match out on em0 inet from em1:network nat-to (em0:0)",
     ("pass out on em0 inet from 192.168.1.0/24 to any nat-to 203.0.113.2",), ()),
    ("match out on em0 inet from em1:network nat-to (em0:0)",
     ("match out on em0 inet all nat-to 203.0.113.2",), ()),
    ("match out on em0 inet from em1:network nat-to (em0:0)",
     ("match out on em0 inet from 192.168.1.0/24 to any nat-to 203.0.113.5",), ()),
    ("pass in on em0 inet proto tcp to (em0) port http rdr-to <web> round-robin sticky-address",
     ("pass in on em0 inet proto tcp from any to 203.0.113.2 port = 80 rdr-to <web> round-robin",), ()),
    ("pass on em0 inet from 192.168.2.80 to any binat-to 203.0.113.5",
     ("pass out on em0 inet from 192.168.2.80 to any nat-to 203.0.113.5 static-port",), ()),
    ("pass on em0 inet from 192.168.2.80 to any binat-to 203.0.113.5",
     ("pass out on em0 inet from 192.168.2.80 to any nat-to 203.0.113.5 static-port",
      "pass in on em0 inet all rdr-to 192.168.2.80"), ()),
    ("nat on fxp0 inet from fxp1:network to any -> (fxp0)",
     ("pass out on fxp0 inet from 10.1.0.0/16 to any nat-to 192.0.2.2",), ()),
    ("rdr on fxp0 inet proto tcp from any to (fxp0) port 80 -> 10.2.0.80",
     ("match in on fxp0 inet proto tcp from any to 192.0.2.2 rdr-to 10.2.0.80",), ()),
    ("rdr pass on fxp0 inet proto tcp from any to (fxp0) port 80 -> 10.2.0.80",
     ("match in on fxp0 inet proto tcp from any to 192.0.2.2 port = 80 rdr-to 10.2.0.80",), ()),
    ("rdr pass on fxp0 inet proto tcp from any to (fxp0) port 80 -> 10.2.0.80", (), ()),
    ("rdr pass on fxp0 inet proto tcp from any to (fxp0) port 80 -> 10.2.0.80",
     ("pass in quick on fxp0 inet proto tcp from any to 192.0.2.2 port = 80 rdr-to 10.2.0.80",), ()),
    ("rdr pass on fxp0 inet proto tcp from any to (fxp0) port 80 -> 10.2.0.80",
     ("pass in on fxp0 inet proto tcp from any to 192.0.2.2 port = 80 flags any rdr-to 10.2.0.80 keep state",), ()),
    ("no nat on fxp0 inet from 10.1.0.0/16 to 10.9.0.0/16",
     ("pass out on fxp0 inet from 10.1.0.0/16 to 10.9.0.0/16",), ()),
)  # fmt: skip


NAMES = sorted(it.name for it in FOLDER.glob("*.conf"))
WITH: Words = ("--ifconfig", str(IFCONFIG))


class Sites(unittest.TestCase):
    """What becomes of each text."""

    def test_whole_or_told(self) -> None:
        """Each part of each statement is there or told by its line, and no rule is wider; also where nobody says what
        addresses the interfaces have. It refuses a pfplan that loses a `match` rule, a translation or an option in
        silence, that leaves out an interface or a port, or that tells of another line."""
        for name, words in itertools.product(NAMES, ((), WITH)):
            checker, found = answers(name, words)
            for statement, answer in found:
                with self.subTest(f"{name} {statement.line}", words=words):
                    self.assertEqual(checker.faults(statement, answer), [], " ".join(statement.words))

    def test_tags_come_whole(self) -> None:
        """Rules that give or ask for tags, or ask where a packet came in, are there, but for a `match` that translates
        too and for routing domains; nothing of their tags is told."""
        marks, count = {"tag", "tagged", "received-on"}, 0
        for name in NAMES:
            for statement, answer in answers(name, WITH)[1]:
                words = {*statement.words}
                is_left_out = statement.words[0] == "match" and words & {*TRANSLATIONS} or "rdomain" in words
                if words & marks and words & {"pass", "block", "match"} and not is_left_out:
                    count += 1
                    with self.subTest(f"{name} {statement.line}"):
                        self.assertTrue(answer.items)
                        self.assertFalse([it for it in answer.told if marks & {*it.words}])
        self.assertEqual(count, 19)

    def test_wrong_answers(self) -> None:
        """Each answer with one thing wrong is refused, so the test above refuses each pfplan that gives one."""
        for name in NAMES:
            checker, found = answers(name, WITH)
            for statement, answer in found:
                with self.subTest(f"{name} {statement.line}", words=" ".join(statement.words)):
                    for wrong, changed in wrong_answers(answer, checker.reader):
                        self.assertTrue(checker.faults(statement, changed), wrong)
                    for lines in wrong_lines(statement.words, answer.lines):
                        self.assertTrue(checker.faults(statement, replace(answer, lines=lines)))

    def test_translation_carried(self) -> None:
        """A pfplan that carries translation is not refused for it; one that carries half of it in silence is."""
        checker = Checker(Reader(read_machine(IFCONFIG.read_text("utf-8")), {}))
        for is_right, table in ((True, CARRIED), (False, NOT_CARRIED)):
            for text, items, said in table:
                told = tuple(Told(1, words_of(it), "pf makes other states") for it in said)
                answer = Answer(tuple(map(words_of, items)), told, depths=frozenset((0,)))
                with self.subTest(text, items=items):
                    faults = checker.faults(statements(text)[0], answer)
                    self.assertEqual(faults == [], is_right, faults)

    def test_lines(self) -> None:
        """Each item and each line of what is told belongs to a statement, in the order of the text; the last line
        counts them. It refuses a pfplan that makes rules of nothing, puts one behind another that decides after it, or
        tells of lines that say nothing."""
        for name, words in itertools.product(NAMES, ((), WITH)):
            with self.subTest(name, words=words):
                done = called(name, "--json", *words)
                lines = [it.line for it, _ in answers(name, words)[1]]
                skips = {it.line for it, _ in answers(name, words)[1] if it.words[:2] == ("set", "skip")}
                *rest, count = done.err.splitlines()
                told = [told_of(it) for it in rest if not it.startswith("note: ")]
                items = json.loads(done.out)["items"]
                # the older translation stands in front, by sorts where that matters
                old = {it.line for it, _ in answers(name, words)[1] if {*it.words[:2]} & {*OLD}}
                ordered = [it for it in items if it["line"] not in old]
                self.assertEqual(ordered, sorted(ordered, key=lambda it: (it["line"] not in skips, it["line"])))
                self.assertLessEqual({*(it.line for it in told), *(it["line"] for it in items)}, {*lines})
                changing = sum(it.changes for it in told)
                counted = COUNT.fullmatch(count)
                self.assertIsNotNone(counted)
                numbers = (len(items), changing, len(told) - changing)
                self.assertEqual(counted and counted.groups(), (*map(str, numbers),))

    def test_accepted(self) -> None:
        """pfsrc accepts the rules, which are as many as pfplan says; --json and --out write the same."""
        for name, words in itertools.product(NAMES, ((), WITH)):
            with self.subTest(name, words=words), tempfile.NamedTemporaryFile("w") as file:
                made = json.loads(called(name, "--json", *words).out)
                self.assertEqual(called(name, *words).out, made["rules"])
                file.write(made["rules"])
                file.flush()
                ended = subprocess.run([program(), "check", file.name], capture_output=True, text=True, check=False)
                self.assertEqual((ended.returncode, ended.stderr), (0, ""))
                self.assertRegex(ended.stdout, rf"^ok items={len(made['items'])} ")

    def test_statuses(self) -> None:
        """A text that is read ends with 0; with --strict with 3, and nothing written, where something that can change
        an answer is left out, by the first line of the text that says so."""
        for name in NAMES:
            with self.subTest(name):
                plain, strict = called(name, *WITH), called(name, "--strict", *WITH)
                self.assertEqual(plain.status, 0)
                is_changed = ": can change an answer" in plain.err
                self.assertEqual((strict.status, strict.out), (3, "") if is_changed else (0, plain.out))
                self.assertNotIn("Traceback", plain.err + strict.err)
                if is_changed:
                    said = strict.err.strip().removeprefix("pfplan rules: ").removesuffix(" (--strict)")
                    self.assertIn(said, plain.err.splitlines())

    def test_texts(self) -> None:
        """There are thirty, of 20 to 120 lines; each says at its head what site it is, has a limit, and translates."""
        self.assertEqual(len(NAMES), 30)
        for name in NAMES:
            with self.subTest(name):
                text = (FOLDER / name).read_text("utf-8")
                words = {word for it in statements(text) for word in it.words}
                self.assertRegex(text, r"^# [A-Z](.*\n# )?.*\.\n")
                self.assertTrue(20 <= text.count("\n") <= 120)
                self.assertTrue(words & {"max", "max-src-conn", "max-src-states", "max-src-conn-rate"})
                self.assertTrue(words & {*TRANSLATIONS, *OLD})


if __name__ == "__main__":
    unittest.main()
