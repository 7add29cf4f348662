"""Rulesets and packets drawn at random, as values of their own, and the pf.conf that says them in many ways of writing.

Nothing of pfplan is used here: what a drawn ruleset means is in reading.py.
"""

import ipaddress
import random
from dataclasses import dataclass, field

IFCONFIG = """lo0: flags=8049<UP,LOOPBACK,RUNNING,MULTICAST> mtu 32768
\tgroups: lo
\tinet 127.0.0.1 netmask 0xff000000
em0: flags=8843<UP,BROADCAST,RUNNING,SIMPLEX,MULTICAST> mtu 1500
\tgroups: egress
\tinet 10.0.0.1 netmask 0xfffffff8 broadcast 10.0.0.7
\tinet6 2001:db8::1 prefixlen 126
em1: flags=8843<UP,BROADCAST,RUNNING,SIMPLEX,MULTICAST> mtu 1500
\tgroups: lan
\tinet 10.0.1.1 netmask 0xfffffffc broadcast 10.0.1.3
em2: flags=8843<UP,BROADCAST,RUNNING,SIMPLEX,MULTICAST> mtu 1500
\tgroups: lan
\tinet6 2001:db8:1::1 prefixlen 126
"""
MOST_RULES = 9000  # of a drawn ruleset: pfsrc takes 10,000
FAMILIES = {4: "inet", 6: "inet6"}
INTERFACES = ("lo0", "em0", "em1", "em2")
GROUPS = {"egress": ("em0",), "lan": ("em1", "em2"), "any": ("em0", "em1", "em2")}
NAMES = {
    "em0": ("10.0.0.1", "2001:db8::1"),
    "em1": ("10.0.1.1",),
    "em0:network": ("10.0.0.0/29", "2001:db8::/126"),
    "em1:network": ("10.0.1.0/30",),
    "self": ("127.0.0.1", "10.0.0.1", "2001:db8::1", "10.0.1.1", "2001:db8:1::1"),
}
ADDRESSES4 = [*(f"10.0.0.{it}" for it in range(8)), *(f"10.0.1.{it}" for it in range(4)), "127.0.0.1", "192.0.2.9"]
ADDRESSES6 = [*(f"2001:db8::{it}" for it in range(1, 5)), "2001:db8:1::1", "2001:db8:1::2", "::1"]
PREFIXES = [
    "10.0.0.0/8",
    "10.0.0.0/30",
    "10.0.0.4/31",
    "10.0.1.0/24",
    "0.0.0.0/0",
    "2001:db8::/32",
    "2001:db8::/127",
    "2001:db8:1::/64",
]
PORTS = [0, 1, 21, 22, 23, 25, 53, 79, 80, 81, 443, 65535]
PORT_NAMES = {21: "ftp", 22: "ssh", 25: "smtp", 53: "domain", 80: "www", 443: "https"}
HARMLESS = [
    'label "a b"', "queue q", "queue (q, p)", "set prio 3", "set (prio 3, tos 8)", "allow-opts", "rtable 1",
    "route-to 10.0.0.2", "reply-to 10.0.0.2@em0", "dup-to 10.0.0.2", "scrub (no-df)", "divert-packet port 700",
]  # fmt: skip
BEYOND = [
    "user root", "group { 5 > 10 }", "tos 8", "prio 3", "fragment", "probability 50%", "once", "max-pkt-rate 9/9",
]  # fmt: skip
TAGS = ("T", "U", "a/b")


@dataclass(frozen=True)
class Host:
    """A host: `kind` is any, plain, range, table, static (a name), dynamic (a name in parentheses) or route."""

    kind: str
    value: str = "any"
    last: str = ""
    negated: bool = False

    def text(self) -> str:
        """The host as pf.conf writes it."""
        sign = "!" if self.negated else ""
        shown = {"table": f"<{self.value}>", "dynamic": f"({self.value})", "range": f"{self.value} - {self.last}"}
        return sign + shown.get(self.kind, self.value)


@dataclass(frozen=True)
class Ports:
    """An operator and one or two ports."""

    operator: str
    low: int
    high: int = 0


@dataclass
class Filter:
    """What a rule or the head of an anchor asks. An empty list asks for nothing."""

    direction: str = ""
    quick: bool = False
    interfaces: list[tuple[str, bool]] = field(default_factory=list)
    family: str = ""
    protocols: list[str] = field(default_factory=list)
    source: list[Host] = field(default_factory=list)
    source_ports: list[Ports] = field(default_factory=list)
    destination: list[Host] = field(default_factory=list)
    destination_ports: list[Ports] = field(default_factory=list)
    flags: str = ""
    parts: list[str] = field(default_factory=list)
    tag: str = ""
    tagged: tuple[str, bool] | None = None
    received: tuple[str, bool] | None = None


@dataclass
class Rule:
    """A rule; `state` is what stands behind the rest. `line` is where it stands in the text."""

    action: str
    asked: Filter
    state: str = ""
    line: int = 0


@dataclass
class Anchor:
    """An anchor with its rules. `line` is where it stands in the text."""

    name: str
    asked: Filter
    body: list["Rule | Anchor"]
    line: int = 0


@dataclass(frozen=True)
class Packet:
    """A record of a trace."""

    direction: str
    interface: str
    protocol: str
    source: str
    source_port: int
    destination: str
    destination_port: int
    flags: str

    def record(self) -> str:
        """The record as a trace has it, at moment 0."""
        ends = f"{self.source},{self.source_port},{self.destination},{self.destination_port}"
        return f"0,{self.direction},{self.interface},{self.protocol},{ends},{self.flags}"


@dataclass
class Ruleset:
    """What was drawn: tables, items in order, and the text."""

    tables: dict[str, list[tuple[str, bool]]] = field(default_factory=dict)
    skipped: list[str] = field(default_factory=list)
    skip_line: int = 0
    items: list[Rule | Anchor] = field(default_factory=list)
    text: str = ""


class Drawer:
    """Draws rulesets and packets; the same seed draws the same."""

    def __init__(self, seed: int) -> None:
        self.random = random.Random(seed)

    def chance(self, share: float) -> bool:
        """True in that share of the calls."""
        return self.random.random() < share

    def ruleset(self) -> Ruleset:
        """Tables, rules and anchors; and their text."""
        drawn = Ruleset()
        for name in ("t", "u"):
            entries = {self.prefix(): self.chance(0.3) for _ in range(self.random.randint(0, 4))}
            drawn.tables[name] = list(entries.items())
        drawn.skipped = self.random.sample(["lo", "lan", *INTERFACES], 2) if self.chance(0.2) else []
        drawn.items = [self.item(0) for _ in range(self.random.randint(1, 6))]
        while sum(map(most_rules, drawn.items)) > MOST_RULES:
            drawn.items = [self.item(0) for _ in range(self.random.randint(1, 6))]
        return drawn

    def item(self, depth: int) -> Rule | Anchor:
        """A rule, or where it is not too deep, an anchor."""
        if depth < 2 and self.chance(0.2):
            body = [self.item(depth + 1) for _ in range(self.random.randint(0, 3))]
            counts = any(counts_states(it) for it in body)
            return Anchor(self.random.choice(["", "a", "b"]), self.filter(is_head=True, is_single=counts), body)
        return self.rule()

    def rule(self) -> Rule:
        """A rule whose state clause fits its action; no `match` rule is quick."""
        action = self.random.choice(["pass", "pass", "block", "match"])
        states = (
            ["", "", "no state", "keep state", "keep state (max 5000)", "modulate state"] if action == "pass" else [""]
        )
        asked = self.filter()
        asked.quick = asked.quick and action != "match"
        return Rule(action, asked, self.random.choice(states))

    def filter(self, is_head: bool = False, is_single: bool = False) -> Filter:
        """What is asked; of a head that must stay single no lists."""
        asked = Filter(self.random.choice(["", "in", "out"]), self.chance(0.25))
        most = 1 if is_single else 3
        if self.chance(0.4):
            asked.interfaces = [self.interface(is_single) for _ in range(self.random.randint(1, most))]
        if self.chance(0.3):
            asked.family = self.random.choice(["inet", "inet6"])
        has_ports = self.chance(0.4)
        if has_ports or self.chance(0.3):
            asked.protocols = self.random.sample(["tcp", "udp"], self.random.randint(1, min(2, most)))
        asked.source = self.side(asked.family, most)
        asked.destination = self.side(asked.family, most)
        if has_ports and self.chance(0.5):
            asked.source_ports = [self.ports(is_single) for _ in range(self.random.randint(1, most))]
        if has_ports and self.chance(0.8):
            asked.destination_ports = [self.ports(is_single) for _ in range(self.random.randint(1, most))]
        if self.chance(0.2):
            asked.flags = self.random.choice(["any", "S/SA", "S/SAFR", "/SFRA", "A/A"])
        if not is_head:
            asked.parts = [self.random.choice(HARMLESS)] if self.chance(0.2) else []
            asked.parts += [self.random.choice(BEYOND)] if self.chance(0.1) else []
            asked.tag = self.random.choice(TAGS) if self.chance(0.4) else ""
            asked.tagged = (self.random.choice(TAGS), self.chance(0.4)) if self.chance(0.3) else None
            asked.received = self.interface(False) if self.chance(0.15) else None
        return asked if has_combination(asked) else self.filter(is_head, is_single)

    def interface(self, is_single: bool) -> tuple[str, bool]:
        """An interface or a group, and whether it is negated."""
        name = self.random.choice(INTERFACES if is_single else [*INTERFACES, *GROUPS])
        return name, name != "any" and self.chance(0.25)

    def side(self, family: str, most: int) -> list[Host]:
        """Hosts of one side, or none."""
        if self.chance(0.35):
            return []
        return [self.host(family, most == 1) for _ in range(1 if self.chance(0.6) else self.random.randint(1, most))]

    def host(self, family: str, is_single: bool) -> Host:
        """A host. Where a family is asked for, most are of it."""
        kinds = ["any", "plain", "plain", "plain", "range", "table", "dynamic", "route"] + (
            [] if is_single else ["static"]
        )
        kind = self.random.choice(kinds)
        negated = kind != "any" and self.chance(0.2)
        if kind == "plain":
            return Host(kind, self.prefix(family), negated=negated)
        if kind == "range":
            first, last = sorted(self.random.sample(range(8), 2))
            return Host(kind, f"10.0.0.{first}", f"10.0.0.{last}", negated)
        if kind == "table":
            return Host(kind, self.random.choice("tuv"), negated=negated)
        if kind in ("static", "dynamic"):
            return Host(kind, self.random.choice(list(NAMES)), negated=negated)
        return (
            Host(kind, "any")
            if kind == "any"
            else Host(kind, self.random.choice(["no-route", "urpf-failed"]), negated=negated)
        )

    def prefix(self, family: str = "") -> str:
        """An address or a prefix, most often of the family."""
        drawn = self.random.choice([*PREFIXES, *ADDRESSES4, *ADDRESSES6])
        if family and self.chance(0.7) and (":" in drawn) != (family == "inet6"):
            return self.prefix(family)
        return drawn

    def ports(self, is_single: bool) -> Ports:
        """Ports by one of pf's operators."""
        operators = ["=", "=", ":", "<", "<=", ">", ">=", "><"] + ([] if is_single else ["!=", "<>"])
        operator = self.random.choice(operators)
        low, high = sorted(self.random.sample(PORTS, 2))
        return Ports(operator, low, high)

    def packet(self) -> Packet:
        """A packet of either family, by TCP or UDP."""
        addresses = ADDRESSES4 if self.chance(0.6) else ADDRESSES6
        protocol = self.random.choice(["tcp", "udp"])
        flags = self.random.choice(["S", "S", "SA", "A", "FA", "SF", ""]) if protocol == "tcp" else ""
        return Packet(
            self.random.choice(["in", "out"]),
            self.random.choice(INTERFACES),
            protocol,
            self.random.choice(addresses),
            self.random.choice(PORTS),
            self.random.choice(addresses),
            self.random.choice(PORTS),
            flags,
        )


def counts_states(item: Rule | Anchor) -> bool:
    """Whether a rule, or one in an anchor, counts its states."""
    return any(map(counts_states, item.body)) if isinstance(item, Anchor) else "max" in item.state


def has_combination(asked: Filter) -> bool:
    """Whether two hosts of a filter are of one family: else pfctl refuses the rule. What is not carried counts as
    one."""

    def families(hosts: list[Host]) -> set[str]:
        found: set[str] = set()
        for host in hosts or [Host("any")]:
            if host.kind == "plain":
                found.add(FAMILIES[ipaddress.ip_network(host.value).version])
            elif host.kind == "range":
                found.add("inet")
            elif host.kind == "static" or host.kind == "dynamic":
                found.update(FAMILIES[ipaddress.ip_network(it).version] for it in NAMES[host.value])
            else:
                found.update(FAMILIES.values())
        return found

    return bool(
        families(asked.source)
        & families(asked.destination)
        & ({asked.family} if asked.family else set(FAMILIES.values()))
    )


def most_rules(item: Rule | Anchor) -> int:
    """At most how many rules and anchors an item stands for."""
    asked = item.asked
    count = max(1, len(asked.protocols)) * max(
        1, sum(len(GROUPS.get(name, (name,))) + 2 * negated for name, negated in asked.interfaces)
    )
    for hosts in (asked.source, asked.destination):
        count *= max(1, sum(len(NAMES[it.value]) if it.kind == "static" else 1 for it in hosts))
    for ports in (asked.source_ports, asked.destination_ports):
        count *= max(1, sum(2 if it.operator in ("!=", "<>") else 1 for it in ports))
    count *= len(GROUPS.get(asked.received[0], ("",))) if asked.received else 1
    return count * (1 + sum(map(most_rules, item.body))) if isinstance(item, Anchor) else count


class Writer:
    """Writes a drawn ruleset in one of the many ways that pf.conf allows, and notes on which line each item stands."""

    def __init__(self, drawer: Drawer) -> None:
        self._drawer = drawer
        self._lines: list[str] = []
        self._macros = 0
        self._pending: list[str] = []  # macros for the statement that comes next

    def write(self, drawn: Ruleset) -> str:
        """The text; the lines of rules and anchors are set."""
        self._lines.append("# drawn")
        if drawn.skipped and self._chance(0.5):
            self._skip(drawn)
        for name, entries in drawn.tables.items():
            self._table(name, entries)
        self._items(drawn.items)
        if drawn.skipped and not drawn.skip_line:
            self._skip(drawn)
        return "\n".join(self._lines) + "\n"

    def _skip(self, drawn: Ruleset) -> None:
        self._lines.append(f"set skip on {self._list(drawn.skipped)}")
        self._lines[-1:] = [*self._pending, self._lines[-1]]
        self._pending = []
        drawn.skip_line = len(self._lines)

    def _chance(self, share: float) -> bool:
        return self._drawer.chance(share)

    def _table(self, name: str, entries: list[tuple[str, bool]]) -> None:
        comma = "," if self._chance(0.5) else ""
        listed = f"{comma} ".join(("!" if negated else "") + entry for entry, negated in entries)
        parts = "persist " if self._chance(0.5) else ""
        if len(entries) > 1 and self._chance(0.3):
            listed = listed.replace(" ", "\n  ", 1)
        self._lines.extend(f"table <{name}> {parts}{{ {listed} }}".split("\n"))

    def _items(self, items: list[Rule | Anchor]) -> None:
        used: set[str] = set()
        for it in items:
            if self._chance(0.1):
                self._lines.append("")
            if isinstance(it, Rule):
                self._rule(it)
            else:
                self._anchor(it, used)

    def _rule(self, rule: Rule) -> None:
        answer = self._drawer.random.choice(["", "drop ", "return "]) if rule.action == "block" else ""
        tail = [*self._tail(rule.asked), rule.state]
        self._drawer.random.shuffle(tail)
        self._statement(
            rule, f"{rule.action} {answer}{self._filter(rule.asked, True)} {' '.join(it for it in tail if it)}"
        )

    def _anchor(self, anchor: Anchor, used: set[str]) -> None:
        name = "" if anchor.name in used else anchor.name
        used.add(anchor.name)
        shown = f'"{name}" ' if name else ""
        self._statement(
            anchor, f"anchor {shown}{self._filter(anchor.asked, False)} {' '.join(self._tail(anchor.asked))} {{"
        )
        self._items(anchor.body)
        self._lines.append("}")

    def _tail(self, asked: Filter) -> list[str]:
        marks = [f"tag {self._tag(asked.tag)}"] if asked.tag else []
        marks += [f"{self._sign(asked.tagged)}tagged {self._tag(asked.tagged[0])}"] if asked.tagged else []
        marks += [f"{self._sign(asked.received)}received-on {asked.received[0]}"] if asked.received else []
        return [*([f"flags {asked.flags}"] if asked.flags else []), *asked.parts, *marks]

    def _tag(self, name: str) -> str:
        return f'"{name}"' if "/" in name or self._chance(0.2) else name

    def _sign(self, named: tuple[str, bool]) -> str:
        return self._drawer.random.choice(["! ", "!"]) if named[1] else ""

    def _statement(self, item: Rule | Anchor, text: str) -> None:
        self._lines.extend(self._pending)
        self._pending = []
        item.line = len(self._lines) + 1
        text = " ".join(it for it in text.split(" ") if it)
        place = text.rfind(" ")
        if self._chance(0.15) and not text.endswith("{") and place > 0:
            text = f"{text[:place]} \\\n   {text[place + 1 :]}"
        if self._chance(0.1):
            text += "   # said twice"
        self._lines.extend(text.split("\n"))

    def _filter(self, asked: Filter, has_log: bool) -> str:
        log = "log " if has_log and self._chance(0.1) else ""
        words = [asked.direction, log + ("quick" if asked.quick else "")]
        if asked.interfaces:
            words.append("on " + self._list([("! " if negated else "") + name for name, negated in asked.interfaces]))
        words.append(asked.family)
        if asked.protocols:
            words.append(
                "proto "
                + self._list([{"tcp": self._drawer.random.choice(["tcp", "6"])}.get(it, it) for it in asked.protocols])
            )
        source = self._side("from", asked.source, asked.source_ports)
        destination = self._side("to", asked.destination, asked.destination_ports)
        words += [source, destination] if source or destination else [self._drawer.random.choice(["", "all"])]
        return " ".join(it for it in words if it)

    def _side(self, word: str, hosts: list[Host], ports: list[Ports]) -> str:
        if not hosts and not ports:
            return f"{word} any" if self._chance(0.3) else ""
        shown = [word]
        if hosts or self._chance(0.3):
            shown.append(self._list([it.text() for it in hosts] or ["any"], "<(-"))
        if ports:
            shown.append("port " + self._list([self._ports(it) for it in ports], "<>!="))
        return " ".join(shown)

    def _ports(self, ports: Ports) -> str:
        space = " " if self._chance(0.5) else ""
        low, high = self._port(ports.low), self._port(ports.high)
        if ports.operator == ":":
            return f"{low}:{high}"
        if ports.operator in ("><", "<>"):
            return f"{low}{space}{ports.operator}{space}{high}"
        return low if ports.operator == "=" and self._chance(0.5) else f"{ports.operator}{space}{low}"

    def _port(self, port: int) -> str:
        return PORT_NAMES[port] if port in PORT_NAMES and self._chance(0.3) else str(port)

    def _list(self, items: list[str], marks: str = "") -> str:
        """One item, or a list in braces, maybe as a macro, or with a list in it."""
        comma = "," if self._chance(0.5) else ""
        if len(items) == 1 and self._chance(0.8):
            text = items[0]
        elif len(items) > 2 and self._chance(0.3):
            text = f"{{ {items[0]}{comma} {{ {f'{comma} '.join(items[1:])} }} }}"
        else:
            text = f"{{ {f'{comma} '.join(items)} }}"
        if self._chance(0.25):
            self._macros += 1
            name = f"m{self._macros}"
            self._pending = [*self._pending, f'{name} = "{text}"']
            return f"${name}"
        return text
