"""The parts that rules and anchors share: interfaces, protocols, hosts, ports, state options and the rest (pf.conf(5),
PARAMETERS)."""

import re
from collections.abc import Callable, Mapping

from pfplan.common.limits import OF_RULES
from pfplan.pf.cursor import Cursor
from pfplan.pf.lexer import Kind, printable, trouble
from pfplan.pf.reading_pools import POOL_WORDS, PoolReader
from pfplan.pf.services import TCP, UDP, port_of, protocol_of
from pfplan.pf.statements import (
    ANY_HOST,
    Filter,
    Host,
    HostKind,
    Interface,
    Part,
    Pool,
    Port,
    Side,
    State,
    StateOption,
)

PORT_MARKS = ("=", "!=", "<", "<=", ">", ">=")
TIMEOUTS = (
    "tcp.first tcp.opening tcp.established tcp.closing tcp.finwait tcp.closed udp.first udp.single udp.multiple"
    " other.first other.single other.multiple src.track interval adaptive.start adaptive.end"
).split()
TIMEOUTS_FOR_NOTHING = ["frag", "tcp.tsdiff", "icmp.first", "icmp.error"]
MOST_SECONDS, MOST_STATES = 2147483647, 4294967295
MOST_TAG_BYTES = 63
_STATE_NUMBERS = OF_RULES[:-1]  # of max-src-conn-rate two are given
_STATE_WORDS = ("sloppy", "floating", "no-sync", "pflow", "if-bound")
_OPTIONS = (
    *_STATE_NUMBERS, *_STATE_WORDS, "max-src-conn-rate", "overload", "source-track", *TIMEOUTS, *TIMEOUTS_FOR_NOTHING,
)  # fmt: skip
_TRANSLATIONS = ("nat-to", "rdr-to", "binat-to", "af-to")
_ROUTES = ("route-to", "reply-to", "dup-to")
_TAGS = ("tag", "tagged")
_ONE_WORD = ("label", *_TAGS, "received-on", "tos", "rtable", "prio")
_ALONE = ("fragment", "allow-opts", "once", "divert-reply", "fastroute")
PARTS = (
    *_TRANSLATIONS, *_ROUTES, *_ONE_WORD, *_ALONE, "user", "group", "icmp-type", "icmp6-type", "queue", "set", "scrub",
    "probability", "divert-to", "divert-packet", "max-pkt-rate",
)  # fmt: skip
AFTER_HOSTS = (*PARTS, "flags", "keep", "modulate", "synproxy", "no")
HEAD = ("in", "out", "log", "quick", "on", "inet", "inet6", "proto", "all", "from", "to")
# the words that are no strings to pfctl, so none of them is the key of source-hash
KEYWORDS = frozenset((
    *HEAD, *AFTER_HOSTS, *POOL_WORDS, *_STATE_NUMBERS, *_STATE_WORDS, *PARTS, "anchor", "antispoof", "any",
    "bandwidth", "block", "block-policy", "burst", "code", "debug", "default", "delay", "file", "fingerprints", "flows",
    "flush", "for", "global", "hostid", "include", "limit", "load", "loginterface", "match", "matches", "max-mss",
    "max-src-conn-rate", "min-ttl", "no-df", "no-route", "optimization", "overload", "parent", "pass", "port", "qlimit",
    "quantum", "random-id", "rdomain", "reassemble", "return", "return-icmp", "return-icmp6", "return-rst", "route",
    "rule", "ruleset-optimization", "skip", "source-hash", "source-track", "state", "state-defaults", "state-policy",
    "syncookies", "table", "target", "timeout", "ttl", "urpf-failed", "weight",
))  # fmt: skip


class FilterReader:
    """Reads the parts of a rule in pf's order. Each method takes its part, or raises Trouble at the token that is no
    part of it."""

    def __init__(self, cursor: Cursor) -> None:
        self.at = cursor
        self.pools = PoolReader(cursor, self.table_name, KEYWORDS)

    def filter(self, has_log: bool = True) -> Filter:
        """Direction, log, quick, interfaces, family, protocols, hosts and ports, and what may follow."""
        direction = self.at.take_word("in", "out")
        log, quick = self.log_quick() if has_log else ("", bool(self.at.take_word("quick")))
        interfaces = self.interfaces()
        parts: list[Part] = []
        while self.at.is_word(*_ROUTES, "fastroute"):  # where they stood before OpenBSD 4.7
            parts.append(self.part())
        family = self.at.take_word("inet", "inet6")
        protocols = self.protocols()
        source, destination = self.sides(protocols, parts)
        flags, state = "", None
        while self.at.is_name() or self.at.is_mark("!"):
            if self.at.is_word("flags"):
                self._once(flags, "flags")
                flags = self.flags()
            elif self.at.is_word("keep", "modulate", "synproxy", "no"):
                self._once(state, "state")
                state = self.state()
            else:
                self._part_once(parts)
        return Filter(
            direction, log, quick, interfaces, family, protocols, source, destination, flags, state, tuple(parts)
        )

    def _once(self, before: object, what: str) -> None:
        if before:
            raise trouble(self.at.token, f"'{self.at.token.text}': {what} stands twice in this rule")

    def _part_once(self, parts: list[Part]) -> None:
        """Takes one more part. pfctl takes `received-on` once."""
        token = self.at.token
        parts.append(self.part())
        if sum(it.kind == "received-on" for it in parts) > 1:
            raise trouble(token, "'received-on': it stands twice in this rule")

    def log_quick(self) -> tuple[str, bool]:
        """`log`, `quick`, or both in either order."""
        quick = bool(self.at.take_word("quick"))
        log = self.log()
        return log, quick or bool(self.at.take_word("quick"))

    def log(self) -> str:
        """`log` with its options, as a text."""
        mark = self.at.mark()
        if not self.at.take_word("log"):
            return ""
        if self.at.take_mark("("):
            while not self.at.take_mark(")"):
                if self.at.want_word("all", "matches", "user", "to") == "to":
                    self._log_interface()
                self.at.take_mark(",")
        return self.at.text_since(mark)

    def _log_interface(self) -> None:
        token = self.at.token
        name = self.at.want_name("an interface")
        if not re.fullmatch(r"[A-Za-z0-9_.-]{1,15}", name) or name in ("any", "rdomain"):
            raise trouble(token, f"{token.shown()} is no name of an interface")

    def interfaces(self) -> tuple[Interface, ...]:
        """`on` and an interface or a list of them; nothing where no `on` stands."""
        return self.at.listed(self._interface) if self.at.take_word("on") else ()

    def _interface(self) -> Interface:
        negated = self.at.take_mark("!")
        if self.at.take_word("rdomain"):
            return Interface("rdomain", negated, self.at.want_number(0, 255, "a routing domain"))
        return Interface(self.at.want_name("an interface"), negated)

    def protocols(self) -> tuple[int, ...]:
        """`proto` and a protocol or a list of them; nothing where no `proto` stands."""
        return self.at.listed(self._protocol) if self.at.take_word("proto") else ()

    def _protocol(self) -> int:
        token = self.at.token
        number = protocol_of(self.at.want_name("a protocol"))
        if number is None:
            raise trouble(token, f"{token.shown()} is no protocol that /etc/protocols has")
        if number == 0:
            raise trouble(token, f"{token.shown()}: protocol 0 can't be asked for; a rule without 'proto' is for all")
        return number

    def sides(self, protocols: tuple[int, ...], parts: list[Part]) -> tuple[Side, Side]:
        """`all`, or `from` and `to` with `os` between them. Ports want TCP or UDP alone."""
        if self.at.take_word("all"):
            return Side(), Side()
        source = self._side(protocols) if self.at.take_word("from") else Side()
        if self.at.is_word("os"):
            mark = self.at.mark()
            self.at.take()
            self.at.listed(lambda: self.at.want_name("an operating system"))
            parts.append(Part("os", self.at.text_since(mark)))
        destination = self._side(protocols) if self.at.take_word("to") else Side()
        return source, destination

    def _side(self, protocols: tuple[int, ...]) -> Side:
        hosts = (ANY_HOST,) if self.at.is_word("port") else self.at.listed(self.host)
        token = self.at.token
        if not self.at.take_word("port"):
            return Side(hosts)
        if not protocols or any(it not in (TCP, UDP) for it in protocols):
            raise trouble(
                token, "'port': a port wants 'proto tcp' or 'proto udp', and no other protocol, in the same rule"
            )
        return Side(hosts, self.at.listed(self.port))

    def host(self) -> Host:
        """A host of a rule: `any`, an address, a range, a table, an interface in parentheses, or what asks for
        routes."""
        if self.at.take_word("any"):
            return ANY_HOST
        negated = self.at.take_mark("!")
        if self.at.take_mark("<"):
            name = self.table_name()
            return Host(HostKind.TABLE, name, negated=negated)
        if self.at.is_word("no-route", "urpf-failed", "route"):
            mark = self.at.mark()
            if self.at.take().text == "route":
                self.at.want_name("the label of a route")
            return Host(HostKind.ROUTE, self.at.text_since(mark), negated=negated)
        return self.address(negated)

    def address(self, negated: bool) -> Host:
        """An address, a name or an interface, with a length or as a range; or one in parentheses."""
        if self.at.take_mark("("):
            name = self.at.want_name("an interface")
            self.at.want_mark(")")
            return Host(HostKind.DYNAMIC, name, length=self._length(), negated=negated)
        if self.at.is_word(*HEAD, *AFTER_HOSTS, "port"):
            raise self.at.wanted("a host")
        name = self.at.want_name("a host")
        if set(name.split(":")[1:]) & {"network", "broadcast"} and self.at.is_mark("/"):
            raise trouble(self.at.token, f"'{printable(name)}/': a network or a broadcast address takes no length")
        if self.at.take_mark("-"):
            return Host(HostKind.RANGE, name, self.at.want_name("the last address of the range"), negated=negated)
        return Host(HostKind.NAME, name, length=self._length(), negated=negated)

    def _length(self) -> int | None:
        return self.at.want_number(0, 128, "the length of a prefix") if self.at.take_mark("/") else None

    def table_name(self) -> str:
        """The name of a table and the `>` behind it. What pfctl -vv prints behind a colon, the number of entries, is
        left out."""
        token = self.at.token
        name = self.at.want_name("the name of a table")
        self.at.want_mark(">")
        name = re.sub(r":([0-9]+|\*)$", "", name)
        if not 1 <= len(name) <= 31:
            raise trouble(token, f"{token.shown()}: the name of a table has 1 to 31 bytes")
        return name

    def port(self) -> Port:
        """A port with its operator, a range, or two ports with an operator between them."""
        operator = next((it for it in PORT_MARKS if self.at.is_mark(it)), "")
        if operator:
            self.at.take()
        token = self.at.token
        low, high = self._port_range()
        if operator and low != high:
            raise trouble(token, f"{token.shown()}: ':' can't stand behind '{operator}'")
        if operator:
            return Port(operator, low, high)
        for binary in ("><", "<>"):
            if self.at.take_mark(binary):
                return Port(binary, low, self._port_range()[1])
        return Port("=" if low == high else ":", low, high)

    def _port_range(self) -> tuple[int, int]:
        token = self.at.token
        text = self.at.want_name("a port")
        if text.endswith(":") or self.at.token.kind is Kind.WORD and self.at.token.text.startswith(":"):
            text += self.at.want_name("a port")
            if text.endswith(":"):
                text += self.at.want_name("a port")
        ports = [port_of(it) for it in text.split(":")]
        if len(ports) > 2 or None in ports:
            raise trouble(token, f"{token.shown()} is no port that /etc/services has")
        return ports[0] or 0, ports[-1] or 0

    def flags(self) -> str:
        """`flags any` or `flags A/B`, without the word itself."""
        self.at.take()
        if self.at.take_word("any"):
            return "any"
        token = self.at.token
        first = "" if self.at.is_mark("/") else self.at.want_name("flags, as S/SA")
        self.at.want_mark("/")
        second = self.at.want_name("flags, as S/SA")
        if not re.fullmatch(r"[FSRPAUEW]*/[FSRPAUEW]+", f"{first}/{second}"):
            raise trouble(token, f"'{first}/{second}': flags are letters of FSRPAUEW")
        return f"{first}/{second}"

    def state(self) -> State:
        """`keep`, `modulate`, `synproxy` or `no`, `state`, and the options in parentheses."""
        word = self.at.take().text
        self.at.want_word("state")
        if word == "no" or not self.at.take_mark("("):
            return State(word)
        options: list[StateOption] = []
        while not self.at.take_mark(")"):
            token = self.at.token
            options.append(self.state_option())
            if len({it.name for it in options}) < len(options):
                raise trouble(token, f"{token.shown()} stands twice among the options")
            self.at.take_mark(",")
        return State(word, tuple(options))

    def state_option(self) -> StateOption:
        """One option of a state, or of `set state-defaults`."""
        name = self.at.want_word(*_OPTIONS) if not self.at.is_end() else self._cut()
        if name in _STATE_WORDS:
            return StateOption(name)
        if name in _STATE_NUMBERS:
            return StateOption(name, str(self.at.want_number(1, MOST_STATES, name)))
        if name == "max-src-conn-rate":
            return StateOption(name, self._rate(name))
        if name == "source-track":
            return StateOption(name, self.at.take_word("rule", "global"))
        if name == "overload":
            self.at.want_mark("<")
            table = self.table_name()
            flush = self.at.take_word("flush")
            return StateOption(name, f"{flush} {self.at.take_word('global') if flush else ''}".strip(), table)
        most = MOST_STATES if name.startswith("adaptive.") else MOST_SECONDS
        return StateOption(name, str(self.at.want_number(0, most, name)))

    def _cut(self) -> str:
        raise self.at.wanted("')' behind the options of a state")

    def _rate(self, what: str) -> str:
        count = self.at.want_number(1, MOST_STATES, what)
        self.at.want_mark("/")
        return f"{count}/{self.at.want_number(1, MOST_STATES, f'the seconds of {what}')}"

    def part(self) -> Part:
        """A part that may stand behind hosts, as its text. Trouble where it is none that pf has."""
        mark = self.at.mark()
        negated = self.at.take_mark("!")
        if negated:
            kind = self.at.want_word("tagged", "received-on")
        else:
            kind = self.at.take_word(*PARTS)
            if not kind:
                raise self._no_part()
        behind = _BEHIND[kind](self, kind) if kind in _BEHIND else ""
        value = behind if isinstance(behind, str) else ""
        pool = behind if isinstance(behind, Pool) else None
        return Part(kind, self.at.text_since(mark), value, negated, pool)

    def _tag(self, kind: str) -> str:
        token = self.at.token
        name = self.at.want_name(f"what {kind} names")
        if not 1 <= len(name.encode("utf-8", "surrogateescape")) <= MOST_TAG_BYTES:
            raise trouble(token, f"{token.shown()}: a tag has 1 to {MOST_TAG_BYTES} bytes")
        return name

    def _no_part(self) -> Exception:
        if self.at.is_word(*HEAD):
            order = "direction, log, quick, on, family, proto, from, to, and then the rest"
            return trouble(self.at.token, f"{self.at.token.shown()}: stands too late, or twice; pf's order is {order}")
        return self.at.wanted("a part of a rule, or the end of the line", (*AFTER_HOSTS, *HEAD))

    def _probability(self) -> None:
        self.at.want_name("a probability")
        self.at.take_mark("%")

    def _name_or_parentheses(self, what: str) -> None:
        if self.at.is_mark("("):
            self.at.skip_parentheses()
        else:
            self.at.want_name(what)

    def _set(self) -> None:
        if self.at.is_mark("("):
            self.at.skip_parentheses()
            return
        what = self.at.want_word("prio", "queue", "tos", "delay")
        self._name_or_parentheses(f"what set {what} names")

    def _owner(self) -> None:
        for it in PORT_MARKS:
            if self.at.take_mark(it):
                break
        self.at.want_name("a user or a group")
        if self.at.take_mark("><") or self.at.take_mark("<>"):
            self.at.want_name("a user or a group")

    def _icmp_type(self) -> None:
        self.at.want_name("a type of ICMP packets")
        if self.at.take_word("code"):
            self.at.want_name("a code of ICMP packets")

    def _divert(self, kind: str) -> None:
        if kind == "divert-to":
            self.at.want_name("an address")
        self.at.want_word("port")
        self.at.want_name("a port")


# what reads that which stands behind the word of a part; behind a word that is not in it nothing does
_BEHIND: Mapping[str, Callable[[FilterReader, str], object]] = {
    **dict.fromkeys(_ONE_WORD, lambda it, kind: it.at.want_name(f"what {kind} names")),
    **dict.fromkeys(_TAGS, FilterReader._tag),
    **dict.fromkeys(("user", "group"), lambda it, kind: it.at.listed(it._owner)),
    **dict.fromkeys(("icmp-type", "icmp6-type"), lambda it, kind: it.at.listed(it._icmp_type)),
    **dict.fromkeys(_TRANSLATIONS, lambda it, kind: it.pools.translation(kind)),
    **dict.fromkeys(_ROUTES, lambda it, kind: it.pools.pool()),
    **dict.fromkeys(("divert-to", "divert-packet"), FilterReader._divert),
    "queue": lambda it, kind: it._name_or_parentheses("a queue"),
    "set": lambda it, kind: it._set(),
    "scrub": lambda it, kind: it.at.skip_parentheses(),
    "probability": lambda it, kind: it._probability(),
    "max-pkt-rate": FilterReader._rate,
}
