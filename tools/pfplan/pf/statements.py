"""What a pf.conf says, statement by statement: the values that reading_statements.py makes and expansion.py takes."""

import enum
from dataclasses import dataclass, field

from pfplan.common.networks import Network


@dataclass(frozen=True)
class SourceLine:
    """Where a statement begins: a file and a line of it, from 1."""

    file: str
    line: int


@dataclass(frozen=True)
class Interface:
    """What stands behind `on`: a name, `any`, or `rdomain N` (name `rdomain`)."""

    name: str
    negated: bool = False
    domain: int | None = None


class HostKind(enum.Enum):
    """What kind of host a rule or a table names."""

    ANY = "any"
    NAME = "an address, an interface or a name"
    RANGE = "a range of addresses"
    TABLE = "a table"
    DYNAMIC = "an interface in parentheses"
    ROUTE = "no-route, urpf-failed or route"


@dataclass(frozen=True)
class Host:
    """A host of a rule or an entry of a table. `last` ends a range; `length` is that of a prefix, if one is written."""

    kind: HostKind
    text: str
    last: str = ""
    length: int | None = None
    negated: bool = False

    def shown(self) -> str:
        """The host as a rule writes it."""
        sign = "! " if self.negated else ""
        length = "" if self.length is None else f"/{self.length}"
        if self.kind is HostKind.TABLE:
            return f"{sign}<{self.text}>"
        if self.kind is HostKind.DYNAMIC:
            return f"{sign}({self.text}){length}"
        if self.kind is HostKind.RANGE:
            return f"{sign}{self.text} - {self.last}"
        return f"{sign}{self.text}{length}"


ANY_HOST = Host(HostKind.ANY, "any")


@dataclass(frozen=True)
class Port:
    """Ports by an operator: `=`, `!=`, `<`, `<=`, `>`, `>=`, and of two numbers `:` (both in), `><` (between), `<>`
    (outside)."""

    operator: str
    low: int
    high: int


@dataclass(frozen=True)
class Pool:
    """The addresses that a translation puts in, or that a route names. `words` say how pf chooses among them, with
    `static-port` where that stands there; `port` is what stands behind `port`: `P`, `P:Q` or `P:*`."""

    hosts: tuple[Host, ...] = ()
    words: tuple[str, ...] = ()
    port: str = ""


@dataclass(frozen=True)
class Part:
    """A part of a rule that stands behind its hosts. `kind` is its first word, `value` the name behind it, where one
    stands there, and `pool` the addresses; a `!` makes it `negated`."""

    kind: str
    text: str
    value: str = ""
    negated: bool = False
    pool: Pool | None = None


@dataclass(frozen=True)
class StateOption:
    """One option between the parentheses of `keep state`: its name, the table of `overload`, and what else stands
    behind it."""

    name: str
    value: str = ""
    table: str = ""

    def shown(self) -> str:
        """The option as a rule writes it."""
        table = f"<{self.table}>" if self.table else ""
        return " ".join(it for it in (self.name, table, self.value) if it)


@dataclass(frozen=True)
class State:
    """`keep state`, `modulate state`, `synproxy state` or `no state`, with its options."""

    word: str
    options: tuple[StateOption, ...] = ()


@dataclass(frozen=True)
class Side:
    """One end of a connection: hosts, and ports if any are asked for. Each of a list makes a rule of its own."""

    hosts: tuple[Host, ...] = (ANY_HOST,)
    ports: tuple[Port, ...] = ()


@dataclass(frozen=True)
class Filter:
    """What a rule or an anchor asks of a packet, and what it does with it beside its action."""

    direction: str = ""
    log: str = ""
    quick: bool = False
    interfaces: tuple[Interface, ...] = ()
    family: str = ""
    protocols: tuple[int, ...] = ()
    source: Side = Side()
    destination: Side = Side()
    flags: str = ""
    state: State | None = None
    parts: tuple[Part, ...] = ()

    def part(self, kind: str) -> Part | None:
        """The part of this first word; of several the last, which is the one that pf keeps."""
        return next((it for it in reversed(self.parts) if it.kind == kind), None)


@dataclass(frozen=True)
class Statement:
    """A statement, with its place and its text on one line."""

    place: SourceLine
    text: str


@dataclass(frozen=True)
class Setting(Statement):
    """`set`: its name, the pairs of `limit` and `timeout`, the options of `state-defaults`, the interfaces of `skip`,
    the prefixes and interfaces of `route`, or what else stands there."""

    name: str
    pairs: tuple[tuple[str, int], ...] = ()
    options: tuple[StateOption, ...] = ()
    value: str = ""
    interfaces: tuple[str, ...] = ()
    routes: tuple[tuple[Network, str], ...] = ()


@dataclass(frozen=True)
class Table(Statement):
    """The definition of a table. `parts` are its words; its entries stand in the text, and in files."""

    name: str
    parts: tuple[str, ...] = ()
    entries: tuple[Host, ...] = ()
    files: tuple[str, ...] = ()


@dataclass(frozen=True)
class Rule(Statement):
    """`pass`, `block` or `match`. `answer` is the word behind `block`."""

    action: str
    answer: str
    filter: Filter


@dataclass(frozen=True)
class Anchor(Statement):
    """An anchor; without a body its rules are loaded by others, or by `load anchor`."""

    name: str
    filter: Filter
    body: tuple[Statement, ...] | None = None


@dataclass(frozen=True)
class Load(Statement):
    """`load anchor NAME from FILE`."""

    name: str
    path: str


@dataclass(frozen=True)
class Antispoof(Statement):
    """`antispoof`: the interfaces, those in parentheses as dynamic ones."""

    log: str
    quick: bool
    interfaces: tuple[Host, ...]
    family: str
    parts: tuple[Part, ...] = ()


@dataclass(frozen=True)
class Other(Statement):
    """A statement that is known, and that a rules text of pfsrc does not have: `kind` is its first word."""

    kind: str


@dataclass(frozen=True)
class Unread(Other):
    """Such a statement with words that nobody reads here, and what was expected in their place."""

    why: str


@dataclass(frozen=True)
class OldTranslation(Other):
    """`nat`, `rdr` or `binat` of pf before OpenBSD 4.7, which is `sort`. With `no` it has no pool, and ends the search
    for one; what it `passes` is not asked of the filter rules."""

    sort: str
    filter: Filter
    passes: bool = False
    pool: Pool | None = None


@dataclass(frozen=True)
class OldAnchor(Other):
    """`nat-anchor`, `rdr-anchor` or `binat-anchor`: where the rules of that `sort` are asked that an anchor has."""

    sort: str
    name: str
    filter: Filter
    body: tuple[Statement, ...] | None = None


@dataclass
class Parsed:
    """The statements of a text, and the macros as they are at its end."""

    statements: list[Statement] = field(default_factory=list)
    macros: dict[str, str] = field(default_factory=dict)
