"""The statements of a pf.conf of OpenBSD 7.4, and of older ones as far as they are told (pf.conf(5), GRAMMAR)."""

import contextlib
import re
from collections.abc import Callable, Iterator
from dataclasses import replace
from pathlib import Path

from pfplan.common.errors import Status, Trouble
from pfplan.common.limits import OF_ALL
from pfplan.common.networks import Network, interface_name
from pfplan.pf.cursor import DEEPEST_LIST, Cursor
from pfplan.pf.interfaces import prefix_of
from pfplan.pf.lexer import Kind, Lexer, Token, printable, trouble
from pfplan.pf.named_files import NamedFiles, read_text
from pfplan.pf.profiles import Profile
from pfplan.pf.reading_filters import (
    AFTER_HOSTS,
    HEAD,
    MOST_SECONDS,
    MOST_STATES,
    TIMEOUTS,
    TIMEOUTS_FOR_NOTHING,
    FilterReader,
)
from pfplan.pf.reading_old_translations import is_old_translation, read_old_translation
from pfplan.pf.statements import (
    Anchor,
    Antispoof,
    Host,
    HostKind,
    Load,
    Other,
    Parsed,
    Part,
    Rule,
    Setting,
    SourceLine,
    StateOption,
    Statement,
    Table,
)

DEEPEST_FILE = 16  # files that include one another
DEEPEST_ANCHOR = 64
LONGEST_MACRO = 1 << 17  # characters
LIMITS = (*OF_ALL, "frags")
LIMITS_FOR_NOTHING = ("anchors", "pktdelay-pkts", "eth-anchors", "ktable-entries")
OPTIMIZATIONS = ("default", "normal", "high-latency", "satellite", "aggressive", "conservative")
# of `set syncookies adaptive`, where they are not given
SYNCOOKIE_SHARES = {"start": 25, "end": 12}
SETTINGS = (
    "limit", "timeout", "optimization", "skip", "block-policy", "state-policy", "state-defaults", "syncookies",
    "reassemble", "debug", "loginterface", "fingerprints", "hostid", "ruleset-optimization", "require-order",
    "keepcounters", "fail-policy",
)  # fmt: skip
OF_RULES_TEXTS = ("profile", "route")  # no pf.conf has them
OLD = (
    "nat", "rdr", "binat", "no", "scrub", "altq", "nat-anchor", "rdr-anchor", "binat-anchor", "scrub-anchor",
    "dummynet-anchor", "dummynet", "ether",
)  # fmt: skip
FIRST = ("pass", "block", "match", "anchor", "set", "table", "antispoof", "load", "include", "queue", *OLD)
_ANSWERS = ("drop", "return", "return-rst", "return-icmp", "return-icmp6")
_LINE_OF_PFCTL = re.compile(r"(.*:[0-9]+:|pfctl:)$")


class Parser:
    """Reads the statements of one text. Macros are shared with the texts that include it; those in `fixed` keep their
    value."""

    def __init__(
        self,
        text: str,
        file: str,
        parsed: Parsed,
        sources: NamedFiles,
        fixed: frozenset[str] = frozenset(),
        depth: int = 0,
    ) -> None:
        self._file = file
        self._parsed = parsed
        self._sources = sources
        self._fixed = fixed
        self._depth = depth
        self._anchors = 0
        self.at = Cursor(Lexer(text, file, parsed.macros, sources.budget))
        self.filters = FilterReader(self.at)

    def text(self) -> list[Statement]:
        """All statements, up to the end. Trouble with status 3 at the first syntax error."""
        found = self._statements()
        if self.at.token.kind is not Kind.END:
            raise trouble(self.at.token, "'}': no anchor is open here")
        return found

    def _statements(self) -> list[Statement]:
        found: list[Statement] = []
        while self.at.token.kind is not Kind.END and not self.at.is_mark("}"):
            if self.at.token.kind is Kind.LINE_END:
                self.at.take()
                continue
            found.extend(self._statement())
        return found

    def _statement(self) -> list[Statement]:
        token = self.at.begin()
        if self.at.take_mark("@"):  # as pfctl -vv numbers rules
            self.at.want_name("the number of a rule")
            token = self.at.begin()
        place = SourceLine(token.file, token.line)
        if self.at.is_word("include"):
            return self._include(place)
        for words, read in (
            (("pass", "block", "match"), self._rule),
            (("anchor",), self._anchor),
            (("set",), self._set),
            (("table",), self._table),
            (("antispoof",), self._antispoof),
            (("load",), self._load),
            (("queue", *OLD), self._other),
        ):
            if self.at.is_word(*words):
                return [read(place)]
        self._macro(token)
        return []

    def _macro(self, token: Token) -> None:
        """`name = value`, where the value is one or more words and strings. It also meets lines that are no
        statement."""
        if not self.at.is_name() and not self.at.is_mark("/"):
            raise self.at.wanted("a statement", FIRST)
        self.at.take()
        if not self.at.is_mark("="):
            self._no_statement(token)
            return
        if re.search(r"\s", token.text):
            raise trouble(token, f"{token.shown()}: the name of a macro has no space")
        self.at.take()
        values = [self.at.want_name("the value of the macro: quoted strings and words")]
        while self.at.is_name():
            values.append(self.at.take().text)
        value = " ".join(values)
        if len(value) > LONGEST_MACRO:
            raise trouble(token, f"macro {token.shown()} has more than {LONGEST_MACRO} characters")
        if token.text not in self._fixed:
            self._parsed.macros[token.text] = value
        self.at.want_line_end()

    def _no_statement(self, token: Token) -> None:
        if token.is_word("Loaded"):  # as pfctl says of fingerprints
            self.at.skip_line()
            return
        if token.is_mark("/"):
            self.at.skip_line()
        text = self.at.text_since()
        if _LINE_OF_PFCTL.search(text) or re.search(r":[0-9]+: ", text):
            self.at.skip_line()
            raise trouble(token, f"an error of pfctl: {self.at.text_since()[:80]}")
        self.at.token = token
        raise self.at.wanted("a statement", FIRST)

    def _include(self, place: SourceLine) -> list[Statement]:
        self.at.take()
        token = self.at.token
        name = self.at.want_name("the name of a file")
        text = self.at.text_since()
        path = self._sources.find(name, place)
        if path is None:
            self.at.want_line_end()
            return [Other(place, text, "include")]
        if self._depth == DEEPEST_FILE:
            raise trouble(token, f"files include one another more than {DEEPEST_FILE} times")
        # what is behind the end of this line is read after the file, whose macros it may use
        if not self.at.is_end():
            raise self.at.wanted("the end of the line")
        with unquoted(path, self._sources, place):
            return Parser(read_text(path), str(path), self._parsed, self._sources, self._fixed, self._depth + 1).text()

    def _rule(self, place: SourceLine) -> Rule:
        action = self.at.take().text
        parts: list[Part] = []
        answer = ""
        if action == "block":
            answer = self.at.take_word(*_ANSWERS)
            if answer.startswith("return-") and self.at.is_mark("("):
                mark = self.at.mark() - 1
                self.at.skip_parentheses()
                parts.append(Part("answer", self.at.text_since(mark)))
        read = self.filters.filter()
        text = self.at.text_since()
        if not self.at.is_end():
            raise self.at.wanted("a part of a rule, or the end of the line")
        self.at.take()
        return Rule(place, text, action, answer, replace(read, parts=(*parts, *read.parts)))

    def _anchor(self, place: SourceLine) -> Anchor:
        token = self.at.take()
        name = ""
        if (
            self.at.token.kind is Kind.QUOTED
            or self.at.token.kind is Kind.WORD
            and not self.at.is_word(*HEAD, *AFTER_HOSTS)
        ):
            name = self.at.take().text
        read = self.filters.filter(has_log=False)
        text = self.at.text_since()
        if not self.at.take_mark("{"):
            if not self.at.is_end():
                raise self.at.wanted("a part of an anchor, '{' or the end of the line")
            self.at.take()
            return Anchor(place, text, name, read)
        self.at.want_line_end()
        self._anchors += 1
        if self._anchors > DEEPEST_ANCHOR:
            raise trouble(token, f"anchors stand in one another more than {DEEPEST_ANCHOR} times")
        body = self._statements()
        self._anchors -= 1
        if not self.at.is_mark("}"):
            raise trouble(token, "this anchor is not closed: the text is cut")
        self.at.take()
        self.at.want_line_end()
        return Anchor(place, f"{text} {{ .. }}", name, read, tuple(body))

    def _load(self, place: SourceLine) -> Load:
        self.at.take()
        self.at.want_word("anchor")
        name = self.at.want_name("the name of an anchor")
        self.at.want_word("from")
        path = self.at.want_name("the name of a file")
        text = self.at.text_since()
        self.at.want_line_end()
        return Load(place, text, name, path)

    def _other(self, place: SourceLine) -> Other:
        kind = self.at.token.text
        self.at.skip_line()
        if is_old_translation(self.at.tokens()):
            return read_old_translation(self.at.tokens(), place, self.at.text_since())
        return Other(place, self.at.text_since(), kind)

    def _antispoof(self, place: SourceLine) -> Antispoof:
        self.at.take()
        log, quick = self.filters.log_quick()
        self.at.want_word("for")
        interfaces = self.at.listed(self._spoofed)
        family = self.at.take_word("inet", "inet6")
        parts: list[Part] = []
        while self.at.is_word("label", "rtable"):
            parts.append(self.filters.part())
        text = self.at.text_since()
        if not self.at.is_end():
            raise self.at.wanted(
                "'inet', 'inet6', 'label' or the end of the line", ("inet", "inet6", "label", "rtable")
            )
        self.at.take()
        return Antispoof(place, text, log, quick, interfaces, family, tuple(parts))

    def _spoofed(self) -> Host:
        if self.at.take_mark("("):
            name = self.at.want_name("an interface")
            self.at.want_mark(")")
            return Host(HostKind.DYNAMIC, name)
        return Host(HostKind.NAME, self.at.want_name("an interface"))

    def _table(self, place: SourceLine) -> Table:
        self.at.take()
        self.at.want_mark("<")
        name = self.filters.table_name()
        parts: list[str] = []
        entries: list[Host] = []
        files: list[str] = []
        while not self.at.is_end():
            if self.at.is_mark("{"):
                entries.extend(self._entries(0))
            elif self.at.take_word("file"):
                files.append(self.at.want_name("the name of a file"))
            else:
                if not self.at.is_word("persist", "const", "counters"):
                    raise self.at.wanted("a part of a table", ("persist", "const", "counters", "file"))
                parts.append(self.at.take().text)
        text = self.at.text_since()
        self.at.take()
        return Table(place, text, name, tuple(dict.fromkeys(parts)), tuple(entries), tuple(files))

    def _entries(self, depth: int) -> list[Host]:
        if depth == DEEPEST_LIST:
            raise trouble(self.at.token, f"lists stand in one another more than {DEEPEST_LIST} times")
        opened = self.at.take()
        found: list[Host] = []
        while not self.at.take_mark("}"):
            if self.at.token.kind is Kind.END:
                raise trouble(opened, "'{' is not closed")
            if self.at.is_mark("{"):
                found.extend(self._entries(depth + 1))
            elif not self.at.take_mark(",") and self.at.token.kind is not Kind.LINE_END:
                found.append(self.filters.address(self.at.take_mark("!")))
            else:
                self.at.skip_line_ends()
        return found

    def _set(self, place: SourceLine) -> Setting:
        self.at.take()
        name = self.at.take_word(*OF_RULES_TEXTS) or self.at.want_word(*SETTINGS)
        pairs: tuple[tuple[str, int], ...] = ()
        options: list[StateOption] = []
        interfaces: tuple[str, ...] = ()
        routes: tuple[tuple[Network, str], ...] = ()
        value = ""
        mark = self.at.mark()
        if name in ("limit", "timeout"):
            pairs = self._pairs(self._limit if name == "limit" else self._timeout)
        elif name == "optimization":
            value = self.at.want_word(*OPTIMIZATIONS)
        elif name == "profile":
            value = self.at.want_word(Profile.OPENBSD.value)
        elif name == "route":
            routes = self.at.listed(self._route)
        elif name == "skip":
            self.at.want_word("on")
            interfaces = self.at.listed(self._skipped)
        elif name == "block-policy":
            self.at.want_word("drop", "return")
        elif name == "state-policy":
            value = self.at.want_word("if-bound", "floating")
        elif name == "syncookies":
            value = self._syncookies()
        elif name == "state-defaults":
            while not self.at.is_end():
                options.append(self.filters.state_option())
                self.at.take_mark(",")
        else:
            self.at.skip_line()
        value = value or self.at.text_since(mark)
        text = self.at.text_since()
        if not self.at.is_end():
            raise self.at.wanted("the end of the line")
        self.at.take()
        return Setting(place, text, name, pairs, tuple(options), value, interfaces, routes)

    def _route(self) -> tuple[Network, str]:
        """A prefix, and the interface by which packets to it leave."""
        token = self.at.token
        host = self.filters.address(False)
        network = prefix_of(host.text, host.length) if host.kind is HostKind.NAME else None
        if network is None:
            raise trouble(token, f"{token.shown()}: wanted a prefix")
        try:
            return network, interface_name(self.at.want_name("an interface"))
        except ValueError as error:
            raise trouble(token, str(error)) from None

    def _syncookies(self) -> str:
        """When cookies are given, as a canonical text writes it. Shares are whole percentages of `states`."""
        word = self.at.want_word("never", "always", "adaptive")
        opened = self.at.token
        if word != "adaptive":
            return word
        shares = dict(SYNCOOKIE_SHARES)
        if self.at.take_mark("("):
            while not self.at.take_mark(")"):
                name = self.at.want_word(*shares)
                shares[name] = self._share(name)
                self.at.take_mark(",")
        if shares["end"] >= shares["start"]:
            said = f"the end, {shares['end']}%, is not below the start, {shares['start']}%"
            raise trouble(opened, f"{opened.shown()}: {said}")
        return f"adaptive (start {shares['start']}%, end {shares['end']}%)"

    def _share(self, name: str) -> int:
        text = self.at.token.text
        if self.at.token.kind is not Kind.WORD or not re.fullmatch(r"[0-9]{1,3}%", text) or int(text[:-1]) > 100:
            raise self.at.wanted(f"the {name}, a whole number from 0% to 100%")
        return int(self.at.take().text[:-1])

    def _pairs(self, read: Callable[[], tuple[str, int]]) -> tuple[tuple[str, int], ...]:
        if not self.at.take_mark("{"):
            return (read(),)
        found: list[tuple[str, int]] = []
        self.at.skip_line_ends()
        while not self.at.take_mark("}"):
            found.append(read())
            self.at.skip_line_ends()
            self.at.take_mark(",")
            self.at.skip_line_ends()
        return tuple(found)

    def _limit(self) -> tuple[str, int]:
        name = self.at.want_word(*LIMITS, *LIMITS_FOR_NOTHING)
        return name, self.at.want_number(1, MOST_STATES, f"the limit of {name}")

    def _timeout(self) -> tuple[str, int]:
        name = self.at.want_word(*TIMEOUTS, *TIMEOUTS_FOR_NOTHING)
        most = MOST_STATES if name.startswith("adaptive.") else MOST_SECONDS
        return name, self.at.want_number(1 if name == "interval" else 0, most, f"the timeout {name}")

    def _skipped(self) -> str:
        if self.at.is_mark("!"):
            raise trouble(self.at.token, "'!': pf skips interfaces by their names alone")
        return self.at.want_name("an interface")


@contextlib.contextmanager
def unquoted(path: Path, sources: NamedFiles, place: SourceLine) -> Iterator[None]:
    """Tells a syntax error in a file by its line alone, where a text named it by an absolute name: it may be any file
    of this machine."""
    try:
        yield
    except Trouble as trouble:
        if path not in sources.strange or trouble.status != Status.RULES:
            raise
        line = re.search(r": line (\d+): ", trouble.message.removeprefix(printable(str(path))))
        where = f" at its line {line[1]}" if line else ""
        why = (
            f"{path} is no text of rules{where}; nothing of it is quoted, as its name is absolute (--root confines "
            "such names)"
        )
        raise Trouble(f"{printable(place.file)}: line {place.line}: {why}", Status.RULES) from None


def parse(text: str, file: str, macros: dict[str, str], sources: NamedFiles) -> Parsed:
    """The statements of a text. `macros` are those of the command line, which the text does not change.

    Trouble with status 3, with file, line, the token, what was expected, and the nearest word where it may be a slip.
    """
    parsed = Parsed(macros=dict(macros))
    parsed.statements = Parser(text, file, parsed, sources, frozenset(macros)).text()
    return parsed


def parse_file(path: Path, macros: dict[str, str], sources: NamedFiles) -> Parsed:
    """The statements of a file, and of those that it includes. Trouble as `parse`, and with status 4 where it can't be
    read."""
    return parse(read_text(path), str(path), macros, sources)
