"""Translation as pf had it before OpenBSD 4.7: `nat`, `rdr`, `binat`, `no nat` and their like, and where the rules of
anchors are asked (pf.conf(5) of OpenBSD 4.6, TRANSLATION; FreeBSD has it still).

A statement with words that are not known here is no syntax error: it is told as left out, with what was expected.
"""

from collections.abc import Sequence

from pfplan.common.errors import Trouble
from pfplan.pf.cursor import Cursor
from pfplan.pf.lexer import Kind, Token, printable
from pfplan.pf.reading_filters import FilterReader
from pfplan.pf.statements import Filter, OldAnchor, OldTranslation, Other, Part, SourceLine, Unread

SORTS = ("nat", "rdr", "binat")
ANCHORS = tuple(f"{it}-anchor" for it in SORTS)
# parts that stand in front of `->`
_PARTS = ("tag", "tagged", "rtable", "label")


class _Line:
    """The tokens of one statement, over again."""

    def __init__(self, tokens: Sequence[Token]) -> None:
        self._left = list(reversed(tokens))
        last = tokens[-1]
        self._end = Token(Kind.END, "", last.file, last.line)

    def next(self) -> Token:
        """The next token."""
        return self._left.pop() if self._left else self._end


def is_old_translation(tokens: Sequence[Token]) -> bool:
    """Whether a statement is of this kind, by its first two words."""
    texts = [it.text for it in tokens[:2]]
    return texts[0] in (*SORTS, *ANCHORS) or texts[0] == "no" and len(texts) == 2 and texts[1] in SORTS


def read_old_translation(tokens: Sequence[Token], place: SourceLine, text: str) -> Other:
    """The statement of these tokens, whose text is given; `Unread` where it has words that are not known."""
    try:
        return _Reader(tokens).statement(place, text)
    except Trouble as trouble:
        why = trouble.message.removeprefix(f"{printable(place.file)}: ").partition(": ")[2]
        return Unread(place, text, tokens[0].text, why)


class _Reader:
    """Reads one statement."""

    def __init__(self, tokens: Sequence[Token]) -> None:
        self._kind = tokens[0].text
        self._at = Cursor(_Line(tokens))
        self._filters = FilterReader(self._at)

    def statement(self, place: SourceLine, text: str) -> Other:
        """The statement. Trouble at the first word that is not known."""
        if self._kind in ANCHORS:
            self._at.take()
            name = self._at.want_name("the name of an anchor")
            asked = self._filter([])
            self._at.want_line_end()
            return OldAnchor(place, text, self._kind, self._kind.removesuffix("-anchor"), name, asked)
        is_no = bool(self._at.take_word("no"))
        sort = self._at.want_word(*SORTS)
        passes = not is_no and bool(self._at.take_word("pass"))
        log = self._filters.log()
        parts: list[Part] = []
        asked = self._filter(parts, log)
        pool = None
        if not is_no:
            self._at.want_mark("->")
            pool = self._filters.pools.pool(has_port=sort != "binat")
        self._at.want_line_end()
        return OldTranslation(place, text, self._kind, sort, asked, passes, pool)

    def _filter(self, parts: list[Part], log: str = "") -> Filter:
        interfaces = self._filters.interfaces()
        family = self._at.take_word("inet", "inet6")
        protocols = self._filters.protocols()
        source, destination = self._filters.sides(protocols, parts)
        while self._at.is_word(*_PARTS) or self._at.is_mark("!"):
            parts.append(self._filters.part())
        return Filter(
            log=log, interfaces=interfaces, family=family, protocols=protocols, source=source,
            destination=destination, parts=tuple(parts),
        )  # fmt: skip
