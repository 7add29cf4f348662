"""The reader of tokens that reading_statements.py and reading_filters.py share: one token ahead, lists in braces, and
what a syntax error says."""

import difflib
from collections.abc import Callable, Iterable
from typing import Protocol, TypeVar

from pfplan.common.errors import Trouble
from pfplan.pf.lexer import Kind, Token, text_of, trouble

T = TypeVar("T")
DEEPEST_LIST = 64  # lists inside one another; pfctl's parser has a bound of its own


class Tokens(Protocol):
    """What gives token by token, and END again and again behind the last."""

    def next(self) -> Token:
        """The next token."""


class Cursor:
    """Where the reading of a text is: the token that comes next, and those of the statement so far."""

    def __init__(self, lexer: Tokens) -> None:
        self._lexer = lexer
        self._taken: list[Token] = []
        self.token = lexer.next()

    def begin(self) -> Token:
        """Begins a statement, and answers its first token."""
        self._taken = []
        return self.token

    def mark(self) -> int:
        """How many tokens of the statement have been taken: a place for `text_since`."""
        return len(self._taken)

    def text_since(self, mark: int = 0) -> str:
        """The tokens of the statement that were taken since a mark, as one line."""
        return text_of(self._taken[mark:])

    def tokens(self) -> tuple[Token, ...]:
        """The tokens of the statement that have been taken."""
        return tuple(self._taken)

    def take(self) -> Token:
        """Takes the token, and reads the next one."""
        token = self.token
        self._taken.append(token)
        if token.kind is not Kind.END:
            self.token = self._lexer.next()
        return token

    def is_word(self, *texts: str) -> bool:
        """Whether the token is one of these words, without quotes."""
        return self.token.kind is Kind.WORD and self.token.text in texts

    def is_mark(self, text: str) -> bool:
        """Whether the token is this mark."""
        return self.token.is_mark(text)

    def is_name(self) -> bool:
        """Whether the token is a word or a quoted string."""
        return self.token.kind in (Kind.WORD, Kind.QUOTED)

    def is_end(self) -> bool:
        """Whether the line ends here."""
        return self.token.kind in (Kind.LINE_END, Kind.END)

    def take_word(self, *texts: str) -> str:
        """Takes the token if it is one of these words, and answers it; else nothing."""
        return self.take().text if self.is_word(*texts) else ""

    def take_mark(self, text: str) -> bool:
        """Takes the token if it is this mark."""
        if not self.is_mark(text):
            return False
        self.take()
        return True

    def want_word(self, *texts: str) -> str:
        """One of these words. Trouble if the token is another."""
        return self.take_word(*texts) or self._fail_word(texts)

    def want_mark(self, text: str) -> None:
        """This mark. Trouble if the token is another."""
        if not self.take_mark(text):
            raise self.wanted(f"'{text}'")

    def want_name(self, what: str) -> str:
        """A word or a quoted string. Trouble, with what it would have been, if the token is none."""
        if not self.is_name():
            raise self.wanted(what)
        return self.take().text

    def want_number(self, least: int, most: int, what: str) -> int:
        """A number within its bounds. Trouble, with what it would have been, if the token is none."""
        text = self.token.text
        if self.token.kind is not Kind.WORD or not text.isdecimal() or not text.isascii() or len(text) > 10:
            raise self.wanted(f"{what}, a number from {least} to {most}")
        if not least <= int(text) <= most:
            raise trouble(self.token, f"'{text}': {what} is a number from {least} to {most}")
        return int(self.take().text)

    def want_line_end(self) -> None:
        """The end of the line. Trouble if something else stands there."""
        if not self.is_end():
            raise self.wanted("the end of the line")
        self.take()

    def skip_line_ends(self) -> None:
        """Passes over line ends, as they may stand between braces."""
        while self.token.kind is Kind.LINE_END:
            self.take()

    def listed(self, item: Callable[[], T], depth: int = 0) -> tuple[T, ...]:
        """One item, or a list of them in braces, which may hold lists. A comma may stand between two."""
        if not self.is_mark("{"):
            return (item(),)
        if depth == DEEPEST_LIST:
            raise trouble(self.token, f"lists stand in one another more than {DEEPEST_LIST} times")
        self.take()
        self.skip_line_ends()
        found: list[T] = []
        while True:
            found.extend(self.listed(item, depth + 1))
            self.skip_line_ends()
            if self.take_mark("}"):
                return tuple(found)
            if self.take_mark(","):
                self.skip_line_ends()

    def skip_parentheses(self) -> None:
        """Takes a parenthesis up to the one that closes it. Trouble where none does before the line ends."""
        opened = self.token
        self.want_mark("(")
        depth = 1
        while depth:
            if self.is_end():
                raise trouble(opened, "'(' is not closed")
            token = self.take()
            depth += token.is_mark("(") - token.is_mark(")")

    def skip_line(self) -> None:
        """Takes all up to the end of the line; line ends in braces do not end it."""
        depth = 0
        while self.token.kind is not Kind.END and not (self.token.kind is Kind.LINE_END and depth <= 0):
            token = self.take()
            depth += token.is_mark("{") - token.is_mark("}")

    def wanted(self, what: str, words: Iterable[str] = ()) -> Trouble:
        """A syntax error at the token: what was expected, and the nearest of the words that may stand there."""
        near = difflib.get_close_matches(self.token.text, list(words), 1, 0.7) if self.token.kind is Kind.WORD else []
        said = f"{self.token.shown()}: wanted {what}"
        if near:
            said += f"; is '{near[0]}' meant?"
        elif self.is_mark("$"):
            said += "; a macro in the quotes of another is not expanded, so write it outside of them"
        return trouble(self.token, said)

    def _fail_word(self, texts: tuple[str, ...]) -> str:
        named = " or ".join(f"'{it}'" for it in texts) if len(texts) < 6 else "one of " + ", ".join(texts)
        raise self.wanted(named, texts)
