"""The tokens of a rules text, and the place up to which they were read."""
from __future__ import annotations

import re
from typing import Callable, List, Optional, TypeVar

from reader.values import BadText, NotRead, number_of

Value = TypeVar("Value")
LINE_END = "\n"
LEXIS = re.compile(r'(?:[ \t\r]|\\\n|#[^\n]*)+|(?P<token>[{}()<>,!=\n]|"[^"\n]*"|[^\x00-\x20\x7f-\xff{}()<>,!=#"\\]+)')
MARKS = set("{}()<>,!=") | {LINE_END, ""}


def tokens_of(text: str) -> List[str]:
    """The tokens; the end is the empty one, behind a line end."""
    tokens: List[str] = []
    place = 0
    while place < len(text):
        found = LEXIS.match(text, place)
        if not found:
            raise NotRead(f"the byte {text[place]!r}")
        tokens += [found["token"]] if found["token"] else []
        place = found.end()
    return [*tokens, LINE_END, ""]


class Tokens:
    """Reads token after token."""

    def __init__(self, text: str) -> None:
        self.tokens = tokens_of(text)
        self.place = 0

    @property
    def next(self) -> str:
        """The next token, which stays."""
        return self.tokens[self.place]

    def take(self, *words: str) -> Optional[str]:
        """Takes the next token if it is one of these."""
        if self.next not in words:
            return None
        self.place += 1
        return self.tokens[self.place - 1]

    def expect(self, *words: str) -> str:
        """Takes the next token, which must be one of these."""
        found = self.take(*words)
        if found is None:
            raise self.not_read()
        return found

    def word(self) -> str:
        """Takes a word or a quoted string."""
        if self.next in MARKS:
            raise self.not_read()
        self.place += 1
        return self.tokens[self.place - 1]

    def value(self, reading: Callable[[str], Value]) -> Value:
        """Takes a word and reads it."""
        word = self.word()
        try:
            return reading(word)
        except BadText:
            self.place -= 1
            raise self.not_read() from None

    def number(self, least: int, most: int) -> int:
        """Takes a number within bounds."""
        return self.value(lambda word: number_of(word, least, most))

    def skip_lines(self) -> None:
        """Takes line ends, as inside the braces of `set` and `table`."""
        while self.take(LINE_END):
            pass

    def listed(self, close: str, each: Callable[[], None]) -> None:
        """Reads what stands between brackets, with or without commas; in braces line ends are ignored."""
        while True:
            if close == "}":
                self.skip_lines()
            if self.take(close):
                return
            each()
            if close == "}":
                self.skip_lines()
            self.take(",")

    def not_read(self) -> NotRead:
        """Tells the token at which reading stops."""
        line = 1 + self.tokens[: self.place].count(LINE_END)
        return NotRead(f"line {line}: {self.next!r} is not read")
