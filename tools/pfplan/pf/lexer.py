"""The tokens of a pf.conf, as pfctl of OpenBSD 7.4 makes them (pf.conf(5), MACROS and GRAMMAR)."""

import enum
from collections.abc import Mapping
from dataclasses import dataclass

from pfplan.common.errors import Status, Trouble
from pfplan.common.visible import visible

_LEFT_OUT_OF_WORDS = set("(){}<>!=/#,")
_ENDS_NUMBER = set(" \t\r\n),/}=")
_PAIRS = {"!=", "<>", "<=", "><", ">=", "->"}
_EXPANDED = "\x02"  # stands behind the text of a macro while it is read


class Kind(enum.Enum):
    """What a token is."""

    WORD = "a word"
    QUOTED = "a quoted string"
    MARK = "a mark"
    LINE_END = "the end of the line"
    END = "the end of the text"


@dataclass(frozen=True)
class Token:
    """One token, with the file and line where it begins. `spaced` tells whether space stands in front of it."""

    kind: Kind
    text: str
    file: str
    line: int
    spaced: bool = True

    def is_word(self, text: str) -> bool:
        """Whether it is this word, without quotes."""
        return self.kind is Kind.WORD and self.text == text

    def is_mark(self, text: str) -> bool:
        """Whether it is this mark."""
        return self.kind is Kind.MARK and self.text == text

    def shown(self) -> str:
        """The token as a message names it."""
        if self.kind in (Kind.LINE_END, Kind.END):
            return self.kind.value
        return f"'{printable(self.text[:40])}'"


def printable(text: str) -> str:
    """The text on one line: bytes that are no text, and marks that steer a terminal, are written out, as `\\x1b`."""
    return visible(text)


def text_of(tokens: list[Token]) -> str:
    """Tokens as one line, with a space where the source had space, and none inside parentheses."""
    text = ""
    before = ""
    for token in tokens:
        if token.kind is Kind.LINE_END:
            continue
        shown = f'"{token.text}"' if token.kind is Kind.QUOTED else token.text
        if text and token.spaced and shown not in (",", ")") and before != "(":
            text += " "
        text += shown
        before = shown
    return printable(text)


def trouble(token: Token, message: str) -> Trouble:
    """A refusal at a token: file, line, what is wrong."""
    return Trouble(f"{printable(token.file)}: line {token.line}: {message}", Status.RULES)


@dataclass
class Budget:
    """What the texts of one call may stand for together: far more than any ruleset has, so that none takes minutes or
    all memory."""

    tokens: int = 1_000_000
    expanded: int = 2_000_000  # characters that macros stand for
    files: int = 500
    rules: int = 500_000  # combinations of lists, also of those that are left out

    def take(self, what: str, count: int, file: str, line: int) -> None:
        """Takes so much of one of them. Trouble with status 3 at this line where nothing is left."""
        left = getattr(self, what) - count
        setattr(self, what, left)
        if left < 0:
            named = {
                "tokens": "words",
                "expanded": "characters by its macros",
                "files": "files that it includes",
                "rules": "rules by its lists",
            }
            whole: int = getattr(Budget, what)
            raise Trouble(
                f"{printable(file)}: line {line}: the text stands for more than {whole:,} {named[what]}", Status.RULES
            )


class Lexer:
    """Reads a text token by token. The macros are asked as they are when a `$name` is reached.

    The text of a macro is read in place of its name and together with what stands directly behind it, so `$if:network`
    is one word. Inside of it `$` means nothing, as in pfctl.
    """

    def __init__(self, text: str, file: str, macros: Mapping[str, str], budget: Budget | None = None) -> None:
        self._text = text
        self._file = file
        self._macros = macros
        self._place = 0
        self._line = 1
        self._pushed: list[str] = []
        self._open_macros = 0
        self._budget = budget or Budget()

    def next(self) -> Token:
        """The next token; at the end of the text END, again and again. Trouble with status 3 at what is no token, or
        past the budget."""
        self._budget.take("tokens", 1, self._file, self._line)
        spaced = False
        while True:
            char = self._read()
            while char in (" ", "\t", "\r"):
                spaced = True
                char = self._read()
            if char == "#":
                while char not in ("\n", ""):
                    char = self._read()
            if char != "$" or self._is_expanding():
                break
            self._expand()
        if char == "\n":
            self._line += 1
            return Token(Kind.LINE_END, "\n", self._file, self._line - 1, spaced)
        if char == "":
            return Token(Kind.END, "", self._file, self._line, spaced)
        return self._token(char, spaced)

    def _token(self, char: str, spaced: bool) -> Token:
        line = self._line
        if char in "\"'":
            return Token(Kind.QUOTED, self._quoted(char), self._file, line, spaced)
        if char in "!<>-":
            after = self._read()
            if char + after in _PAIRS:
                return Token(Kind.MARK, char + after, self._file, line, spaced)
            self._unread(after)
        if char == "-" or char in "0123456789":
            number = self._number(char)
            if number:
                return Token(Kind.WORD, number, self._file, line, spaced)
        if char.isascii() and (char.isalnum() or char in ":_"):
            return Token(Kind.WORD, self._word(char), self._file, line, spaced)
        if not (char.isascii() and char.isprintable()):
            raise self._trouble("bytes that are no text")
        return Token(Kind.MARK, char, self._file, line, spaced)

    def _number(self, char: str) -> str:
        """A number, where one ends so that it can be one; else nothing, and what was read is put back behind its first
        character."""
        text = char
        char = self._read()
        while char and char in "0123456789":
            text += char
            char = self._read()
        self._unread(char)
        if text != "-" and (char == "" or char in _ENDS_NUMBER):
            return text
        for it in reversed(text[1:]):
            self._unread(it)
        return ""

    def _word(self, char: str) -> str:
        text = ""
        while char and char.isascii() and char.isprintable() and char != " " and char not in _LEFT_OUT_OF_WORDS:
            text += char
            char = self._read()
        self._unread(char)
        return text

    def _quoted(self, quote: str) -> str:
        """The string up to its closing quote; line ends inside are passed over, as pfctl does."""
        begin = self._line
        text = ""
        while True:
            char = self._read_raw()
            if char == quote:
                return text
            if char == "":
                self._line = begin
                raise self._trouble("a quote that is not closed")
            if char == "\0":
                raise self._trouble("bytes that are no text")
            if char == "\\":
                char = self._escaped(quote)
            elif char == "\n":
                self._line += 1
                char = ""
            text += char

    def _escaped(self, quote: str) -> str:
        after = self._read_raw()
        if after == "\n":
            self._line += 1
            return ""
        if after in (quote, " ", "\t"):
            return after
        self._unread(after)
        return "\\"

    def _expand(self) -> None:
        """Puts the text of a macro in place of its name, in front of what is still to read."""
        name = ""
        char = self._read()
        while char and char.isascii() and (char.isalnum() or char == "_"):
            name += char
            char = self._read()
        self._unread(char)
        if name not in self._macros:
            raise self._trouble(f"macro '{name}' is not defined (-D {name or 'NAME'}=VALUE defines one)")
        self._budget.take("expanded", len(self._macros[name]), self._file, self._line)
        self._pushed.append(_EXPANDED)
        self._pushed.extend(reversed(self._macros[name]))
        self._open_macros += 1

    def _is_expanding(self) -> bool:
        return self._open_macros > 0

    def _read(self) -> str:
        """The next character; a backslash and a line end behind it stand for nothing."""
        char = self._read_raw()
        while char == "\\":
            after = self._read_raw()
            if after == "\r":
                after = self._read_raw()
            if after != "\n":
                self._unread(after)
                return char
            self._line += 1
            char = self._read_raw()
        return char

    def _read_raw(self) -> str:
        while self._pushed:
            char = self._pushed.pop()
            if char != _EXPANDED:
                return char
            self._open_macros -= 1
        if self._place >= len(self._text):
            return ""
        self._place += 1
        return self._text[self._place - 1]

    def _unread(self, char: str) -> None:
        if char:
            self._pushed.append(char)

    def _trouble(self, message: str) -> Trouble:
        return Trouble(f"{printable(self._file)}: line {self._line}: {message}", Status.RULES)
