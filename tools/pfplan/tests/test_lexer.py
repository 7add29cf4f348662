"""The tokens of a pf.conf."""

import unittest

from pfplan.common.errors import Trouble
from pfplan.pf.lexer import Kind, Lexer, Token, text_of


def tokens(text: str, **macros: str) -> list[Token]:
    """All tokens of a text, without its end."""
    lexer = Lexer(text, "x", macros)
    found = []
    while (token := lexer.next()).kind is not Kind.END:
        found.append(token)
    return found


def texts(text: str, **macros: str) -> list[str]:
    """What the tokens say."""
    return [it.text for it in tokens(text, **macros)]


class Tokens(unittest.TestCase):
    """Words, marks, strings and macros."""

    def test_words_and_marks(self) -> None:
        """Marks stand by themselves; a word goes on over what may be in one."""
        self.assertEqual(
            texts("a{b}<c>!d=e,(f)"), ["a", "{", "b", "}", "<", "c", ">", "!", "d", "=", "e", ",", "(", "f", ")"]
        )
        self.assertEqual(
            texts("10.0.0.0/8 em0:network 80:90 a-b_c.d%e 25%"),
            ["10.0.0.0", "/", "8", "em0:network", "80:90", "a-b_c.d%e", "25%"],
        )
        self.assertEqual(texts("!= <> <= >< >= -> - * @"), ["!=", "<>", "<=", "><", ">=", "->", "-", "*", "@"])
        self.assertEqual(
            texts("2001:db8::/32 ::1 1024><65535 -5"), ["2001:db8::", "/", "32", "::1", "1024", "><", "65535", "-5"]
        )

    def test_lines(self) -> None:
        """A token has the line where it begins; a line that goes on is one."""
        found = tokens('a \\\n b\n"c\nd" e\n# x \\\n y\nf')
        self.assertEqual(
            [(it.text, it.line) for it in found if it.kind is not Kind.LINE_END],
            [("a", 1), ("b", 2), ("cd", 3), ("e", 4), ("f", 7)],
        )
        self.assertEqual(texts("a\r\nb \\\r\nc"), ["a", "\n", "b", "c"])

    def test_strings(self) -> None:
        """Either quote; a backslash in front of the quote or a space stands for it alone."""
        self.assertEqual(
            texts(r'"a # b" ' + r"'c " + '"' + r"d' " + r'"e\"f" "g\ h" "i\j"'), ["a # b", 'c "d', 'e"f', "g h", r"i\j"]
        )
        self.assertEqual([it.kind for it in tokens('"in" in')], [Kind.QUOTED, Kind.WORD])

    def test_macros(self) -> None:
        """A macro's text is read with what stands behind it, and is not expanded again."""
        self.assertEqual(
            texts("$a:network $b/8 ($a)", a="em0", b="10.0.0.0"), ["em0:network", "10.0.0.0", "/", "8", "(", "em0", ")"]
        )
        self.assertEqual(texts("$l", l='{ 1, "2 3" }'), ["{", "1", ",", "2 3", "}"])
        self.assertEqual(texts("$a$a", a="x"), ["x$a"])
        self.assertEqual(texts("$a", a="x $b"), ["x", "$", "b"])
        self.assertEqual(texts("$a b", a=""), ["b"])

    def test_refused(self) -> None:
        """An open quote, an unknown macro, and bytes that are no text have their line."""
        for text, message in (
            ('a\n"b\nc', "x: line 2: a quote that is not closed"),
            ("\n$q", "x: line 2: macro 'q' is not defined (-D q=VALUE defines one)"),
            ("$ ", "x: line 1: macro '' is not defined (-D NAME=VALUE defines one)"),
            ("a \x01", "x: line 1: bytes that are no text"),
            ("é", "x: line 1: bytes that are no text"),
            ('"\0"', "x: line 1: bytes that are no text"),
        ):
            with self.subTest(text), self.assertRaises(Trouble) as raised:
                tokens(text)
            self.assertEqual(raised.exception.message, message)

    def test_text(self) -> None:
        """A statement as one line: spaces as in the source but one, none in parentheses, no odd bytes."""
        self.assertEqual(
            text_of(tokens('pass   in\\\n from  10/8 set ( prio 5 ) label "a\x1bb" { 1,2 }')),
            'pass in from 10/8 set (prio 5) label "a\\x1bb" { 1,2 }',
        )


if __name__ == "__main__":
    unittest.main()
