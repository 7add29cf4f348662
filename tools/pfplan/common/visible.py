"""Texts of others, shown: control characters and what a terminal would obey are written out."""

from __future__ import annotations


def visible(text: str) -> str:
    """The text with each character that is not printable as an escape: `a\\nb`, `\\u202e`, a byte that is no UTF-8 as
    `\\xff`."""
    if text.isprintable():
        return text
    return "".join(letter if letter.isprintable() else escape_of(letter) for letter in text)


def escape_of(letter: str) -> str:
    """The escape of one character; a byte of a file's name that is no UTF-8 is shown as that byte."""
    code = ord(letter)
    if 0xDC80 <= code <= 0xDCFF:
        return f"\\x{code - 0xDC00:02x}"
    return letter.encode("unicode_escape").decode("ascii")
