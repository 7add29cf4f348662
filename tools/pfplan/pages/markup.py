"""Markup in which text can only stand escaped: HTML and SVG are put together here and nowhere else.

A `Markup` is trusted to be well formed. A plain string is text: it is escaped wherever it comes into a `Markup`, and
characters that a reader can't see, or that turn the direction of a line, are written out. So a name from a rules text,
a trace or a file system can't become an element, an attribute or a script.
"""

from __future__ import annotations

import html
from dataclasses import dataclass
from typing import Iterable, Union

from pfplan.common.visible import visible


@dataclass(frozen=True)
class Markup:
    """Well formed HTML or SVG."""

    text: str


Child = Union[Markup, str]
EMPTY_ELEMENTS = frozenset({"meta", "br", "hr", "path", "polygon", "circle", "rect"})


def escaped(text: str) -> str:
    """The text as it may stand between tags and inside a quoted attribute."""
    return html.escape(visible(text), quote=True)


def join(children: Iterable[Child], between: str = "") -> Markup:
    """The children one after another, strings escaped."""
    parts = (child.text if isinstance(child, Markup) else escaped(child) for child in children)
    return Markup(between.join(parts))


def tag(element: str, *children: Child, **attributes: str) -> Markup:
    """An element. An attribute `class_` is `class`, `text_anchor` is `text-anchor`; values are escaped."""
    words = "".join(f' {attribute_name(key)}="{escaped(value)}"' for key, value in attributes.items())
    if element in EMPTY_ELEMENTS and not children:
        return Markup(f"<{element}{words}/>")
    return Markup(f"<{element}{words}>{join(children).text}</{element}>")


def attribute_name(key: str) -> str:
    """The attribute's name for a keyword of `tag`."""
    return key.rstrip("_").replace("_", "-")
