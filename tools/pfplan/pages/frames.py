"""The frame of a page: one file of HTML with its style inside, no script, and nothing from outside; and its tables,
lists and pictures."""

from __future__ import annotations

from collections.abc import Iterable, Sequence

from pfplan.pages.markup import Child, Markup, join, tag
from pfplan.pages.pictures import Role

# the file of a page in an answer's folder
PAGE = "report.html"
# letters of a word that is never broken: an IPv6 prefix has 43
LONGEST = 43
# the page may load nothing and run nothing, whatever stands in it
POLICY = "default-src 'none'; style-src 'unsafe-inline'; base-uri 'none'; form-action 'none'"
COLOURS = """
:root { color-scheme: light dark; --paper: #ffffff; --ink: #1c1c1c; --soft: #5a5a5a; --rule: #d9d9d9; \
--panel: #f5f6f8; --link: #1f4e8c;
  --held: #1f4e8c; --held-area: #c9d6e8; --new: #1f4e8c; --dropped: #c62828; --killed: #955700; --served: #2f7d3e; \
--refused: #c62828;
  --lost: #955700; --wanted: #5a5a5a; --good: #2f7d3e; --bad: #c62828; }
@media (prefers-color-scheme: dark) { :root { --paper: #16181c; --ink: #e8e8e8; --soft: #a8abb0; --rule: #3a3d43; \
--panel: #1f2227;
  --link: #8fb8ec; --held: #7fb0ee; --held-area: #2a3d57; --new: #7fb0ee; --dropped: #ff7a70; --killed: #f0ad4e; \
--served: #62b873;
  --refused: #e5675e; --lost: #f0ad4e; --wanted: #a8abb0; --good: #6cc47e; --bad: #ff7a70; } }
@media print { :root { color-scheme: light; --paper: #ffffff; --ink: #000000; --soft: #444444; --rule: #bbbbbb; \
--panel: #ffffff;
  --link: #000000; --held: #1f4e8c; --held-area: #c9d6e8; --new: #1f4e8c; --dropped: #c62828; --killed: #955700; \
--served: #2f7d3e;
  --refused: #c62828; --lost: #955700; --wanted: #444444; --good: #2f7d3e; --bad: #c62828; } }
"""
PICTURES = (
    ".picture { display: block; width: 100%; max-width: 440px; height: auto; font: 11px system-ui, sans-serif; }\n"
    ".line { fill: none; } .area { stroke: none; } text { stroke: none; }\n"
    ".line.axis, .line.ticks { stroke: var(--soft); } .line.grid { stroke: var(--rule); } "
    "text.ticks, text.axis { fill: var(--soft); }\n"
    + "".join(
        f".line.{role.css_class} {{ stroke: var(--{role.css_class}); }} "
        f".area.{role.css_class} {{ fill: var(--{role.css_class}); }}\n"
        for role in Role
        if role not in (Role.AXIS, Role.TICKS, Role.GRID)
    )
)
LAYOUT = """
* { box-sizing: border-box; }
body { margin: 0; background: var(--paper); color: var(--ink); font: 16px/1.5 system-ui, sans-serif; }
main { max-width: 1000px; margin: 0 auto; padding: 24px 16px 48px; }
h1 { font-size: 1.5rem; line-height: 1.25; margin: 0 0 4px; overflow-wrap: anywhere; }
h2 { font-size: 1.15rem; margin: 36px 0 8px; } h3 { font-size: 1rem; margin: 16px 0 4px; overflow-wrap: anywhere; }
p, ul { margin: 6px 0; } ul { padding-left: 22px; } a { color: var(--link); }
.soft { color: var(--soft); } .name, code { font-family: ui-monospace, monospace; font-size: 0.88em; \
overflow-wrap: anywhere; }
td.name, td code { overflow-wrap: break-word; } td.long, td code.long { overflow-wrap: anywhere; }
.answer { background: var(--panel); border: 1px solid var(--rule); border-left: 6px solid var(--soft); \
padding: 14px 18px; margin: 18px 0; }
.answer.good { border-left-color: var(--good); } .answer.bad { border-left-color: var(--bad); }
.answer .headline { font-size: 1.35rem; line-height: 1.3; margin: 0 0 4px; font-weight: 600; }
.wide { overflow-x: auto; } table { border-collapse: collapse; width: 100%; font-size: 0.92rem; }
th, td { text-align: left; vertical-align: top; padding: 5px 12px 5px 0; border-bottom: 1px solid var(--rule); }
th { font-weight: 600; color: var(--soft); } td.number, th.number { text-align: right; \
font-variant-numeric: tabular-nums; }
td.number { white-space: nowrap; } th { vertical-align: bottom; }
td.name { min-width: 13em; } th.name { font-family: inherit; font-size: inherit; } td.short { white-space: nowrap; }
tr.bold td { font-weight: 600; }
@media (max-width: 620px) { .stack thead { display: none; } .stack tr { display: block; \
border-bottom: 1px solid var(--rule); padding: 6px 0; }
  .stack td { display: block; border: 0; padding: 0; text-align: left; white-space: normal; min-width: 0; }
  .stack td:empty { display: none; } .stack td::before { content: attr(data-head) " "; color: var(--soft); \
font: 0.85rem system-ui, sans-serif; } }
.share { display: block; padding: 0 6px; border: 2px solid transparent; } .share.now { border-color: currentColor; }
.share.served { background: color-mix(in srgb, var(--served) 45%, transparent); }
.share.failed { background: color-mix(in srgb, var(--refused) var(--lack), transparent); }
.pictures + .pictures { margin-top: 24px; }
.pictures { display: grid; grid-template-columns: repeat(auto-fill, minmax(min(100%, 300px), 1fr)); gap: 20px 28px; \
align-items: end; }
.pictures.few { grid-template-columns: repeat(auto-fill, minmax(min(100%, 400px), 1fr)); }
figure { margin: 0; min-width: 0; } figcaption { font-size: 0.9rem; margin-bottom: 2px; }
.key { white-space: nowrap; margin-left: 10px; } .key::before { content: ""; display: inline-block; width: 0.7em; \
height: 0.7em;
  margin-right: 4px; background: currentColor; }
footer { margin-top: 40px; border-top: 1px solid var(--rule); padding-top: 10px; font-size: 0.88rem; \
color: var(--soft); }
@media print { .pictures.few { grid-template-columns: 1fr 1fr; } body { font-size: 11pt; } main { max-width: none; \
padding: 0; } h2, figure, tr { break-inside: avoid; } h2 { break-after: avoid; }
  .wide { overflow: visible; } .answer, .area, .line, .key::before { print-color-adjust: exact; \
-webkit-print-color-adjust: exact; } }
"""
KEYS = "".join(f".key.{role.css_class} {{ color: var(--{role.css_class}); }}\n" for role in Role)
STYLE = COLOURS + LAYOUT + PICTURES + KEYS
PICTURE_STYLE = COLOURS + PICTURES + "svg { background: var(--paper); }"


def document(title: str, parts: Iterable[Child]) -> str:
    """The whole text of a page."""
    head = join(
        [
            tag("meta", charset="utf-8"),
            tag("meta", http_equiv="Content-Security-Policy", content=POLICY),
            tag("meta", name="viewport", content="width=device-width, initial-scale=1"),
            tag("title", title),
            Markup(f"<style>{STYLE}</style>"),
        ],
        "\n",
    )
    body = join(parts, chr(10))
    return (
        f'<!doctype html>\n<html lang="en">\n<head>\n{head.text}\n</head>\n'
        f"<body>\n<main>\n{body.text}\n</main>\n</body>\n</html>\n"
    )


def section(title: str, *parts: Child) -> Markup:
    """A part of the page under its heading."""
    return tag("section", tag("h2", title), *parts)


def answer(headline: str, is_good: bool | None, *parts: Child) -> Markup:
    """The answer, which stands first: green where it is good, red where it is not, grey where there is none."""
    mood = "" if is_good is None else " good" if is_good else " bad"
    return tag("div", tag("p", headline, class_="headline"), *parts, class_="answer" + mood)


def paragraph(*parts: Child) -> Markup:
    """A paragraph."""
    return tag("p", *parts)


def soft(*parts: Child) -> Markup:
    """A paragraph that stands back."""
    return tag("p", *parts, class_="soft")


def bullets(items: Iterable[Child]) -> Markup:
    """A list of points."""
    return tag("ul", *(tag("li", item) for item in items))


def code(text: str) -> Markup:
    """A name, a rule or a word of the command line."""
    return tag("code", text, class_="long") if is_long(text) else tag("code", text)


def is_long(text: str) -> bool:
    """Whether a text has a word that is broken where a table has no room for it; no other is."""
    return any(len(it) > LONGEST for it in text.split())


def table(
    heads: Sequence[str], rows: Iterable[Sequence[Child]], kinds: str, bold: frozenset[int] = frozenset()
) -> Markup:
    """A table. A letter of `kinds` for each column: `n` a number, `s` short, `c` a name or a rule, `t` a text. Rows in
    `bold` stand out.

    On a narrow screen the cells of a table with many columns, or with names, stand below one another, each behind its
    head.
    """
    classes = {"n": "number", "s": "short", "c": "name", "t": "text"}
    top = tag("tr", *(tag("th", head, class_=classes[kind]) for head, kind in zip(heads, kinds)))
    body = [row_of(row, heads, [classes[kind] for kind in kinds], number in bold) for number, row in enumerate(rows)]
    is_stacked = len(kinds) > 3 or "c" in kinds and len(kinds) > 2
    return tag(
        "div",
        tag("table", tag("thead", top), tag("tbody", *body), class_="stack" if is_stacked else "grid"),
        class_="wide",
    )


def row_of(cells: Sequence[Child], heads: Sequence[str], classes: Sequence[str], is_bold: bool) -> Markup:
    """A row of a table."""
    inner = [
        tag("td", cell, class_=f"{name} long" if isinstance(cell, str) and is_long(cell) else name, data_head=head)
        for cell, head, name in zip(cells, heads, classes)
    ]
    return tag("tr", *inner, class_="bold") if is_bold else tag("tr", *inner)


def key(word: str, role: Role) -> Markup:
    """A word of a picture's caption with its colour before it."""
    return tag("span", word, class_=f"key {role.css_class}")


def figure(caption: Iterable[Child], picture: Markup) -> Markup:
    """A picture below its caption."""
    return tag("figure", tag("figcaption", *caption), picture)


def gallery(figures: Sequence[Markup]) -> Markup:
    """Figures side by side, as many in a row as the page is wide enough for."""
    return tag("div", *figures, class_="pictures few" if len(figures) in (1, 2, 4) else "pictures")


def more_of(differences: str) -> Markup:
    """Where more is said of what a replay can't know."""
    return paragraph(
        "How an answer can differ from a running pf's, and which way: ",
        tag("a", "docs/DIFFERENCES.md", href=differences),
        " of pfsrc.",
    )
