"""Pictures over time and over values, drawn by gnuplot as SVG.

gnuplot gets numbers and words of this file alone: no name of a file, a rule or a host is ever in its script. What it
draws is taken apart and put together anew from a few kinds of elements, so that its colours follow the page (light,
dark, printed) and no two pictures of a page share an id. Names stand in the page beside a picture.
"""

from __future__ import annotations

import re
import subprocess
import xml.etree.ElementTree as ElementTree
from dataclasses import dataclass
from enum import Enum
from typing import Iterator, Sequence

from pfplan.common.errors import Status, Trouble
from pfplan.pages.markup import Markup, join, tag

PACKAGE = "gnuplot-nox"
SECONDS_FOR_A_PICTURE = 30
SVG = "{http://www.w3.org/2000/svg}"
LINK = "{http://www.w3.org/1999/xlink}href"


class Role(Enum):
    """What a colour stands for. The value is the colour's number in what gnuplot draws; the name is its class in the
    page."""

    AXIS = 1
    TICKS = 2
    GRID = 3
    HELD = 4
    HELD_AREA = 5
    NEW = 6
    DROPPED = 7
    KILLED = 8
    SERVED = 9
    REFUSED = 10
    LOST = 11
    WANTED = 12

    @property
    def css_class(self) -> str:
        """The class of what is drawn in this colour."""
        return self.name.lower().replace("_", "-")

    @property
    def colour(self) -> str:
        """The colour by which gnuplot's output tells this role."""
        return f"#0101{self.value:02x}"


class Style(Enum):
    """How a series is drawn, in gnuplot's words."""

    LINE = "with lines linewidth 2 linecolor"
    AREA = "with filledcurves y1=0 fillcolor"
    POINTS = "with linespoints linewidth 2 pointtype 7 pointsize 0.5 linecolor"
    DOTS = "with points pointtype 7 pointsize 0.5 linecolor"


class Across(Enum):
    """What the axis below a picture counts."""

    SECONDS = "seconds"
    VALUE = "value"


@dataclass(frozen=True)
class Series:
    """Points that are drawn in one colour, from left to right."""

    role: Role
    style: Style
    points: tuple[tuple[float, float], ...]


@dataclass(frozen=True)
class Picture:
    """One picture. Series are drawn in their order, a later one over an earlier one; `most` is the value at its upper
    edge."""

    series: tuple[Series, ...]
    across: Across
    first: float
    last: float
    most: float
    per_cent: bool = False
    logarithmic: bool = False
    width: int = 440
    height: int = 190


def draw(pictures: Sequence[Picture]) -> list[Markup]:
    """An SVG element for each picture, with classes in place of colours.

    Trouble with status 4 where gnuplot is not there, fails, or takes longer than 30 seconds for one.
    """
    return [element_of(drawn_by_gnuplot(script_of(picture)), picture) for picture in pictures]


def script_of(picture: Picture) -> str:
    """What gnuplot is told: numbers, and words of this file."""
    blocks = "".join(f"$d{number} << EOD\n{points_of(series)}EOD\n" for number, series in enumerate(picture.series))
    plots = ", ".join(
        f'$d{number} using 1:2 {series.style.value} rgb "{series.role.colour}"'
        for number, series in enumerate(picture.series)
    )
    last = picture.last if picture.last > picture.first else picture.first + 1
    most = picture.most if picture.most > 0 else 1.0
    lines = [
        f'set terminal svg size {picture.width},{picture.height} font "sans,11" noenhanced',
        "unset key",
        f'set border 3 linecolor rgb "{Role.AXIS.colour}"',
        f'set tics nomirror out scale 0.5 textcolor rgb "{Role.TICKS.colour}"',
        f'set grid ytics linetype 1 linecolor rgb "{Role.GRID.colour}"',
        "set style fill solid 1.0 noborder",
        f"set xrange [{picture.first:.17g}:{last:.17g}]",
        f"set yrange [0:{most:.17g}]",
        f'set xlabel "{picture.across.value}" offset 0,0.4 textcolor rgb "{Role.TICKS.colour}"',
        'set format y "%g %%"' if picture.per_cent else 'set format y "%g"',
        'set format x "%g"',
    ]
    if picture.logarithmic:
        lines.append("set logscale x")
    return "\n".join(lines) + "\n" + blocks + (f"plot {plots}\n" if plots else "")


def points_of(series: Series) -> str:
    """The lines of a block of data."""
    return "".join(f"{across:.17g} {value:.17g}\n" for across, value in series.points)


def drawn_by_gnuplot(script: str) -> str:
    """What gnuplot writes for a script, which it reads from standard input. It reads no file of settings."""
    command = ["gnuplot", "--default-settings", "-"]
    try:
        made = subprocess.run(
            command, input=script, capture_output=True, encoding="utf-8", timeout=SECONDS_FOR_A_PICTURE, check=False
        )
    except FileNotFoundError:
        raise Trouble(f"gnuplot is not here (Debian package {PACKAGE})", Status.FAILED) from None
    except subprocess.TimeoutExpired:
        raise Trouble(f"gnuplot drew nothing in {SECONDS_FOR_A_PICTURE} seconds", Status.FAILED) from None
    if made.returncode != 0 or not made.stdout:
        reason = made.stderr.strip().splitlines()
        raise Trouble(f"gnuplot failed{': ' + reason[-1].strip() if reason else ''}", Status.FAILED)
    return made.stdout


def element_of(drawn: str, picture: Picture) -> Markup:
    """The SVG element of what gnuplot wrote, of the kinds of elements that are known here; nothing else of it is
    kept."""
    try:
        root = ElementTree.fromstring(drawn.encode("utf-8"))
    except ElementTree.ParseError as error:
        raise Trouble(f"gnuplot wrote no SVG: {error}", Status.FAILED) from None
    box = f"0 0 {picture.width} {picture.height}"
    return tag("svg", *parts_of(root), xmlns="http://www.w3.org/2000/svg", viewBox=box, role="img", class_="picture")


def parts_of(parent: ElementTree.Element) -> Iterator[Markup]:
    """The known elements below one, in their order."""
    for element in parent:
        name = element.tag.replace(SVG, "")
        if name == "g":
            yield from group_of(element)
        elif name == "path":
            yield tag("path", d=element.get("d", "").strip(), class_="line " + class_of(element.get("stroke", "")))
        elif name == "polygon":
            yield tag(
                "polygon", points=element.get("points", "").strip(), class_="area " + class_of(element.get("fill", ""))
            )
        elif name == "use" and element.get(LINK) == "#gpPt6":
            yield point_of(element)


def group_of(element: ElementTree.Element) -> Iterator[Markup]:
    """What is in a group: the line of text at its place, or its parts."""
    text = element.find(f"{SVG}text")
    place = re.fullmatch(r"translate\(([-\d.]+),([-\d.]+)\)(?: rotate\(([-\d.]+)\))?", element.get("transform", ""))
    if text is not None and place is not None:
        anchor = element.get("text-anchor", "start")
        yield tag(
            "text",
            (text.text or "").strip(),
            x=place[1],
            y=place[2],
            text_anchor=anchor,
            class_=class_of(element.get("fill", "")),
        )
        return
    inner = list(parts_of(element))
    if not inner:
        return
    width = element.get("stroke-width", "1.00")
    yield tag("g", *inner, stroke_width=width) if width != "1.00" else join(inner)


def point_of(element: ElementTree.Element) -> Markup:
    """The dot that gnuplot draws at a point of a line."""
    place = re.match(r"translate\(([-\d.]+),([-\d.]+)\) scale\(([-\d.]+)\)", element.get("transform", ""))
    if place is None:
        return Markup("")
    return tag("circle", cx=place[1], cy=place[2], r=place[3], class_="area " + class_of(element.get("color", "")))


def class_of(colour: str) -> str:
    """The class of a role, by the colour that gnuplot gave back."""
    numbers = re.findall(r"\d+", colour)
    if len(numbers) == 3 and numbers[:2] == ["1", "1"] and 1 <= int(numbers[2]) <= len(Role):
        return Role(int(numbers[2])).css_class
    return Role.AXIS.css_class


def standalone(picture: Markup, style: str) -> str:
    """The text of an SVG file: the element with its style inside, so that it looks alike by itself, in light and
    dark."""
    opening, rest = picture.text.split(">", 1)
    return f'<?xml version="1.0" encoding="UTF-8"?>\n{opening}><style>{style}</style>{rest}\n'
