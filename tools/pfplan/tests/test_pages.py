"""Pages and pictures: names are text, the answer stands first, and 99.5 % is not 100 %."""

import os
import tempfile
import unittest
import xml.etree.ElementTree as ElementTree
from collections import Counter
from dataclasses import dataclass
from fractions import Fraction
from html.parser import HTMLParser
from pathlib import Path
from unittest import mock

from pfplan.answers.connections import Refusal
from pfplan.answers.counting import Limit
from pfplan.answers.sources import Source
from pfplan.answers.stepping import Step
from pfplan.answers.summaries import Interfaces, Summary, Tops, Users
from pfplan.common import figures
from pfplan.common.errors import Trouble
from pfplan.common.visible import visible
from pfplan.pages import frames, markup, pictures, report_page, timeline_pictures
from pfplan.pages.summary_texts import text_of
from pfplan.pf.origins import Origins
from pfplan.traces.accounts import Frames
from pfplan.traces.insertions import HeldCounts
from pfplan.traces.records import End

# names as somebody could choose them: elements, attributes, SVG, gnuplot's commands, and characters that nobody sees
NAMES = (
    "<script>alert(1)</script>",
    '"><img src=x onerror=alert(1)>',
    "</title></style><svg onload=alert(1)>",
    "'; system(\"touch /tmp/x\"); '",
    '`touch x`$(touch x)\n\nset output "x"',
    "\u202egnp.exe\x07\udcff",
    "&amp;&lt;b&gt;",
)
DRAWN = """<?xml version="1.0"?><svg width="440" height="190" viewBox="0 0 440 190" \
xmlns="http://www.w3.org/2000/svg" xmlns:xlink="http://www.w3.org/1999/xlink">
<title>Gnuplot</title><script>alert(1)</script><defs><circle id='gpDot' r='0.5'/></defs>
<g fill="none" stroke-width="2.00"><path stroke='rgb(  1,   1,   6)' d='M1,2 L3,4  '/></g>
<g fill="none"><g transform="translate(34.6,136.7)" fill="rgb(1,1,2)" text-anchor="end"><text> 0 </text></g></g>
<polygon fill = 'rgb(  1,   1,   5)' points = '1,2 3,4 '/><use xlink:href='#gpPt6' transform='translate(1.5,2.5) \
scale(2.48)' color='rgb(1,1,9)'/>
<use xlink:href='http://example.org/x'/><image href="http://example.org/x"/><g/></svg>"""


@dataclass(frozen=True)
class LeftOut:
    """Something that was left out of a pf.conf."""

    file: str
    line: int
    text: str
    reason: str
    changes_answer: bool
    way: str = "pf blocks more"
    is_missing: bool = False


class Elements(HTMLParser):
    """Collects the elements and attributes of a page, and the text outside of its style."""

    def __init__(self) -> None:
        super().__init__()
        self.names: Counter[str] = Counter()
        self.attributes: list[tuple[str, str | None]] = []
        self.text: list[str] = []
        self._in_style = False

    def handle_starttag(self, tag: str, attrs: list[tuple[str, str | None]]) -> None:
        self.names[tag] += 1
        self.attributes.extend(attrs)
        self._in_style = tag == "style"

    def handle_endtag(self, tag: str) -> None:
        self._in_style = False

    def handle_data(self, data: str) -> None:
        if not self._in_style:
            self.text.append(data)


def read_page(text: str) -> Elements:
    """The elements of a page."""
    reader = Elements()
    reader.feed(text)
    reader.close()
    return reader


def summary(name: str = "pass all", served: int = 199, connections: int = 200) -> Summary:
    """A summary in which each name is `name`."""
    outcomes = {"served": served, "unanswered": 0, "refused": connections - served, "killed": 0, "cut": 0}
    steps = [
        Step(100, Counter({"new": 4, "drop:states": 2}), 1, 3, Counter(served=2, refused=1)),
        Step(101, Counter(new=1), 0, 1, Counter(served=1)),
    ]
    return Summary(
        12, {"new": {"@0": 5, "-": 1}, "drop:states": {"@0": 6}}, [Limit("drop:states", 6, 3, 9, 100, 101, 2, 0)],
        {"added": 2}, End(12, 4, 3, 2), 100, 101, 1, steps,
        Users("198.51.100.0/24", connections, outcomes, {"drop:states": connections - served}, 1),
        Tops([Source(name, 6)], [], [Source(name, 5)], [Source(name, 11)]), [name, name], {0: name}, [1],
        Interfaces([name], [name]), [HeldCounts(100, 2, 1, 0), HeldCounts(101, 4, 3, 2)],
    )  # fmt: skip


def subject(name: str = "pf.conf") -> report_page.Subject:
    """What was replayed, by hostile names where wanted."""
    return report_page.Subject(
        name, name, [LeftOut(name, 3, name, name, True), LeftOut(name, 4, name, name, False)], [name]
    )


class Figures(unittest.TestCase):
    """How numbers are written."""

    def test_share_is_all_only_where_it_is_all(self) -> None:
        rows = (
            (199, 200, "99.5 %"), (9995, 10000, "> 99.9 %"), (9994, 10000, "99.9 %"), (10000, 10000, "100 %"),
            (0, 9, "0 %"), (1, 10000, "< 0.1 %"), (1, 3, "33.3 %"), (2, 3, "66.7 %"), (0, 0, "-"), (5, 5, "100 %"),
        )  # fmt: skip
        for part, whole, text in rows:
            self.assertEqual(figures.share_text(part, whole), text, (part, whole))

    def test_counted(self) -> None:
        self.assertEqual(figures.counted(1, "state"), "1 state")
        self.assertEqual(figures.counted(1200, "entry", "entries"), "1,200 entries")


class Names(unittest.TestCase):
    """Names are text wherever they come into markup."""

    def test_visible(self) -> None:
        self.assertEqual(visible("a\nb\u202e\udcffc"), "a\\nb\\u202e\\xffc")
        self.assertEqual(visible("plain name"), "plain name")

    def test_escaped(self) -> None:
        self.assertEqual(markup.tag("p", "<b>&\"'").text, "<p>&lt;b&gt;&amp;&quot;&#x27;</p>")
        self.assertEqual(markup.tag("a", "x", href='"onclick="y').text, '<a href="&quot;onclick=&quot;y">x</a>')

    def test_page_has_the_same_elements_for_every_name(self) -> None:
        plain = read_page(report_page.page_of(summary("plain"), subject("plain"), [], "d"))
        for name in NAMES:
            text = report_page.page_of(summary(name), subject(name), [], "d")
            text.encode("utf-8")
            found = read_page(text)
            self.assertEqual(found.names, plain.names, name)
            self.assertEqual([it for it, _ in found.attributes], [it for it, _ in plain.attributes], name)
            self.assertIn(visible(name), "".join(found.text))


class Pages(unittest.TestCase):
    """What stands on the page, and where."""

    def test_nothing_runs_and_nothing_comes_from_outside(self) -> None:
        found = read_page(report_page.page_of(summary(), subject(), [], "../docs/DIFFERENCES.md"))
        self.assertFalse({"script", "link", "img", "iframe", "object", "form"} & set(found.names))
        links = [value for name, value in found.attributes if name in ("href", "src")]
        self.assertEqual(links, ["../docs/DIFFERENCES.md"])
        self.assertFalse([name for name, _ in found.attributes if name.startswith("on")])
        self.assertIn(("content", frames.POLICY), found.attributes)

    def test_answer_stands_first(self) -> None:
        page = report_page.page_of(summary(), subject(), [], "d")
        text = "\n".join(read_page(page).text)
        answer = text.index("99.5 % of the users' connections were served: 199 of 200.")
        self.assertLess(answer, text.index("Limits met"))
        self.assertIn("refused: 1 (0.5 %): 1 by drop:states", text)
        self.assertIn("from second 0 to 1", text)
        self.assertIn("1 thing left out of the pf.conf can change this answer", text)
        self.assertNotIn("100 %", text)
        self.assertIn("pf blocks more", text)

    def test_what_is_missing_stands_before_the_answer(self) -> None:
        left = LeftOut(
            "pf.conf", 3, "that egress is a group", "give --interface egress=IF or --ifconfig", True, is_missing=True
        )
        text = "\n".join(
            read_page(report_page.page_of(summary(), report_page.Subject("pf.conf", "trace", [left]), [], "d")).text
        )
        self.assertLess(text.index("give --interface egress=IF"), text.index("of the users' connections were served"))

    def test_green_by_the_wanted_share(self) -> None:
        for want, mood in ((Fraction(99, 100), "good"), (Fraction(999, 1000), "bad")):
            text = report_page.page_of(summary(), report_page.Subject("pf.conf", "trace", want=want), [], "d")
            self.assertIn(f'class="answer {mood}"', text)

    def test_those_that_the_end_cut_count_for_nothing(self) -> None:
        some = summary(served=99, connections=100)
        assert some.users is not None
        some.users.outcomes.update(late=7, refused=1)
        some.users.connections = 107
        text = "\n".join(read_page(report_page.page_of(some, subject(), [], "d")).text)
        self.assertIn("99.0 % of the users' connections were served: 99 of 100.", text)
        self.assertIn("not counted: 7, cut by the end of the trace", text)
        some.users.outcomes.update(late=107, refused=0, served=0)
        self.assertIn("All 107 connections of the users", report_page.page_of(some, subject(), [], "d"))

    def test_clock_times(self) -> None:
        late = summary()
        late.first_moment, late.last_moment = 1_700_000_000, 1_700_000_001
        late.limits = [Limit("drop:states", 6, 3, 9, 1_700_000_000, 1_700_000_001, 2, 0)]
        text = "\n".join(read_page(report_page.page_of(late, subject(), [], "d")).text)
        self.assertIn("from 2023-11-14 22:13:20 UTC", text)
        self.assertIn("from second 0 to 1 (2023-11-14 22:13:20 UTC to 2023-11-14 22:13:21 UTC)", text)

    def test_lines_of_the_pf_conf(self) -> None:
        found = summary("pass in proto tcp from any to any keep state (max 5)")
        found.answers = {"new": {"@0": 5}, "drop:max": {"@0": 6}, "pass": {"@1": 3}}
        found.limits = [Limit("drop:max", 6, 3, 9, 100, 101, 2, 0), Limit("drop:states", 1, 3, 9, 100, 101, 2, 0)]
        found.answers["drop:states"] = {"@0": 1}
        found.settings = {"states": 50}
        found.rules[1] = "pass quick on em1 all flags any no state"
        found.origins = Origins({0: "pf.conf:41", 1: "pf.conf:2"}, {"states": "pf.conf:1"}, frozenset({1}))
        found.frames = Frames(20, 12, {"neither in nor out": 8})
        found.seen_on = ["em0"]
        assert found.users is not None
        found.users.refusals = [Refusal("drop:max", "@0", 1)]
        for text in ("\n".join(read_page(report_page.page_of(found, subject(), [], "d")).text), text_of(found)):
            self.assertIn("@0 pf.conf:41, max 5", text)
            self.assertIn("pf.conf:1, set limit states 50", text)
            self.assertIn("set skip on em1 (pf.conf:2): pf passes all packets there, and asks no rule: 3 records", text)
            self.assertIn("8 of 20 frames of the capture are no records: 8 neither in nor out", text)
            self.assertIn("a forwarded connection holds two states in pf", text)

    def test_all_served(self) -> None:
        text = report_page.page_of(summary(served=200), subject(), [], "d")
        self.assertIn('class="answer good"', text)
        self.assertIn("100 % of the users' connections were served: 200 of 200.", "".join(read_page(text).text))

    def test_no_users(self) -> None:
        bare = Summary(3, {"pass": {"-": 3}}, [], {}, End(3, 0, 0, 0))
        text = report_page.page_of(bare, report_page.Subject("rules", "trace"), [], "d")
        self.assertIn("No limit was met.", text)
        self.assertIn("No users were named", text)

    def test_without_gnuplot(self) -> None:
        missing = Trouble("gnuplot is not here (Debian package gnuplot-nox)")
        with tempfile.TemporaryDirectory() as folder, mock.patch.object(
            pictures, "drawn_by_gnuplot", side_effect=missing
        ):
            written = report_page.write_page(Path(folder), summary(), subject())
            text = written[0].read_text(encoding="utf-8")
            self.assertEqual([it.name for it in written], ["report.html"])
            self.assertEqual(sorted(it.name for it in Path(folder).iterdir()), ["DIFFERENCES.md", "report.html"])
        self.assertIn("Debian package gnuplot-nox", text)

    def test_gnuplot_that_fails_or_hangs(self) -> None:
        for script, why in (
            ("echo 'no terminal' >&2; exit 1", "gnuplot failed: no terminal"),
            ("exec sleep 60", "gnuplot drew nothing in 1 seconds"),
        ):
            with tempfile.TemporaryDirectory() as folder, mock.patch.object(pictures, "SECONDS_FOR_A_PICTURE", 1):
                program = Path(folder, "gnuplot")
                program.write_text(f"#!/bin/sh\n{script}\n", encoding="utf-8")
                program.chmod(0o755)
                with mock.patch.dict(os.environ, PATH=f"{folder}:{os.environ['PATH']}"):
                    written = report_page.write_page(Path(folder), summary(), subject())
                self.assertEqual([it.name for it in written], ["report.html"])
                self.assertIn(f"No pictures: {why}.", "".join(read_page(written[0].read_text(encoding="utf-8")).text))

    def test_with_pictures(self) -> None:
        drawn = mock.patch.object(pictures, "drawn_by_gnuplot", return_value=DRAWN)
        with tempfile.TemporaryDirectory() as folder, drawn:
            written = report_page.write_page(Path(folder), summary(), subject())
            self.assertEqual([it.name for it in written], ["report.html", "held.svg", "states.svg", "users.svg"])
            for path in written[1:]:
                ElementTree.parse(path)
            self.assertEqual(read_page(written[0].read_text(encoding="utf-8")).names["svg"], 3)

    def test_long_rules_are_cut(self) -> None:
        many = summary()
        many.rules = ["pass all"] * 1000
        text = report_page.page_of(many, subject(), [], "d")
        self.assertIn("Not shown: 800 rules that never decided.", text)


class Pictures(unittest.TestCase):
    """What gnuplot is told, and what is kept of what it draws."""

    def test_script_has_numbers_and_words_of_ours_alone(self) -> None:
        line = report_page.timeline_of(summary("system('x')"))
        script = pictures.script_of(timeline_pictures.made_picture(line, 5.0))
        self.assertNotIn("system", script)
        self.assertIn("noenhanced", script)
        data = [it for it in script.splitlines() if it[:1].isdigit()]
        self.assertEqual(data[:2], ["0 4", "1 1"])

    def test_only_known_elements_are_kept(self) -> None:
        picture = pictures.Picture((), pictures.Across.SECONDS, 0, 1, 1)
        element = pictures.element_of(DRAWN, picture).text
        root = ElementTree.fromstring(element)
        names = [it.tag.replace(pictures.SVG, "") for it in root.iter()]
        self.assertEqual(names, ["svg", "g", "path", "text", "polygon", "circle"])
        self.assertIn('class="line new"', element)
        self.assertNotIn("id=", element)

    def test_steps_reach_the_end(self) -> None:
        line = report_page.timeline_of(summary())
        self.assertEqual(timeline_pictures.stairs(line, [2.0, 1.0]), ((0.0, 2.0), (1.0, 2.0), (1.0, 1.0), (2.0, 1.0)))

    def test_no_svg(self) -> None:
        with self.assertRaisesRegex(Trouble, "no SVG"):
            pictures.element_of("<svg", pictures.Picture((), pictures.Across.VALUE, 0, 1, 1))


if __name__ == "__main__":
    unittest.main()
