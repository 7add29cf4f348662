"""Translation in the styles of FAQs, manuals and sites, in both syntaxes: the texts of translating/, each with what is
written and what is told of it beside it. The firewall of all of them is that of translating/ifconfig.
"""

import ipaddress
import random
import re
import unittest
from collections.abc import Iterator
from pathlib import Path

from pfplan.common.errors import Trouble
from pfplan.pf import translations
from pfplan.pf.conversion import RuleOptions, Ruleset, convert_text
from pfplan.pf.profiles import Profile

FOLDER = Path(__file__).resolve().parent / "translating"
TEXTS = sorted(FOLDER.glob("*.conf"))
OLD = re.compile(r"(no )?(nat|rdr|binat)(-anchor)?\b")
TODAY = re.compile(r"\b(nat-to|rdr-to|binat-to|af-to)\b")
# the grammar of what a rules text takes, behind the state's front
TRANSLATION = re.compile(
    r"(?: nat-to (?P<nat>[0-9a-f.:]+)(?: static-port| port (?P<low>\d+)(?::(?P<high>\d+))?)?)?"
    r"(?: rdr-to (?P<rdr>[0-9a-f.:]+)(?: port (?P<port>\d+))?)?(?: (?:keep|synproxy|no) state.*)?"
)


def made_of(path: Path, *, translates: bool) -> Ruleset:
    """What comes of a text."""
    options = RuleOptions(ifconfig=FOLDER / "ifconfig", translates=translates)
    return convert_text(path.read_text("utf-8"), path.name, options)


def told_of(made: Ruleset) -> list[str]:
    """What is told of it, one line for each."""
    told = [f"{it.line} | {it.text} | {it.way or 'no change'} | {it.reason}" for it in made.leftovers]
    return [*told, *(f"note: {it}" for it in made.notes)]


def statements(path: Path) -> Iterator[tuple[int, str]]:
    """The statements of a text, which has one on a line, but for continued ones, and comments."""
    first, text = 0, ""
    for number, line in enumerate(path.read_text("utf-8").splitlines(), 1):
        first = first if text else number
        text += line.removesuffix("\\")
        if not line.endswith("\\"):
            yield first, text.partition("#")[0].strip()
            text = ""


class Translations(unittest.TestCase):
    """What becomes of each text."""

    def test_written(self) -> None:
        """The rules and what is told are those that stand beside the text."""
        self.assertEqual(len(TEXTS), 30)
        for path in TEXTS:
            made = made_of(path, translates=True)
            with self.subTest(path.stem):
                self.assertEqual(made.written, path.with_suffix(".rules").read_text("utf-8"))
            with self.subTest(path.stem, told=True):
                self.assertEqual(told_of(made), path.with_suffix(".told").read_text("utf-8").splitlines())

    def test_whole_or_told(self) -> None:
        """Each statement that translates has an item that does, or is told to change an answer."""
        for path in TEXTS:
            made = made_of(path, translates=True)
            items = [it for it in made.text.splitlines() if it != "}" and not it.startswith(("set ", "table "))]
            translated = {place.line for place, it in zip(made.origins, items, strict=True) if TODAY.search(it)}
            told = {it.line for it in made.leftovers if it.changes_answer}
            for line, text in statements(path):
                if TODAY.search(text) or OLD.match(text) and not text.startswith("no "):
                    with self.subTest(path.stem, text=text):
                        self.assertIn(line, translated | told)

    def test_grammar(self) -> None:
        """What is written is of the grammar of rules texts: one address for each, of one family with the rule."""
        for path in TEXTS:
            for line in made_of(path, translates=True).text.splitlines():
                found = TODAY.search(line)
                if found is None:
                    continue
                with self.subTest(path.stem, line=line):
                    behind = TRANSLATION.fullmatch(line[found.start() - 1 :])
                    self.assertRegex(line, "^(pass|match) (in|out) ")
                    assert behind is not None
                    put = [it for it in (behind["nat"], behind["rdr"]) if it]
                    hosts = re.findall(r"(?<= )[0-9a-f.:]*(?:\.|::)[0-9a-f.:]*", line[: found.start()])
                    versions = {ipaddress.ip_address(it).version for it in (*put, *hosts)}
                    versions |= {6 if it == "inet6" else 4 for it in re.findall(r" (inet6?) ", line)}
                    self.assertEqual(len(versions), 1)
                    self.assertTrue(not behind["high"] or int(behind["low"]) <= int(behind["high"]))

    def test_left_out(self) -> None:
        """Without translation nothing of it is written, and each statement that has it is told, with the way in which
        an answer errs. A rule of today that passes stays, and is no other than the one that translates."""
        for path in TEXTS:
            made = made_of(path, translates=False)
            self.assertIsNone(TODAY.search(made.text))
            told = {it.line for it in made.leftovers if it.changes_answer and it.way}
            for line, text in statements(path):
                if TODAY.search(text) or OLD.match(text):
                    with self.subTest(path.stem, text=text):
                        self.assertIn(line, told)
            for rule in made.text.splitlines():
                if rule.startswith("pass") and "binat" not in path.stem:
                    self.assertIn(rule, without_translation(made_of(path, translates=True)) | AS_TODAY)

    def test_drawn(self) -> None:
        """With translation a pass rule asks for what it asked without, and what is not translated is told. It refuses a
        pfplan that loses a translation in silence, or makes a rule wider for it."""
        for number in range(800):
            text = drawn_text(random.Random(f"translation {number}"))
            off, made = (answer(text, translates=it) for it in (False, True))
            if off is None or made is None:
                self.assertTrue(off is made or "\nmatch" in text, text)
                continue
            items = [it for it in made.text.splitlines() if it.startswith(("pass", "match"))]
            is_told = any(it.changes_answer for it in made.leftovers)
            with self.subTest(text):
                self.assertTrue(is_told or items and all(TODAY.search(it) for it in items))
                if "\npass" in text and "binat-to" not in text:
                    self.assertEqual(without_family(off), without_family(made))

    def test_default(self) -> None:
        """A conversion that says nothing of it goes by the one value; pfsrc's own machine translates nothing."""
        self.assertEqual(RuleOptions().translates, translations.TRANSLATES)
        text = "match out on em0 inet nat-to 203.0.113.2\npass out rdr-to 203.0.113.2\nnat on em0 all -> 203.0.113.2\n"
        made = [
            convert_text(text, "pf.conf", RuleOptions(profile=Profile.OWN, translates=translates))
            for translates in (False, True)
        ]
        self.assertEqual(made[0], made[1])
        self.assertEqual(made[0].text, "pass out all\n")

    def test_numbers(self) -> None:
        """Of binat-to pf has two rules, and the item of each is known by its number. The older rules have none among
        filter rules."""
        text = "nat on em0 all -> 203.0.113.2\nblock\npass on em0 from 192.168.1.5 binat-to 203.0.113.5\nblock in\n"
        made = convert_text(text, "pf.conf", RuleOptions(translates=True))
        numbers = [(it.number.number, it.items) for it in made.pf_rules]
        self.assertEqual(numbers, [(0, (1,)), (1, (2,)), (2, (3,)), (3, (4,))])
        self.assertIn("rdr-to", made.text.splitlines()[4])


# rules that stand without translation alone: one that translates into the other family goes whole, and one of both
# families becomes two
AS_TODAY = {
    "pass in on em1 inet6 from 2001:db8:1::/64 to 64:ff9b::/96",
    "pass out on em0 all",
}


HOSTS = (
    "any", "10.0.0.0/8", "2001:db8::/32", "! 10.0.0.1", "{ 10.0.0.1 2001:db8::5 }", "<t>", "em1:network", "(em0)",
    "em0", "(egress:0)", "www.example.org",
)  # fmt: skip
POOLS = (
    "192.0.2.1", "192.0.2.0/28", "2001:db8::1", "{ 192.0.2.1 2001:db8::1 }", "<t>", "<none>", "(em0)", "em0", "(em3)",
    "em3:0", "(egress)", "wg0", "em9", "www.example.org",
)  # fmt: skip
WORDS = (
    "", "random", "round-robin", "source-hash 0x1", "sticky-address", "least-states", "bitmask", "static-port",
    "port 80", "port 80:90", "port 80:*", "port ssh", "random sticky-address",
)  # fmt: skip


def drawn_text(draw: random.Random) -> str:
    """A text with two tables and one rule that translates."""
    kinds = draw.sample(("nat-to", "rdr-to", "binat-to"), draw.choice((1, 1, 1, 2)))
    action = draw.choice(("pass", "match"))
    parts = (
        action, draw.choice(("in", "out", "in", "out", "")),
        draw.choice(("", "on em0", "on { em0 em1 }", "on egress")), draw.choice(("", "inet", "inet6")),
        f"proto tcp from {draw.choice(HOSTS)} to {draw.choice(HOSTS)}",
        draw.choice(("port 80", "port { 80 443 }", "port 8000:8009", "port != 22")),
        draw.choice(("", "tag X", "tagged Y")),
        *(f"{it} {draw.choice(POOLS)} {draw.choice(WORDS)}" for it in kinds),
        draw.choice(("", "keep state (max 5)", "no state")) if action == "pass" else "",
    )  # fmt: skip
    return f"table <t> {{ 10.0.0.7 2001:db8::7 }}\ntable <none> persist\n{' '.join(filter(None, parts))}\n"


def answer(text: str, *, translates: bool) -> Ruleset | None:
    """What comes of a text; None where it is refused, as no combination is of one family."""
    try:
        return convert_text(text, "pf.conf", RuleOptions(ifconfig=FOLDER / "ifconfig", translates=translates))
    except Trouble as trouble:
        if "of one family" not in trouble.message:
            raise
        return None


def without_family(made: Ruleset) -> set[str]:
    """The rules of a text, without what they translate, and without the family that follows from that."""
    return {re.sub(r" inet6? proto", " proto", it) for it in without_translation(made)}


def without_translation(made: Ruleset) -> set[str]:
    """The rules of a text, without what they translate."""
    return {
        re.sub(r" nat-to \S+( static-port| port \S+)?| rdr-to \S+( port \S+)?", "", it) for it in made.text.splitlines()
    }


if __name__ == "__main__":
    unittest.main()
