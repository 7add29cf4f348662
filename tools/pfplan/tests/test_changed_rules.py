"""Numbers of a rules text, and the text with some of them changed."""

import os
import tempfile
import unittest
from pathlib import Path
from unittest import mock

from pfplan.answers.changed_rules import ADAPTIVE, PORTS, Number, RulesText
from pfplan.answers.margins import moves_of, protocols_of, tenths, turns_of
from pfplan.answers.measures import Measure
from pfplan.answers.sizes import serves
from pfplan.commands.words import share_word
from pfplan.common.errors import Trouble
from pfplan.replays.runs import show_rules
from pfplan.tests.support import FolderCase

STAND_IN = Path(__file__).resolve().parent / "stand_in.py"
RULES = """set limit states 50
block in on max from any to any
pass in on em0 proto tcp from any to any port 80 flags S/SA keep state (max 9, source-track rule, max-src-conn 40, \
max-src-conn-rate 60/10, tcp.first 5)
pass in on em0 proto tcp from any to any port 443 flags S/SA keep state (source-track rule, max-src-conn 40, \
max-src-conn-rate 60/10, overload <max> flush)"""
TRACE = """time,dir,if,proto,src,sport,dst,dport,flags
0,in,em0,tcp,198.51.100.1,1000,192.0.2.1,80,S
1,in,em0,icmp,198.51.100.1,,192.0.2.1,,
2,expire,bad,,,86400,,,
"""


class Changes(unittest.TestCase):
    """Each over a rules text that the stand-in reads."""

    def setUp(self) -> None:
        folder = tempfile.TemporaryDirectory()
        self.addCleanup(folder.cleanup)
        self.rules = Path(folder.name, "rules")
        self.rules.write_text(RULES, encoding="ascii")
        self.trace = Path(folder.name, "trace")
        self.trace.write_text(TRACE, encoding="ascii")
        patch = mock.patch.dict(os.environ, {"PFSRC": str(STAND_IN)})
        patch.start()
        self.addCleanup(patch.stop)
        self.text = RulesText(self.rules)

    def test_find(self) -> None:
        self.assertEqual(self.text.find("states"), Number("states", 50))
        self.assertEqual(self.text.find("adaptive.start"), Number("adaptive.start", 30))
        self.assertEqual(self.text.find("max-src-conn"), Number("max-src-conn", 40, (1, 2)))
        self.assertEqual(self.text.find("@2.max-src-conn-rate"), Number("max-src-conn-rate", 60, (2,), "/10"))
        self.assertEqual(self.text.find("@1.tcp.first"), Number("tcp.first", 5, (1,)))

    def test_find_nothing(self) -> None:
        for name, said in (
            ("state", "is states meant"),
            ("max-src-states", "no rule states max-src-states"),
            ("@2.max", "is @1.max meant"),
            ("", "no number"),
        ):
            with self.assertRaisesRegex(Trouble, said):
                self.text.find(name)

    def test_setting_is_added_at_the_end(self) -> None:
        self.assertEqual(
            self.text.changed({Number("states", 50): 70}), (RULES + "\n\nset limit { states 70 }\n").encode()
        )
        self.assertTrue(self.text.changed({Number("tcp.first", 120): 7}).endswith(b"\n\nset timeout { tcp.first 7 }\n"))

    def test_one_adaptive_value_brings_the_other(self) -> None:
        self.assertTrue(
            self.text.changed({Number("adaptive.end", 60): 66}).endswith(
                b"set timeout { adaptive.start 30, adaptive.end 66 }\n"
            )
        )

    def test_option_is_changed_in_its_rules_alone(self) -> None:
        text = self.text.changed({Number("max", 9, (1,)): 12}).decode()
        self.assertIn("keep state (max 12, source-track", text)
        self.assertIn("block in on max from any to any", text)
        self.assertIn("overload <max> flush)", text)
        rate = self.text.changed({self.text.find("max-src-conn-rate"): 5}).decode()
        self.assertEqual(rate.count("max-src-conn-rate 5/10"), 2)
        one = self.text.changed({self.text.find("@1.tcp.first"): 6}).decode()
        self.assertEqual(one.count("tcp.first 6"), 1)
        self.assertIn("tcp.first 120", one)

    def test_moves(self) -> None:
        moves = list(moves_of(self.text, protocols_of(self.trace)))
        changed = {(it.title, it.step) for it in moves}
        self.assertIn(("set limit states", "a tenth lower"), changed)
        self.assertIn(("max-src-conn of @1, @2", "a tenth higher"), changed)
        self.assertIn(("tcp.first of @1", "a tenth lower"), changed)
        self.assertNotIn(("set timeout udp.first", "a tenth lower"), changed)
        self.assertNotIn(("set limit tables", "a tenth lower"), changed)
        longer = moves[-1].values
        self.assertEqual(longer[Number("tcp.first", 120)], 130)
        self.assertEqual(longer[Number("tcp.first", 5, (1,))], 15)
        self.assertEqual(longer[Number("src.track", 0)], 10)
        self.assertNotIn(Number("interval", 10), longer)

    def test_protocols(self) -> None:
        self.assertEqual(protocols_of(self.trace), {"tcp"})


class Ports(FolderCase):
    """How many ports `nat-to` takes from, by a rules text that pfsrc reads."""

    def test_ports(self) -> None:
        rules = self.write(
            "rules",
            "set profile openbsd-7.4\nmatch out inet from 10.0.0.0/8 nat-to 192.0.2.1\n"
            "pass out inet nat-to 192.0.2.2 port 5:9 keep state (max 7)\npass out inet nat-to 192.0.2.3 static-port\n"
            "pass out inet nat-to 192.0.2.4 port 80\npass in inet rdr-to 192.0.2.5 port 80\n",
        )
        text = RulesText(rules)
        ports = [it for it in text.options() if it.name == PORTS]
        self.assertEqual([(it.rules, it.value, it.title) for it in ports][1], ((1,), 5, "nat-to.ports of @1"))
        self.assertEqual([(it.rules, it.value) for it in ports], [((0,), 15535), ((1,), 5), ((3,), 1)])
        self.assertEqual(text.find("nat-to.ports"), Number(PORTS, 15535, (0, 1, 3)))
        match = "match out inet from 10.0.0.0/8 to any flags any nat-to 192.0.2.1"
        for name, value, wanted in (
            ("@0.nat-to.ports", 31070, f"{match} port 34466:65535"),
            ("@0.nat-to.ports", 65535, f"{match} port 1:65535"),
            ("@1.nat-to.ports", 3, "pass out inet all flags S/SA nat-to 192.0.2.2 port 7:9 keep state (max 7)"),
            ("@1.nat-to.ports", 12, "pass out inet all flags S/SA nat-to 192.0.2.2 port 1:12 keep state (max 7)"),
        ):
            made = self.folder / "made"
            made.write_bytes(text.changed({text.find(name): value}))
            self.assertIn(wanted, show_rules(made))
        self.assertEqual(text.find("nat-to.ports").bounds, (1, 65535))


class Tenths(unittest.TestCase):
    """How far a number is moved."""

    def test_tenths(self) -> None:
        rows = ((100, [90, 110]), (5, [4, 6]), (1, [2]), (4294967295, [3865470566]))
        for value, moved in rows:
            self.assertEqual([next(iter(it.values.values())) for it in tenths(Number("states", value))], moved)
        self.assertEqual(list(tenths(Number("src.track", 0))), [])


class Answers(unittest.TestCase):
    """Which answers turn over."""

    def measure(self, served: int, **words: int) -> Measure:
        """A measure of 200 connections."""
        return Measure(
            outcomes={"served": served, "refused": 200 - served},
            words={it.replace("_", ":"): count for it, count in words.items()},
        )

    def test_wanted_share(self) -> None:
        want = share_word("99.5%")
        self.assertTrue(serves(self.measure(199), want))
        self.assertFalse(serves(self.measure(198), want))
        self.assertFalse(serves(Measure(), want))
        self.assertFalse(serves(Measure(refused="line 0: TooManyEntries"), share_word("0")))

    def test_turns(self) -> None:
        want = share_word("99%")
        base = self.measure(199, drop_states=3)
        self.assertEqual(
            turns_of(base, self.measure(190, drop_states=30), want, True), ("the wanted share is no longer served",)
        )
        self.assertEqual(turns_of(base, self.measure(200), want, True), ("drop:states is no longer met",))
        self.assertEqual(
            turns_of(self.measure(190), base, want, True), ("the wanted share is now served", "drop:states is now met")
        )
        self.assertEqual(turns_of(base, Measure(refused="line 0: TooManyEntries"), want, True), ())


class Pairs(FolderCase):
    """Adaptive values of rules, as pfsrc itself shows them."""

    def pair_after(self, text: str, most: int) -> tuple[int, ...]:
        """The adaptive values of the rule once its `max` is another."""
        rules = RulesText(self.write("rules", text))
        changed = RulesText(self.write("changed", rules.changed({rules.find("max"): most}).decode()))
        return tuple(it.value for it in changed.options() if it.name in ADAPTIVE)

    def test_derived_pair_follows(self) -> None:
        """Those that pfctl derives from `max` follow it; given ones stay, and all do without the profile."""
        profile = "set profile openbsd-7.4\n"
        rule = "pass in proto tcp keep state (max 100{})\n"
        pair = ", adaptive.start {}, adaptive.end {}".format
        self.assertEqual(self.pair_after(profile + rule.format(""), 205), (120, 240))
        self.assertEqual(self.pair_after(profile + rule.format(""), 9), ())
        self.assertEqual(self.pair_after(profile + rule.format(pair(50, 120)), 205), (50, 120))
        self.assertEqual(self.pair_after(rule.format(pair(60, 120)), 205), (60, 120))


if __name__ == "__main__":
    unittest.main()
