"""Translation of pf before OpenBSD 4.7 as rules of today: the same effect, on drawn texts."""

import random
import tempfile
import unittest
from pathlib import Path

from pfplan.pf.conversion import RuleOptions, convert_text
from pfplan.tests.old_order import TABLE, drawn_filter, drawn_old, drawn_packet, old_answer, today_answer

TEXTS, PACKETS = 600, 80
# what is told where the effect may be another
DOUBTS = ("no tag can tell", "ends the search for")


class Order(unittest.TestCase):
    """The rules that are written, beside the first match of the older ones."""

    def test_drawn(self) -> None:
        """Where nothing is told, each packet gets the same answer, with the same addresses and a state or none. It
        refuses a pfplan that writes the older rules in plain order alone, that takes binat behind nat, that lets a
        packet of `nat pass` be asked of the filter rules, or takes a tag from the text."""
        told = 0
        for number in range(TEXTS):
            draw = random.Random(f"old order {number}")
            has_tags = number % 3 == 0
            rules = [drawn_old(draw, has_tags) for _ in range(draw.randint(1, 5))]
            filters = [drawn_filter(draw, has_tags) for _ in range(draw.randint(0, 3))]
            lines = [f"table <t> persist {{ {', '.join(TABLE)} }}"]
            lines += [*(it.text() for it in rules), *(it.text() for it in filters)]
            made = convert_text("\n".join(lines) + "\n", "pf.conf", RuleOptions(translates=True))
            if any(doubt in it.reason for it in made.leftovers for doubt in DOUBTS):
                told += 1
                continue
            self.assertEqual([it.reason for it in made.leftovers if it.changes_answer], [])
            written = [it for it in made.text.splitlines() if not it.startswith(("set ", "table "))]
            tags = sorted({it.tag for it in rules if it.tag and it.sort != "nat"})
            for _ in range(PACKETS):
                packet = drawn_packet(draw, tags)
                wanted, found = old_answer(rules, filters, packet), today_answer(written, packet)
                with self.subTest(packet=packet):
                    self.assertEqual(found.seen(), wanted.seen(), "\n".join((*lines, "", *written)))
        self.assertLess(told, TEXTS // 5)

    def written(self, *lines: str) -> tuple[list[str], list[str]]:
        """The rules of a text, and what is told of it."""
        made = convert_text("\n".join(lines) + "\n", "pf.conf", RuleOptions(translates=True))
        told = [f"{it.line}: {it.text}: {it.way}: {it.reason}" for it in made.leftovers]
        return [it for it in made.text.splitlines() if not it.startswith(("set ", "table "))], told

    def test_plain_order(self) -> None:
        """Rules that no packet meets behind one another are as they were."""
        rules, told = self.written(
            "nat on em0 inet from 10.1.0.0/16 to any -> 192.0.2.1",
            "nat on em0 inet from 10.2.0.0/16 to any -> 192.0.2.2 static-port",
            "no rdr on lo0 all",
            "rdr on em0 inet proto tcp from any to 192.0.2.1 port 80 -> 10.1.0.80 port 8080",
            "block",
        )
        self.assertEqual(
            rules,
            [
                "match out on em0 inet from 10.1.0.0/16 to any nat-to 192.0.2.1",
                "match out on em0 inet from 10.2.0.0/16 to any nat-to 192.0.2.2 static-port",
                "match in on lo0 all",
                "match in on em0 inet proto tcp from any to 192.0.2.1 port = 80 rdr-to 10.1.0.80 port 8080",
                "block all",
            ],
        )
        self.assertEqual(told, [])

    def test_a_tag_tells_what_was_asked_first(self) -> None:
        """A rule behind one with `no`, and one that would translate what another made. Each direction has a tag."""
        rules, told = self.written(
            "no nat on em0 inet from 10.1.0.0/16 to 10.9.0.0/16",
            "nat on em0 inet from 10.1.0.5 to any -> 192.0.2.5 static-port",
            "nat on em0 inet from any to any -> 192.0.2.1",
            "rdr on em0 inet proto tcp from any to 192.0.2.1 port 80 -> 10.1.0.80",
            "rdr on em0 inet proto tcp from any to any port 80 -> 10.1.0.81",
            "block",
        )
        self.assertEqual(
            rules,
            [
                "match out on em0 inet from 10.1.0.0/16 to 10.9.0.0/16 tag translated-out",
                "match out on em0 inet from 10.1.0.5 to any tag translated-out ! tagged translated-out"
                " nat-to 192.0.2.5 static-port",
                "match out on em0 inet all ! tagged translated-out nat-to 192.0.2.1",
                "match in on em0 inet proto tcp from any to 192.0.2.1 port = 80 tag translated-in rdr-to 10.1.0.80",
                "match in on em0 inet proto tcp from any to any port = 80 ! tagged translated-in rdr-to 10.1.0.81",
                "block all",
            ],
        )
        self.assertEqual(told, [])

    def test_no_tag_of_the_text_is_lost(self) -> None:
        """A packet may have a tag from its way in, which a rule for packets out asks for: pfplan gives it none there.
        What errs is told, and one that passes is left out."""
        first = "no nat on em0 inet from 10.1.0.0/16 to 10.9.0.0/16"
        second = "nat on em0 inet from 10.1.0.0/16 to any -> 192.0.2.1"
        marks = ("pass in tag A", "pass out tagged A")
        rules, told = self.written(first, second, "block", *marks)
        self.assertEqual(rules[:2], [
            "match out on em0 inet from 10.1.0.0/16 to 10.9.0.0/16",
            "match out on em0 inet from 10.1.0.0/16 to any nat-to 192.0.2.1",
        ])  # fmt: skip
        why = "line 1 is asked first; here this is asked of what that matched, as no tag can tell it"
        self.assertEqual(told, [f"2: nat: pf may block or pass more: {why}"])
        rules, told = self.written(first, second.replace("nat", "nat pass", 1), "block", *marks)
        self.assertEqual(rules[:2], ["match out on em0 inet from 10.1.0.0/16 to 10.9.0.0/16", "block all"])
        why = "line 1 is asked first, and no tag can tell here what that matched"
        shown = "nat pass on em0 inet from 10.1.0.0/16 to any -> 192.0.2.1"
        self.assertEqual(told, [f"2: {shown}: pf passes more: {why}"])

    def test_binat_before_nat(self) -> None:
        """Packets out are asked of binat first, those in of rdr, wherever they stand."""
        rules, told = self.written(
            "nat on em0 inet from 10.1.0.0/16 to any -> 192.0.2.1",
            "binat on em0 inet from 10.1.0.5 to any -> 192.0.2.5",
            "rdr on em0 inet proto tcp from any to 192.0.2.5 port 25 -> 10.1.0.25",
            "block",
        )
        self.assertEqual(
            rules,
            [
                "match out on em0 inet from 10.1.0.5 to any nat-to 192.0.2.5 static-port",
                "match out on em0 inet from 10.1.0.0/16 to any nat-to 192.0.2.1",
                "match in on em0 inet proto tcp from any to 192.0.2.5 port = 25 rdr-to 10.1.0.25",
                "match in on em0 inet from any to 192.0.2.5 rdr-to 10.1.0.5",
                "block all",
            ],
        )
        self.assertEqual(told, [])

    def test_states_of_what_no_rule_decides(self) -> None:
        """A pass rule makes the state in front of a translation, where the filter rules may decide nothing."""
        rules, _ = self.written("nat on em0 inet from 10.1.0.0/16 to any -> 192.0.2.1", "block in", "pass in on em1")
        self.assertEqual(
            rules[:2],
            [
                "pass out on em0 inet from 10.1.0.0/16 to any flags any keep state",
                "match out on em0 inet from 10.1.0.0/16 to any nat-to 192.0.2.1",
            ],
        )
        _, told = self.written("nat on em0 inet from 10.1.0.0/16 to any -> 192.0.2.1", "pass out on em0 no state")
        why = "in older pf a packet that is translated makes a state by this rule, too"
        self.assertEqual(told, [f"2: no state: pf makes other states: {why}"])

    def test_anchors(self) -> None:
        """The rules of a file stand where their anchor is called, with what it asks; filter rules of the file in the
        filter anchor. Without a file that is told; an anchor that asks otherwise than its rules is left out."""
        with tempfile.TemporaryDirectory() as folder:
            file = Path(folder, "proxy")
            file.write_text(
                "nat from 10.1.0.5 to any -> 192.0.2.5\nrdr on em1 proto tcp to port 21 -> 127.0.0.1 port 8021\n"
                "pass in on em1\n",
                "utf-8",
            )
            text = (
                'nat-anchor "proxy" on em0\nnat on em0 inet from 10.1.0.0/16 to any -> 192.0.2.1\n'
                'rdr-anchor "proxy" on em2\nbinat-anchor "other"\nblock\nanchor "proxy"\n'
            )
            options = RuleOptions(translates=True, anchors=(("proxy", file),))
            made = convert_text(text, "pf.conf", options)
        self.assertEqual(
            made.text.splitlines()[1:],
            [
                "match out on em0 from 10.1.0.5 to any nat-to 192.0.2.5",
                "match out on em0 inet from 10.1.0.0/16 to any nat-to 192.0.2.1",
                "block all",
                'anchor "proxy" all {',
                "pass in on em1 all",
                "}",
            ],
        )
        lost = "old syntax; its rules are loaded by others while pf runs; --anchor NAME=FILE gives them"
        self.assertEqual(
            [(it.line, it.reason) for it in made.leftovers if it.file == "pf.conf"],
            [(3, "old syntax; the anchor asks what rules in it ask otherwise"), (4, lost)],
        )

    def test_too_many(self) -> None:
        """Rules that are too many to be compared are told, and none of them is written."""
        ports = " ".join(map(str, range(1, 1002)))
        rules, told = self.written(f"rdr on em0 inet proto tcp to port {{ {ports} }} -> 10.1.0.80", "block")
        self.assertEqual(rules, ["block all"])
        self.assertEqual(len(told), 1)
        self.assertIn("more than 1,000 rules, whose order is not compared", told[0])

    def test_before_the_filter_rules(self) -> None:
        """Translation stands before the filter rules also where the text has it behind them; what passes is not asked
        of them, and has the state of no rule."""
        rules, told = self.written(
            "set state-defaults sloppy",
            "block",
            "rdr pass log on em0 inet proto tcp from any to 192.0.2.1 port { 80 443 } -> 10.1.0.80",
        )
        self.assertEqual(
            rules,
            [
                "pass in log quick on em0 inet proto tcp from any to 192.0.2.1 port = 80 flags any rdr-to 10.1.0.80"
                " keep state",
                "pass in log quick on em0 inet proto tcp from any to 192.0.2.1 port = 443 flags any rdr-to 10.1.0.80"
                " keep state",
                "block all",
            ],
        )
        self.assertEqual(told, [])


if __name__ == "__main__":
    unittest.main()
