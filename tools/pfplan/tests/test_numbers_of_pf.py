"""How pf numbers the rules of a text."""

import unittest

from pfplan.common.repository import TOP
from pfplan.pf.conversion import RuleOptions, Ruleset, convert, convert_text
from pfplan.pf.interfaces import Machine, read_ifconfig
from pfplan.pf.numbers_of_pf import keys_of
from pfplan.pf.statements import Filter, Host, HostKind, Port, Side

ROUTER = TOP / "examples" / "pf.conf"


def converted(text: str, **more: object) -> Ruleset:
    """The rules text of a text."""
    return convert_text(text, "pf.conf", RuleOptions(**more))  # type: ignore[arg-type]


def numbers(ruleset: Ruleset) -> list[tuple[str, int, int | None, tuple[int, ...]]]:
    """The ruleset, the number and the caller of each rule of pf, and the items that stand for it."""
    return [(it.number.ruleset, it.number.number, it.number.caller, it.items) for it in ruleset.pf_rules]


class Numbering(unittest.TestCase):
    def test_lists_settings_and_tables(self) -> None:
        made = converted(
            "set limit states 9\ntable <t> { 192.0.2.1 }\n"
            "block in proto { tcp udp } from <t> to port { 22 80 }\npass out\n"
        )
        self.assertEqual(numbers(made), [("", at, None, (at,)) for at in range(5)])

    def test_rules_that_no_rules_text_has(self) -> None:
        text = (
            "match in all\npass in proto icmp icmp-type { echoreq, unreach code needfrag }\n"
            "pass proto tcp to port 80 user { root, >= 1000 }\nblock all\n"
        )
        self.assertEqual(numbers(converted(text)), [("", at, None, ()) for at in range(5)] + [("", 5, None, (0,))])

    def test_match_rules(self) -> None:
        """Each has its number, also where it is left out; a group behind received-on is one rule in pf."""
        text = (
            "match in all scrub (no-df)\nmatch in log proto { tcp udp } tag LAN\n"
            "pass out received-on lan tagged LAN\nblock all\n"
        )
        made = converted(text, interfaces=(("lan", "em1"), ("lan", "em2")))
        wanted = [((), "match"), ((0,), "match"), ((1,), "match"), ((2, 3), "pass"), ((4,), "block")]
        self.assertEqual([(it.items, it.action) for it in made.pf_rules], wanted)
        self.assertEqual([it.logs for it in made.pf_rules], [False, True, True, False, False])

    def test_families(self) -> None:
        made = converted("pass from { 192.0.2.1 2001:db8::1 } to { 192.0.2.2 2001:db8::2 any }\nblock all\n")
        self.assertEqual(numbers(made), [("", at, None, (at,)) for at in range(5)])

    def test_one_rule_of_pf_that_is_several_here(self) -> None:
        made = converted(
            "pass in on lan proto tcp to port != 80\nblock all\n", interfaces=(("lan", "em1"), ("lan", "em2"))
        )
        self.assertEqual(numbers(made), [("", 0, None, (0, 1, 2, 3)), ("", 1, None, (4,))])

    def test_anchors(self) -> None:
        text = """
block all
anchor "one" in {
    pass proto tcp
    anchor {
        pass proto udp
        anchor "two" {
            block all
        }
    }
}
anchor "far/*"
anchor out {
    pass all
}
pass in
"""
        wanted = [
            ("", 0, None, (0,)), ("", 1, None, (1,)), ("one", 0, 1, (2,)), ("one", 1, 1, (3,)), ("one/_2", 0, 1, (4,)),
            ("one/_2", 1, 1, (5,)),
            ("one/_2/two", 0, 1, (6,)), ("", 2, None, ()), ("", 3, None, (7,)), ("_4", 0, 3, (8,)), ("", 4, None, (9,)),
        ]  # fmt: skip
        made = converted(text)
        self.assertEqual(numbers(made), wanted)
        self.assertEqual([it.number.logged_name() for it in made.pf_rules][4:7], ["_2", "_2", "two"])

    def test_a_long_name_is_cut(self) -> None:
        made = converted('anchor "a-name-of-more-than-15" {\npass all\n}\n')
        self.assertEqual(made.pf_rules[-1].number.logged_name(), "a-name-of-more-")

    def test_an_anchor_from_a_file(self) -> None:
        options = RuleOptions(root=ROUTER, ifconfig=ROUTER / "ifconfig")
        made = convert(ROUTER / "etc" / "pf.conf", options)
        guests = [it for it in numbers(made) if it[0] == "guests"]
        first = guests[0][3][0]
        self.assertEqual(guests, [("guests", at, 22, (first + at,)) for at in range(4)])
        items = [item for it in made.pf_rules for item in it.items]
        skipped = made.text.splitlines().count("pass quick on lo0 all no state")
        self.assertEqual(items, list(range(skipped, len(made.origins))))
        self.assertIsNone(made.guessed)

    def test_what_logs(self) -> None:
        made = converted("block log\npass log (all, to pflog1)\npass log (all)\npass log (user)\npass\n")
        self.assertEqual(
            [(it.logs, it.logs_all) for it in made.pf_rules],
            [(True, False), (True, True), (True, True), (True, False), (False, False)],
        )

    def test_a_name_whose_addresses_are_not_known(self) -> None:
        made = converted("block all\npass to www.example.org\npass in\n")
        self.assertEqual(made.guessed and made.guessed.line, 2)
        self.assertEqual(numbers(made), [("", 0, None, (0,)), ("", 1, None, ()), ("", 2, None, (1,))])

    def test_addresses_of_an_interface(self) -> None:
        machine = Machine(
            read_ifconfig(
                "em0: flags=8843<UP>\n\tinet 192.0.2.1 netmask 0xffffff00\n\tinet6 2001:db8::1 prefixlen 64\n"
            )
        )
        own = Host(HostKind.NAME, "em0")
        for family, count in (("", 2), ("inet", 1), ("inet6", 1)):
            keys, is_sure = keys_of(
                Filter(family=family, destination=Side((own,), (Port("=", 80, 80), Port("=", 443, 443)))), machine
            )
            self.assertEqual((len(keys), is_sure), (2 * count, True))
        self.assertEqual(len(keys_of(Filter(destination=Side((Host(HostKind.DYNAMIC, "em0"),))), machine)[0]), 1)

    def test_two_rules_of_binat(self) -> None:
        made = converted("pass on em0 from 192.168.1.2 binat-to 192.0.2.2\nblock all\n")
        self.assertEqual([it[1] for it in numbers(made)], [0, 1, 2])


if __name__ == "__main__":
    unittest.main()
