"""Properties of `pfplan rules` over rulesets drawn at random, with fixed seeds.

300 rulesets, or as many as the environment names in PFPLAN_DRAWN, from the seed in PFPLAN_SEED on. Of each:

- every rule of the expansion is accepted by pfsrc;
- packet by packet, pfsrc on the expanded text answers as the reading of the drawn ruleset does, by the same rule;
- expanding what was expanded changes nothing;
- a rule that is carried, in part or whole, matches no packet that the drawn rule does not.
"""

import os
import subprocess
import tempfile
import unittest
from pathlib import Path

from pfplan.common.repository import program
from pfplan.pf.conversion import RuleOptions, Ruleset, convert_text
from pfplan.pf.profiles import Profile
from pfplan.tests.drawing import IFCONFIG, Anchor, Drawer, Packet, Rule
from pfplan.tests.drawing import Ruleset as Drawn
from pfplan.tests.drawing import Writer
from pfplan.tests.reading import Reading

PACKETS = 40
HEADER = "time,dir,if,proto,src,sport,dst,dport,flags"


def rules_of(items: list[Rule | Anchor]) -> list[Rule]:
    """All rules, those of anchors too."""
    found: list[Rule] = []
    for it in items:
        found.extend(rules_of(it.body) if isinstance(it, Anchor) else [it])
    return found


class DrawnRulesets(unittest.TestCase):
    """Rulesets drawn at random."""

    def setUp(self) -> None:
        self._folder = tempfile.TemporaryDirectory()
        self.folder = Path(self._folder.name)
        self.addCleanup(self._folder.cleanup)
        (self.folder / "ifconfig").write_text(IFCONFIG, "utf-8")
        self.options = RuleOptions(ifconfig=self.folder / "ifconfig")

    def test_drawn(self) -> None:
        """The four properties, ruleset by ruleset."""
        first = int(os.environ.get("PFPLAN_SEED", "1"))
        for seed in range(first, first + int(os.environ.get("PFPLAN_DRAWN", "300"))):
            with self.subTest(seed=seed):
                self.check(seed)

    def check(self, seed: int) -> None:
        """The properties of one ruleset."""
        drawer = Drawer(seed)
        drawn = drawer.ruleset()
        drawn.text = Writer(drawer).write(drawn)
        packets = [drawer.packet() for _ in range(PACKETS)]
        made = convert_text(drawn.text, "drawn", self.options)
        again = convert_text(made.text, "again", RuleOptions()) if made.origins else made
        self.assertEqual(again.text, made.text, drawn.text)
        self.check_answers(drawn, made, packets)
        self.check_rule(drawn, made, packets, drawer)

    def check_answers(self, drawn: Drawn, made: Ruleset, packets: list[Packet]) -> None:
        """Each packet has the answer of the reading, by the rule of the same line."""
        reading = Reading(drawn)
        for packet, (word, number) in zip(packets, self.replay(made.text, packets), strict=True):
            wanted, line = reading.answer(packet)
            shown = f"{packet}\n{drawn.text}\n{made.text}"
            self.assertEqual(word, wanted, shown)
            if word != "state":
                self.assertEqual(0 if number is None else made.origins[number].line, line, shown)

    def check_rule(self, drawn: Drawn, made: Ruleset, packets: list[Packet], drawer: Drawer) -> None:
        """What is carried of one of the rules, alone, matches the packets without a tag that the drawn rule matches,
        and no other."""
        carried = {it.line for it in made.origins}
        rules = [it for it in rules_of(drawn.items) if it.line in carried and it.action != "match"]
        if not rules:
            return
        rule = drawer.random.choice(rules)
        items = [it for it in made.text.splitlines() if it != "}" and not it.startswith(("set ", "table "))]
        mine = [line for line, origin in zip(items, made.origins, strict=True) if origin.line == rule.line]
        tables = [it for it in made.text.splitlines() if it.startswith("table ")]
        reading = Reading(drawn)
        alone = "".join(f"{it}\n" for it in [*Profile.OPENBSD.lines(), *tables, *mine])
        for packet, (word, number) in zip(packets, self.replay(alone, packets), strict=True):
            if word != "state":
                self.assertEqual(
                    number is not None, reading.matches_rule(rule, packet), f"{packet}\n{drawn.text}\n{alone}"
                )

    def replay(self, rules: str, packets: list[Packet]) -> list[tuple[str, int | None]]:
        """The words and rules of the report. A text that pfsrc refuses fails the test."""
        (self.folder / "rules").write_text(rules, "utf-8")
        (self.folder / "trace").write_text("\n".join([HEADER, *(it.record() for it in packets)]) + "\n", "utf-8")
        words = [program(), "replay", str(self.folder / "rules"), str(self.folder / "trace")]
        ended = subprocess.run(words, capture_output=True, text=True, check=False)
        self.assertEqual((ended.returncode, ended.stderr), (0, ""), rules)
        lines = [it.split(" ") for it in ended.stdout.splitlines()[:-1]]
        return [(word, None if item == "-" else int(item.removeprefix("@"))) for _, word, item, *_ in lines]


if __name__ == "__main__":
    unittest.main()
