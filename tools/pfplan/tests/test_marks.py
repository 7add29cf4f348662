"""Tags, `match` rules and `received-on` of a pf.conf: what pfsrc answers by them, with routes and without."""

import subprocess

from pfplan.answers.agreements import Agreement
from pfplan.common.repository import program
from pfplan.pages.agreement_texts import LACKS_TAGS, notes
from pfplan.pf.conversion import RuleOptions, convert_text
from pfplan.tests.support import FolderCase
from pfplan.traces.pf_answers import Merged

CONF = """
table <partners> { 198.51.100.0/25 }
match in on em1 tag LAN label "from inside" set prio 3
match in on em0 from <partners> tag "a partner"
block all
pass in on { em0 em1 }
pass out on em0 tagged LAN
pass out on em1 proto tcp to port { 22 443 } tagged "a partner"
anchor "known" out on em1 {
    pass proto udp received-on em0 ! tagged LAN
}
"""
ROUTES = "set route { 0.0.0.0/0 em0, 10.0.0.0/8 em1, 203.0.113.1 lo0 }\n"
RECORDS = (
    "0,in,em1,tcp,10.0.0.9,1000,192.0.2.1,80,S",  # from inside
    "0,in,em0,tcp,198.51.100.9,1000,10.0.0.5,22,S", "0,in,em0,tcp,198.51.100.200,1000,10.0.0.5,22,S",
    "0,in,em0,tcp,198.51.100.9,1001,10.0.0.5,80,S", "0,in,em0,udp,198.51.100.200,1000,10.0.0.5,53,",
    "0,out,em0,udp,203.0.113.1,1000,192.0.2.7,53,",  # of the firewall itself
    "0,out,em0,udp,10.0.0.9,1000,192.0.2.7,53,",  # from inside, seen where it leaves
)  # fmt: skip


class Marks(FolderCase):
    def answers(self, text: str) -> list[str]:
        """What pfsrc answers each record, with the lines of the rules."""
        made = convert_text(text, "pf.conf", RuleOptions())
        self.assertEqual([it for it in made.leftovers if it.changes_answer], [])
        rules, trace = self.write("rules", made.text), self.trace(RECORDS)
        words = [program(), "replay", str(rules), str(trace)]
        ended = subprocess.run(words, capture_output=True, text=True, check=False)
        self.assertEqual((ended.returncode, ended.stderr), (0, ""))
        lines = text.splitlines()

        def shown(part: str) -> str:
            word, rule = part.split(" ")
            return word if rule == "-" else f"{word}: {lines[made.origins[int(rule[1:])].line - 1].strip()}"

        return [" > ".join(map(shown, it.partition(" ")[2].split(" > "))) for it in ended.stdout.splitlines()[:-1]]

    def test_with_routes(self) -> None:
        """A tag goes along to the second interface, and with a packet of which the trace has the second one alone."""
        inside, ssh = "pass out on em0 tagged LAN", 'pass out on em1 proto tcp to port { 22 443 } tagged "a partner"'
        came = "new: pass in on { em0 em1 }"
        self.assertEqual(
            self.answers(CONF + ROUTES),
            [
                f"{came} > new: {inside}", f"{came} > new: {ssh}", f"{came} > block: block all",
                f"{came} > block: block all", f"{came} > new: pass proto udp received-on em0 ! tagged LAN",
                "block: block all", f"{came} > new: {inside}",
            ],
        )  # fmt: skip

    def test_without_routes(self) -> None:
        """A packet out has no tag, and came in nowhere."""
        came = "new: pass in on { em0 em1 }"
        self.assertEqual(self.answers(CONF), [*[came] * 5, *["block: block all"] * 2])

    def test_a_match_rule_decides_nothing(self) -> None:
        """It ends no quick anchor, and its tag stays behind it."""
        text = 'anchor "x" in quick {\n    match tag LAN\n}\nblock in\npass in on em1 tagged LAN\n'
        decided = self.answers(text)
        self.assertEqual(decided[:2], ["new: pass in on em1 tagged LAN", "block: block in"])

    def test_agree_says_that_tags_are_not_known(self) -> None:
        self.assertEqual(list(notes(Agreement(Merged(1, 1), lacks_tags=True))), [LACKS_TAGS])
        self.assertEqual(list(notes(Agreement(Merged(1, 1)))), [])
