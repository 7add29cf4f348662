"""Summaries under routes, of drawn rulesets and traces: each connection's fate is that of the slow reading of the same
packets on both interfaces.

Under routes a record is a packet's whole way. Its legs, each a record under the rules without routes, have the same
outcomes. PFPLAN_DRAWN says how many are drawn (60), PFPLAN_SEED which is the first.
"""

import ipaddress
import json
import os
import unittest
from collections import Counter

from pfplan.answers.comparisons import Asked, compare
from pfplan.answers.doubts import of_kills
from pfplan.answers.legs_apart import apart
from pfplan.answers.measures import measure
from pfplan.answers.summaries import Wanted, summarize
from pfplan.commands.words import networks
from pfplan.pf.profiles import Profile
from pfplan.replays.runs import show_rules
from pfplan.tests.fates_reading import Reading
from pfplan.tests.support import pfplan
from pfplan.tests.test_connections import Drawer, FatesCase, drawn

ROUTES = {
    "198.51.100.0/24": "em0",
    "203.0.113.0/24": "em0",
    "2001:db8::/64": "em0",
    "192.0.2.0/24": "em1",
    "2001:db8:f::/64": "em1",
}
# Seeds, and of how many kills of each it has to be asked which states were held.
KILLS = {6: 2, 128: 1}
# the rule of TCP packets that leave
OUT = "pass out proto tcp"
TEXT = f"set route {{ {', '.join(f'{prefix} {name}' for prefix, name in ROUTES.items())} }}\n"


def interface_of(address: str) -> str:
    """Where packets to an address leave, and those from it come in."""
    return next(it for prefix, it in ROUTES.items() if ipaddress.ip_address(address) in ipaddress.ip_network(prefix))


class RoutedDrawer(Drawer):
    """Draws packets that cross the firewall, each a record where it comes in; and limits where they leave."""

    def ruleset(self) -> tuple[str, dict[str, str]]:
        text, flushes = super().ruleset()
        flush = self.random.choice(("none", "", "rule", "global"))
        items = [it for it in text.splitlines() if it.startswith(("block ", "pass "))]
        if OUT in items and self.chance(0.7):
            if flush in ("rule", "global"):
                flushes[f"@{items.index(OUT)}"] = flush
            text = text.replace(f"{OUT}\n", f"{OUT} keep state ({self.options(flush)})\n")
        return text, flushes

    def hops(self, ends: str, is_there: bool, is_forwarded: bool, is_out: bool) -> list[tuple[str, str]]:
        return [("in", interface_of(ends.partition(",")[0]))]


def legs(records: list[str], texts: list[str]) -> tuple[list[str], list[str], list[int]]:
    """A record for each leg, what was said of it, and of which row it is. Behind `proxy` pf's own SYN goes on."""
    found: list[tuple[str, str, int]] = []
    for row, (record, text) in enumerate(zip(records, texts, strict=True), 1):
        column, (first, *second) = record.split(","), text.split(" > ")
        found.append((record, first, row))
        for it in second:
            flags = "S" if first.startswith("proxy ") else column[8]
            way = f"{column[0]},out,{interface_of(column[6])}"
            found.append((f"{way},{','.join(column[3:8])},{flags}", it, row))
    return [it for it, _, _ in found], [it for _, it, _ in found], [it for _, _, it in found]


class RoutedFates(FatesCase):
    """Fates of drawn connections, under routes."""

    def test_drawn(self) -> None:
        first, count = int(os.environ.get("PFPLAN_SEED", "1")), int(os.environ.get("PFPLAN_DRAWN", "60"))
        seen: Counter[str] = Counter()
        for seed in range(first, first + count):
            with self.subTest(seed=seed):
                seen.update(self.check(seed))
        if count >= 60:
            self.assertGreaterEqual({*seen}, {"served", "unanswered", "refused", "killed", "cut", "removed", "late"})

    def test_who_was_killed_is_known(self) -> None:
        """Which states had run out before a kill, where others of the source were quiet longer: a guess differs."""
        for seed in KILLS:
            with self.subTest(seed=seed):
                self.check(seed)

    def test_what_a_packet_brings_along_is_not_known(self) -> None:
        """A record of the second interface alone would not have the tag: it is not asked."""
        rules = self.write("rules", f"set profile openbsd-7.4\n{TEXT}pass in tag A\npass out tagged A\n")
        trace = self.trace(["1,in,em0,tcp,198.51.100.1,1000,192.0.2.1,80,S"])
        with apart(rules, show_rules(rules), trace, ()) as found:
            self.assertIsNone(found)

    def test_a_guess_is_told(self) -> None:
        """The same kills are a guess where a rule gives a tag: that is said first."""
        for seed, kills in KILLS.items():
            text, _, records, given = drawn(RoutedDrawer(seed), seed, Profile.OPENBSD)
            trace, users = self.trace(records), networks(",".join(given))
            for rule, guessed in (("", 0), ("pass in on none0 tag A\n", kills)):
                with self.subTest(seed=seed, rule=rule):
                    rules, report = self.write("rules", f"{text}{TEXT}{rule}"), self.folder / "report"
                    self.replay(rules, records, report)
                    self.assertEqual(measure(rules, trace, users, 0).kills_guessed, guessed)
                    doubts = summarize(report, Wanted(trace, users, rules)).doubts
                    self.assertEqual([it for it in doubts if "had run out" in it], of_kills(guessed))
                    doubts = compare(["one", "two"], [rules, rules], trace, [(), ()], Asked(users)).doubts
                    told = [f"{name}: {it}" for name in ("one", "two") for it in of_kills(guessed)]
                    self.assertEqual([it for it in doubts if "had run out" in it], told)

    def test_commands_tell_a_guess(self) -> None:
        """Those that replay under changed rules too."""
        text, _, records, given = drawn(RoutedDrawer(128), 128, Profile.OPENBSD)
        rules, trace = self.write("rules", f"{text}{TEXT}pass in on none0 tag A\n"), self.trace(records)
        for words in (("margins",), ("size", "--vary", "tcp.first=60..120", "--grid", 2, "--runs", 2)):
            with self.subTest(words[0]):
                done = pfplan(*words, rules, trace, "--users", ",".join(given), "--json")
                self.assertEqual(done.status, 0, done.err)
                self.assertEqual([it for it in json.loads(done.out)["doubts"] if "had run out" in it], of_kills(1))

    def test_a_row_is_that_of_its_last_leg(self) -> None:
        """A kill on the way out is asked about behind what the packet did where it came in."""
        rules = self.write("rules", f"set profile openbsd-7.4\n{TEXT}pass in\npass out\n")
        ends = "tcp,198.51.100.1,1000,192.0.2.1,80"
        records = [f"1,in,em0,{ends},S", "2,kill,,,198.51.100.1,,,,", f"3,in,em0,{ends},S"]
        with apart(rules, show_rules(rules), self.trace(records), ()) as found:
            assert found is not None
            self.assertEqual([found.row(it) for it in (1, 2, 3)], [2, 3, 5])
            way = f"1,in,em0,{ends},S\n1,out,em1,{ends},S\n2,kill"
            self.assertIn(way, found.trace.read_text("latin-1"))

    def check(self, seed: int) -> list[str]:
        """One ruleset with one trace. Answers the fates."""
        text, flushes, records, users = drawn(RoutedDrawer(seed), seed, Profile.OPENBSD)
        rules, plain = self.write("rules", f"{text}{TEXT}"), self.write("plain", text)
        report = self.folder / "report"
        lines = self.replay(rules, records, report)
        apart, texts, rows = legs(records, [it.partition(" ")[2] for it in lines[:-1]])
        shown = "\n".join([text, *(f"{record}   {line}" for record, line in zip(records, lines, strict=False))])
        self.assertEqual(self.texts(plain, apart), texts, shown)
        reading = Reading(users, flushes, lambda some: self.texts(plain, some), is_of_pf=True)
        wanted = sorted((key, rows[row - 1], fate) for key, row, fate in reading.read(apart, texts))
        trace = self.trace(records)
        self.assertEqual(self.fates(rules, trace, lines, users), wanted, shown)
        counted = summarize(report, Wanted(trace, networks(",".join(users)), rules)).users
        assert counted is not None
        outcomes = {kind: number for kind, number in counted.outcomes.items() if number}
        self.assertEqual(outcomes, Counter(fate for _, _, fate in wanted), shown)
        return [fate for _, _, fate in wanted]


if __name__ == "__main__":
    unittest.main()
