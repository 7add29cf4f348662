"""Rules with `synproxy state`: what is said where pf answers a SYN itself, and where a capture can't tell."""

import json
import unittest

from pfplan.answers.changed_rules import RulesText
from pfplan.answers.comparisons import count_steps
from pfplan.answers.measures import measure
from pfplan.answers.sides import side_of
from pfplan.answers.stepping import Steps
from pfplan.answers.summaries import Wanted, summarize
from pfplan.answers.timelines import moment_of
from pfplan.pf.reading_canonical_text import items_of
from pfplan.replays.runs import Replay, run_replay, show_rules
from pfplan.tests.led_by_pf import CLIENT, SERVER, USERS, LedByPf, back, there
from pfplan.tests.support import FolderCase, pfplan

RULES = """set profile openbsd-7.4
set timeout { tcp.first 20, interval 1 }
table <bad> persist
block in quick from <bad>
pass in on em0 proto tcp to 192.0.2.1 port 80 synproxy state (max-src-conn 2, overload <bad> flush)
"""


class Fates(LedByPf):
    """What became of a connection, by reports that are written by hand."""

    def test_a_recorded_handshake(self) -> None:
        """The server's SYN+ACK comes too early; its next packet goes through."""
        rows = [
            (there(1, "S"), "proxy @1"), (back(1, "SA"), "proxy @1"), (there(1, "A"), "proxy @1"),
            (there(2, "PA"), "proxy @1"), (back(2, "A"), "state @1"), (back(3, "PA"), "state @1"),
        ]  # fmt: skip
        self.assertEqual(self.outcome(rows), {"served": 1})
        for count in (1, 2, 3, 4):
            self.assertEqual(self.outcome(rows[:count]), {"unanswered": 1}, count)
            self.assertEqual(self.outcome(rows[:count], 3), {"late": 1}, count)

    def test_a_handshake_with_pf(self) -> None:
        """The server answers pf behind the client's ACK."""
        rows = [(there(1, "S"), "proxy @1"), (there(1, "A"), "proxy @1"), (back(2, "SA"), "proxy @1")]
        self.assertEqual(self.outcome(rows), {"served": 1})
        self.assertEqual(self.outcome(rows[:2]), {"unanswered": 1})
        cut = [*rows, (there(3, "PA"), "block @0")]
        self.assertEqual(self.outcome(cut), {"cut": 1})

    def test_a_repeated_syn(self) -> None:
        """It is of its connection, also where its state has run out, and waits for another ACK."""
        rows = [
            (there(1, "S"), "proxy @1"), (there(2, "S"), "proxy @1"), (there(3, "A"), "proxy @1"),
            (there(40, "S"), "proxy @1"), (back(40, "SA"), "proxy @1"),
        ]  # fmt: skip
        self.assertEqual(self.outcome(rows), {"unanswered": 1})
        self.assertEqual(self.outcome([*rows, (back(41, "A"), "state @1")]), {"served": 1})

    def test_another_connection(self) -> None:
        """A SYN of these ports that pf answers, once the one before is done, begins another."""
        rows = [
            (there(1, "S"), "proxy @1"), (there(1, "A"), "proxy @1"), (back(2, "SA"), "proxy @1"),
            (there(9, "S"), "proxy @1"),
        ]  # fmt: skip
        self.assertEqual(self.outcome(rows), {"served": 1, "unanswered": 1})

    def test_refused_and_killed(self) -> None:
        syn = there(1, "S"), "drop:states @1"
        self.assertEqual(self.outcome([syn, (back(1, "SA"), "block @0")]), {"refused": 1})
        again = [(there(2, "S"), "proxy @1"), (there(3, "A"), "proxy @1")]
        self.assertEqual(self.outcome([syn, *again]), {"unanswered": 1})
        killed = "kill:max-src-conn @1 overload=added killed=1"
        self.assertEqual(self.outcome([(there(1, "S"), "proxy @1"), (there(1, "A"), killed)]), {"killed": 1})
        self.assertEqual(self.outcome([(there(1, "S"), "proxy @1"), (there(9, "A"), "block @0")]), {"cut": 1})

    def test_an_ordinary_state_behind_it(self) -> None:
        """Where the state has run out, and a later packet makes an ordinary one, the handshake is asked as ever."""
        rows = [
            (there(1, "S"), "proxy @1"), (there(30, "A"), "new @1"), (back(31, "SA"), "state @1"),
            (there(32, "A"), "state @1"),
        ]  # fmt: skip
        self.assertEqual(self.outcome(rows), {"served": 1})
        self.assertEqual(self.outcome(rows[:2]), {"unanswered": 1})

    def test_the_second_interface(self) -> None:
        """What goes on there says nothing of what pf has answered itself."""
        hops = [
            ("1,in,em0," + CLIENT + ",S", "proxy @1"), ("1,out,em1," + CLIENT + ",S", "new @2"),
            ("1,in,em1," + SERVER + ",SA", "state @2"), ("1,out,em0," + SERVER + ",SA", "proxy @1"),
            ("1,in,em0," + CLIENT + ",A", "proxy @1"), ("1,out,em1," + CLIENT + ",A", "state @2"),
        ]  # fmt: skip
        self.assertEqual(self.outcome(hops), {"unanswered": 1})
        hops += [("2,in,em1," + SERVER + ",PA", "state @2"), ("2,out,em0," + SERVER + ",PA", "state @1")]
        self.assertEqual(self.outcome(hops), {"served": 1})

    def test_states_that_were_made(self) -> None:
        """A SYN that pf answers makes a state: in the sources, the steps, and what is compared."""
        rows = [
            (there(1, "S"), "proxy @1"), (back(1, "SA"), "proxy @1"), (there(1, "A"), "proxy @1"),
            (there(1, "S", "tcp,203.0.113.7,1,192.0.2.1,80"), "proxy @1"),
        ]  # fmt: skip
        summary = self.summary(rows)
        self.assertEqual([(it.address, it.count) for it in summary.sources.made], [
            ("198.51.100.1", 1), ("203.0.113.7", 1)
        ])  # fmt: skip
        self.assertEqual([moment_of(it, 1, 1).new for it in summary.steps], [2.0])
        self.assertEqual(summary.words()["proxy"], 4)
        side, steps = side_of("report", iter(()), USERS), Steps(1)
        side.texts = side.answers.take([f"{at} {text}" for at, (_, text) in enumerate(rows, 1)])
        count_steps(steps, side, [it for it, _ in rows])
        self.assertEqual([(it.moment, it.proxied, it.words["proxy"]) for it in steps.whole()], [(1, 2, 4)])

    def test_explained(self) -> None:
        rows = [(there(1, "S"), "proxy @1"), (there(1, "A"), "proxy @1")]
        trace, report = self.trace([it for it, _ in rows]), self.report([text for _, text in rows])
        words = ("--trace", trace, "--rules", self.write("rules", RULES.replace("synproxy", "keep")))
        done = pfplan("explain", report, *words, "--row", 1)
        self.assertEqual(done.status, 0, done.err)
        self.assertIn("proxy: pf answers it itself", done.out)
        done = pfplan("explain", report, *words, "--source", "198.51.100.1", "--json")
        self.assertIn('"states_made": 1', done.out)


class Replayed(FolderCase):
    """The same by pfsrc itself."""

    records = (
        there(1, "S"), back(1, "SA"), there(1, "A"), there(2, "PA"), back(2, "A"), back(3, "PA"),
        *(there(4, "S", f"tcp,203.0.113.{it},9,192.0.2.1,80") for it in range(1, 30)),
    )  # fmt: skip

    def test_fate(self) -> None:
        rules, trace = self.write("rules", RULES), self.trace([*self.records, there(60, "PA"), back(61, "PA")])
        report = self.folder / "report"
        run_replay(Replay(rules, trace, report))
        summary = summarize(report, Wanted(trace, USERS, rules))
        assert summary.users is not None
        self.assertEqual((summary.users.outcomes["served"], summary.users.connections), (1, 1))
        self.assertEqual(summary.words()["proxy"], 4 + 29)
        self.assertEqual(measure(rules, trace, USERS, 0).outcomes["served"], 1)

    def test_page_and_margins(self) -> None:
        """The page says what a capture can't tell; numbers of such a rule are moved as those of others."""
        rules, trace = self.write("rules", RULES), self.trace(self.records)
        done = pfplan("run", rules, trace, "--users", "198.51.100.0/24", "--into", self.folder / "made", "--held", 0)
        self.assertEqual(done.status, 0, done.err)
        said = "A rule has synproxy state: pf answers a SYN itself"
        self.assertIn(said, (self.folder / "made" / "report.html").read_text("utf-8"))
        plain = self.write("plain", RULES.replace("synproxy", "keep"))
        pfplan("run", plain, trace, "--users", "198.51.100.0/24", "--into", self.folder / "plain-made", "--held", 0)
        self.assertNotIn(said, (self.folder / "plain-made" / "report.html").read_text("utf-8"))
        done = pfplan("margins", rules, trace, "--users", "198.51.100.0/24", "--json")
        self.assertEqual(done.status, 0, done.err)
        self.assertIn("max-src-conn of @1", {it["what"] for it in json.loads(done.out)["moved"]})
        text = RulesText(rules)
        changed = self.write("changed", text.changed({text.find("max-src-conn"): 5}).decode())
        self.assertIn("synproxy state (source-track rule, max-src-conn 5", "\n".join(items_of(show_rules(changed))))

    def test_a_flush(self) -> None:
        """Which half open states are held before a flush is asked of pfsrc, which answers them itself."""
        rules = RULES.replace("max-src-conn 2", "max-src-conn-rate 1/10")
        ports = [f"tcp,198.51.100.1,{it},192.0.2.1,80" for it in (1, 2, 3)]
        records = [there(1, "S", ports[0]), there(22, "S", ports[1]), there(22, "A", ports[1])]
        records += [there(23, "S", ports[2]), there(23, "A", ports[2])]
        self.assertEqual(measure(self.write("rules", rules), self.trace(records), USERS, 0).outcomes["killed"], 2)

    def test_rules_of_a_conf(self) -> None:
        conf = self.write("pf.conf", "pass in on em0 proto tcp to port 80 synproxy state (max 9)\n")
        for words, kept in (((), "synproxy state (max 9)"), (("--profile", "papers"), "keep state (max 9)")):
            done = pfplan("rules", conf, *words, "--out", self.folder / "rules")
            self.assertEqual(done.status, 0, done.err)
            self.assertIn(kept, (self.folder / "rules").read_text("utf-8"))
            self.assertEqual("synproxy state" in done.err, bool(words))


if __name__ == "__main__":
    unittest.main()
