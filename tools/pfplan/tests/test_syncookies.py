"""`set syncookies`: what became of connections whose SYN got a cookie, and what is said where a capture can't tell."""

import json
import re
import unittest

from pfplan.answers.changed_rules import RulesText
from pfplan.answers.comparisons import count_steps
from pfplan.answers.cookies import GOOD, Cookies
from pfplan.answers.measures import measure
from pfplan.answers.sides import side_of
from pfplan.answers.stepping import Steps
from pfplan.answers.summaries import Wanted, summarize
from pfplan.answers.timelines import moment_of
from pfplan.common.errors import Trouble
from pfplan.common.repository import TOP
from pfplan.replays.runs import Replay, run_replay, show_rules
from pfplan.tests.led_by_pf import CLIENT, SERVER, USERS, LedByPf, back, there
from pfplan.tests.support import FolderCase, pfplan

RULES = """set profile openbsd-7.4
set timeout { tcp.first 20, interval 1 }
set syncookies always
block
pass in on em0 proto tcp to 192.0.2.1 port 80 keep state (max 2)
"""
SCENARIOS = TOP / "examples" / "scenarios"


class Fates(LedByPf):
    """By reports that are written by hand."""

    GIVEN = (there(1, "S"), "cookie -")
    TAKEN = (there(1, "A"), "proxy @1")
    JOINED = (back(2, "SA"), "proxy @1")

    def test_a_handshake(self) -> None:
        """Its state is made by the ACK, and the server answers pf behind it."""
        rows = [self.GIVEN, self.TAKEN, self.JOINED]
        self.assertEqual(self.outcome(rows), {"served": 1})
        for count in (1, 2):
            self.assertEqual(self.outcome(rows[:count]), {"unanswered": 1}, count)
            self.assertEqual(self.outcome(rows[:count], 3), {"late": 1}, count)
        self.assertEqual(self.outcome([*rows, (there(3, "PA"), "block @0")]), {"cut": 1})
        self.assertEqual(self.outcome([self.GIVEN, (there(1, "FA"), "proxy @1"), self.JOINED]), {"unanswered": 1})

    def test_a_recorded_handshake(self) -> None:
        """The server's SYN+ACK comes while no state is held: what the rules say of it changes nothing."""
        later = [self.TAKEN, (there(2, "PA"), "proxy @1"), (back(2, "A"), "state @1")]
        for text in ("block @0", "pass -", "new @2", "drop:states @2"):
            self.assertEqual(self.outcome([self.GIVEN, (back(1, "SA"), text), *later]), {"served": 1}, text)
            self.assertEqual(self.outcome([self.GIVEN, (back(1, "SA"), text)]), {"unanswered": 1}, text)

    def test_refused(self) -> None:
        """By what its ACK got; a repeated SYN tries again."""
        for text in ("drop:cookie -", "drop:cookie @1", "block @0", "drop:states @1", "drop:max @1"):
            rows = [self.GIVEN, (there(1, "A"), text), (there(2, "PA"), "block @0")]
            self.assertEqual(self.outcome(rows), {"refused": 1}, text)
            users = self.summary(rows).users
            assert users is not None
            self.assertEqual([(f"{it.word} {it.rule}", it.connections) for it in users.refusals], [(text, 1)])
            again = [(there(4, "S"), "cookie -"), (there(4, "A"), "proxy @1"), (back(5, "SA"), "proxy @1")]
            self.assertEqual(self.outcome([*rows, *again]), {"served": 1}, text)
        self.assertEqual(self.outcome([self.GIVEN, (there(2, "S"), "drop:states @1")]), {"refused": 1})

    def test_no_limit_is_met_by_a_dropped_cookie(self) -> None:
        rows = [self.GIVEN, (there(1, "A"), "drop:cookie @1")]
        summary = self.summary(rows)
        self.assertEqual((summary.limits, summary.sources.refused), ([], []))
        self.assertEqual([moment_of(it, 1, 1).dropped for it in summary.steps], [0.0])

    def test_a_state_that_is_there(self) -> None:
        """A SYN that gets a cookie changes nothing of it."""
        rows = [
            (there(1, "S"), "new @1"), (there(2, "S"), "cookie -"), (back(2, "SA"), "state @1"),
            (there(2, "A"), "state @1"),
        ]  # fmt: skip
        self.assertEqual(self.outcome(rows), {"served": 1})

    def test_without_a_cookie_any_more(self) -> None:
        """What comes when it is good no longer is asked of the rules, as ever."""
        rows = [self.GIVEN, (there(40, "A"), "new @1"), (back(41, "SA"), "state @1"), (there(42, "A"), "state @1")]
        self.assertEqual(self.outcome(rows), {"served": 1})
        self.assertEqual(self.outcome(rows[:2]), {"unanswered": 1})

    def test_the_second_interface(self) -> None:
        hops = [
            self.GIVEN, ("1,out,em1," + CLIENT + ",S", "new @2"), ("1,in,em1," + SERVER + ",SA", "state @2"),
            (back(1, "SA"), "block @0"), self.TAKEN, ("1,out,em1," + CLIENT + ",A", "state @2"),
        ]  # fmt: skip
        self.assertEqual(self.outcome(hops), {"unanswered": 1})
        hops += [("2,in,em1," + SERVER + ",PA", "state @2"), (back(2, "PA"), "state @1")]
        self.assertEqual(self.outcome(hops), {"served": 1})

    def test_states_that_were_made(self) -> None:
        """By the first packet behind a cookie, not by those that follow, and not by a SYN that got one."""
        rows = [self.GIVEN, (there(1, "S"), "cookie -"), self.TAKEN, (there(1, "PA"), "proxy @1")]
        summary = self.summary(rows)
        self.assertEqual([(it.address, it.count) for it in summary.sources.made], [("198.51.100.1", 1)])
        self.assertEqual([moment_of(it, 1, 1).new for it in summary.steps], [1.0])
        self.assertEqual((summary.words()["cookie"], summary.words()["proxy"]), (2, 2))
        side, steps = side_of("report", iter(()), USERS), Steps(1)
        side.texts = side.answers.take([f"{at} {text}" for at, (_, text) in enumerate(rows, 1)])
        count_steps(steps, side, [it for it, _ in rows])
        self.assertEqual([(it.moment, it.proxied) for it in steps.whole()], [(1, 1)])

    def test_cookies_are_forgotten(self) -> None:
        cookies, ends = Cookies(), ("tcp", "198.51.100.1", "1", "192.0.2.1", "80")
        for later, is_made in ((GOOD, True), (2 * GOOD, False)):
            cookies.makes("cookie", 5, "in", ends, "S")
            cookies.makes("cookie", 5 + later, "in", ("tcp", "198.51.100.2", "1", "192.0.2.1", "80"), "S")
            self.assertEqual(cookies.makes("proxy", 5 + later, "in", ends, "A"), is_made)
            cookies = Cookies()

    def test_explained(self) -> None:
        rows = [self.GIVEN, self.TAKEN, (there(9, "S"), "cookie -"), (there(9, "A"), "drop:cookie -")]
        trace, report = self.trace([it for it, _ in rows]), self.report([text for _, text in rows])
        words = ("--trace", trace, "--rules", self.write("rules", RULES))
        self.assertIn("cookie: pf answers it with a SYN cookie", pfplan("explain", report, *words, "--row", 1).out)
        done = pfplan("explain", report, *words, "--row", 4)
        self.assertIn("drop:cookie: it brought a SYN cookie, and no rule makes a state", done.out, done.err)
        done = pfplan("explain", report, *words, "--source", "198.51.100.1", "--json")
        self.assertEqual(re.findall(r'"states_made": (\d)', done.out), ["1"], done.err)


class Replayed(FolderCase):
    """The same by pfsrc itself."""

    records = (
        there(1, "S"), back(1, "SA"), there(1, "A"), there(2, "PA"), back(2, "A"), back(3, "PA"),
        *(there(4, "S", f"tcp,203.0.113.{it},9,192.0.2.1,80") for it in range(1, 30)), there(5, "PA"), back(6, "PA"),
        there(7, "S", "tcp,198.51.100.2,1,192.0.2.1,81"), there(7, "A", "tcp,198.51.100.2,1,192.0.2.1,81"),
    )  # fmt: skip

    def test_fates_and_page(self) -> None:
        rules, trace, report = self.write("rules", RULES), self.trace(self.records), self.folder / "report"
        run_replay(Replay(rules, trace, report))
        summary = summarize(report, Wanted(trace, USERS, rules))
        assert summary.users is not None
        outcomes = {it: count for it, count in summary.users.outcomes.items() if count}
        self.assertEqual(outcomes, {"served": 1, "refused": 1})
        self.assertEqual((summary.words()["cookie"], summary.words()["new"]), (31, 0))
        self.assertEqual(measure(rules, trace, USERS, 0).refused_by, {"block": 1})
        done = pfplan("run", rules, trace, "--users", "198.51.100.0/24", "--into", self.folder / "made", "--held", 0)
        self.assertEqual(done.status, 0, done.err)
        page = (self.folder / "made" / "report.html").read_text("utf-8")
        self.assertIn("pf answered SYN packets with a cookie", page)
        plain = self.write("plain", RULES.replace("always", "never"))
        done = pfplan("compare", plain, rules, trace, "--users", "198.51.100.0/24")
        self.assertEqual(done.status, 0, done.err)
        done = pfplan("margins", rules, trace, "--users", "198.51.100.0/24")
        self.assertEqual(done.status, 0, done.err)

    def test_shares_are_numbers(self) -> None:
        """They are varied as limits are; a text without them has none."""
        text = RulesText(self.write("rules", RULES.replace("always", "adaptive (start 20%, end 5%)")))
        start, end = text.find("syncookies.start"), text.find("syncookies.end")
        self.assertEqual((start.value, end.value, start.bounds), (20, 5, (0, 100)))
        self.assertEqual(start.title, "set syncookies start")
        for values, shown in (({start: 30}, "start 30%, end 5%"), ({start: 9, end: 1}, "start 9%, end 1%")):
            changed = self.write("changed", text.changed(values).decode())
            self.assertIn(f"set syncookies adaptive ({shown})", show_rules(changed))
        changed = self.write("changed", text.changed({text.find("states"): 50}).decode())
        self.assertIn("set syncookies adaptive (start 20%, end 5%)", show_rules(changed))
        with self.assertRaisesRegex(Trouble, "no number is named 'syncookies.start'"):
            RulesText(self.write("rules", RULES)).find("syncookies.start")

    def test_sizes(self) -> None:
        """A start below what a flood holds half open serves more."""
        rules = self.folder / "rules"
        pfplan("rules", SCENARIOS / "backlog-adaptive.conf", "--out", rules)
        words = ("--vary", "syncookies.start=13..60", "--grid", 2, "--runs", 2, "--json")
        done = pfplan("size", rules, SCENARIOS / "backlog.toml", *words)
        self.assertEqual(done.status, 0, done.err)
        self.assertIn('"name": "syncookies.start"', done.out)


class Scenarios(FolderCase):
    """Those of examples/scenarios, with the figures of their README."""

    def test_played(self) -> None:
        """Each trace replays to its report; a server sees no forged SYN while cookies are given."""
        wanted = {"synproxy-always": (120, 120, 120, 2), "synproxy-adaptive": (99, 120, 2000, 2686)}
        wanted |= {"backlog-always": (120, 120, 120, 2), "backlog-adaptive": (31, 119, 771, 128)}
        for name, (at_once, served, held, half_open) in wanted.items():
            scenario, into = SCENARIOS / f"{name.partition('-')[0]}.toml", self.folder / f"play-{name}"
            done = pfplan("play", SCENARIOS / f"{name}.conf", scenario, "--into", into)
            self.assertEqual(done.status, 0, done.err)
            found = json.loads((into / name / "summary.json").read_text("utf-8"))
            homes, backlog = found["groups"][0], found["backlog"]
            self.assertEqual((homes["served_without_waiting"], homes["served"]), (at_once, served), name)
            self.assertEqual((found["most_held"], backlog["most_half_open"]), (held, half_open), name)
            report = self.folder / "again"
            run_replay(Replay(into / name / "rules", into / name / "trace.csv", report))
            self.assertEqual(report.read_bytes(), (into / name / "report").read_bytes(), name)


if __name__ == "__main__":
    unittest.main()
