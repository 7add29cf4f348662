"""Summaries: their texts stand in cases/pfplan; here what holds of all of them, and of traces that are long."""

import unittest
from collections import Counter
from collections.abc import Sequence
from unittest import mock

from pfplan.answers import sources
from pfplan.answers.comparisons import Asked, compare
from pfplan.answers.connections import Connections, Refusal
from pfplan.answers.legs import Reply
from pfplan.answers.measures import measure
from pfplan.answers.sources import Sources
from pfplan.answers.summaries import Summary, Users, Wanted, summarize, summarize_blocks
from pfplan.commands.words import networks
from pfplan.common.errors import Trouble
from pfplan.common.repository import TOP
from pfplan.pages.summary_texts import share, text_of
from pfplan.replays.runs import Replay, run_replay
from pfplan.tests.support import FolderCase, pfplan
from pfplan.traces.records import WORDS, blocks_of_lines

CASE = TOP / "cases" / "pfplan" / "summary_users"
USERS = networks("198.51.100.0/24")
WANTED = Wanted(CASE / "records", USERS)
DATA = TOP / "tools" / "pfplan" / "tests" / "summaries"


def outcomes(summary: Summary) -> dict[str, int]:
    """What became of the users, without what nobody met."""
    assert summary.users is not None
    return {kind: number for kind, number in summary.users.outcomes.items() if number}


def users_of(text: str) -> str:
    """The part of a summary about users."""
    return next(it for it in text.split("\n\n") if it.startswith("users ")) + "\n"


class Summaries(FolderCase):
    def test_counts_agree_with_the_report(self) -> None:
        lines = (CASE / "report").read_text("utf-8").splitlines()
        counts = Counter(it.split(" ")[1] for it in lines[:-1])
        self.assertEqual(
            {word: number for word, number in summarize(CASE / "report", Wanted()).words().items() if number},
            dict(counts),
        )

    def test_carriage_returns(self) -> None:
        records = self.write("records", (CASE / "records").read_text("utf-8").replace("\n", "\r\n"))
        self.assertEqual(summarize(CASE / "report", Wanted(records, USERS)), summarize(CASE / "report", WANTED))

    def test_blank_lines_and_a_mark_at_the_start(self) -> None:
        text = "\xef\xbb\xbf" + (CASE / "records").read_text("utf-8").replace("\n", "\n\n")
        self.assertEqual(
            summarize(CASE / "report", Wanted(self.write("records", text), USERS)), summarize(CASE / "report", WANTED)
        )

    def test_small_blocks_say_the_same(self) -> None:
        lines = (CASE / "report").read_text("utf-8").splitlines()
        whole = summarize(CASE / "report", WANTED)
        with mock.patch("pfplan.traces.records.BLOCK", 64):
            self.assertEqual(summarize(CASE / "report", WANTED), whole)
        self.assertEqual(summarize_blocks(([it] for it in lines), "report", WANTED), whole)
        self.assertEqual(summarize_blocks(blocks_of_lines(lines), "report", WANTED), whole)

    def test_two_networks(self) -> None:
        done = pfplan(
            "summary",
            CASE / "report",
            "--trace",
            CASE / "records",
            "--users",
            "198.51.100.0/30,198.51.100.5",
            "--top",
            2,
        )
        self.assertEqual(users_of(done.out), (DATA / "two_networks").read_text("utf-8"))

    def test_tried_again_and_cut_by_timeouts(self) -> None:
        for name in ("tried_again", "cut_by_timeouts"):
            with self.subTest(name):
                rules, records = (DATA / f"{name}.{it}" for it in ("rules", "records"))
                done = pfplan("run", rules, records, "--into", self.folder / name, "--users", USERS[0], "--held", 0)
                self.assertEqual(done.status, 0, done.err)
                self.assertEqual(
                    users_of((self.folder / name / "summary.txt").read_text("utf-8")), (DATA / name).read_text("utf-8")
                )

    def test_expire(self) -> None:
        summary = summarize(DATA / "expire.report", Wanted(DATA / "expire.trace"))
        self.assertEqual(text_of(summary), (DATA / "expire").read_text("utf-8"))
        self.assertEqual(summary.words()["expire"], sum(summary.answers["expire"].values()))

    def test_trace_of_a_pipe(self) -> None:
        head = "".join((CASE / "records").read_text("utf-8").splitlines(keepends=True)[:5])
        done = pfplan("summary", CASE / "report", "--trace", "/dev/stdin", stdin=head)
        self.assertEqual((done.status, done.out), (1, ""))
        self.assertIn("/dev/stdin: row 4: the report has more rows than the trace has records", done.err)

    def test_shares_are_never_rounded_to_all_or_none(self) -> None:
        self.assertEqual(
            [share(*it).strip() for it in ((999_999, 1_000_000), (1, 1_000_000), (5, 5), (0, 5), (0, 0))],
            ["> 99.9 %", "< 0.1 %", "100 %", "0 %", "-"],
        )
        self.assertEqual(share(1, 608_797).strip(), "< 0.1 %")

    def test_both_families_of_users(self) -> None:
        trace = self.trace(
            [
                "1,in,em0,tcp,2001:db8::1,1000,2001:db8:f::1,80,S",
                "1,out,em0,tcp,2001:db8:f::1,80,2001:db8::1,1000,SA",
                "1,in,em0,tcp,2001:DB8:0::1,1000,2001:db8:f::1,80,A",
            ]
        )
        report = self.report(["new @0", "state @0", "state @0"])
        self.assertEqual(outcomes(summarize(report, Wanted(trace, networks("2001:db8::/64")))), {"served": 1})
        asked, answer = (
            f"1,{way},em0,udp,{ends}," for way, ends in (
                ("in", "2001:db8::1,1000,2001:db8:f::1,53"), ("out", "2001:db8:f::1,53,2001:db8::1,1000")
            )
        )  # fmt: skip
        again = self.trace([asked, answer, asked])
        summary = summarize(report, Wanted(again, networks("192.0.2.0/24,2001:db8::/64")))
        self.assertEqual(outcomes(summary), {"served": 1})

    def test_rules_that_never_decided_and_interfaces(self) -> None:
        trace = self.trace(
            ["1,in,em0,udp,203.0.113.1,1000,192.0.2.1,53,", "2,in,em7,udp,203.0.113.1,1000,192.0.2.1,53,"]
        )
        report = self.report(["new @1", "state @1"])
        shown = [
            "set limit { states 10 }",
            "table <bad>",
            "block on em9 all",
            "pass in on em0 all",
            'anchor "a" on ! em3 all {',
            "pass all",
            "}",
            "match in on em0 all flags any tag LAN",
        ]
        with mock.patch("pfplan.answers.summaries.show_rules", return_value=shown):
            summary = summarize(report, Wanted(trace, rules=report))
        self.assertEqual(summary.undecided, [0, 3])
        assert summary.interfaces is not None
        self.assertEqual(
            (summary.interfaces.without_records, summary.interfaces.without_rules), (["em3", "em9"], ["em7"])
        )

    def test_moment_falls(self) -> None:
        trace = self.trace(["5,in,em0,udp,203.0.113.1,1,192.0.2.1,53,", "4,in,em0,udp,203.0.113.1,1,192.0.2.1,53,"])
        with self.assertRaises(Trouble) as caught:
            summarize(self.report(["new @1", "state @1"]), Wanted(trace))
        self.assertEqual(caught.exception.message, f"{trace}: row 2: the moment falls")

    def test_columns(self) -> None:
        good = "5,in,em0,udp,203.0.113.1,1,192.0.2.1,53,"
        for bad in (good + ",", good[:-1], "5,in,em0"):
            trace = self.trace([good, bad, good + "," if bad == good[:-1] else good])
            with self.assertRaises(Trouble) as caught:
                summarize(self.report(["new @1"] * 3), Wanted(trace))
            self.assertIn("row 2: not nine columns", caught.exception.message)

    def test_steps_of_a_jump(self) -> None:
        record = "in,em0,udp,203.0.113.1,1,192.0.2.1,53,"
        trace = self.trace([f"0,{record}", f"4294967295,{record}"])
        summary = summarize(self.report(["new @1", "new @1"]), Wanted(trace))
        self.assertLess(len(summary.steps), 140)
        with self.assertRaises(Trouble) as caught:
            summarize(self.report(["new @1", "new @1"]), Wanted(trace, every=1))
        self.assertIn("--every: 1 seconds make more than 100000 steps", caught.exception.message)

    def test_words_in_their_order(self) -> None:
        self.assertEqual(list(summarize(CASE / "report", Wanted()).to_json()["words"]), list(WORDS))


RULES = (
    "block in quick from <bad> to any flags any",
    "pass in proto tcp from any to any flags S/SA keep state (source-track rule, max-src-conn-rate 3/10, overload "
    "<bad> flush)",
    "pass in proto udp from any to any keep state",
    "pass in proto tcp from any to any port 25 flags S/SA keep state (source-track rule, max-src-conn 2, overload "
    "<bad> flush global)",
    "pass in proto tcp from any to any port 22 flags S/SA keep state (source-track rule, max-src-conn 2)",
)


def packet(ends: str, flags: str, moment: int = 0, place: str = "in,em0") -> str:
    """A record of TCP; `ends` are `HOST:PORT>HOST:PORT`, each host a last number of 198.51.100.0/24, or of 192.0.2.0/24
    behind `s`."""
    shown = []
    for end in ends.split(">"):
        host, port = end.split(":")
        shown.append(f"192.0.2.{host[1:]},{port}" if host.startswith("s") else f"198.51.100.{host},{port}")
    return f"{moment},{place},tcp,{','.join(shown)},{flags}"


def handshake(port: int, moment: int = 0, user: str = "1", service: int = 80) -> list[str]:
    """A user's SYN, the answer and the third packet."""
    there, back = f"{user}:{port}>s1:{service}", f"s1:{service}>{user}:{port}"
    return [packet(there, "S", moment), packet(back, "SA", moment, "out,em0"), packet(there, "A", moment)]


class Fates(FolderCase):
    """What becomes of connections: each of these was told wrongly once."""

    def users(
        self,
        records: Sequence[str],
        texts: Sequence[str],
        users: str = "198.51.100.0/24",
        rules: Sequence[str] | None = RULES,
    ) -> Users:
        """The users of a summary; nobody does anything for 100 seconds at its end."""
        quiet = [*records, "100,in,em0,icmp,203.0.113.9,,192.0.2.1,,"]
        report = self.report([*texts, "skip -"])
        with mock.patch("pfplan.answers.summaries.show_rules", return_value=list(rules or ())):
            summary = summarize(report, Wanted(self.trace(quiet), networks(users), rules=report if rules else None))
        assert summary.users is not None
        return summary.users

    def fates(
        self,
        records: Sequence[str],
        texts: Sequence[str],
        users: str = "198.51.100.0/24",
        rules: Sequence[str] | None = RULES,
    ) -> dict[str, int]:
        """The outcomes that somebody met."""
        return {kind: number for kind, number in self.users(records, texts, users, rules).outcomes.items() if number}

    def test_flush(self) -> None:
        records = [it for port in (1, 2, 3, 4) for it in handshake(port)]
        texts = ["new @1", "state @1", "state @1"] * 3 + [
            "new @1",
            "state @1",
            "kill:max-src-conn-rate @1 overload=added killed=4",
        ]
        self.assertEqual(self.fates(records, texts), {"killed": 4})
        self.assertEqual(self.fates(records, texts, rules=None), {"killed": 4})

    def test_flush_of_its_rule_alone(self) -> None:
        records = [*handshake(1, service=22), *handshake(2), *handshake(3, user="2"), *handshake(4)]
        texts = ["new @4", "state @4", "state @4", *["new @1", "state @1", "state @1"] * 2, "new @1", "state @1"]
        kill = "kill:max-src-conn-rate @1 overload={} killed={}"
        self.assertEqual(self.fates(records, [*texts, kill.format("added", 2)]), {"served": 2, "killed": 2})
        texts[-2:] = ["new @3", "state @3"]
        self.assertEqual(
            self.fates(records, [*texts, "kill:max-src-conn @3 overload=added killed=3"]), {"served": 1, "killed": 3}
        )

    def test_a_kill_without_flush(self) -> None:
        records = [it for port in (1, 2, 3) for it in handshake(port, service=22)]
        texts = ["new @4", "state @4", "state @4"] * 2 + [
            "new @4",
            "state @4",
            "kill:max-src-conn @4 overload=none killed=1",
        ]
        self.assertEqual(self.fates(records, texts), {"served": 2, "killed": 1})

    def test_a_flush_takes_no_more_than_the_report_says(self) -> None:
        records = [*handshake(1), *handshake(2, 50), *handshake(3, 50)]
        texts = ["new @1", "state @1", "state @1"] * 2 + [
            "new @1",
            "state @1",
            "kill:max-src-conn-rate @1 overload=added killed=2",
        ]
        self.assertEqual(self.fates(records, texts, rules=None), {"served": 1, "killed": 2})

    def test_both_ends_are_users(self) -> None:
        users = "198.51.100.0/24,192.0.2.0/24"
        self.assertEqual(self.fates(handshake(1), ["new @1", "state @1", "state @1"], users), {"served": 1})
        asked = ["0,in,em0,udp,198.51.100.1,9,192.0.2.1,53,", "0,out,em0,udp,192.0.2.1,53,198.51.100.1,9,"]
        self.assertEqual(self.fates(asked, ["new @2", "state @2"], users), {"served": 1})

    def test_begun_by_others(self) -> None:
        records = [
            packet("s1:25>1:7", "S", place="out,em0"),
            packet("1:7>s1:25", "SA"),
            packet("s1:25>1:7", "A", place="out,em0"),
            packet("1:8>s1:80", "A"),
        ]
        found = self.users(records, ["new @1", "state @1", "state @1", "block @0"])
        self.assertEqual((found.connections, found.begun_by_others, found.without_beginning), (0, 1, 1))

    def test_blocked_on_the_next_interface(self) -> None:
        records = [packet("1:7>s1:80", "S"), packet("1:7>s1:80", "S", place="out,em1")]
        found = self.users([*records, *records], ["new @1", "block @0", "state @1", "block @0"])
        self.assertEqual((found.outcomes["refused"], found.connections, found.refused_by), (1, 1, {"block": 1}))
        texts = ["new @1", "block @0", "state @1", "new @1", "state @1", "state @1", "state @1", "state @1"]
        answers = [
            packet("s1:80>1:7", "SA", 1, "in,em1"),
            packet("s1:80>1:7", "SA", 1, "out,em0"),
            packet("1:7>s1:80", "A", 1),
            packet("1:7>s1:80", "A", 1, "out,em1"),
        ]
        self.assertEqual(self.fates([*records, *records, *answers], texts), {"served": 1})

    def test_cut_by_the_end_of_the_trace(self) -> None:
        records = [
            packet("1:1>s1:80", "S", 97),
            packet("1:2>s1:80", "S", 98),
            packet("1:3>s1:80", "S", 100),
            packet("s1:80>1:3", "RA", 100, "out,em0"),
        ]
        found = self.users(records, ["new @1"] * 3 + ["state @1"])
        self.assertEqual({kind: count for kind, count in found.outcomes.items() if count}, {"unanswered": 2, "late": 1})
        self.assertEqual((found.connections, found.counted), (3, 2))

    def test_why_a_source_was_blocked(self) -> None:
        records = [*handshake(1, 7), packet("1:2>s1:80", "S", 9), packet("2:1>s1:80", "S", 9)]
        found = self.users(
            records, ["new @1", "state @1", "kill:max-src-conn-rate @1 overload=added killed=1", "block @0", "block @0"]
        )
        self.assertEqual(found.refusals, [Refusal("block", "@0", 2, 1, ("kill:max-src-conn-rate", "@1"), 7, 7)])

    def test_a_repeated_syn_after_a_flush(self) -> None:
        """Eight connections, five of which are flushed half open, and their SYN repeated: they are eight."""
        half = [packet(f"1:{port}>s1:80", "S") for port in (1, 2, 3, 4, 5)]
        others = [it for port in (6, 7, 8) for it in handshake(port, 1)]
        again = [packet(f"1:{port}>s1:80", "S", 2) for port in (1, 2, 3, 4, 5)]
        kill = "kill:max-src-conn-rate @1 overload=added killed=8"
        texts = ["new @1"] * 5 + ["new @1", "state @1", "state @1"] * 2 + ["new @1", "state @1", kill]
        found = self.users([*half, *others, *again], [*texts, *["block @0"] * 5])
        self.assertEqual((found.connections, found.outcomes["killed"]), (8, 8))
        # one of them is let in again, and served
        served = handshake(1, 3)
        records = [*half, *others, *again, *served]
        self.assertEqual(
            self.fates(records, [*texts, *["block @0"] * 5, "new @1", "state @1", "state @1"]),
            {"killed": 7, "served": 1},
        )

    def test_the_fourth_syn_is_served(self) -> None:
        records = [packet("1:1>s1:80", "S", moment) for moment in (0, 4, 12)] + handshake(1, 28)
        texts = ["new @1", "drop:states @1", "drop:states @1", "new @1", "state @1", "state @1"]
        self.assertEqual(self.fates(records, texts), {"served": 1})
        self.assertEqual(self.fates(records[:3], texts[:3]), {"cut": 1})

    def test_another_connection_of_the_same_ports(self) -> None:
        there, back = "1:1>s1:80", "s1:80>1:1"
        syn = packet(there, "S", 60)
        new = ["new @1", "state @1", "state @1"]
        self.assertEqual(self.fates([*handshake(1), syn], [*new, "new @1"]), {"served": 1, "unanswered": 1})
        self.assertEqual(self.fates([*handshake(1), syn], [*new, "state @1"]), {"served": 1})
        refused = packet(back, "RA", 1, "out,em0")
        self.assertEqual(
            self.fates([packet(there, "S"), refused, syn], ["new @1", "state @1", "state @1"]), {"unanswered": 2}
        )
        quiet = [packet(there, "S", moment) for moment in (0, 239)]
        self.assertEqual(self.fates(quiet[:1] + [syn], ["block @0", "block @0"]), {"refused": 1})
        later = [packet(there, "S", 0), packet(there, "S", 240)]
        report = self.report(["block @0", "block @0"])
        for records, count in ((quiet, 1), (later, 2)):
            found = summarize(report, Wanted(self.trace(records), USERS)).users
            assert found is not None
            self.assertEqual(found.outcomes["refused"], count)

    def test_a_question_without_an_answer(self) -> None:
        asked = "0,in,em0,udp,198.51.100.1,0009,192.0.2.1,53,"
        answer = "0,out,em0,17,192.0.2.1,0053,198.51.100.1,9,"
        self.assertEqual(self.fates([asked, asked], ["new @2", "state @2"]), {"unanswered": 1})
        self.assertEqual(self.fates([asked, answer], ["new @2", "state @2"]), {"served": 1})
        late = asked.replace("0,in", "98,in", 1)
        self.assertEqual(self.fates([late], ["new @2"]), {"late": 1})

    def test_ports_are_numbers(self) -> None:
        records = handshake(1)
        records[2] = records[2].replace(",80,", ",0080,").replace(",1,", ",01,", 1)
        self.assertEqual(self.fates(records, ["new @1", "state @1", "state @1"]), {"served": 1})


class States(FolderCase):
    """Whose states a kill took, as the machine holds them."""

    def test_a_state_that_had_run_out_is_not_killed(self) -> None:
        rules = self.write(
            "rules",
            "set timeout { tcp.first 3, interval 1 }\ntable <bad> persist\n"
            "pass in proto tcp to any port 80 keep state (max-src-conn 1, overload <bad> flush)\n",
        )
        records = [*handshake(1, 1), packet("1:2>s1:80", "S", 8), *handshake(3, 20), packet("1:1>s1:80", "A", 40)]
        trace = self.trace(records)
        report = self.folder / "report"
        run_replay(Replay(rules, trace, report))
        self.assertIn("7 kill:max-src-conn @0 overload=added killed=2", report.read_text("latin-1"))
        summary = summarize(report, Wanted(trace, USERS, rules))
        self.assertEqual(outcomes(summary), {"killed": 2, "unanswered": 1})
        self.assertEqual(sum(it.tried for it in summary.steps), 3)
        self.assertEqual(measure(rules, trace, USERS, 2).outcomes["killed"], 2)
        other = self.write("other", "pass in proto tcp keep state (max-src-conn 9, overload <bad> flush)\n")
        with self.assertRaises(Trouble) as raised:
            summarize(report, Wanted(trace, USERS, other))
        self.assertIn("not the report of", raised.exception.message)
        found = compare(["a", "b"], [rules, rules], trace, [[], []], Asked(USERS))
        self.assertEqual([it.outcomes["killed"] for it in found.measures], [2, 2])


class Bounds(unittest.TestCase):
    def test_sources_are_bounded(self) -> None:
        with mock.patch.object(sources, "MOST", 10):
            counted = Sources()
            for i in range(1000):
                counted.add([f"10.0.{i // 250}.{i % 250}", "192.0.2.1", "192.0.2.1"])
        best = counted.top(1)[0]
        self.assertEqual((best.address, best.count, counted.dropped), ("192.0.2.1", 2000, 1))
        self.assertEqual([it.address for it in counted.top(2)], ["192.0.2.1", counted.top(2)[1].address])

    def test_connections_that_are_over_are_forgotten(self) -> None:
        heard: list[tuple[int, str]] = []
        followed = Connections(
            networks("198.51.100.0/24"), lambda begin, outcome: heard.append((begin, outcome)), remembered=10
        )
        for row in range(1, 1000):
            column = [str(row), "in", "em0", "tcp", "198.51.100.1", str(row), "192.0.2.1", "80", "S"]
            followed.follow(row, Reply("block" if row % 100 else "new", "@0"), column)
        self.assertGreater(len(heard), 900)
        followed.last = 999
        followed.finish()
        self.assertEqual(
            dict(followed.outcomes), {"refused": 990, "unanswered": 9}
        )  # the last that was let in began 99 seconds before the end
        self.assertEqual(len(heard), 999)


if __name__ == "__main__":
    unittest.main()
