"""Reports that tell of both interfaces of a packet: read, counted, followed and told; and traces of several interfaces,
of which each packet counts once."""

import json
import os
import random
import re
import subprocess
import sys
import unittest
from collections.abc import Iterator
from pathlib import Path
from typing import Any
from unittest import mock

from pfplan.answers.connections import Connections
from pfplan.answers.held_states import HeldStates
from pfplan.answers.legs import Leg, Legs, Reply, place_text
from pfplan.answers.sides import follow, side_of
from pfplan.answers.summaries import Wanted, summarize
from pfplan.answers.tallies import tally, trace_texts
from pfplan.commands.words import networks
from pfplan.common.errors import Trouble
from pfplan.common.repository import TOP
from pfplan.pages.record_texts import why
from pfplan.pf.conversion import RuleOptions, convert
from pfplan.pf.reading_canonical_text import Flushes, flushes_of, forwarding_in
from pfplan.pf.routes import Routes, routes_of
from pfplan.replays.runs import Replay, replayed, run_replay, show_rules, stream_texts
from pfplan.tests.logs import BLOCK, logged_of, with_log
from pfplan.tests.packets import Logged, ethernet_capture, log_capture
from pfplan.tests.routed import environment
from pfplan.tests.support import FolderCase, pfplan
from pfplan.tests.test_tallies import blocks_of, counts_of
from pfplan.traces.insertions import NOTHING
from pfplan.traces.records import Answer, read_answer, read_record
from pfplan.traces.ways import Taken, Ways, take_ways, ways_in

ROUTES = routes_of(["set route { 0.0.0.0/0 em0, 192.0.2.0/24 em1, 192.0.2.1 lo0, 203.0.113.1 lo0 }"])
LINES = """set profile openbsd-7.4
set route { 0.0.0.0/0 em0, 192.0.2.0/24 em1, 192.0.2.1 lo0, 203.0.113.1 lo0 }
"""
RULES = (
    LINES
    + """set timeout { interval 1, tcp.first 6, tcp.opening 6, udp.first 4 }
table <bad> persist
block all
block in quick on em0 from <bad>
pass in on em0 proto tcp to any port 80 keep state (max 40, max-src-conn 3, overload <bad> flush)
pass in on em0 proto udp to any port 53
pass out on em1 proto tcp keep state (max 14)
pass out on em1 proto udp keep state (max-src-states 1)
pass out on em0
"""
)
USERS = networks("198.51.100.0/24")
# What a packet is on its way: from the client or not, and its flags; those of a connection of TCP, and of UDP.
CALL = ((True, "S"), (False, "SA"), (True, "A"), (True, "PA"), (False, "PA"), (True, "FA"), (False, "FA"))
QUESTION = ((True, ""), (False, ""))


def record(moment: int, way: str, name: str, ends: tuple[str, str], flags: str) -> str:
    """A record of a packet between two ends with their ports."""
    protocol = "tcp" if flags else "udp"
    return f"{moment},{way},{name},{protocol},{ends[0]},{ends[1]},{flags}"


def forwarded(moment: int, client: str, server: str, is_there: bool, flags: str) -> tuple[str, str]:
    """The records of a packet through the firewall: where it comes in, and on its way out."""
    ends, names = ((client, server), ("em0", "em1")) if is_there else ((server, client), ("em1", "em0"))
    return record(moment, "in", names[0], ends, flags), record(moment, "out", names[1], ends, flags)


def drawn_packets(seed: int) -> list[tuple[str, str]]:
    """Packets of connections of both protocols through the firewall, which begin in many seconds."""
    draw = random.Random(seed)
    found: list[tuple[int, int, tuple[str, str]]] = []
    for number in range(60):
        is_tcp = draw.random() < 0.75
        client = f"198.51.{draw.choice([100, 101])}.{draw.randint(1, 4)},{1024 + number}"
        server = f"192.0.2.{draw.randint(8, 9)},{80 if is_tcp else 53}"
        moment = draw.randint(0, 12)
        for step in CALL[: draw.randint(1, 7)] if is_tcp else QUESTION[: draw.randint(1, 2)]:
            for _ in range(draw.choice([1, 1, 1, 2])):
                found.append((moment, len(found), forwarded(moment, client, server, *step)))
                moment += draw.choice([0, 0, 0, 1, 3])
    return [it for _, _, it in sorted(found)]


def own_packet(moment: int) -> str:
    """A question of the firewall itself."""
    return record(moment, "out", "em0", ("203.0.113.1,5000", "198.51.100.200,53"), "")


class Reading(unittest.TestCase):
    """Lines of a report."""

    def test_two_outcomes(self) -> None:
        found = read_answer("7 new @1 > drop:max @4")
        assert isinstance(found, Answer)
        self.assertEqual([it.word for it in found.legs], ["new", "drop:max"])
        self.assertEqual((found.row, found.decisive.rule), (7, "@4"))
        for text, word in (
            ("new @0 > new @1", "new"), ("state @1 > state @0", "state"), ("proxy @0 > new @1", "proxy"),
            ("state @1 > proxy @0", "proxy"), ("pass - > block @3", "block"), ("state @0 > pass -", "state"),
            ("state @0 > kill:max-src-conn @1 overload=added killed=3", "kill:max-src-conn"), ("block @0", "block"),
        ):  # fmt: skip
            found = read_answer(f"1 {text}")
            assert isinstance(found, Answer)
            self.assertEqual(found.decisive.word, word, text)

    def test_no_lines(self) -> None:
        """No second outcome stands behind a refusal, and none is an administrator's, a cookie or a skip."""
        for text in (
            "block @0 > new @1", "skip - > skip -", "new @0 > cookie -", "new @0 > skip -", "new @0 > drop:cookie @1",
            "new @0 > held - states=1 nodes=0 entries=0", "new @0 >", "new @0 > ", "new @0 > new",
            "new @0 > new @1 > new @2", "drop:max @0 > new @1", "new @0 > end rows=1",
            "kill:max-src-conn @1 overload=none killed=1 > new @0",
        ):  # fmt: skip
            with self.assertRaises(ValueError, msg=text):
                read_answer(f"1 {text}")

    def test_legs(self) -> None:
        """Where each was asked, by the record and the routes; behind proxy it is pf's own SYN."""
        legs, both = Legs(ROUTES), Reply("new", onward=Reply("new"))
        client, server = "198.51.100.7", "192.0.2.9"

        def places(way: str, name: str, source: str, target: str, reply: Reply) -> list[tuple[str, str]]:
            return [it.place for it in legs.of((way, name), source, target, "S", reply)]

        self.assertEqual(places("in", "em0", client, server, both), [("in", "em0"), ("out", "em1")])
        self.assertEqual(places("out", "em1", client, server, both), [("in", "em0"), ("out", "em1")])
        self.assertEqual(places("out", "em1", client, server, Reply("block")), [("in", "em0")])
        self.assertEqual(places("out", "em0", "203.0.113.1", client, Reply("new")), [("out", "em0")])
        self.assertEqual(places("in", "em0", client, "192.0.2.1", Reply("new")), [("in", "em0")])
        proxied = Reply("proxy", onward=Reply("new", "@1"))
        self.assertEqual(
            list(legs.of(("in", "em0"), client, server, "A", proxied))[1], Leg(("out", "em1"), "S", Reply("new", "@1"))
        )
        # what goes on behind rdr-to, and its answers: the record does not say the other interface
        self.assertEqual(places("in", "em0", client, "203.0.113.1", both), [("in", "em0"), ("out", "")])
        self.assertEqual(places("out", "em0", "203.0.113.1", client, both), [("in", ""), ("out", "em0")])
        # without routes the other interface is not known
        self.assertEqual([it.place for it in Legs().of(("out", "em1"), client, server, "S", both)][0], ("in", ""))
        self.assertEqual(place_text(("out", "em1")), "on its way out, on em1")
        self.assertEqual(place_text(("in", "")), "where it comes in")

    def test_why(self) -> None:
        self.assertEqual(
            why("new @1 > drop:max @4"),
            "the rule lets it through, and a state is made; on its way out the rule holds as many states as its max "
            "allows",
        )


class Following(unittest.TestCase):
    """Connections of users through two interfaces."""

    def outcomes(self, *answered: tuple[bool, str, Reply]) -> Connections:
        """What became of one connection, by its packets and what was said of them."""
        found = Connections(USERS, lambda begin, outcome: None, None, Flushes({}, True, ROUTES))
        for row, (is_there, flags, reply) in enumerate(answered, 1):
            line = forwarded(row, "198.51.100.7,1000", "192.0.2.9,80", is_there, flags)[0]
            found.last = row + 10
            found.follow(row, reply, line.split(","))
        found.finish()
        return found

    def test_fates(self) -> None:
        def two(first: str, second: str) -> Reply:
            return Reply(first, "@1", onward=Reply(second, "@4"))

        new, held = two("new", "new"), two("state", "state")
        done = ((False, "SA", held), (True, "A", held))
        rows: tuple[tuple[str, tuple[tuple[bool, str, Reply], ...]], ...] = (
            ("served", ((True, "S", new), *done)),
            ("refused", ((True, "S", two("new", "drop:max")),)),
            ("refused", ((True, "S", two("new", "block")), (True, "S", two("state", "block")))),
            ("served", ((True, "S", two("new", "drop:max")), (True, "S", two("state", "new")), *done)),
            ("cut", ((True, "S", new), (False, "SA", held), (True, "A", held), (True, "PA", two("state", "block")))),
            ("cut", ((True, "S", new), (False, "SA", two("state", "block")))),
            ("killed", ((True, "S", new), (False, "SA", held), (True, "A", two("state", "kill:max-src-conn")))),
            ("unanswered", ((True, "S", new),)),
            # pf leads both handshakes
            (
                "served",
                (
                    (True, "S", Reply("proxy", "@1")),
                    (True, "A", two("proxy", "new")),
                    (False, "SA", two("state", "proxy")),
                    (True, "A", held),
                ),
            ),
            ("refused", ((True, "S", Reply("proxy", "@1")), (True, "A", two("proxy", "block")))),
        )
        for outcome, answered in rows:
            found = self.outcomes(*answered)
            self.assertEqual(dict(found.outcomes), {outcome: 1}, answered)

    def test_who_refused(self) -> None:
        """The rule of the interface that refused, and where that is."""
        found = self.outcomes((True, "S", Reply("new", "@1", onward=Reply("drop:max", "@4"))))
        (refusal,) = found.refusals.values()
        self.assertEqual((refusal.word, refusal.rule, refusal.way, refusal.interface), ("drop:max", "@4", "out", "em1"))
        found = self.outcomes((True, "S", Reply("block", "@0")))
        (refusal,) = found.refusals.values()
        self.assertEqual((refusal.word, refusal.way, refusal.interface), ("block", "in", "em0"))


class Taking(FolderCase):
    """Which records stand for a packet's way."""

    def test_ways(self) -> None:
        """A packet on its way out is left out where it came in on an interface of the trace; own ones stay, and those
        that came in elsewhere."""
        there, back = (forwarded(0, "198.51.100.7,1", "192.0.2.9,80", it, "S") for it in (True, False))
        elsewhere = record(0, "out", "em1", ("10.0.0.9,1", "192.0.2.9,80"), "S")
        routes = Routes({**ROUTES.by_network, **routes_of(["set route 10.0.0.0/8 em2"]).by_network})
        lines = [*there, *back, own_packet(0), elsewhere, "0,held,,,,,,,", "0,add,bad,,192.0.2.0/24,,,,"]
        ways = Ways(routes, {"em0", "em1"})
        self.assertEqual(ways.kept(lines), [there[0], back[0], *lines[4:]])
        self.assertEqual(ways.taken(), Taken(6, 2, 6, 0))
        # what the trace has is not known before: the first is taken
        self.assertEqual(Ways(routes).kept([there[1], there[0], there[1]]), [there[1], there[0]])

    def test_one_interface(self) -> None:
        """All records of one interface stay, and nothing is written."""
        trace = self.trace([forwarded(0, "198.51.100.7,1", "192.0.2.9,80", False, "SA")[1], own_packet(1)])
        self.assertEqual(take_ways(trace, ROUTES, self.folder / "out").left_out, 0)
        self.assertEqual(self.left(), ["trace"])
        with ways_in(trace, ROUTES) as (path, taken):
            self.assertEqual((path, taken and taken.left_out), (trace, 0))
        with ways_in(trace, None) as (path, taken):
            self.assertEqual((path, taken), (trace, None))

    def test_told(self) -> None:
        """How many are left out; and that routes and trace don't fit."""
        self.assertEqual(
            Taken(3, 2).notes(),
            [
                "left out: 2 records of 5, of packets on their way out, which by the routes came in on another "
                "interface of the trace: each packet counts once, and rows are told by those that stay"
            ],
        )
        self.assertEqual((Taken(3, 0).notes(), Taken(9, 0, 9, 4).doubts()), ([], []))
        turned = Ways(ROUTES)
        turned.kept([record(0, "out", "em0", ("198.51.100.7,1", "192.0.2.9,80"), "S")] * 3)
        self.assertIn("by the routes 3 of 3 records are of packets of another interface", turned.taken().doubts()[0])

    def test_trouble_names_the_trace(self) -> None:
        trace = self.trace(forwarded(0, "198.51.100.7,1", "192.0.2.9,80", True, "S"))
        with self.assertRaises(Trouble) as caught, ways_in(trace, ROUTES) as (path, _):
            raise Trouble(f"{path}: row 1: frob")
        self.assertEqual(caught.exception.message, f"{trace}: row 1: frob")


class Routed(FolderCase):
    """Replays with routes."""

    def setUp(self) -> None:
        super().setUp()
        patched = mock.patch.dict(os.environ, environment())
        patched.start()
        self.addCleanup(patched.stop)
        self.rules = self.write("rules", RULES)

    def summary(self, trace: Path) -> dict[str, Any]:
        """What is told of a replay, but for what depends on which records stand for a packet."""
        report = self.folder / "report"
        run_replay(Replay(self.rules, trace, report))
        found = summarize(report, Wanted(trace, USERS, self.rules)).to_json()
        for it in ("interfaces", "doubts"):
            del found[it]
        return found

    def test_one_capture_tells_both_states(self) -> None:
        """Outside, inside, and of both with each packet once: the same is counted."""
        for seed in range(4):
            packets = drawn_packets(seed)
            outside = [next(it for it in pair if ",em0," in it) for pair in packets]
            inside = [next(it for it in pair if ",em1," in it) for pair in packets]
            both = self.trace([it for pair in packets for it in pair], "both")
            self.assertEqual(take_ways(both, ROUTES, self.folder / "once").left_out, len(packets))
            found = [self.summary(it) for it in (self.trace(outside), self.trace(inside), self.folder / "once")]
            self.assertEqual(found[0], found[1], seed)
            self.assertEqual(found[0], found[2], seed)
            self.assertGreater(found[0]["asked_on_both_interfaces"], 100)

    def test_counted_by_text_and_by_line(self) -> None:
        """Blocks of text, and line by line: the same counts, also where one answer ends as another one."""
        seen: set[str] = set()
        for seed in range(4):
            trace = self.trace([it[seed % 2] for it in drawn_packets(seed)])
            flushes = flushes_of(show_rules(self.rules))
            with blocks_of(1000):
                texts = stream_texts(self.rules, trace)
                one = tally(trace, trace_texts(trace), texts, USERS, flushes, None, "rules")
                with replayed(self.rules, trace, NOTHING) as lines:
                    other = side_of("rules", lines, USERS, flushes=flushes)
                    follow(trace, [other], USERS)
            self.assertEqual(counts_of(one), counts_of(other), seed)
            seen |= {*one.answers.by_rule}
        self.assertLessEqual({"new", "state", "block", "drop:max", "drop:max-src-states", "kill:max-src-conn"}, seen)

    def test_held_states_are_asked_apart(self) -> None:
        """Both states of a forwarded packet are held, and no other; a packet that is asked goes on to no interface."""
        call = forwarded(0, "198.51.100.7,1000", "192.0.2.9,80", True, "S")[0]
        records, ends = [call, own_packet(1)], "tcp,198.51.100.7,1000,192.0.2.9,80"
        states = [f"in,{ends}", f"out,{ends}", "in,tcp,198.51.100.7,1,192.0.2.9,80"]
        holding = HeldStates()
        self.assertIsNone(holding.held(2, 1, states))
        holding.find(self.rules, self.trace(records), ())
        self.assertEqual(holding.held(2, 1, states), frozenset(states[:2]))


CONF = """block
pass in on em0 proto tcp to port 80
pass out on em1 proto tcp keep state (max 2)
pass out on em0
"""
NETSTAT = """Routing tables

Internet:
Destination        Gateway            Flags   Refs      Use   Mtu  Prio Iface
default            203.0.113.254      UGS        0        0     -     8 em0
192.0.2/24         192.0.2.1          UCn        0        0     -     4 em1
192.0.2.1          00:0d:b9:41:70:04  UHLl       0        0     -     1 em1
203.0.113.1        00:0d:b9:41:70:05  UHLl       0        0     -     1 em0
"""


def calls(count: int) -> Iterator[tuple[str, str]]:
    """Packets of whole connections, one a second."""
    for number in range(count):
        for step in CALL[:5]:
            yield forwarded(number, f"198.51.100.{number + 1},1000", "192.0.2.9,80", *step)


class Commands(FolderCase):
    """The commands with --routes."""

    def setUp(self) -> None:
        super().setUp()
        self.conf, self.routes = self.write("pf.conf", CONF), self.write("netstat", NETSTAT)
        self.both = self.trace([*(it for pair in calls(4) for it in pair), own_packet(4)], "both.csv")
        self.into = self.folder / "answer"

    def run_it(self, *words: object) -> str:
        """What a command prints."""
        done = pfplan(*words, "--routes", self.routes, env=environment())
        self.assertEqual(done.status, 0, done.err)
        return done.out + done.err

    def test_run(self) -> None:
        users = ("--users", "198.51.100.0/24", "--into", self.into)
        said = self.run_it("run", self.conf, self.both, *users)
        self.assertIn("50.0 % of the users' connections were served: 2 of 4", said)
        self.assertIn("left out: 20 records of 41, of packets on their way out", said)
        self.assertIn("16 records were asked on both interfaces of the packet's way", said)
        self.assertEqual(len((self.into / "trace.csv").read_text().splitlines()), 22)
        text = (self.into / "summary.txt").read_text()
        self.assertIn("    drop:max @2                2   on its way out, on em1, pf.conf:3, max 2\n", text)
        self.assertIn("answers, of both interfaces\n", text)
        self.assertIn("; on the way out: 2\n", text)
        self.assertNotIn("in doubt", text)
        page = (self.into / "report.html").read_text()
        self.assertIn("2 of them on the way out", page)
        self.assertIn("packets that neither come in nor leave on its interface", page)
        # the folder tells the rest by itself
        row = pfplan(
            "explain", self.into / "report", "--trace", self.into / "trace.csv", "--rules", self.into / "rules",
            "--row", 11, env=environment(),
        ).out  # fmt: skip
        self.assertIn("  where it comes in, on em0:\n  new: ", row)
        self.assertIn("  on its way out, on em1:\n  drop:max: ", row)
        self.assertIn("  the rule says max 2\n", row)
        self.assertIn("  Held before row 11: 4 states", row)

    def test_source(self) -> None:
        """Turns of one source: what let it in on either interface."""
        self.run_it("run", self.conf, self.both, "--into", self.into)
        told = pfplan(
            "explain", self.into / "report", "--trace", self.into / "trace.csv", "--rules", self.into / "rules",
            "--source", "198.51.100.1", env=environment(),
        ).out  # fmt: skip
        self.assertIn("let in by rule @1 (pf.conf:2), `pass in on em0", told)
        self.assertIn("where it comes in, on em0 and rule @2 (pf.conf:3), `pass out on em1", told)
        self.assertIn("on its way out, on em1, and 2 states made", told)

    def test_without_routes(self) -> None:
        """What is not seen is told, and which way the answer errs; not where a trace has both interfaces."""
        outside = self.trace([next(it for it in pair if ",em0," in it) for pair in calls(4)], "outside.csv")
        for trace, is_told in ((outside, True), (self.both, False)):
            done = pfplan("run", self.conf, trace, "--users", "198.51.100.0/24", "--into", self.into)
            self.assertEqual(done.status, 0, done.err)
            for text in (done.out, *((self.into / it).read_text() for it in ("summary.txt", "report.html"))):
                self.assertEqual(
                    "the rules let packets through on em1, of which no record is: a forwarded connection holds a "
                    "second state there, which is not seen, so pf holds more states than are told here" in text,
                    is_told,
                )

    def test_compare(self) -> None:
        """Pairs of words have both interfaces; a ruleset without routes is told."""
        more = self.write("more.conf", CONF.replace("max 2", "max 3"))
        said = self.run_it("compare", self.conf, more, self.both, "--users", "198.51.100.0/24")
        self.assertIn("  new > drop:max -> new > new ", said)
        self.assertIn("  state > block -> state > state ", said)
        self.assertIn("; on its way out the rule holds as many states as its max allows\n", said)
        self.assertIn("left out: 20 records of 41", said)
        made = self.write("made", LINES + CONF.replace("to port 80", "to any port 80"))
        one = self.write("one", "set profile openbsd-7.4\n" + CONF.replace("to port 80", "to any port 80"))
        done = pfplan("compare", made, one, self.both, env=environment())
        self.assertIn("in doubt: made has routes, and asks both interfaces of a packet; the others ask one", done.out)

    def test_size_and_margins(self) -> None:
        users = ("--users", "198.51.100.0/24")
        said = self.run_it("size", self.conf, self.both, *users, "--vary", "max=1..4", "--grid", 4)
        self.assertIn("At least 99 % are served at 4; at 3 it is 75.0 %.", said)
        said = self.run_it("margins", self.conf, self.both, *users)
        self.assertIn("as it is: 2, 50.0 % of 4 connections served", said)
        self.assertNotIn("in doubt", said)

    def test_agree(self) -> None:
        """A log has a packet that is forwarded twice: each row is held beside what was said on its interface."""
        conf, packets = self.write("log.conf", with_log(CONF)), list(calls(4))
        made = convert(conf, RuleOptions(routes=self.routes))
        rules = {item: it for it in made.pf_rules for item in it.items}
        trace, report = self.trace([it[0] for it in packets], "in.csv"), self.folder / "report"
        with mock.patch.dict(os.environ, environment()):
            run_replay(Replay(self.write("rules", made.text), trace, report))
        answers = [it for it in map(read_answer, report.read_text().splitlines()) if isinstance(it, Answer)]
        rows = [
            (read_record(line), logged_of(leg, rules))
            for pair, it in zip(packets, answers, strict=True)
            for line, leg in zip(pair, it.legs)
        ]
        log = self.folder / "pflog"
        for turned, count in ((False, 36), (True, 35)):
            if turned:  # of one packet pf says otherwise on its way out
                rows[1] = (rows[1][0], Logged(BLOCK, 0))
            log.write_bytes(log_capture(rows))
            said = self.run_it("agree", conf, log, "--into", self.into)
            self.assertIn(f"that can be compared: {count} of 36.\n", said)
            self.assertIn("20 packets of a log over 3 seconds, 16 of them on their way out too\n", said)
        (found,) = json.loads((self.into / "agree.json").read_text())["differences"]
        self.assertEqual((found["row"], found["record"]["direction"], found["record"]["interface"]), (1, "out", "em1"))
        self.assertEqual((found["pfsrc"]["word"], found["pf"]["action"]), ("new", "block"))

    def test_watch(self) -> None:
        """A capture of one interface, answered on both; what is held is that of both."""
        capture = self.folder / "capture"
        outside = [read_record(next(it for it in pair if ",em0," in it)) for pair in calls(4)]
        capture.write_bytes(ethernet_capture(outside))
        words = ("--if", "em0", "--inside", "192.0.2.0/24", "--users", "198.51.100.0/24", "--routes", self.routes)
        with open(capture, "rb") as file:
            done = subprocess.run(
                [sys.executable, TOP / "pfplan", "watch", self.conf, *words, "--into", self.into], stdin=file,
                capture_output=True, text=True, env=os.environ | environment(), check=False,
            )  # fmt: skip
        self.assertEqual(done.returncode, 0, done.stderr)
        self.assertIn("50.0 % of the users' connections were served: 2 of 4", done.stdout)
        self.assertIn("held at the end: 6 states", (self.into / "summary.txt").read_text())

    def test_packets_that_count_twice(self) -> None:
        """A report of a trace of both interfaces, that ./pfsrc made: each packet is in it twice, which is told."""
        rules = self.write("rules", LINES + CONF.replace("to port 80", "to any port 80"))
        report = self.folder / "report"
        with mock.patch.dict(os.environ, environment()):
            run_replay(Replay(rules, self.both, report))
        done = pfplan("summary", report, "--trace", self.both, "--rules", rules, env=environment())
        self.assertEqual(done.status, 0, done.err)
        self.assertIn("in doubt: 20 records of the trace are of packets that came in on another interface", done.out)

    def test_profile(self) -> None:
        done = pfplan("run", self.conf, self.both, "--routes", self.routes, "--profile", "papers", "--into", self.into)
        self.assertEqual((done.status, done.out), (3, ""))
        self.assertIn("both interfaces of a packet are asked by the profile openbsd-7.4 alone (--profile)", done.err)


class Example(FolderCase):
    """What examples/router/README.md says."""

    def test_router(self) -> None:
        place = TOP / "examples" / "router"
        made = subprocess.run([place / "make"], capture_output=True, check=True).stdout
        self.assertEqual(made, (place / "outside.pcap").read_bytes())
        words = (
            "run", place / "pf.conf", place / "outside.pcap", "--ifconfig", place / "ifconfig", "--if", "em0",
            "--users", "198.51.100.0/25", "--zero", "--into",
        )  # fmt: skip
        done = pfplan(*words, self.folder / "without")
        self.assertIn("40 of 40\n", done.out)
        self.assertTrue(done.out.startswith("in doubt: rules are of em1, em2, and no record is"), done.out)
        into = self.folder / "with"
        done = pfplan(*words, into, "--routes", place / "netstat", env=environment())
        self.assertEqual(done.status, 0, done.err)
        self.assertIn("29 of 40\n", done.out)
        self.assertEqual(re.findall("in doubt: rules are of (.*), and no record is", done.out), ["em2"])
        self.assertTrue((into / "report").read_text("utf-8").startswith("1 new @12 > new @14\n"))
        self.assertIn("A capture of the outer interface shows", (into / "report.html").read_text("utf-8"))
        told = pfplan(
            "explain", into / "report", "--trace", into / "trace.csv", "--rules", into / "rules", "--row", 177,
            env=environment(),
        ).out  # fmt: skip
        self.assertIn("  on its way out:\n  drop:states: as many states are held as", told)
        self.assertIn("  Held before row 177: 59 states, ", told)
        rules = pfplan("rules", place / "pf.conf", "--ifconfig", place / "ifconfig").out
        for line in re.findall(r"^    (match .*)$", (place / "README.md").read_text("utf-8"), re.MULTILINE):
            self.assertIn(f"{line}\n", rules)


class Forwarding(unittest.TestCase):
    def test_interfaces(self) -> None:
        """Rules that let packets through on interfaces of which no record is, without loopback and `set skip`."""
        items = ["pass quick on em2 all", "block on em3 all", "pass out on em1 all", "pass on lo0 all"]
        self.assertEqual(forwarding_in(items, {"em0"}, {0}), ["em1"])
        self.assertEqual(forwarding_in(items, {"em0", "em1", "em2"}), [])
        self.assertEqual(forwarding_in(items, set()), [])


if __name__ == "__main__":
    unittest.main()
