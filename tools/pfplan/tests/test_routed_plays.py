"""Plays under rules with routes: each packet is asked once, and the firewall asks both interfaces of its way."""

import os
import subprocess
import unittest
from typing import Any
from unittest import mock

from pfplan.answers.doubts import of_forwarding
from pfplan.common.networks import Network
from pfplan.common.repository import program
from pfplan.pf.routes import LOCAL, NO_ROUTES, Routes, routes_of
from pfplan.plays.hosts import Way
from pfplan.plays.model import Endpoint, Forward
from pfplan.plays.playing import Played, Task, play
from pfplan.plays.reading import scenario_of
from pfplan.plays.routing import routes_of_scenario
from pfplan.plays.staging import Play
from pfplan.tests.playing import HEAD, ONE, Scripted, scenario
from pfplan.tests.routed import environment
from pfplan.tests.support import FolderCase, pfplan

ROUTES = routes_of(["set route { 198.51.100.0/24 em0, 192.0.2.0/24 em1 }"])
ASKERS: dict[str, Any] = {"kind": "query", "from": "198.51.100.64/26", "hosts": 5, "rate": 3, "users": True}
FORGED: dict[str, Any] = {"kind": "syn", "from": "203.0.113.0/24", "rate": 20}
FIRST: dict[str, Any] = dict(ONE)


def routes(text: str) -> dict[str, str]:
    """The routes of a list, by the texts of their prefixes."""
    return {str(it): name for it, name in routes_of([f"set route {{ {text} }}"]).by_network.items()}


def known(groups: dict[str, Any], **words: Any) -> dict[str, str]:
    """The routes that a scenario says."""
    found = routes_of_scenario(scenario(groups, seconds=10, **words))
    return {str(it): name for it, name in found.by_network.items()}


class Knowing(unittest.TestCase):
    """Routes of a scenario."""

    def test_of_forward(self) -> None:
        """By the network of the servers, and by the interface that packets come in on; back to each group."""
        one = {"one": FIRST}
        by_network = known(one, forward={"192.0.2.0/24": "em1"})
        self.assertEqual(by_network, routes("192.0.2.0/24 em1, 198.51.100.7/32 em0"))
        by_interface = known(one, forward={"em0": "em1"})
        self.assertEqual(by_interface, routes("192.0.2.1/32 em1, 198.51.100.7/32 em0"))
        several = {"one": FIRST, "forged": {**FORGED, "from": "0.0.0.0/0", "interface": "em2"}}
        self.assertEqual(
            known(several, forward={"192.0.2.0/24": "em1"}),
            routes("0.0.0.0/0 em2, 192.0.2.0/24 em1, 198.51.100.7/32 em0"),
        )

    def test_none(self) -> None:
        """Nothing is forwarded; two ways to one end; users in a network of others."""
        self.assertEqual(known({"one": FIRST}), {})
        two = {"one": FIRST, "two": {**FIRST, "from": "198.51.100.9/32", "interface": "em2"}}
        self.assertEqual(known(two, forward={"em0": "em1", "em2": "em3"}), {})
        both = {"one": FIRST, "two": {**FIRST, "interface": "em2"}}
        self.assertEqual(known(both, forward={"192.0.2.0/24": "em1"}), {})
        within = {"one": FIRST, "two": {**FIRST, "from": "198.51.100.0/24", "hosts": 9, "interface": "em2"}}
        self.assertEqual(known(within, forward={"192.0.2.0/24": "em1"}), {})
        # but forged packets may be of anybody's network
        within["two"] = {**FORGED, "from": "198.51.100.0/24", "interface": "em2"}
        self.assertEqual(len(known(within, forward={"192.0.2.0/24": "em1"})), 3)

    def test_doubts(self) -> None:
        """That the routes lead elsewhere is told."""
        it = scenario({"one": FIRST}, seconds=10, forward={"em0": "em1"})
        self.assertEqual(of_forwarding(it, ROUTES), [])
        self.assertEqual(of_forwarding(it, NO_ROUTES), [])
        (told,) = of_forwarding(it, routes_of(["set route 0.0.0.0/0 em0"]))
        self.assertEqual(
            told, "the scenario sends packets to 192.0.2.1 on by em1, and the routes by em0: the routes count"
        )


class Asking(unittest.TestCase):
    """What the firewall is asked."""

    def test_ways(self) -> None:
        server = Endpoint(scenario({"one": FIRST}, seconds=1).groups[0].to[0].address, 80)
        way = Way(Forward(), "em0", server, "tcp", None, ROUTES)
        self.assertEqual(way.there("198.51.100.7", 1), (",in,em0,tcp,198.51.100.7,1,192.0.2.1,80,",))
        self.assertEqual(way.back("198.51.100.7", 1), (",in,em1,tcp,192.0.2.1,80,198.51.100.7,1,",))
        self.assertTrue(way.has_sent(way.back("198.51.100.7", 1)[0]))
        # the firewall itself is the server
        own: dict[Network, str] = {**ROUTES.by_network, **routes_of([f"set route 192.0.2.1 {LOCAL}"]).by_network}
        way = Way(Forward((), {"em0": "em1"}), "em0", server, "tcp", None, Routes(own))
        self.assertEqual(way.back("198.51.100.7", 1), (",out,em0,tcp,192.0.2.1,80,198.51.100.7,1,",))

    def asked(self, firewall: Scripted) -> list[str]:
        """What a play of one connection asks, and how often it was served."""
        it = scenario({"one": {**FIRST, "end": 1}}, seconds=1, forward={"em0": "em1"})
        game = Play(it, firewall, {}, {}, routes=ROUTES)
        game.run(lambda second: None)
        self.assertEqual(game.tally.counts[0].served, 1)
        return [" ".join(it.split(",")[1:3] + it.split(",")[8:]) for it in firewall.asked if ",held," not in it]

    def test_a_connection(self) -> None:
        """One question for each packet, where it comes in."""
        found = self.asked(Scripted(lambda record, before: "pass - > pass -"))
        self.assertEqual(found[:4], ["in em0 S", "in em1 SA", "in em0 A", "in em0 PA"])
        self.assertFalse([it for it in found if it.startswith("out")])

    def test_led_by_pf(self) -> None:
        """pf's own SYN is asked by the firewall, with the packet of the client that has it sent."""
        joined: list[str] = []

        def says(record: str, before: int) -> str:
            way, name, *_, flags = record.split(",")
            if flags == "SA" and not joined:
                joined.append(record)
                return "state @1 > proxy @0"
            if joined:
                return "state @0 > state @1"
            return "proxy @0" if flags == "S" else "proxy @0 > new @1"

        found = self.asked(Scripted(says))
        self.assertEqual(found[:4], ["in em0 S", "in em0 A", "in em1 SA", "in em0 PA"])

    def test_own_syn_is_refused(self) -> None:
        """The server does not hear of it; it is counted by the word of the second interface."""
        firewall = Scripted(lambda record, before: "proxy @0" if record.endswith(",S") else "proxy @0 > block @1")
        words: dict[str, Any] = {**FIRST, "end": 1, "patience": 2, "reloads": 0}
        it = scenario({"one": words}, seconds=1, forward={"em0": "em1"})
        game = Play(it, firewall, {}, {}, routes=ROUTES)
        game.run(lambda second: None)
        count = game.tally.counts[0]
        self.assertEqual((count.served, list(count.refused)), (0, ["block"]))
        self.assertFalse([it for it in firewall.asked if ",in,em1," in it])


RULES = """set profile openbsd-7.4
set timeout { tcp.first 10, tcp.opening 10 }
block return
pass in on em0 proto tcp to any port 80 keep state (max-src-states 3)
pass in on em0 proto udp to any port 80
pass out on em1 proto tcp synproxy state (max 60)
pass out on em1 proto udp keep state (max 4)
"""


class Commands(FolderCase):
    """The program with routes behind a play."""

    def setUp(self) -> None:
        super().setUp()
        patched = mock.patch.dict(os.environ, environment())
        patched.start()
        self.addCleanup(patched.stop)

    def played(self, rules: str, found: Routes, **groups: dict[str, Any]) -> Played:
        """A play under a rules text."""
        path = self.write("rules", rules)
        words = {**HEAD, "seconds": 8, "forward": {"em0": "em1"}, "group": groups}
        it = scenario_of(words, self.folder / "scenario.toml")
        return play(Task(it, path, {}, (), self.folder / "trace.csv", self.folder / "report", found))

    def test_as_two_questions(self) -> None:
        """Users fare as where each interface is asked by itself."""
        homes = {**FIRST, "from": "198.51.100.0/26", "hosts": 20, "people": 20, "visits": 2, "every": 0}
        groups: dict[str, dict[str, Any]] = {"homes": homes, "askers": ASKERS}
        words = {**HEAD, "seconds": 8, "forward": {"em0": "em1"}, "group": groups}
        found = routes_of_scenario(scenario_of(words, self.folder / "scenario.toml"))
        lines = "".join(f"{it}\n" for it in found.lines())
        once = self.played(RULES.replace("block", lines + "block", 1), found, **groups)
        rows = (self.folder / "trace.csv").read_text().splitlines()
        self.assertFalse([it for it in rows if ",out," in it])
        twice = self.played(RULES, NO_ROUTES, **groups)
        for one, other in zip(once.tally.counts, twice.tally.counts, strict=True):
            self.assertEqual((one.connections, one.served), (other.connections, other.served))
            self.assertEqual({*one.refused}, {*other.refused})
        self.assertEqual(once.tally.counts[0].served, 40)
        self.assertIn("drop:max", once.tally.counts[1].refused)
        self.assertLess(once.end.rows, 0.7 * twice.end.rows)

    def test_play(self) -> None:
        """The routes that the scenario says stand in the rules text; trace and report are those of a replay."""
        rules = self.write("rules.conf", RULES.removeprefix("set profile openbsd-7.4\n"))
        path = self.write(
            "scenario.toml",
            'seconds = 6\nserver = "192.0.2.1:80"\nforward = { em0 = "em1" }\n[group.homes]\nkind = "visits"\n'
            'from = "198.51.100.0/26"\nhosts = 5\nstay = 1\n'
            '[group.forged]\nkind = "syn"\nfrom = "0.0.0.0/0"\nrate = 9\n',
        )
        into = self.folder / "out"
        done = pfplan("play", rules, path, "--into", into)
        self.assertEqual((done.status, done.err), (0, ""))
        kept = into / "rules"
        lines = (kept / "rules").read_text().splitlines()
        self.assertEqual(lines[1:3], ["set route 0.0.0.0/0 em0", "set route 192.0.2.1 em1"])
        self.assertIn("the routes are those of the scenario (forward)", (kept / "left-out.txt").read_text())
        again = subprocess.run(
            [program(), "replay", kept / "rules", kept / "trace.csv"], capture_output=True, check=True
        ).stdout
        self.assertEqual(again, (kept / "report").read_bytes())
        self.assertIn(b" > new @", again)
        # routes that are given count for more, and without the profile there are none
        head = "Internet:\nDestination Gateway Flags Iface\n"
        netstat = self.write("netstat", head + "default 203.0.113.1 UGS em0\n192.0.2/24 link#1 U em2\n")
        done = pfplan("play", rules, path, "--into", into, "--routes", netstat)
        self.assertEqual(done.status, 0, done.err)
        self.assertIn("set route 192.0.2.0/24 em2", (kept / "rules").read_text())
        self.assertIn("in doubt: the scenario sends packets to 192.0.2.1 on by em1, and the routes by em2", done.out)
        plain = self.write("plain.conf", RULES.removeprefix("set profile openbsd-7.4\n").replace("synproxy", "keep"))
        done = pfplan("play", plain, path, "--into", into, "--profile", "papers")
        self.assertEqual(done.status, 0, done.err)
        self.assertNotIn("set route", (into / "plain" / "rules").read_text())


if __name__ == "__main__":
    unittest.main()
