"""Plays in which pf leads the handshake (`synproxy state`, SYN cookies), and servers with a backlog."""

import unittest
from collections.abc import Callable, Mapping

from pfplan.plays.counts import Tally
from pfplan.plays.worlds import SLOTS
from pfplan.tests.playing import ONE, Scripted, lets_in, played, scenario

OPEN = ["in S!", "in A!", "out SA!"]
REST = [*(["in PA", "out PA", "in A"]), *(["in FA", "out FA", "in A"])]


def proxies(refused: str = "", times: int = 0) -> Callable[[str, int], str]:
    """A firewall that takes the packets of a connection until its server has answered, and refuses packets of one kind
    so many times: `out SA`."""
    joined = set()
    left = [times]

    def says(record: str, before: int) -> str:
        way, interface, _, source, port, target, target_port, flags = record.split(",")
        if f"{way} {flags}" == refused and left[0]:
            left[0] -= 1
            return "block @0"
        key = (source, port) if source.startswith("198.") else (target, target_port)
        if interface == "em1":
            return "state @0"
        if way == "out" and flags == "SA" and key not in joined:
            joined.add(key)
            return "proxy @0"
        return "state @0" if key in joined else "proxy @0"

    return says


class LedByPf(unittest.TestCase):
    def play(self, says: Callable[[str, int], str], **words: object) -> tuple[list[str], Tally]:
        firewall = Scripted(says)
        it = scenario({"one": {**ONE, "begin": 0, "end": 1, **words}}, seconds=1, seed=2)
        tally = played(it, firewall)
        return firewall.packets(), tally

    def test_a_client(self) -> None:
        """It hears pf at once, and what it asks waits for the server: a way to pf and back more."""
        packets, tally = self.play(proxies())
        self.assertEqual([it.split(" ", 1)[1] for it in packets], OPEN + REST)
        count = tally.counts[0]
        self.assertEqual((count.served, count.opened, count.tries, count.killed), (1, 1, 1, 0))
        self.assertEqual((list(count.waits), count.refused), ([4], {}))

    def test_pf_asks_the_server_again_at_each_packet_of_the_client(self) -> None:
        packets, tally = self.play(proxies("out SA", 1))
        mine = [it for it in packets if it.split(" ", 1)[1].rstrip("!") in ("in S", "in A", "out SA")]
        # the server repeats its answer itself too, after a second
        self.assertEqual(mine[:5], ["0 in S!", "0 in A!", "0 out SA!", "1 in A!", "1 out SA!"])
        self.assertEqual((tally.counts[0].served, tally.counts[0].tries), (1, 1))

    def test_a_server_that_never_answers(self) -> None:
        """The client has an open connection, asks for room, and gives up."""
        packets, tally = self.play(proxies("out SA", 99), patience=5, reloads=0)
        self.assertEqual([it for it in packets if "in A" in it], ["0 in A!", "1 in A!", "3 in A!"])
        self.assertEqual([it for it in packets if "in PA" in it], [])
        count = tally.counts[0]
        self.assertEqual((count.opened, count.served, count.gave_up), (1, 0, 1))

    def test_forwarded(self) -> None:
        """pf's own packets to the server are asked where they leave."""
        firewall = Scripted(proxies())
        played(scenario({"one": {**ONE, "end": 1}}, seconds=1, forward={"em0": "em1"}), firewall)
        asked = [it.split(",")[1:3] + it.split(",")[8:] for it in firewall.asked if ",held," not in it]
        self.assertEqual(
            asked[:8],
            [
                ["in", "em0", "S"],
                ["in", "em0", "A"],
                ["out", "em1", "S"],
                ["in", "em1", "SA"],
                ["out", "em0", "SA"],
                ["out", "em1", "A"],
                ["in", "em0", "PA"],
                ["out", "em1", "PA"],
            ],
        )

    def test_forged_syns_come_to_no_server(self) -> None:
        firewall = Scripted(proxies())
        words = {"kind": "syn", "from": "203.0.113.9/32", "rate": 5, "end": 2}
        tally = played(scenario({"forged": words, "one": ONE}, seconds=9, backlog=3), firewall)
        self.assertFalse([it for it in firewall.asked if ",out," in it and ",203.0.113.9," in it])
        self.assertEqual((tally.counts[0].passed, tally.counts[0].refused), (10, {}))
        self.assertEqual((tally.most_half_open, tally.unanswered), (1, 0))


def gives_cookies(at_ack: str = "proxy @0", later: str = "block @0") -> Callable[[str, int], str]:
    """A firewall that answers each SYN with a cookie, and its first ACK as is said; what has no state, as the second
    word says."""
    known = proxies()
    out, held = set(), set()

    def says(record: str, before: int) -> str:
        way, interface, _, source, port, target, target_port, flags = record.split(",")
        key = (source, port) if way == "in" else (target, target_port)
        if way == "in" and flags == "S":
            out.add(key)
            return "cookie -"
        if key in out and way == "in":
            out.remove(key)
            if at_ack.startswith("proxy"):
                held.add(key)
            return at_ack
        return known(record, before) if key in held or interface == "em1" else later

    return says


class ByCookies(unittest.TestCase):
    def play(self, says: Callable[[str, int], str], **words: object) -> tuple[list[str], Tally]:
        firewall = Scripted(says)
        it = scenario({"one": {**ONE, "begin": 0, "end": 1, **words}}, seconds=1, seed=2)
        tally = played(it, firewall)
        return [it.split(" ", 1)[1] for it in firewall.packets()], tally

    def test_a_client(self) -> None:
        """It hears pf at once, and pf asks the server behind its ACK."""
        packets, tally = self.play(gives_cookies())
        self.assertEqual(packets, OPEN + REST)
        count = tally.counts[0]
        self.assertEqual((count.served, count.opened, count.tries, count.killed), (1, 1, 1, 0))
        self.assertEqual((list(count.waits), count.refused), ([4], {}))

    def test_no_state_at_the_ack(self) -> None:
        """The client hears nothing of it: it asks for room again, and gives up."""
        for word in ("drop:cookie -", "drop:max @0"):
            packets, tally = self.play(gives_cookies(word), patience=5, reloads=0)
            self.assertEqual(packets, ["in S!", "in A!", "in A!", "in A!"])
            count = tally.counts[0]
            self.assertEqual((count.served, count.gave_up), (0, 1))
            self.assertEqual({it: one.packets for it, one in count.refused.items()}, {word[:-2].strip(): 1, "block": 2})

    def test_a_server_that_was_not_asked(self) -> None:
        """What the rules let through without a state comes to a server that knows no connection: it sends a RST."""
        packets, tally = self.play(gives_cookies("drop:cookie -", "pass -"), reloads=0)
        self.assertEqual(packets, ["in S!", "in A!", "in A", "out R"])
        self.assertEqual((tally.counts[0].served, tally.counts[0].gave_up), (0, 1))

    def test_forged_syns_come_to_no_server(self) -> None:
        """It repeats no answer to them, and holds none half open."""
        firewall = Scripted(gives_cookies())
        words = {"kind": "syn", "from": "203.0.113.9/32", "rate": 5, "end": 2}
        tally = played(scenario({"forged": words, "one": ONE}, seconds=9, backlog=3), firewall)
        self.assertFalse([it for it in firewall.asked if ",out," in it and ",203.0.113.9," in it])
        self.assertEqual((tally.counts[0].passed, tally.counts[0].refused), (10, {}))
        self.assertEqual((tally.most_half_open, tally.unanswered), (1, 0))


class Backlogs(unittest.TestCase):
    FORGED: Mapping[str, object] = {"kind": "syn", "from": "203.0.113.9/32", "rate": 1, "end": 8}

    def play(self, backlog: int, **groups: Mapping[str, object]) -> tuple[list[str], Tally]:
        firewall = Scripted(lets_in)
        tally = played(scenario(groups, seconds=100, backlog=backlog), firewall)
        return firewall.asked, tally

    def test_full(self) -> None:
        """SYN packets past it get no answer, until the others were answered in vain."""
        asked, tally = self.play(3, forged=self.FORGED, late={**self.FORGED, "begin": 62, "end": 67})
        answered = {it.split(",")[7]: it for it in reversed(asked) if ",out,em0,tcp" in it}
        self.assertEqual([int(it.split(",")[0]) for it in sorted(answered.values())], [0, 1, 2, 63, 64, 65])
        self.assertEqual((tally.most_half_open, tally.unanswered), (3, 13 - 6))

    def test_no_bound(self) -> None:
        """A backlog with room for all changes no packet."""
        self.assertEqual(self.play(0, forged=self.FORGED, one=ONE)[0], self.play(99, forged=self.FORGED, one=ONE)[0])

    def test_an_ack_makes_room(self) -> None:
        _, tally = self.play(1, one={**ONE, "every": 5})
        count = tally.counts[0]
        self.assertEqual((count.served_at_once, tally.most_half_open, tally.unanswered), (count.connections, 1, 0))

    def test_a_client_waits_for_room(self) -> None:
        """Its SYN is repeated while forged ones fill the backlog."""
        one: Mapping[str, object] = {**ONE, "begin": 10, "end": 11, "patience": 100}
        asked, tally = self.play(2, forged={**self.FORGED, "end": 2}, one=one)
        times = [int(it.split(",")[0]) for it in asked if ",198.51.100.7," in it and it.endswith(",S")]
        self.assertEqual(times, [10, 11, 13, 17, 25, 41, 73])
        self.assertEqual((tally.counts[1].served, tally.counts[1].waits[0]), (1, 63 * SLOTS))
        self.assertEqual(tally.unanswered, 6)


if __name__ == "__main__":
    unittest.main()
