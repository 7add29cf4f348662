"""Plays: one client against each way in which it can be refused, and what holds of all plays."""

import random
import unittest
from collections.abc import Callable, Sequence

from pfplan.common.limits import NO_KEY, NO_PORT
from pfplan.plays.counts import Count
from pfplan.plays.returning import Answer
from pfplan.plays.worlds import SLOTS
from pfplan.tests.playing import ONE, Scripted, blocks, lets_in, played, scenario

OPEN = ["in S", "out SA", "in A"]
REQUEST = ["in PA", "out PA", "in A"]
CLOSE = ["in FA", "out FA", "in A"]
RESETS = {0: Answer(resets=True, tells=True)}


def refuses(what: str, times: int, text: str = "block @0") -> Callable[[str, int], str]:
    """A firewall that refuses packets of one kind so many times: `in S`, `out SA`."""
    left = [times]

    def says(record: str, before: int) -> str:
        column = record.split(",")
        if f"{column[0]} {column[7]}" == what and left[0]:
            left[0] -= 1
            return text
        return "pass @0"

    return says


class OneClient(unittest.TestCase):
    """A client alone, whose packets are written by hand. It begins in the first second: its visits come every hour."""

    def play(
        self, says: Callable[[str, int], str], returning: dict[int, Answer] | None = None, **words: object
    ) -> tuple[list[str], Count]:
        firewall = Scripted(says)
        it = scenario({"one": {**ONE, "begin": 0, "end": 1, **words}}, seconds=1, seed=2)
        tally = played(it, firewall, returning)
        return firewall.packets(), tally.counts[0]

    def test_undisturbed(self) -> None:
        packets, count = self.play(lets_in)
        first = int(packets[0].split(" ")[0])
        self.assertEqual([it.split(" ", 1)[1] for it in packets], OPEN + REQUEST + CLOSE)
        self.assertEqual(
            (first, count.connections, count.served, count.served_at_once, count.tries, list(count.waits)),
            (0, 1, 1, 1, 1, [0]),
        )

    def test_syn_dropped(self) -> None:
        for times, wait in ((1, 1), (2, 3), (3, 7), (4, 15)):
            packets, count = self.play(refuses("in S", times, "drop:states @0"))
            repeated = [0, 1, 3, 7, 15, 31][: times + 1]
            self.assertEqual(
                [it for it in packets if " in S" in it], [f"{it} in S{'!' if it < wait else ''}" for it in repeated]
            )
            self.assertEqual((count.served, list(count.waits), count.tries), (1, [wait * SLOTS], times + 1))

    def test_syn_dropped_always(self) -> None:
        packets, count = self.play(refuses("in S", 99, "drop:states @0"), patience=20, reloads=1)
        self.assertEqual(packets, [f"{it} in S!" for it in (0, 1, 3, 7, 15, 21, 22, 24, 28, 36)])
        self.assertEqual((count.served, count.gave_up, count.tries, count.killed), (0, 1, 10, 0))
        packets, _ = self.play(refuses("in S", 99, "drop:states @0"), patience=1000, retries=6, reloads=0)
        self.assertEqual(packets, [f"{it} in S!" for it in (0, 1, 3, 7, 15, 31, 63)])

    def test_no_port_and_no_key(self) -> None:
        """A connection for which `nat-to` has no port, or whose key another state has, is a refused one."""
        for word in (NO_PORT, NO_KEY):
            packets, count = self.play(refuses("in S", 99, f"new @1 > {word} @0"), patience=3, reloads=0)
            self.assertEqual(packets, [f"{it} in S" for it in (0, 1)])
            self.assertEqual((count.served, count.gave_up, count.killed), (0, 1, 0))
            self.assertEqual({it: found.packets for it, found in count.refused.items()}, {word: 2})

    def test_syn_reset(self) -> None:
        packets, count = self.play(refuses("in S", 1), RESETS)
        self.assertEqual(packets[:2], ["0 in S!", "1 in S"])
        self.assertEqual((count.served, count.tries, list(count.waits)), (1, 2, [104]))
        packets, count = self.play(refuses("in S", 99), RESETS, reloads=2)
        self.assertEqual(packets, ["0 in S!", "1 in S!", "2 in S!"])
        self.assertEqual((count.served, count.gave_up), (0, 1))

    def test_answer_to_syn_refused(self) -> None:
        packets, count = self.play(refuses("out SA", 1))
        # both sides repeat: the client its SYN, and the server its SYN|ACK, once for itself and once for the second SYN
        self.assertEqual(packets[:6], ["0 in S", "0 out SA!", "1 in S", "1 out SA", "1 out SA", "1 in A"])
        self.assertEqual((count.served, count.killed), (1, 0))

    def test_handshake_killed(self) -> None:
        def says(record: str, before: int) -> str:
            column = record.split(",")
            if column[7] in ("S", "SA"):
                return "pass @0" if not before else "block @0"
            return "kill:max-src-conn @0 overload=added killed=1" if column[7] == "A" else "block @0"

        packets, count = self.play(says, reloads=0, patience=6)
        self.assertEqual(packets[:4], ["0 in S", "0 out SA", "0 in A!", "0 in PA!"])
        self.assertEqual([it for it in packets if "PA" in it], ["0 in PA!", "1 in PA!", "3 in PA!"])
        self.assertEqual(
            (count.served, count.gave_up, count.killed, count.states_killed, count.overloads["added"]), (0, 1, 1, 1, 1)
        )

    def test_request_dropped(self) -> None:
        packets, count = self.play(refuses("in PA", 1))
        self.assertEqual([it for it in packets if "in PA" in it], ["0 in PA!", "1 in PA"])
        self.assertEqual((count.served, list(count.waits), count.killed), (1, [SLOTS], 1))

    def test_request_waits_longer_behind_a_repeated_syn(self) -> None:
        def says(record: str, before: int) -> str:
            return (
                "block @0"
                if not before and record.split(",")[7] in ("S", "PA") and record.startswith("in")
                else "pass @0"
            )

        packets, _ = self.play(says)
        self.assertEqual(
            [it for it in packets if it.split(" ")[2].rstrip("!") in ("S", "PA") and " in " in it],
            ["0 in S!", "1 in S", "1 in PA!", "4 in PA"],
        )

    def test_request_reset(self) -> None:
        packets, count = self.play(refuses("in PA", 1), RESETS)
        self.assertEqual(packets[:5], ["0 in S", "0 out SA", "0 in A", "0 in PA!", "1 in S"])
        self.assertEqual((count.served, count.tries, count.killed), (1, 2, 1))

    def test_answer_dropped(self) -> None:
        packets, count = self.play(refuses("out PA", 1))
        self.assertEqual(
            [it for it in packets if "PA" in it], ["0 in PA", "0 out PA!", "1 in PA", "1 out PA", "1 out PA"]
        )
        self.assertEqual(list(count.waits), [SLOTS])

    def test_close_dropped(self) -> None:
        packets, count = self.play(refuses("in FA", 99))
        self.assertEqual([it for it in packets if "FA" in it], [f"{it} in FA!" for it in (1, 2, 4, 8, 16)])
        self.assertEqual((count.served, list(count.waits), count.gave_up, count.killed), (1, [0], 0, 0))

    def test_vanished(self) -> None:
        """Who vanishes is served, and sends no FIN."""
        for requests in (0, 2):
            packets, count = self.play(lets_in, vanish=100, requests=requests)
            self.assertEqual([it for it in packets if "FA" in it], [])
            self.assertEqual((count.served, count.served_at_once, count.gave_up), (1, 1, 0))
        packets, _ = self.play(lets_in, vanish=0)
        self.assertEqual(sum("FA" in it for it in packets), 2)

    def test_a_question(self) -> None:
        words = {"kind": "query", "from": "198.51.100.7/32", "hosts": 1, "rate": 1, "users": True}
        cases: tuple[tuple[Callable[[str, int], str], dict[int, Answer], list[str], int], ...] = (
            (lets_in, {}, ["0 in udp", "0 out udp"], 1),
            (blocks, {}, ["0 in udp!", "5 in udp!", "10 in udp!"], 0),
            (blocks, RESETS, ["0 in udp!"], 0),
        )
        for says, returning, packets, served in cases:
            firewall = Scripted(says)
            tally = played(scenario({"one": words}, seconds=1), firewall, returning)
            self.assertEqual((firewall.packets(), tally.counts[0].served), (packets, served))

    def test_forwarded(self) -> None:
        firewall = Scripted(lets_in)
        played(scenario({"one": {**ONE, "end": 1}}, seconds=1, forward={"em0": "em1"}), firewall)
        asked = [it.split(",")[1:3] + it.split(",")[8:] for it in firewall.asked if ",held," not in it]
        self.assertEqual(
            asked[:6],
            [
                ["in", "em0", "S"],
                ["out", "em1", "S"],
                ["in", "em1", "SA"],
                ["out", "em0", "SA"],
                ["in", "em0", "A"],
                ["in", "em0", "PA"],
            ],
        )

    def test_refused_on_the_inner_side(self) -> None:
        def says(record: str, before: int) -> str:
            return "block @0" if record.startswith("out,em1") else "pass @0"

        firewall = Scripted(says)
        it = scenario(
            {"one": {**ONE, "end": 1, "patience": 2, "reloads": 0}}, seconds=1, forward={"192.0.2.0/24": "em1"}
        )
        count = played(it, firewall).counts[0]
        self.assertEqual(firewall.packets(), ["0 in S", "0 out S!", "1 in S", "1 out S!"])
        self.assertEqual((count.served, count.gave_up, count.refused["block"].packets), (0, 1, 2))

    def test_a_forged_syn(self) -> None:
        firewall = Scripted(lets_in)
        words = {"kind": "syn", "from": "203.0.113.9/32", "rate": 1, "end": 1}
        quiet = {**ONE, "begin": 99, "end": 100}  # type: ignore[arg-type]
        played(scenario({"forged": words, "one": quiet}, seconds=100), firewall)
        mine = [
            it
            for it, record in zip(firewall.packets(), [it for it in firewall.asked if ",held," not in it])
            if "203.0.113.9" in record
        ]
        self.assertEqual(mine, ["0 in S", *(f"{it} out SA" for it in (0, 1, 3, 7, 15, 31))])


GROUPS = {
    "homes": {
        "kind": "visits",
        "from": "198.51.100.0/24",
        "hosts": 9,
        "people": 12,
        "visits": 2,
        "parallel": 2,
        "stay": 2,
    },
    "office": {"kind": "visits", "from": "2001:db8::/64", "hosts": 1, "people": 5, "requests": 0, "to": "six"},
    "monitor": {"kind": "visits", "from": "198.51.100.9/32", "hosts": 1, "every": 7, "requests": 1, "stay": 1},
    "holders": {"kind": "hold", "from": "203.0.113.0/28", "hosts": 3, "rate": 2.5, "every": 3},
    "closers": {"kind": "connect", "from": "203.0.113.0/28", "hosts": 3, "rate": 3},
    "forged": {"kind": "syn", "from": "0.0.0.0/0", "rate": 30},
    "noise": {"kind": "udp", "from": "2001:db8:f::/48", "rate": 5, "to": "six"},
    "asked": {"kind": "query", "from": "198.51.100.0/24", "hosts": 40, "rate": 4, "users": True},
}
SERVERS = {"web": ["192.0.2.1:80", "192.0.2.1:443"], "six": "[2001:db8:1::1]:80"}


def drawn(seed: int, **head: object) -> dict[str, object]:
    """The groups of a play, some of them."""
    numbers = random.Random(seed)
    names = [it for it in GROUPS if numbers.random() < 0.7] or ["homes"]
    return {"groups": {it: GROUPS[it] for it in names}, "seed": seed, "server": SERVERS, **head}


def play_drawn(seed: int, says: Callable[[str, int], str], **head: object) -> tuple[Scripted, list[Count]]:
    """A play of drawn groups."""
    words = drawn(seed, **head)
    firewall = Scripted(says)
    tally = played(scenario(words.pop("groups"), **words), firewall)  # type: ignore[arg-type]
    return firewall, tally.counts


def by_chance(seed: int) -> Callable[[str, int], str]:
    """A firewall that refuses by chance, with resets in some cases."""
    numbers = random.Random(seed)
    words = ["pass @1"] * 6 + ["block @0", "block @1", "drop:states @2", "kill:max-src-conn @2 overload=none killed=1"]
    return lambda record, before: words[int(numbers.random() * len(words))]


class EveryPlay(unittest.TestCase):
    def test_all_are_served_where_everything_passes(self) -> None:
        for seed in range(1, 4):
            for onward in ("em0", "em1"):
                _, counts = play_drawn(seed, lets_in, forward={"em0": onward})
                for it in counts:
                    if it.group.kind in ("visits", "query"):
                        begun = it.connections if it.group.users else it.served
                        self.assertEqual(
                            (it.served, it.served_at_once, it.gave_up, it.killed), (begun, begun, 0, 0), it.group.name
                        )
                        self.assertEqual(set(it.waits) - {0}, set())

    def test_nobody_is_served_where_nothing_passes(self) -> None:
        for seed in range(1, 8):
            _, counts = play_drawn(seed, blocks)
            for it in counts:
                self.assertEqual((it.served, it.opened, it.killed, it.passed), (0, 0, 0, 0))
                self.assertTrue(it.gave_up == it.connections or not it.group.users)

    def test_connections_add_up(self) -> None:
        for seed in range(1, 9):
            firewall, counts = play_drawn(seed, by_chance(seed))
            for it in counts:
                if it.group.users:
                    self.assertEqual(it.served + it.gave_up, it.connections)
                    self.assertEqual(it.served_at_once + sum(it.late.values()), it.served)
                    self.assertEqual(len(it.waits), it.served)
                self.assertLessEqual(it.killed, it.opened if it.group.kind != "visits" else it.connections)
            bad = sum("!" in it for it in firewall.packets())
            # answers to forged SYN packets are of their group too
            self.assertEqual(sum(one.packets for it in counts for one in it.refused.values()), bad)

    def test_order_of_packets(self) -> None:
        """Moments never fall; no client sends data before its SYN was answered; nothing is repeated within its
        second."""
        for seed in range(1, 9):
            firewall, _ = play_drawn(seed, by_chance(seed))
            moments = [int(it.split(",")[0]) for it in firewall.asked]
            self.assertEqual(moments, sorted(moments))
            answered: set[tuple[str, str, str, str]] = set()
            sent: dict[tuple[str, str, str, str], list[int]] = {}
            for record, text in zip(firewall.asked, firewall.texts):
                time, way, _, protocol, source, port, target, target_port, flags = record.split(",")
                if way == "out" and flags == "SA" and text.startswith("pass"):
                    answered.add((target, target_port, source, port))
                if way == "in" and protocol == "tcp":
                    key = (source, port, target, target_port)
                    self.assertTrue(flags == "S" or key in answered, record)
                    if flags == "S":
                        sent.setdefault(key, []).append(int(time))
            for key, times in sent.items():
                if not key[0].startswith(("198.51.100.", "2001:db8::")):
                    continue  # forged addresses may be sent twice
                gaps = [later - earlier for earlier, later in zip(times, times[1:])]
                self.assertTrue(all(gap >= 2**at - 1 for at, gap in enumerate(gaps)), (key, times))

    def test_same_words_same_play(self) -> None:
        one, other = (play_drawn(3, by_chance(3))[0] for _ in range(2))
        self.assertEqual((one.asked, one.texts), (other.asked, other.texts))
        self.assertNotEqual(play_drawn(4, by_chance(3))[0].asked, one.asked)

    def test_users_are_the_same_whatever_the_flood(self) -> None:
        def homes(rate: int) -> list[str]:
            firewall = Scripted(lets_in)
            played(scenario({"homes": GROUPS["homes"], "forged": {**GROUPS["forged"], "rate": rate}}), firewall)
            return [it for it in firewall.asked if ",198.51.100." in it]

        self.assertEqual(homes(3), homes(300))

    def test_users_begin_within_the_seconds(self) -> None:
        """Also where the end of their group is later."""
        groups: Sequence[dict[str, object]] = ({**ONE, "visits": 40}, {**ONE, "every": 2}, GROUPS["asked"])
        for group in groups:
            firewall = Scripted(lets_in)
            played(scenario({"one": {**group, "end": 1000}}), firewall)
            first = [it.split(" ") for it in firewall.packets()]
            begun = [int(it[0]) for it in first if it[1] == "in" and it[2] in ("S", "udp")]
            self.assertGreater(len(begun), 3)
            self.assertLess(max(begun), 10)

    def test_idle_time_costs_nothing(self) -> None:
        """Only seconds with something in them are asked about, and how much is held 120 times between them."""
        firewall = Scripted(lets_in)
        played(scenario({"one": {**ONE, "visits": 10, "stay": 60}}, seconds=100_000), firewall)
        self.assertLess(firewall.calls, 400)
        moments = [int(it.split(",")[0]) for it in firewall.asked if ",held," in it]
        self.assertLess(len(moments), 200)
        self.assertEqual(moments, sorted(set(moments)))

    def test_held_is_asked_at_the_end_of_each_second(self) -> None:
        firewall = Scripted(lets_in)
        played(scenario({"forged": {**GROUPS["forged"], "end": 3}, "one": ONE}, seconds=4, seed=5), firewall)
        asked = [it.split(",")[:2] for it in firewall.asked]
        for before, after in zip(asked, asked[1:]):
            if before[0] != after[0]:
                self.assertEqual(before[1], "held", (before, after))

    def test_hosts_that_are_shut_out(self) -> None:
        """Of two hosts of a group one is never let in."""
        words = {"kind": "visits", "from": "198.51.100.0/29", "hosts": 2, "visits": 3, "reloads": 0, "patience": 2}
        firewall = Scripted(lambda record, before: "block @0" if ",198.51.100.1," in record else "pass @0")
        count = played(scenario({"homes": words}), firewall).counts[0]
        self.assertEqual((count.served, len(count.hosts), len(count.served_hosts)), (3, 2, 1))

    def test_rate(self) -> None:
        for rate in (1, 7, 0.25, 99.5, 1000):
            firewall = Scripted(lets_in)
            it = scenario({"forged": {**GROUPS["forged"], "rate": rate, "begin": 2, "end": 6}})
            self.assertEqual(played(it, firewall).counts[0].packets, int(4 * rate))


if __name__ == "__main__":
    unittest.main()
