"""Summaries over drawn rulesets, traces and users: each connection's fate is that of a slow reading (fates_reading.py).

Which states are held before a flush, the machine itself says. PFPLAN_DRAWN says how many are drawn (300), PFPLAN_SEED
which is the first.
"""

import os
import random
import re
import unittest
from collections import Counter
from collections.abc import Iterator
from pathlib import Path

from pfplan.answers.connections import Key
from pfplan.answers.held_states import states_held
from pfplan.answers.measures import measure
from pfplan.answers.sides import follow, side_of
from pfplan.answers.summaries import Wanted, summarize
from pfplan.commands.words import networks
from pfplan.pf.profiles import Profile
from pfplan.pf.reading_canonical_text import flushes_of
from pfplan.replays.runs import Replay, run_replay, show_rules
from pfplan.tests.fates_reading import Reading
from pfplan.tests.support import FolderCase

USERS = (
    ["198.51.100.0/24"],
    ["198.51.100.1/32"],
    ["198.51.100.0/24", "192.0.2.0/24"],
    ["192.0.2.0/24"],
    ["2001:db8::/64", "198.51.100.2/32"],
)
PORTS = ("80", "22", "25")
# whose states an administrator takes out, or those to whom
MAKERS = (
    "198.51.100.1", "198.51.100.2", "198.51.100.9/24", "192.0.2.0/24", "203.0.113.5", "0.0.0.0/0", "2001:DB8::/31"
)  # fmt: skip
BRIEF = (
    "set timeout { tcp.first 3, tcp.opening 2, tcp.established 6, tcp.finwait 2, tcp.closed 1, udp.first 2, "
    "udp.single 2, udp.multiple 3, interval 1 }"
)


class Drawer:
    """Draws a ruleset and a trace; the same seed draws the same."""

    def __init__(self, seed: int) -> None:
        self.random = random.Random(seed)

    def chance(self, share: float) -> bool:
        """True in that share of the calls."""
        return self.random.random() < share

    def ruleset(self) -> tuple[str, dict[str, str]]:
        """A rules text, and the rules that flush with `rule` or `global`."""
        lines = [
            f"set limit states {self.random.choice((3, 8, 1000, 1000))}",
            "set timeout { adaptive.start 0, adaptive.end 0 }",
            "table <bad> persist",
        ]
        items = ["block in quick from <bad>"] if self.chance(0.7) else []
        items += ["block out on em1"] if self.chance(0.2) else []
        flushes: dict[str, str] = {}
        for port in PORTS:
            if self.chance(0.7):
                flush = self.random.choice(("none", "", "rule", "rule", "global"))
                if flush in ("rule", "global"):
                    flushes[f"@{len(items)}"] = flush
                items.append(f"pass in proto tcp to any port {port} keep state ({self.options(flush)})")
        for item in (
            "pass in proto tcp to any port 443",
            "pass out proto tcp",
            "pass in proto udp",
            "pass out proto udp flags any",
        ):
            items += [item] if self.chance(0.6) else []
        if self.chance(0.6):
            lines.append(BRIEF)
        return "".join(f"{it}\n" for it in (*lines, *items)), flushes

    def options(self, flush: str) -> str:
        """State options: a limit on a source that kills, with what is flushed; and others that refuse."""
        kill = self.random.choice(("max-src-conn {}", "max-src-conn-rate {}/10")).format(self.random.randint(1, 2))
        overload = {
            "none": "",
            "": ", overload <bad>",
            "rule": ", overload <bad> flush",
            "global": ", overload <bad> flush global",
        }[flush]
        more = self.random.choice(
            ("", "", f", max {self.random.randint(2, 6)}", f", max-src-states {self.random.randint(2, 5)}")
        )
        return f"{kill}{overload}{more}"

    def trace(self) -> list[str]:
        """Records in the order of their moments."""
        records = [it for _ in range(self.random.randint(4, 24)) for it in self.session()]
        found = [record for _, record in sorted(records, key=lambda it: it[0])]
        return found[: self.random.randint(1, len(found))] if found and self.chance(0.3) else found

    def with_kills(self, records: list[str], seed: int) -> list[str]:
        """The records, with some by which an administrator takes out states. What else is drawn stays the same."""
        draw, found = random.Random(f"{seed} kills"), list[str]()
        for it in records:
            found.append(it)
            if seed % 3 == 0 and draw.random() < 0.1:
                ends = f"{draw.choice(MAKERS)},,{draw.choice(('', '', *MAKERS))}"
                found.append(f"{it.partition(',')[0]},kill,,,{ends},,")
        return found

    def session(self) -> Iterator[tuple[int, str]]:
        """A connection: who begins it, an answer, packets, and maybe an end; some of it may be missing, repeated, or
        forwarded."""
        moment = self.random.randint(0, 20)
        address, server = self.addresses()
        port = str(self.random.randint(1000, 1009))
        service = self.random.choice(("80", "80", *PORTS, "443"))
        there, back = (
            f"{address},{port},{server},{service}",
            f"{self.again(server)},{self.zeros(service)},{self.again(address)},{self.zeros(port)}",
        )
        protocol = self.random.choice(("tcp", "tcp", "tcp", "udp"))
        is_forwarded, is_out = self.chance(0.3), self.chance(0.15)
        steps = [
            (there, "S"),
            (back, "SA"),
            (there, "A"),
            (there, "PA"),
            (back, "PA"),
            (self.random.choice((there, back)), self.random.choice(("FA", "RA", "A"))),
            (there, "A"),
        ]
        steps = [it for it in steps[: self.random.randint(1, len(steps))] if not self.chance(0.1)]
        steps = [it for step in steps for it in ([step, step] if self.chance(0.15) else [step])]
        repeated = self.random.randint(1, 3) if self.chance(0.3) else 0
        for at, (ends, flags) in enumerate([(there, "S")] * repeated + steps):
            moment += self.random.choice((1, 2, 4, 8, 300)) if at < repeated else self.random.choice((0, 0, 1, 1, 3))
            hops = self.hops(ends, ends is there, is_forwarded, is_out)
            for hop in hops:
                yield moment, f"{moment},{','.join(hop)},{protocol},{ends},{flags if protocol == 'tcp' else ''}"

    def hops(self, ends: str, is_there: bool, is_forwarded: bool, is_out: bool) -> list[tuple[str, str]]:
        """Where a packet between these ends has a record: its directions and interfaces."""
        if is_forwarded:
            return [("in", "em0"), ("out", "em1")] if is_there else [("in", "em1"), ("out", "em0")]
        return [("in" if is_there != is_out else "out", "em0")]

    def addresses(self) -> tuple[str, str]:
        """Who begins a connection, and the other end: a user, somebody else, or a server; of either family."""
        if self.chance(0.1):
            return "2001:db8::1", "2001:db8:f::1"
        clients = ["198.51.100.1", "198.51.100.1", "198.51.100.1", "198.51.100.2", "203.0.113.5"]
        pair = [self.random.choice(clients), self.random.choice(("192.0.2.1", "192.0.2.1", "192.0.2.2"))]
        return (pair[1], pair[0]) if self.chance(0.1) else (pair[0], pair[1])

    def again(self, address: str) -> str:
        """The address, maybe written in another way."""
        return address.replace("2001:db8:", "2001:0DB8:") if self.chance(0.5) else address

    def zeros(self, port: str) -> str:
        """The port, maybe written in another way."""
        return f"00{port}" if self.chance(0.2) else port


def drawn(drawer: Drawer, seed: int, profile: Profile) -> tuple[str, dict[str, str], list[str], list[str]]:
    """A rules text, its rules that flush, the records of a trace, and the networks of users."""
    text, flushes = drawer.ruleset()
    text = "".join(f"{it}\n" for it in profile.lines()) + text
    if seed % 4 == 1:
        text = re.sub("keep state", lambda _: drawer.random.choice(("keep state", "synproxy state")), text)
    if seed % 8 in (3, 5):
        text += drawer.random.choice(("set syncookies always\n", "set syncookies adaptive (start 1%, end 0%)\n"))
    records = drawer.with_kills(drawer.trace(), seed)
    return text, flushes, records, drawer.random.choice(USERS)


class FatesCase(FolderCase):
    """Replays, and what pfplan says of their connections."""

    def replay(self, rules: Path, records: list[str], report: Path) -> list[str]:
        """The lines of the report of some records."""
        run_replay(Replay(rules, self.trace(records, f"{report.name}.trace"), report))
        return report.read_text("latin-1").splitlines()

    def texts(self, rules: Path, records: list[str]) -> list[str]:
        """What a replay of its own answers to some records."""
        return [it.partition(" ")[2] for it in self.replay(rules, records, self.folder / "asked")[:-1]]

    def fates(self, rules: Path, trace: Path, lines: list[str], users: list[str]) -> list[tuple[Key, int, str]]:
        """Each connection, the row of its first packet, and its fate."""
        found: list[tuple[Key, int, str]] = []
        named, told = networks(",".join(users)), flushes_of(show_rules(rules))
        side = side_of(
            "rules",
            iter(lines),
            named,
            lambda key, row, fate: found.append((key, row, fate)),
            flushes=told,
            holding=states_held(rules, trace, named, told, []),
        )
        follow(trace, [side], named)
        return sorted(found)


class Fates(FatesCase):
    """Fates of drawn connections."""

    def test_drawn(self) -> None:
        """Each fate is that of the slow reading, and the summary counts them."""
        first = int(os.environ.get("PFPLAN_SEED", "1"))
        seen: Counter[str] = Counter()
        count = int(os.environ.get("PFPLAN_DRAWN", "300"))
        for seed in range(first, first + count):
            with self.subTest(seed=seed):
                seen.update(self.check(seed))
        if count >= 300:
            self.assertEqual(
                {kind for kind, number in seen.items() if number > 9},
                {"served", "unanswered", "refused", "killed", "cut", "removed", "late"},
                seen,
            )

    def test_drawn_that_differed(self) -> None:
        """A kill between a cookie and the packet that brings it; a cookie of a connection that was let in elsewhere.
        While pf answers itself, a SYN that is blocked on its way out: the first there, or one behind another that
        passed."""
        for seed, fate in ((549, "removed"), (1947, "removed"), (701081, "refused"), (701501, "cut")):
            with self.subTest(seed=seed):
                self.assertIn(fate, self.check(seed))

    def test_a_port_of_udp_used_again(self) -> None:
        """After 4 minutes without a packet and without a state a packet begins another connection."""
        ends, back = "udp,198.51.100.1,5000,192.0.2.1,53,", "udp,192.0.2.1,53,198.51.100.1,5000,"
        other = "400,in,em0,udp,203.0.113.1,1,192.0.2.1,53,"
        for later, word, counted in ((239, "new @0", 1), (240, "new @0", 2), (300, "state @0", 1)):
            trace = self.trace([f"0,in,em0,{ends}", f"0,out,em0,{back}", f"{later},in,em0,{ends}", other])
            report = self.report(["new @0", "state @0", word, "new @0"])
            users = summarize(report, Wanted(trace, networks("198.51.100.0/24"))).users
            assert users is not None
            self.assertEqual((users.connections, users.outcomes["served"]), (counted, 1))
            self.assertEqual(users.outcomes["unanswered"], counted - 1)

    def check(self, seed: int) -> list[str]:
        """One ruleset with one trace. Answers the fates."""
        profile = Profile.OPENBSD if seed % 2 else Profile.OWN
        text, flushes, records, users = drawn(Drawer(seed), seed, profile)
        rules, trace, report = self.write("rules", text), self.trace(records), self.folder / "report"
        lines = self.replay(rules, records, report)
        reading = Reading(users, flushes, lambda some: self.texts(rules, some), profile is Profile.OPENBSD)
        wanted = reading.read(records, [it.partition(" ")[2] for it in lines[:-1]])
        found = self.fates(rules, trace, lines, users)
        named = networks(",".join(users))
        shown = "\n".join([text, *(f"{record}   {line}" for record, line in zip(records, lines, strict=False))])
        self.assertEqual(found, wanted, shown)
        counted = summarize(report, Wanted(trace, named, rules)).users
        assert counted is not None
        self.assertEqual(
            {kind: number for kind, number in counted.outcomes.items() if number},
            Counter(fate for _, _, fate in wanted),
            shown,
        )
        self.assertEqual(sum(it.connections for it in counted.refusals), counted.outcomes["refused"])
        measured = measure(rules, trace, named, 0)
        self.assertEqual(measured.outcomes, counted.outcomes, shown)
        return [fate for _, _, fate in wanted]


if __name__ == "__main__":
    unittest.main()
