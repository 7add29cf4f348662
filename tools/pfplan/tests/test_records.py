"""An administrator's records: what a report says of those that take out states, and files of records that come into a
trace or into a play.
"""

import contextlib
import json
import unittest
from collections.abc import Iterator
from pathlib import Path
from unittest import mock

from pfplan.answers.summaries import Wanted, summarize
from pfplan.commands.words import networks
from pfplan.common.errors import Trouble
from pfplan.common.inputs import HEADER
from pfplan.common.networks import is_within, network_of
from pfplan.pages.summary_texts import text_of
from pfplan.pf import conversion
from pfplan.pf.reading_canonical_text import tables_in
from pfplan.plays.playing import Task, play
from pfplan.plays.staging import Play
from pfplan.replays.runs import Replay, run_replay
from pfplan.tests.playing import ONE, Scripted, lets_in, scenario
from pfplan.tests.support import Done, FolderCase, pfplan
from pfplan.traces import insertions
from pfplan.traces.insertions import merged
from pfplan.traces.orders import Effects, Orders, read_orders
from pfplan.traces.records import Answer, read_answer, read_record

RULES = "table <bad> persist\nblock in quick from <bad>\nblock in\npass in proto tcp to any port 80 keep state\n"
USERS = "198.51.100.0/24"
SCENARIO = """seconds = 30
server = "192.0.2.1:80"
[group.users]
kind = "visits"
from = "198.51.100.0/29"
hosts = 4
people = 4
requests = 9
stay = 20
end = 5
"""


def session(moment: int, host: int, port: int = 1000, count: int = 1) -> list[str]:
    """A connection of a host: its handshake, and so many packets, one each 10 seconds."""
    there, back = f"198.51.100.{host},{port},192.0.2.1,80", f"192.0.2.1,80,198.51.100.{host},{port}"
    found = [f"{moment},in,em0,tcp,{there},S", f"{moment},out,em0,tcp,{back},SA", f"{moment},in,em0,tcp,{there},A"]
    return found + [f"{moment + 10 * it},in,em0,tcp,{there},PA" for it in range(1, count + 1)]


def in_order(*several: list[str]) -> list[str]:
    """The records of some sessions in the order of their moments."""
    return sorted((it for one in several for it in one), key=lambda it: int(it.partition(",")[0]))


class Reading(unittest.TestCase):
    """One record, and one line."""

    def test_lines(self) -> None:
        """The line of a record `kill` says how many states are gone; nothing else is one."""
        self.assertEqual(read_answer("7 kill - killed=12"), Answer(7, "kill", "-", killed=12))
        for line in ("7 kill - removed=1", "7 kill -", "7 kill @0 killed=1", "7 kill - killed=", "7 kill - killed=1 x"):
            with self.assertRaises(ValueError):
                read_answer(line)

    def test_records(self) -> None:
        """Its networks stand in the columns of source and target."""
        found = read_record("9,kill,,,198.51.100.0/24,,192.0.2.1,,")
        self.assertEqual((found.direction, found.source, found.target), ("kill", "198.51.100.0/24", "192.0.2.1"))

    def test_networks(self) -> None:
        """Bits behind the length don't count, and no network is within one of the other family."""
        self.assertEqual(str(network_of("198.51.100.7/24")), "198.51.100.0/24")
        self.assertTrue(is_within(network_of("198.51.100.7"), networks("2001:db8::/32,198.51.100.0/24")))
        self.assertFalse(is_within(network_of("0.0.0.0/0"), networks("::/0,198.51.100.0/24")))
        self.assertTrue(is_within(network_of("2001:db8::1"), networks("2001:db8::/32")))

    def test_tables(self) -> None:
        """The tables of a text are those that it names anywhere; `const` is a word before the entries."""
        lines = ["# table <no>", "table <a> const { 192.0.2.1 }", "table <b> { 192.0.2.2 }", "pass from <c> to !<a>"]
        self.assertEqual(tables_in(lines), {"a": True, "b": False, "c": False})

    def test_effects(self) -> None:
        """What records did is counted by their lines."""
        effects = Effects()
        effects.take(["add - added", "add - held", "add - full", "kill - killed=3", "expire - removed=4"])
        effects.take(["delete - removed=1", "held - states=1 nodes=2 entries=3", "kill - killed=1"])
        self.assertEqual(
            effects.to_json(),
            {
                "records": 8, "entries_added": 1, "entries_not_added": {"held": 1, "full": 1}, "entries_removed": 5,
                "states_removed": 4,
            },
        )  # fmt: skip


class Killed(FolderCase):
    """What an administrator's kill does to connections of users."""

    def outcomes(self, records: list[str], has_rules: bool = True, text: str = RULES) -> dict[str, int]:
        """The outcomes that a summary tells, those that some connection has."""
        rules, trace, report = self.write("rules", text), self.trace(records), self.folder / "report"
        run_replay(Replay(rules, trace, report))
        self.summary = summarize(report, Wanted(trace, networks(USERS), rules if has_rules else None))
        assert self.summary.users is not None
        return {kind: count for kind, count in self.summary.users.outcomes.items() if count}

    def test_removed(self) -> None:
        """A connection whose state is taken out is told apart from those that limits kill; who is meant by source and
        destination loses it, and nobody else."""
        sessions = in_order(session(0, 1, count=3), session(0, 2, count=3))
        for ends, wanted in (
            ("198.51.100.1,,", {"removed": 1, "served": 1}),
            ("198.51.100.1,,192.0.2.0/24", {"removed": 1, "served": 1}),
            ("198.51.100.0/24,,", {"removed": 2}),
            ("198.51.100.0/24,,192.0.2.2", {"served": 2}),
            ("192.0.2.1,,", {"served": 2}),
        ):
            for has_rules in (True, False):
                records = in_order(sessions, [f"15,kill,,,{ends},,"])
                self.assertEqual(self.outcomes(records, has_rules), wanted, ends)
                self.assertEqual(self.summary.removed, wanted.get("removed", 0))
                self.assertEqual(self.summary.to_json()["states_removed"], wanted.get("removed", 0))
                self.assertEqual("removed" in text_of(self.summary), "removed" in wanted)

    def test_both_interfaces(self) -> None:
        """With routes a connection has two states, of which either is taken out by who made it."""
        head = "set profile openbsd-7.4\nset route { 0.0.0.0/0 em0, 192.0.2.0/24 em1 }\n"
        text = f"{head}block\npass in on em0 proto tcp to port 80\npass out on em1 proto tcp\n"
        records = in_order(session(0, 1, count=3), session(0, 2, count=3), ["15,kill,,,198.51.100.1,,192.0.2.1,,"])
        self.assertEqual(self.outcomes(records, text=text), {"removed": 1, "served": 1})
        self.assertEqual(self.summary.removed, 2)

    def test_told(self) -> None:
        """The text tells how many states were taken out, and who lost them; networks of records are no sources."""
        self.outcomes(in_order(session(0, 1, count=3), ["15,kill,,,198.51.100.1,,,,"]))
        text = text_of(self.summary)
        self.assertIn("an administrator took out 1 state, by 1 record (kill)\n", text)
        self.assertIn("  removed             1     100 %   their state taken out by an administrator\n", text)
        self.assertEqual([it.address for it in self.summary.sources.seen if "/" in it.address], [])
        self.assertEqual(self.summary.limits, [])

    def test_run_out(self) -> None:
        """Whose state had run out before lost it by that, and not by the administrator; of those whose source is no
        user the program is asked."""
        kill = ["100001,kill,,,0.0.0.0/0,,192.0.2.1,,"]
        records = [*session(0, 1), *session(100_000, 2, count=0), *session(100_000, 3, count=0), *kill]
        others = [it.replace("198.51.100.3", "203.0.113.3") for it in records]
        last = ["100002,in,em0,tcp,198.51.100.1,1000,192.0.2.1,80,PA"]
        self.assertEqual(self.outcomes(records + last), {"cut": 1, "removed": 2})
        self.assertEqual(self.outcomes(others + last), {"cut": 1, "removed": 1})

    def test_tried_again(self) -> None:
        """A SYN that is repeated after it belongs to its connection; one of a connection that was served begins
        another."""
        syn = session(0, 1)[0]
        again = [it.replace("0,", "5,", 1) for it in session(0, 1)]
        self.assertEqual(self.outcomes([syn, "1,kill,,,198.51.100.1,,,,", *again]), {"served": 1})
        self.assertEqual(self.outcomes([*session(0, 1, 1000, 0), "1,kill,,,198.51.100.1,,,,", *again]),
                         {"removed": 1, "served": 1})  # fmt: skip

    def test_explained(self) -> None:
        """The story of a source has the kills that were of it, and of no packet."""
        records = in_order(session(0, 1, count=3), session(0, 2), ["15,kill,,,198.51.100.0/30,,,,"])
        self.outcomes(records)
        words = ("explain", self.folder / "report", "--trace", self.folder / "trace", "--rules", self.folder / "rules")
        text = pfplan(*words, "--source", "198.51.100.1").out
        self.assertIn("198.51.100.1: 5 packets, ", text)
        self.assertIn("1 record, the first in row 9: kill the states made by 198.51.100.0/30\n", text)
        self.assertIn("  kill: an administrator takes out states\n  2 states taken out with it\n", text)
        self.assertNotIn("tried", pfplan(*words, "--row", 9).out)
        self.assertEqual(json.loads(pfplan(*words, "--row", 9, "--json").out)["states_removed"], 2)


class Files(FolderCase):
    """Files of records, and what is refused."""

    def refused(self, *words: object) -> str:
        """What is said of a command that ends with status 1."""
        done = pfplan(*words)
        self.assertEqual((done.status, done.out), (1, ""), done.err)
        return done.err

    def test_refused(self) -> None:
        """What is no file of such records is told with its row, and nothing runs; so are tables, by their ruleset."""
        one = self.write("one", "set profile openbsd-7.4\n" + RULES)
        other = self.write("other", "table <good> const { 192.0.2.9 }\npass from { <good> }\n")
        trace = self.trace(session(0, 1))
        toml = self.write("scenario.toml", SCENARIO)
        wrong: list[tuple[list[str], str]] = [
            (["0,kill,,,198.51.100.1,,,,", *session(0, 1)], "row 2: a packet, where records of an administrator"),
            (["5,kill,,,198.51.100.1,,,,", "4,held,,,,,,,"], "row 2: the moment falls"),
            (["5,kill,,,198.51.100.1,,,,", "6,kill,,,198.51.100.1,,0,,"], "row 2: field 7"),
            (["5,add,bad,,198.51.100.1,,,,", "5,kill,,,,,,,"], "row 2: field 5"),
            (["5,add,bad,,198.51.100.1,,"], "row 1: not nine columns"),
            ([], "no record is in it"),
            (["5,held,,,,,,,", "5,add,bad,,198.51.100.1,,,,"], "row 2: other has no table <bad>"),
            (["5,expire,good,,,7,,,"], "row 1: one has no table <good>"),
        ]
        for rows, why in wrong:
            records = self.trace(rows, "records")
            for last in (trace, toml):
                err = self.refused("compare", one, other, last, "--records", records)
                self.assertIn(f"pfplan compare: {records}: {why}", err)
            words = ("play", one, other, toml, "--into", self.folder / "played", "--records", records)
            self.assertIn(f"pfplan play: {records}: {why}", self.refused(*words))
        self.assertFalse((self.folder / "played").exists())
        records = self.trace(["5,delete,good,,192.0.2.9,,,,"], "records")
        err = self.refused("compare", other, other, trace, "--records", records)
        self.assertIn("row 1: table <good> of ", err)
        self.assertIn("is const: no record changes it", err)
        self.assertIn("no header of a trace", self.refused("compare", one, one, trace, "--records", one))

    def test_merged(self) -> None:
        """Records come behind those of their moment, in their order, before the first and behind the last; rows and
        names in what is told are those of the trace."""
        records = ["2,a", "2,b", "5,c", "5,d", "9,e"]
        orders = ["0,v", "2,w", "2,x", "7,y", "12,z"]
        wanted = ["0,v", "2,a", "2,b", "2,w", "2,x", "5,c", "5,d", "7,y", "9,e", "12,z"]
        plain = self.trace(records)
        odd = self.write("odd", plain.read_text().replace("\n", "\n\n", 3)[:-1])
        for trace in (plain, odd):
            for size in (10, 1 << 20):
                with mock.patch.object(insertions, "_BLOCK", size), merged(trace, orders) as (copy, rows):
                    self.assertEqual(copy.read_text().splitlines(), [HEADER, *wanted])
                    own = [None, 1, 2, None, None, 3, 4, None, 5, None]
                    self.assertEqual([rows.own(it) for it in range(1, 11)], own)
        with self.assertRaises(Trouble) as raised:
            with merged(plain, orders) as (copy, _):
                raise Trouble(f"{copy}: row 7: time falls")
        self.assertEqual(raised.exception.message, f"{plain}: row 4: time falls")
        self.assertFalse(copy.exists())

    def test_told(self) -> None:
        """How many records there are, and of which words; a moment outside of all packets is a doubt."""
        rows = ["5,add,bad,,198.51.100.1,,,,", "5,kill,,,198.51.100.1,,,,", "90,kill,,,198.51.100.0/24,,,,"]
        found = read_orders(self.trace(rows, "kills"), Path("kills"))
        self.assertEqual(found, Orders(Path("kills"), tuple(rows), (5, 5, 90), {"bad": 1}))
        self.assertEqual(found.told(), "3 records of an administrator from kills (1 add, 2 kill)")
        self.assertEqual(
            found.doubts(6, 89, "the trace"),
            [
                "kills: 2 records come before the first moment of the trace, 6",
                "kills: 1 record comes behind the last moment of the trace, 89",
            ],
        )
        self.assertEqual(found.doubts(5, 90, "the trace"), [])

    def test_const(self) -> None:
        """A table that is const in the pf.conf is refused though its entries come by records, where the text has it
        without that word."""
        entries = ", ".join(f"198.51.100.{it}" for it in range(100))
        text = f"table <c> const {{ {entries} }}\ntable <d> {{ 192.0.2.3 }}\npass from <c> to <d>\n"
        for most, loosened in ((500, {"c"}), (1 << 20, set[str]())):
            with mock.patch.object(conversion, "MOST_BYTES", most):
                made = conversion.convert_text(text, "pf.conf", conversion.RuleOptions(by_records=True))
            self.assertEqual((made.loosened, bool(made.records)), (loosened, bool(loosened)))
            self.assertEqual(made.tables, {"c": True, "d": False})


class Compared(FolderCase):
    """Rulesets under a trace with records."""

    def setUp(self) -> None:
        super().setUp()
        self.rules = self.write("one", "set profile openbsd-7.4\n" + RULES)
        self.other = self.write("other", self.rules.read_text().replace("keep state", "keep state (max 1)"))
        self.packets = in_order(*(session(at, host, 1000 + at, 3) for at in (0, 12, 30) for host in (1, 2)))
        self.records = self.trace(["20,add,bad,,198.51.100.2,,,,", "20,kill,,,198.51.100.2,,192.0.2.0/24,,"], "records")

    def compared(self, *words: object) -> Done:
        """Both rulesets under the trace."""
        trace = self.trace(self.packets)
        done = pfplan("compare", self.rules, self.other, trace, "--users", USERS, *words)
        self.assertEqual(done.status, 0, done.err)
        return done

    def test_numbers(self) -> None:
        """The numbers are those of a trace in which the records stand, and rows are those of the trace itself."""
        found = json.loads(self.compared("--records", self.records, "--json").out)
        whole = self.packets.copy()
        at = sum(int(it.partition(",")[0]) <= 20 for it in whole)
        own = dict(enumerate([*range(1, at + 1), 0, 0, *range(at + 1, len(whole) + 1)], 1))
        self.packets[at:at] = self.records.read_text().splitlines()[1:]
        wanted = json.loads(self.compared("--json").out)
        sides = [it.pop("administrator") for it in found["sides"]]
        self.assertEqual(found["sides"], wanted["sides"])
        self.assertEqual([it["states_removed"] for it in sides], [2, 0])
        self.assertEqual([it["entries_added"] for it in sides], [1, 1])
        one, other = found["against_first"][0], wanted["against_first"][0]
        self.assertEqual(one["fates"], other["fates"])
        self.assertEqual(one["parting"]["row"], own[other["parting"]["row"]])
        self.assertEqual([it["row"] for it in one["changed"]], [own[it["row"]] for it in other["changed"]])
        self.assertEqual(sum(it[2] for it in one["words"]), len(whole))
        self.assertEqual(found["doubts"], [])

    def test_text(self) -> None:
        """The text and the page tell how many records came in, and what they did."""
        page = self.folder / "page.html"
        text = self.compared("--records", self.records, "--page", page).out
        self.assertIn("36 records, and 2 records of an administrator from records (1 add, 1 kill); users", text)
        for name, one, other in (
            ("states taken out by an administrator", "2", "0"), ("entries added by an administrator", "1", "1"),
        ):  # fmt: skip
            self.assertRegex(text, rf"{name} +{one} +{other}\n")
        self.assertIn("2 records of an administrator from records", page.read_text())
        self.assertIn("removed", page.read_text())
        self.assertNotIn("administrator", self.compared().out)

    def test_what_is_held(self) -> None:
        """With questions how much is held, and entries that come before all, each has its own."""
        found = json.loads(self.compared("--records", self.records, "--held", 5, "--json").out)
        self.assertEqual([it["administrator"]["records"] for it in found["sides"]], [2, 2])
        self.assertLess(found["sides"][0]["most_held"], 6)

    def test_doubts(self) -> None:
        """Records before or behind all packets are a doubt, and a fault of the trace is told by its own row."""
        self.trace(["2000,kill,,,198.51.100.2,,,,"], "records")
        doubts = json.loads(self.compared("--records", self.records, "--json").out)["doubts"]
        self.assertEqual(doubts, ["records: 1 record comes behind the last moment of the trace, 60"])
        trace = self.trace([*self.packets, "1,held,,,,,,,"])
        self.trace(["2,kill,,,198.51.100.2,,,,"], "records")
        done = pfplan("compare", self.rules, self.other, trace, "--records", self.records)
        self.assertEqual((done.status, done.out), (1, ""))
        self.assertIn(f"{trace}: row {len(self.packets) + 1}: time falls", done.err)


class Played(FolderCase):
    """Plays into which records come."""

    @contextlib.contextmanager
    def asked(self, orders: list[str]) -> Iterator[Scripted]:
        """What a firewall that lets all in is asked in a play of 10 seconds."""

        def says(record: str, before: int) -> str:
            return "kill - killed=2" if record.startswith("kill") else lets_in(record, before)

        firewall = Scripted(says)
        it = scenario({"one": {**ONE, "end": 3}})
        game = Play(it, firewall, {}, {})
        game.run(lambda second: None, (), orders)
        self.tally = game.tally
        yield firewall

    def test_moments(self) -> None:
        """Each comes behind the packets of its second, and before the question how much is held then; in seconds
        without packets too, and behind the end."""
        orders = ["0,kill,,,a,,,,", "0,kill,,,b,,,,", "7,kill,,,c,,,,", "99,kill,,,d,,,,"]
        with self.asked(orders) as firewall:
            asked = firewall.asked
        moments = [int(it.partition(",")[0]) for it in asked]
        self.assertEqual(moments, sorted(moments))
        self.assertEqual([it for it in asked if ",kill," in it], orders)
        self.assertEqual(asked[-1], orders[-1])
        for at, it in enumerate(asked):
            if ",kill," not in it and ",held," not in it:
                second = it.split(",")[0]
                self.assertFalse(any(other.startswith(f"{second},kill,") for other in asked[:at]))
        self.assertEqual((self.tally.effects.records, self.tally.effects.states_removed), (4, 8))

    def test_play(self) -> None:
        """The records are in the trace of a play, whose report a replay gives again; who loses the state is cut off,
        and with other seeds too."""
        rules = self.write("rules", "set profile openbsd-7.4\n" + RULES)
        toml = self.write("scenario.toml", SCENARIO)
        records = self.trace(
            ["10,add,bad,,198.51.100.0/29,,,,", "10,kill,,,198.51.100.0/29,,,,", "500,held,,,,,,,"], "records"
        )
        into = self.folder / "played"
        done = pfplan("play", rules, toml, "--into", into, "--records", records, "--seeds", 2)
        self.assertEqual(done.status, 0, done.err)
        self.assertIn("in doubt: records: 1 record comes behind the last moment of the scenario, 29\n", done.out)
        folder = into / "rules"
        trace = (folder / "trace.csv").read_text().splitlines()
        self.assertEqual([it for it in trace if ",kill," in it or ",add," in it or it.startswith("500,")],
                         records.read_text().splitlines()[1:])  # fmt: skip
        run_replay(Replay(folder / "rules", folder / "trace.csv", self.folder / "again"))
        self.assertEqual((self.folder / "again").read_text(), (folder / "report").read_text())
        found = json.loads((folder / "summary.json").read_text())
        self.assertEqual(found["administrator"]["states_removed"], 4)
        self.assertEqual(found["groups"][0]["killed"], 4)
        text = (into / "summary.txt").read_text()
        self.assertIn(" with 3 records of an administrator from records (1 add, 1 kill, 1 held);", text)
        self.assertRegex(text, r"states taken out by an administrator +4\n")

    def test_compared(self) -> None:
        """`compare` with a scenario gives each ruleset the records."""
        rules = self.write("rules", "set profile openbsd-7.4\n" + RULES)
        toml, records = self.write("scenario.toml", SCENARIO), self.trace(["10,kill,,,198.51.100.0/24,,,,"], "records")
        done = pfplan("compare", rules, rules, toml, "--records", records, "--json")
        self.assertEqual(done.status, 0, done.err)
        sides = json.loads(done.out)["sides"]
        self.assertEqual([it["administrator"]["states_removed"] for it in sides], [4, 4])
        self.assertNotIn("administrator", json.loads(pfplan("compare", rules, rules, toml, "--json").out)["sides"][0])

    def test_task(self) -> None:
        """A play without records has none of their effects."""
        rules = self.write("rules", "pass\n")
        found = play(Task(scenario({"one": ONE}), rules, {}))
        self.assertEqual(found.tally.effects, Effects())


if __name__ == "__main__":
    unittest.main()
