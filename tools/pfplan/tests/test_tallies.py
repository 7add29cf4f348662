"""A replay that is counted by blocks of text has the counts of one that is counted line by line."""

import unittest
from collections.abc import Iterator
from contextlib import ExitStack, contextmanager
from pathlib import Path
from typing import Any
from unittest import mock

from pfplan.answers import measures, tallies
from pfplan.answers.changed_rules import RulesText
from pfplan.answers.margins import is_alike, moves_of
from pfplan.answers.sides import Side, follow, side_of
from pfplan.answers.tallies import tally, trace_texts
from pfplan.commands.words import networks
from pfplan.common.errors import Trouble
from pfplan.common.networks import Network
from pfplan.pf.reading_canonical_text import flushes_of, items_of
from pfplan.replays import runs
from pfplan.replays.runs import replayed, show_rules, stream_texts
from pfplan.tests.support import FolderCase
from pfplan.tests.test_insertions import RULES, drawn_records, with_kills
from pfplan.traces import records
from pfplan.traces.insertions import asking

ENTRIES = [f"0,add,bad,,203.0.113.{it},,,," for it in range(20, 60)]
USERS = ("198.51.100.0/24", "198.51.100.3", "0.0.0.0/0", "198.51.100.1,198.51.100.8,2001:db8::/32", "203.0.113.0/24")


@contextmanager
def blocks_of(size: int) -> Iterator[None]:
    """Blocks of so many bytes are read."""
    with ExitStack() as stack:
        for module in (measures, records, runs, tallies):
            stack.enter_context(mock.patch.object(module, "BLOCK", size))
        yield


def counts_of(side: Side) -> dict[str, Any]:
    """All that is counted of a side."""
    answers, connections = side.answers, side.connections
    by_rule = {word: dict(rules) for word, rules in answers.by_rule.items()}
    of_report = {"rows": answers.rows, "rules": by_rule, "limits": answers.limits, "end": answers.end, "met": side.met}
    of_users = {"outcomes": connections.outcomes, "by": connections.refused_by, "refusals": connections.refusals}
    others = (answers.overloads, connections.without_beginning, connections.begun_by_others)
    return of_report | of_users | {"others": others}


class Counts(FolderCase):
    """Both ways over the same traces."""

    def both(self, rules: Path, trace: Path, users: tuple[Network, ...], moments: int, entries: list[str]) -> list[Any]:
        """What each way counts, or what it says is wrong."""
        found: list[Any] = []
        flushes = flushes_of(items_of(show_rules(rules)))
        for is_by_text in (True, False):
            try:
                with asking(trace, moments, entries) as asked:
                    heard = asked.heard(rules)
                    if is_by_text:
                        lines, report = trace_texts(trace, asked.plain), stream_texts(rules, trace, asked, heard)
                        side = tally(trace, lines, report, users, flushes, asked.numbers, rules.name)
                    else:
                        with replayed(rules, trace, asked, heard) as several:
                            side = side_of(rules.name, several, users, flushes=flushes, numbers=asked.numbers)
                            follow(trace, [side], users)
                found.append((counts_of(side), heard.held))
            except Trouble as trouble:
                found.append(trouble.message)
        return found

    def test_drawn(self) -> None:
        """Of drawn traces, with and without records put in, in blocks of some lines and of all; also where many
        answers differ.
        """
        rules = self.write("rules", RULES)
        more = "".join(f"pass in proto udp from 198.51.100.{it} no state\n" for it in range(1, 10))
        many = self.write("many", more + RULES)
        for seed in range(24):
            records = drawn_records(seed, 5 if seed % 8 == 7 else 300)
            trace = self.trace(with_kills(records, seed) if seed % 2 else records)
            with self.subTest(seed), blocks_of((60, 700, 1 << 19)[seed % 3]):
                with mock.patch.object(tallies, "FEW_TEXTS", 2 if seed % 4 == 3 else 24):
                    users = networks(USERS[seed % len(USERS)])
                    moments, entries = 4 if seed % 5 else 0, ENTRIES if seed % 3 == 2 else []
                    one, other = self.both(many if seed % 2 else rules, trace, users, moments, entries)
                self.assertEqual(one, other)
                self.assertIsInstance(one, tuple)

    def test_only_what_turns_is_counted(self) -> None:
        """A change that leaves all answers is replayed, and not counted; what comes of each is as of itself alone."""
        trace = self.trace(drawn_records(5, 400))
        more = ("", "set timeout tcp.established 86399\n", "set limit states 4\n", "", "block quick proto udp\n")
        texts = [RULES + it for it in more]
        paths = [self.write(f"rules-{at}", text) for at, text in enumerate(texts)]
        users = networks(USERS[0])
        for size in (60, 700, 1 << 19):
            for moments in (0, 3):
                with blocks_of(size), asking(trace, moments, ()) as asked:
                    alone = [measures.measure(it, trace, users, moments) for it in paths]
                    with measures.Measurer(trace, users, asked) as measurer:
                        with mock.patch.object(measures, "tally", wraps=tally) as counted:
                            self.assertEqual([measurer.measure(it) for it in paths], alone)
                    self.assertEqual(counted.call_count, 3)

    def test_the_first_counts_for_all(self) -> None:
        """Of several that measure over one trace with a folder the first keeps its report there; the answers are those
        of each alone."""
        trace = self.trace(drawn_records(7, 400))
        more = ("", "set timeout tcp.established 86399\n", "set limit states 2\n", "set limit states\n")
        paths = [self.write(f"rules-{at}", RULES + it) for at, it in enumerate(more)]
        users = networks(USERS[0])
        alone = [measures.measure(it, trace, users, 0) for it in paths]
        for at, order in enumerate((paths, paths[::-1])):
            kept = self.folder / f"kept-{at}"
            kept.mkdir()
            found: list[measures.Measure] = []
            with asking(trace, 0, ()) as asked, mock.patch.object(measures, "tally", wraps=tally) as counted:
                for it in order:
                    with measures.Measurer(trace, users, asked, (), kept) as measurer:
                        found.append(measurer.measure(it))
            self.assertEqual(found, alone if at == 0 else alone[::-1])
            # the one that leaves all answers is not counted; after a first that is refused each counts itself
            self.assertEqual(counted.call_count, 2 if at == 0 else 3)

    def test_what_is_known_to_be_alike(self) -> None:
        """A change that `margins` does not replay has the measure of the rules as they are."""
        known = set[str]()
        for seed in range(12):
            records = [it for it in drawn_records(seed, 300) if seed % 3 or it.split(",")[1] in ("in", "out")]
            trace = self.trace(records)
            limits = f"set limit {{ states {(4, 1000)[seed % 2]}, src-nodes {(3, 40)[seed % 3 > 0]} }}\n"
            profile = "set profile openbsd-7.4\n" if seed % 2 else ""
            text = RULES if seed % 4 else "table <bad> { 203.0.113.0/24 }\nblock in quick from <bad>\npass keep state\n"
            rules = RulesText(self.write("rules", text + limits + profile))
            users = networks(USERS[0])
            base = measures.measure(rules.path, trace, users, 3)
            for move in moves_of(rules, {"tcp", "udp"}):
                if is_alike(move, base, rules.items()):
                    changed = self.write("changed", rules.changed(move.values).decode("latin-1"))
                    self.assertEqual(measures.measure(changed, trace, users, 3), base, (seed, move))
                    known.update(it.name for it in move.values)
        self.assertLessEqual({"table-entries", "src-nodes", "max-src-conn"}, known)

    def test_odd_traces(self) -> None:
        """Other line ends, blank lines and no last line end are read alike; a quote, a fault and no records are told
        alike.
        """
        rules, lines = self.write("rules", RULES), drawn_records(1, 80)
        plain = self.trace(lines).read_text()
        header = plain.splitlines()[0]
        ends = [plain.replace("\n", "\r\n"), plain.replace("\n", "\n\n", 30), plain[:-1], header, f"{header}\n"]
        faults = [plain.replace("em0", '"em0"', 40), plain.replace(",53,", ",x,"), plain.replace(",in,", ",", 7)]
        for text in (*ends, "\xef\xbb\xbf" + plain, *faults):
            for size in (90, 1 << 19):
                with blocks_of(size):
                    one, other = self.both(rules, self.write("odd", text), networks(USERS[0]), 3, [])
                self.assertEqual(one, other)

    def test_reports_of_others(self) -> None:
        """A report that is cut, or has more rows than the trace, is refused."""
        rules, trace = self.write("rules", RULES), self.trace(drawn_records(2, 5))
        whole = list(stream_texts(rules, trace))
        lines = "".join(whole).splitlines(keepends=True)
        for texts, why in (
            ([*lines[:3], *lines[5:]], "row 4: the trace has more records than the report"),
            (lines[:-1], "no end line"),
            ([*lines[:4], "9 new @0\n", lines[5]], "row 1 is wanted, and those that follow it"),
            ([*lines[:5], "6 new @0\n", lines[5]], "row 6: the report of rules has more rows than the trace has"),
        ):
            with self.assertRaises(Trouble) as raised:
                tally(trace, trace_texts(trace), (it for it in texts), networks(USERS[0]), None, None, "rules")
            self.assertIn(why, raised.exception.message)


if __name__ == "__main__":
    unittest.main()
