"""Stories of sources and records: what is told of a replay, and when a packet would have been let in."""

import subprocess
import unittest
from pathlib import Path

from pfplan.common.limits import ADVICE
from pfplan.common.repository import program
from pfplan.pages.record_texts import WHY
from pfplan.tests.support import FolderCase, pfplan

RULES = """set limit states 3
set timeout { tcp.first 10, interval 1, adaptive.start 0, adaptive.end 0 }
table <bad> persist
block in quick from <bad>
pass in proto tcp to 192.0.2.1 port 80 keep state (max-src-conn 2, overload <bad> flush)
"""


def syn(second: int, source: str, port: int, flags: str = "S") -> str:
    """A packet to the server."""
    return f"{second},in,em0,tcp,{source},{port},192.0.2.1,80,{flags}"


def answer(second: int, source: str, port: int) -> str:
    """The server's answer to a SYN."""
    return f"{second},out,em0,tcp,192.0.2.1,80,{source},{port},SA"


class Stories(FolderCase):
    def explain(self, records: list[str], *words: object) -> str:
        rules, trace = self.write("rules", RULES), self.trace(records)
        report = self.folder / "report"
        report.write_bytes(subprocess.run([program(), "replay", rules, trace], capture_output=True, check=True).stdout)
        done = pfplan("explain", report, "--trace", trace, "--rules", rules, *words)
        self.assertEqual((done.status, done.err), (0, ""))
        return done.out

    def test_a_full_table(self) -> None:
        records = (
            [syn(5, "198.51.100.7", it) for it in (1, 2, 3)]
            + [syn(6, "198.51.100.8", 9)]
            + [syn(30, "198.51.100.9", 9)]
        )
        text = self.explain(records, "--row", 4)
        self.assertEqual(text.splitlines()[0], "row 4, second 6: in em0 tcp 198.51.100.8:9 to 192.0.2.1:80 flags S")
        self.assertIn("  drop:states: as many states are held as set limit states allows\n", text)
        self.assertIn("  the rules say set limit states 3\n", text)
        self.assertIn("  Held before row 4: 3 states,", text)
        self.assertIn("would have been let in at the end of second", text)
        late = int(text.split("the end of second ")[1].split(",")[0])
        # by hand: the same packet, put into the trace at the end of that second and of the one before
        for second, word in ((late - 1, "drop:states"), (late, "new")):
            probed = self.trace([*records[:4], syn(second, "198.51.100.8", 9)], "probed")
            lines = subprocess.run(
                [program(), "replay", self.folder / "rules", probed], capture_output=True, text=True, check=True
            ).stdout.splitlines()
            self.assertEqual(lines[4].split(" ")[1], word)

    def test_no_port_and_no_key(self) -> None:
        """A refusal by translation is told with what the rule translates, the ports that it has, and what helps."""
        ends = "203.0.113.5,53,"
        for clause, word, own in (
            ("port 50001", "drop:translate", "nat-to 192.0.2.1 port 50001, 1 port for each remote address and port"),
            ("static-port", "drop:state-insert", "nat-to 192.0.2.1 static-port"),
        ):
            rules = self.write("rules", f"set profile openbsd-7.4\npass out proto udp nat-to 192.0.2.1 {clause}\n")
            trace = self.trace([f"{it},out,em0,udp,10.0.0.{it},7000,{ends}" for it in (1, 2)])
            report = self.folder / "report"
            report.write_bytes(
                subprocess.run([program(), "replay", rules, trace], capture_output=True, check=True).stdout
            )
            done = pfplan("explain", report, "--trace", trace, "--rules", rules, "--row", 2)
            self.assertEqual((done.status, done.err), (0, ""))
            self.assertIn(f"  {word}: {WHY[word]}\n", done.out)
            self.assertIn(f"  the rule says {own}\n  {ADVICE[word]}\n", done.out)
            self.assertIn("  Held before row 2: 1 state, ", done.out)
            told = pfplan("summary", report, "--trace", trace, "--rules", rules).out
            self.assertIn(f"    @0 {own}: 1\n    {ADVICE[word]}\n", told)

    def test_a_kill(self) -> None:
        source = "203.0.113.5"
        records = [
            it
            for port in (1, 2, 3)
            for it in (syn(1, source, port), answer(1, source, port), syn(1, source, port, "A"))
        ]
        records += [syn(2, source, 1, "PA"), syn(3, source, 4)]
        text = self.explain(records, "--source", source)
        self.assertEqual(text.splitlines()[0], f"{source}: 8 packets, seconds 1 to 3")
        self.assertIn("and 3 states made", text)
        self.assertIn("  kill:max-src-conn: the handshake took the source past max-src-conn\n", text)
        self.assertIn("  3 states killed with it; the source was put into the rule's overload table\n", text)
        self.assertIn("  the rule says max-src-conn 2\n", text)
        self.assertIn("seconds 2 to 3: 2 packets", text)
        self.assertIn("It belonged to no state that was held then", text)
        self.assertIn("The packet of row 11 is not let in at the end of any later second, up to 3603.", text)

    def test_entries_by_records(self) -> None:
        """Tables that get their entries by records have them when the program is asked anew."""
        conf, shown = self.write("pf.conf", RULES), self.write("shown", "198.51.100.7\n203.0.113.0/24\n")
        trace = self.trace(
            [
                syn(3, "198.51.100.7", 1),
                syn(4, "198.51.100.8", 1),
                syn(5, "198.51.100.7", 2),
                "7,delete,bad,,198.51.100.7,,,,",
            ]
        )
        into = self.folder / "answer"
        self.assertEqual(pfplan("run", conf, trace, "--entries", f"bad={shown}", "--into", into).status, 0)
        text = pfplan("explain", into / "report", "--trace", trace, "--rules", into / "rules", "--row", 3).out
        self.assertIn(
            "  Held before row 3: 1 state, 0 source nodes, 2 table entries",
            text.replace("1 source node", "0 source nodes"),
        )
        self.assertIn("would have been let in at the end of second 7", text)

    def test_lines_of_the_pf_conf(self) -> None:
        conf = self.write("pf.conf", "# limits\n" + RULES)
        trace = self.trace([syn(5, "198.51.100.7", it) for it in (1, 2, 3, 4)])
        into = self.folder / "answer"
        self.assertEqual(pfplan("run", conf, trace, "--into", into).status, 0)
        words = ("explain", into / "report", "--trace", trace, "--row")
        text = pfplan(*words, 1, "--rules", into / "rules").out
        self.assertIn("  by rule @1 (pf.conf:6), `pass in ", text)
        # another rules text in the folder is not that of the summary
        alone = self.write("alone", (into / "rules").read_text("utf-8"))
        self.assertIn("  by rule @1, `pass in ", pfplan(*words, 1, "--rules", alone).out)
        text = pfplan(*words, 4, "--rules", alone, "--conf", conf).out
        self.assertIn("  by rule @1 (pf.conf:6), `pass in ", text)
        self.assertIn("  the rules say set limit states 3 (pf.conf:2)\n", text)
        other = self.write("other.conf", RULES.replace("states 3", "states 4"))
        done = pfplan(*words, 4, "--rules", alone, "--conf", other)
        self.assertEqual(done.status, 3)
        self.assertIn(f"{other}: by these words it makes other rules than {alone}", done.err)
        (into / "rules").write_text((into / "rules").read_text("utf-8").replace("max-src-conn 2", "max-src-conn 9"))
        self.assertIn("  by rule @1, `pass in ", pfplan(*words, 1, "--rules", into / "rules").out)

    def test_let_in(self) -> None:
        text = self.explain([syn(1, "198.51.100.7", 1)], "--row", 1)
        self.assertIn("  new: the rule lets it through, and a state is made\n", text)
        self.assertNotIn("Held before", text)

    def test_nothing_to_tell(self) -> None:
        self.explain([syn(1, "198.51.100.7", 1)], "--row", 1)
        files = self.folder / "report", "--trace", self.folder / "trace", "--rules", self.folder / "rules"
        for words, status, said in (
            (("--row", 2), 1, "row 2: the trace has 1 record"),
            (("--source", "192.0.2.99"), 1, "no record has the source 192.0.2.99"),
            (("--source", "x"), 2, "'x' is no address"),
            ((), 2, "one of the arguments --source --row is required"),
        ):
            done = pfplan("explain", *files, *words)
            self.assertEqual(done.status, status)
            self.assertIn(said, done.err)

    def test_another_trace(self) -> None:
        self.explain([syn(1, "198.51.100.7", 1)], "--row", 1)
        other: Path = self.trace([syn(1, "198.51.100.7", 1), syn(2, "198.51.100.7", 2)], "other")
        done = pfplan("explain", self.folder / "report", "--trace", other, "--rules", self.folder / "rules", "--row", 2)
        self.assertEqual(done.status, 1)
        self.assertIn("it is not the report of", done.err)


if __name__ == "__main__":
    unittest.main()
