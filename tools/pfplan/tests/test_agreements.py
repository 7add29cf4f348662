"""The command `agree`: logs that are written from reports, with and without differences."""

import json
import unittest
from dataclasses import replace
from pathlib import Path
from typing import Any

from pfplan.answers import explaining, judging
from pfplan.answers.hiding import Hider
from pfplan.common.errors import Status
from pfplan.common.repository import DIFFERENCES, TOP
from pfplan.pages.differences import explanation
from pfplan.pf.numbers_of_pf import PfRule, RuleNumber
from pfplan.pf.profiles import Profile
from pfplan.pf.statements import SourceLine
from pfplan.tests.logs import BLOCK, MATCH, PASS, REASONS, Packets, log_of, repeated, reported, with_log
from pfplan.tests.packets import NONE, Logged, ethernet_capture, log_capture
from pfplan.tests.support import Done, FolderCase, pfplan
from pfplan.traces.pf_answers import LIMITS, Packet, PfAnswer
from pfplan.traces.records import Answer, Record, read_answer

EXAMPLES = ("expired-state", "ipv6-flood", "rate-memory", "source-limits", "syn-flood", "udp-flood")
CONF = """
set limit states 6
table <bad> persist { 203.0.113.66 }
match in all scrub (no-df)
block log all
block in log quick from <bad>
anchor "web" in on em0 proto tcp to port 80 {
    pass log (all) keep state (max 3)
    anchor {
        block log quick from 203.0.113.77
    }
}
pass in log (all) on em0 proto udp to port { 53 123 } keep state (source-track rule, max-src-states 2, max-src-nodes 9)
pass in log on em0 proto tcp to port 22 keep state
pass in on em0 proto tcp to port 25
"""


def tcp(time: int, source: str, port: int, target_port: int = 80, flags: str = "S") -> str:
    """A packet in, of TCP."""
    return f"{time},in,em0,tcp,{source},{port},192.0.2.1,{target_port},{flags}"


def back(time: int, target: str, port: int, source_port: int = 80, flags: str = "SA") -> str:
    """A packet out, of TCP."""
    return f"{time},out,em0,tcp,192.0.2.1,{source_port},{target},{port},{flags}"


def udp(time: int, source: str, port: int, target_port: int = 53) -> str:
    """A packet in, of UDP."""
    return f"{time},in,em0,udp,{source},{port},192.0.2.1,{target_port},"


TRACE = (
    # 1 to 3: a state of the anchor
    tcp(1, "203.0.113.1", 4001), back(1, "203.0.113.1", 4001), tcp(1, "203.0.113.1", 4001, flags="A"),
    # 4 to 6: blocked by three rules
    tcp(2, "203.0.113.66", 4002), tcp(2, "203.0.113.77", 4003), tcp(2, "203.0.113.2", 4004, 443),
    # 7 to 10: the third by `max-src-states`
    udp(3, "203.0.113.3", 5001), udp(3, "203.0.113.3", 5002), udp(3, "203.0.113.3", 5003),
    udp(3, "203.0.113.3", 5004, 123),
    # 11 to 13: the last by `max`
    tcp(4, "203.0.113.4", 4005), tcp(4, "203.0.113.5", 4006), tcp(4, "203.0.113.6", 4007),
    udp(5, "203.0.113.7", 5005), udp(5, "203.0.113.8", 5006),  # 14 and 15: `set limit states`
    "6,in,em0,icmp,203.0.113.9,,192.0.2.1,,",  # 16
)  # fmt: skip
WORDS = ("new", "state", "state", "block", "block", "block", "new", "new", "drop:max-src-states", "new", "new", "new",
         "drop:max", "drop:states", "drop:states", "skip")  # fmt: skip


def plain(line: str) -> str:
    """A line of the document, as JSON has it."""
    return line.replace("`", "")


class Agreeing(FolderCase):
    """Calls of `agree` in a folder, and what it counts."""

    def agree(self, conf: Path, packets: Packets, *words: object) -> tuple[dict[str, Any], Done]:
        """Calls it over a log of some packets; what it counted, and what it printed."""
        log = self.folder / "pflog"
        log.write_bytes(log_capture(packets))
        done = pfplan("agree", conf, log, "--into", self.folder / "answer", *words)
        self.assertEqual(done.status, 0, done.err)
        return json.loads((self.folder / "answer" / "agree.json").read_text("utf-8")), done

    def packets(self, conf: Path, trace: Path, *, whole: bool = True) -> Packets:
        """What a pf that says the same as pfsrc logs."""
        return log_of(*reported(self.folder, conf, trace), whole=whole)


class Agreements(Agreeing):
    def test_every_packet_of_the_examples_agrees(self) -> None:
        for name in EXAMPLES:
            with self.subTest(name):
                conf = self.write("pf.conf", with_log((TOP / "examples" / name / "pf.conf").read_text("utf-8")))
                packets = self.packets(conf, TOP / "examples" / name / "trace.csv")
                answer, done = self.agree(conf, packets)
                skipped = sum(it["packets"] for it in answer["judged"] if it["kind"] == judging.ICMP)
                self.assertEqual(
                    (answer["packets"], answer["agree"], answer["differ"], answer["apart"]),
                    (len(packets), len(packets) - skipped, 0, skipped),
                )
                self.assertTrue(done.out.startswith("pf and pfsrc agree on 100 % of the packets"), done.out)

    def test_each_word_agrees_with_its_reason(self) -> None:
        conf, trace = self.write("pf.conf", CONF), self.trace(TRACE)
        answered, rules = reported(self.folder, conf, trace)
        self.assertEqual(tuple(it.word for _, it in answered), WORDS)
        answer, _ = self.agree(conf, log_of(answered, rules))
        self.assertEqual((answer["agree"], answer["differ"], answer["apart"]), (15, 0, 1))
        pairs = {(it["pf"], it["pfsrc"]): it["packets"] for it in answer["judged"]}
        self.assertEqual(pairs[("src-limit", "drop:max-src-states")], 1)
        self.assertEqual(pairs[("state-limit", "drop:max")], 1)
        self.assertEqual(pairs[("memory", "drop:states")], 2)

    def test_translations_agree_with_their_reasons(self) -> None:
        """pf's `translate` is `drop:translate`, and its `state-insert` is `drop:state-insert`."""
        conf = self.write(
            "pf.conf",
            "pass out log on em0 proto udp from any nat-to 192.0.2.1 port 50001\n"
            "pass out log on em0 proto tcp from any nat-to 192.0.2.1 static-port\n",
        )
        trace = self.trace(
            [
                f"{second},out,em0,{protocol},{host},7000,203.0.113.5,53,{flags}"
                for second, protocol, host, flags in (
                    (1, "udp", "10.0.0.7", ""), (2, "udp", "10.0.0.8", ""),
                    (3, "tcp", "10.0.0.7", "S"), (4, "tcp", "10.0.0.8", "S"),
                )
            ]
        )  # fmt: skip
        answered, rules = reported(self.folder, conf, trace)
        words = ["new", "drop:translate", "new", "drop:state-insert"]
        self.assertEqual([it.word for _, it in answered], words)
        answer, _ = self.agree(conf, log_of(answered, rules))
        pairs = {(it["pf"], it["pfsrc"]): it["verdict"] for it in answer["judged"]}
        wanted = {("translate", words[1]): "agrees", ("state-insert", words[3]): "agrees", ("pass", "new"): "agrees"}
        self.assertEqual(pairs, wanted)

    def test_the_profile_is_named(self) -> None:
        conf, trace = self.write("pf.conf", CONF), self.trace(TRACE)
        packets = self.packets(conf, trace)
        words: dict[Profile, tuple[str, ...]] = {Profile.OPENBSD: (), Profile.OWN: ("--profile", "papers")}
        for profile in Profile:
            answer, done = self.agree(conf, packets, *words[profile])
            self.assertEqual(answer["profile"], profile.value)
            self.assertIn(profile.told(), done.out.splitlines())
            self.assertIn(profile.told(), (self.folder / "answer" / "report.html").read_text())

    def test_numbers_are_those_of_anchors(self) -> None:
        conf, trace = self.write("pf.conf", CONF), self.trace(TRACE)
        packets = self.packets(conf, trace)
        numbers = [(told.rule, told.anchor, told.subrule) for _, told in packets[:7]]
        web = (3, "web", 0)
        self.assertEqual(numbers, [web, web, web, (2, "", NONE), (1, "_2", 0), (1, "", NONE), (4, "", NONE)])

    def test_a_match_rule_logs_too(self) -> None:
        conf, trace = self.write("pf.conf", CONF), self.trace(TRACE)
        packets = repeated(self.packets(conf, trace), Logged(MATCH, 0))
        answer, done = self.agree(conf, packets)
        self.assertEqual((answer["rows"], answer["packets"], answer["agree"], answer["differ"]), (32, 16, 15, 0))
        self.assertIn("16 rows of packets that are logged again", done.out)

    def test_the_match_in_front_of_a_refusal_is_of_the_same_packet(self) -> None:
        conf, trace = self.write("pf.conf", CONF), self.trace(TRACE)
        packets = self.packets(conf, trace)
        refused = [(record, replace(told, reason=0)) for record, told in packets[12:13]]
        answer, _ = self.agree(conf, [*packets[:12], *refused, *packets[12:]])
        self.assertEqual((answer["rows"], answer["packets"], answer["agree"], answer["differ"]), (17, 16, 15, 0))

    def test_a_log_of_what_the_rules_log(self) -> None:
        """Without the packets of rule 25, and of states by rule 22 with the first alone."""
        ssh = [tcp(1, "203.0.113.1", 4001, 22), back(1, "203.0.113.1", 4001, 22), tcp(1, "203.0.113.1", 4001, 22, "A")]
        again = [tcp(9, "203.0.113.1", 4001, 22)]
        mail = [tcp(2, "203.0.113.2", 4002, 25), back(2, "203.0.113.2", 4002, 25)]
        conf, trace = self.write("pf.conf", CONF), self.trace([*ssh, *mail, tcp(3, "203.0.113.3", 4003, 443), *again])
        answered, rules = reported(self.folder, conf, trace)
        logged = log_of(answered[:-1], rules, whole=False)
        self.assertEqual([record.target_port for record, _ in logged], ["22", "443"])
        # pf's state had ended by packets that are not logged, so pf makes one; here it is still held
        answer, done = self.agree(conf, [*logged, (answered[-1][0], logged[0][1])])
        self.assertEqual((answer["agree"], answer["differ"], answer["apart"]), (2, 0, 1))
        self.assertEqual([it["kind"] for it in answer["judged"] if it["verdict"] == "apart"], [judging.WITHOUT_ALL])
        self.assertEqual((answer["rules_without_log"], answer["rules_without_all"]), ([9], [8]))
        # a source that pf has in a table by what is not logged
        answer, _ = self.agree(conf, [*logged, (answered[3][0], Logged(BLOCK, 2))])
        self.assertEqual((answer["agree"], answer["differ"], answer["apart"]), (2, 0, 1))
        self.assertEqual([it["kind"] for it in answer["judged"] if it["verdict"] == "apart"], [judging.WITHOUT_LOG])


class Example(FolderCase):
    def test_what_the_example_shows(self) -> None:
        example = TOP / "examples" / "agree"
        done = pfplan("agree", example / "pf.conf", example / "pflog", "--into", self.folder / "answer")
        answer = (example / "answer" / "agree.txt").read_text("utf-8")
        self.assertEqual((done.status, done.out), (0, f"{answer}{self.folder / 'answer' / 'report.html'}\n"))
        shown = (example / "README.md").read_text("utf-8")
        self.assertIn("".join(f"    {it}\n".replace("    \n", "\n") for it in answer.splitlines()[:12]), shown)


class Differences(Agreeing):
    """One packet of the log says something else."""

    def differing(self, at: int, told: Logged, *words: object, text: str = CONF) -> tuple[dict[str, Any], Done]:
        """What is counted where the packet of a row says this."""
        conf, trace = self.write("pf.conf", text), self.trace(TRACE)
        packets = self.packets(conf, trace)
        packets[at - 1] = (packets[at - 1][0], told)
        found, done = self.agree(conf, packets, *words)
        self.assertEqual((found["agree"], found["differ"], found["apart"]), (14, 1, 1), done.out)
        return found["differences"][0], done

    def test_each_kind(self) -> None:
        web, limit, source, memory = (3, "web", 0), *map(REASONS.index, ("state-limit", "src-limit", "memory"))
        for at, told, kind, line in (
            (1, Logged(PASS, 7), judging.OTHER_RULE, explaining.NUMBERS),
            (3, Logged(PASS, 7), judging.OTHER_RULE, explaining.NUMBERS),
            (4, Logged(BLOCK, 1), judging.OTHER_RULE, explaining.NUMBERS),
            (6, Logged(PASS, *web), "pf passes, pfsrc blocks", ""),
            (1, Logged(BLOCK, 1), "pf blocks, pfsrc passes", ""),
            (2, Logged(BLOCK, 1), "pf blocks, pfsrc passes", explaining.WINDOWS),
            (13, Logged(PASS, *web), "pf passes, pfsrc refuses by a limit", explaining.LOGGED),
            (13, Logged(BLOCK, 1), "pf blocks, pfsrc refuses by a limit", ""),
            (1, Logged(PASS, *web, limit), "pf refuses by a limit, pfsrc passes", explaining.SLICES),
            (7, Logged(PASS, 4, reason=source), "pf refuses by a limit, pfsrc passes", explaining.NODES),
            (7, Logged(PASS, 4, reason=memory), "pf refuses by a limit, pfsrc passes", explaining.MEMORY),
            (10, Logged(PASS, 5, reason=memory), "pf refuses by a limit, pfsrc passes", explaining.MEMORY),
            (12, Logged(PASS, *web, memory), "pf refuses by a limit, pfsrc passes", explaining.SLICES),
            (4, Logged(PASS, *web, limit), "pf refuses by a limit, pfsrc blocks", explaining.SLICES),
            (13, Logged(PASS, *web, source), judging.OTHER_LIMIT, ""),
            (9, Logged(PASS, 5, reason=source), judging.OTHER_RULE, ""),
        ):
            with self.subTest(at=at, told=told):
                found, _ = self.differing(at, told)
                self.assertEqual((found["row"], found["kind"], found["explained_by"]), (at, kind, plain(line)))

    def test_each_reason_of_a_drop(self) -> None:
        for name in set(REASONS) - {"match", "synproxy", *LIMITS}:
            with self.subTest(name):
                found, done = self.differing(3, Logged(PASS, 3, "web", 0, REASONS.index(name)))
                self.assertEqual(
                    (found["kind"], found["pf"]["reason"]), ("pf drops for another reason, pfsrc passes", name)
                )
                self.assertIn(f"pf {name}, pfsrc state", done.out)
        found, _ = self.differing(3, Logged(PASS, 3, "web", 0, REASONS.index("state-mismatch")))
        self.assertEqual(found["explained_by"], plain(explaining.WINDOWS))
        for name, line in (("translate", explaining.TRANSLATION), ("state-insert", explaining.TAKEN_KEY)):
            found, _ = self.differing(3, Logged(PASS, 3, "web", 0, REASONS.index(name)))
            self.assertEqual(found["kind"], "pf refuses by a limit, pfsrc passes")
            self.assertEqual(found["explained_by"], plain(line))

    def test_reason_synproxy(self) -> None:
        """pf says by it that it took a packet itself, which is what `proxy` says."""
        found, done = self.differing(3, Logged(PASS, 3, "web", 0, REASONS.index("synproxy")))
        self.assertEqual((found["kind"], found["pf"]["reason"]), ("pf answers itself, pfsrc passes", "synproxy"))
        self.assertEqual(found["explained_by"], plain(explaining.SYNPROXY))
        self.assertIn("pf proxy, pfsrc state", done.out)
        rule = PfRule(RuleNumber("", 0), SourceLine("pf.conf", 1), "pass", "log (all)", (0,))
        for said, word, verdict in (
            ("synproxy", "proxy", judging.Verdict.AGREES),
            ("match", "proxy", judging.Verdict.DIFFERS),
            ("synproxy", "new", judging.Verdict.DIFFERS),
            ("synproxy", "block", judging.Verdict.DIFFERS),
        ):
            judged = judging.Judge([rule]).judge(PfAnswer("pass", 0, reason=said), Answer(1, word, "@0"))
            self.assertIs(judged.verdict, verdict, (said, word))

    def test_what_is_told_of_a_difference(self) -> None:
        found, done = self.differing(13, Logged(PASS, 3, "web", 0, rewritten=True))
        self.assertEqual(found["held"], {"rows": 0, "states": 6, "nodes": 2, "entries": 1})
        for line in (
            "difference 1, packet 13: pf passes, pfsrc refuses by a limit",
            "  packet        in em0 tcp a1:4007 to a2:80 flags S",
            "  pf            pass by rule 0 of anchor web (called by rule 3), reason match, rewritten",
            "  pfsrc         drop:max @3: the rule holds as many states as its max allows",
            "  held          6 states, 2 source nodes, 1 table entry",
        ):
            self.assertIn(line, done.out.splitlines())
        self.assertEqual(found["explained_by"], plain(explaining.TRANSLATION))

    def test_no_address_unless_asked_for(self) -> None:
        _, done = self.differing(4, Logged(BLOCK, 1))
        page = (self.folder / "answer" / "report.html").read_text("utf-8")
        answer = (self.folder / "answer" / "agree.json").read_text("utf-8")
        for text in (done.out, page, answer):
            self.assertNotRegex(text, r"203\.0\.113|192\.0\.2")
        _, done = self.differing(4, Logged(BLOCK, 1), "--addresses")
        self.assertIn("in em0 tcp 203.0.113.66:4002 to 192.0.2.1:80 flags S", done.out)

    def test_all_that_differs(self) -> None:
        """The text tells the first ten, or as many as are asked for, and the JSON all."""
        conf, trace = self.write("pf.conf", CONF), self.trace(
            [tcp(1, "203.0.113.2", port, 443) for port in range(1, 21)]
        )
        packets = [(record, Logged(BLOCK, 2)) for record, _ in self.packets(conf, trace)]
        for words, shown in (((), 10), (("--top", 3), 3), (("--top", 20), 20)):
            answer, done = self.agree(conf, packets, *words)
            self.assertEqual((answer["differ"], [it["row"] for it in answer["differences"]]), (20, list(range(1, 21))))
            self.assertTrue(all(it["held"] for it in answer["differences"]))
            self.assertEqual(done.out.count("\ndifference "), shown)
            self.assertEqual(f"and {20 - shown} differences more" in done.out, shown < 20)
            page = (self.folder / "answer" / "report.html").read_text("utf-8")
            self.assertEqual(page.count(". Packet "), shown)

    def test_check(self) -> None:
        conf, trace = self.write("pf.conf", CONF), self.trace([tcp(1, "203.0.113.2", 1, 443)])
        packets = [(record, Logged(BLOCK, 2)) for record, _ in self.packets(conf, trace)]
        log = self.folder / "pflog"
        for given, status in ((packets, 1), (self.packets(conf, trace), 0)):
            log.write_bytes(log_capture(given))
            done = pfplan("agree", conf, log, "--into", self.folder / "answer", "--check")
            self.assertEqual(done.status, status, done.err)
            self.assertIn("pf and pfsrc agree on", done.out)
            self.assertEqual("--check: 1 packet of 1 differ" in done.err, status == 1)

    def test_a_state_from_before_the_log(self) -> None:
        conf, trace = self.write("pf.conf", CONF), self.trace(
            [tcp(1, "203.0.113.2", 4001, 80, "A"), tcp(1, "203.0.113.2", 4002, 443, "A")]
        )
        packets = [(record, Logged(PASS, 6)) for record, _ in self.packets(conf, trace)]
        answer, _ = self.agree(conf, packets)
        self.assertEqual([it["explained_by"] for it in answer["differences"]], [explaining.BEGINNING] * 2)


class NotCompared(Agreeing):
    def judged(self, told: Logged, text: str = CONF) -> str:
        """Why a packet is not compared."""
        conf, trace = self.write("pf.conf", text), self.trace(TRACE[:1])
        found, _ = self.agree(conf, [(self.packets(conf, trace)[0][0], told)])
        self.assertEqual((found["agree"], found["differ"], found["apart"]), (0, 0, 1))
        return str(found["judged"][0]["kind"])

    def test_kinds(self) -> None:
        left_out = CONF + "pass in log proto tcp to port 80 probability 5%\n"
        for told, text, kind in (
            (Logged(MATCH, 0), CONF, judging.MATCH),
            (Logged(8, 3), CONF, judging.OTHER_ACTION),
            (Logged(PASS, 99), CONF, judging.NO_SUCH_RULE),
            (Logged(PASS, 3, "other", 0), CONF, judging.NO_SUCH_RULE),
            (Logged(PASS, 8), left_out, judging.LEFT_OUT),
        ):
            with self.subTest(kind):
                self.assertEqual(self.judged(told, text), kind)

    def test_numbers_of_another_text(self) -> None:
        conf, trace = self.write("pf.conf", CONF), self.trace(TRACE)
        packets = [(record, Logged(PASS, 1)) for record, _ in self.packets(conf, trace)]
        _, done = self.agree(conf, packets)
        self.assertIn("by 16 packets pf passed or blocked by a rule that does the other in this text", done.out)


class Refusals(FolderCase):
    """What is no log."""

    def call(self, octets: bytes) -> Done:
        """A call over a file of these bytes."""
        log = self.folder / "pflog"
        log.write_bytes(octets)
        return pfplan("agree", self.write("pf.conf", CONF), log, "--into", self.folder / "answer")

    def test_no_log(self) -> None:
        record = Record(1, "in", "em0", "tcp", "203.0.113.1", "1", "192.0.2.1", "80", "S")
        log = self.folder / "pflog"
        for octets, why in (
            (b"", f"{log}: an empty file, where a capture is wanted"),
            (log_capture([]), f"{log}: no frames in the capture"),
            (ethernet_capture([record]), f"{log}: none of its 1 frames is a record: 1 neither in nor out"),
            (
                log_capture([(record, Logged())])[:-1],
                f"{log}: pfstrace: capture: behind frame 0: the file ends within it "
                "(--partial takes the frames before it)",
            ),
        ):
            done = self.call(octets)
            self.assertEqual((done.status, done.out), (Status.REFUSED, ""))
            self.assertTrue(done.err.endswith(f"pfplan agree: {why}\n"), done.err)
            self.assertFalse((self.folder / "answer" / "report.html").exists())


class Parts(unittest.TestCase):
    def test_every_line_that_explains_is_in_the_document(self) -> None:
        for it in explaining.ALL:
            with self.subTest(it):
                self.assertGreater(len(explanation(it)), 40)
                self.assertNotRegex(explanation(it), r"`|\*\*|\]\(")

    def test_what_explains_goes_by_the_profile(self) -> None:
        """What pf's machine does as pf is explained so only where the rules ask for pfsrc's own."""
        syn = Record(1, "in", "em0", "tcp", "203.0.113.1", "1", "192.0.2.1", "80", "S")
        for action, text, lines in (
            ("pass", "kill:max-src-conn @1 overload=none killed=1", (explaining.WINDOWS, explaining.HANDSHAKE)),
            ("block", "state @1", (explaining.WINDOWS, explaining.REUSE)),
            ("pass", "state @1", (explaining.NUMBERS, explaining.REUSE)),
        ):
            answer = read_answer(f"1 {text}")
            assert isinstance(answer, Answer)
            judged = judging.Judged(judging.Verdict.DIFFERS, "", "", "")
            for profile, line in zip(Profile, lines, strict=True):
                known = explaining.Circumstances(1, 9, True, False, profile)
                self.assertEqual(explaining.line_for(judged, PfAnswer(action, 0), syn, answer, known), line)

    def test_every_line_of_the_document_says_how_to_see_it(self) -> None:
        lines = DIFFERENCES.read_text("utf-8").splitlines()
        tables = [it.strip("|").split("|") for it in lines if it.startswith("| ")]
        self.assertGreater(len(tables), 60)
        for cells in tables:
            with self.subTest(cells[0]):
                self.assertIn(len(cells), (3, 4))
                self.assertGreater(len(cells[-1].strip()), 2)

    def test_hiding(self) -> None:
        hider = Hider(shows=False)
        self.assertEqual(
            hider.text("from 192.0.2.1:80 to [2001:db8::1]:22, 192.0.2.1/24 and ::/0"),
            "from a1:80 to [a2]:22, a1/24 and a3/0",
        )
        for text in (
            "12:30:45",
            "10,000 records",
            "@3 max-src-conn-rate 5/60",
            "drop:max-src-nodes",
            "a.b.c.d",
            "1.2.3",
            "7.4",
        ):
            self.assertEqual(hider.text(text), text)
        self.assertEqual(Hider(shows=True).text("192.0.2.1"), "192.0.2.1")

    def test_rows_of_one_packet(self) -> None:
        match, decided = PfAnswer("match", 0), PfAnswer("pass", 3, reason="match")
        for first, then, is_same in (
            (match, decided, True),
            (match, match, False),
            (match, PfAnswer("match", 1), True),
            (decided, match, True),
            (decided, decided, False),
            (decided, PfAnswer("pass", 3, reason="state-limit"), True),
            (decided, PfAnswer("pass", 4, reason="state-limit"), False),
            (PfAnswer("pass", 3, reason="state-limit"), PfAnswer("pass", 3, reason="state-limit"), False),
        ):
            self.assertEqual(Packet("a line", [first]).takes("a line", then), is_same, (first, then))
            self.assertFalse(Packet("a line", [first]).takes("another", then))


if __name__ == "__main__":
    unittest.main()
