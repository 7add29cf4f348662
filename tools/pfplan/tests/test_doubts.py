"""What an answer may be of that was not meant: it is told first, and no page of it is green."""

import json
import struct
import unittest
from pathlib import Path

from pfplan.answers.doubts import (
    of_directions,
    of_frames,
    of_interfaces,
    of_kills,
    of_profiles,
    of_tags,
    of_translated_play,
    of_translation,
)
from pfplan.commands.interfaces import interface_of
from pfplan.commands.words import share_word
from pfplan.common.errors import Trouble
from pfplan.common.repository import TOP
from pfplan.pages.play_folder import names_of
from pfplan.pf.conversion import RuleOptions, Ruleset, convert_text
from pfplan.pf.interfaces import Machine, read_ifconfig
from pfplan.pf.profiles import Profile
from pfplan.pf.routes import NO_ROUTES, routes_of
from pfplan.tests.playing import ONE, scenario
from pfplan.tests.support import FolderCase, pfplan
from pfplan.traces.accounts import Frames
from pfplan.traces.capture_names import is_log, names_in

RULES = "block all\npass in on {} proto tcp to port 80 keep state\n"
RECORDS = (
    "1,in,em0,tcp,198.51.100.7,1000,192.0.2.1,80,S", "1,out,em0,tcp,192.0.2.1,80,198.51.100.7,1000,SA",
    "1,in,em0,tcp,198.51.100.7,1000,192.0.2.1,80,A", "90,in,em0,icmp,198.51.100.8,,192.0.2.1,,",
)  # fmt: skip
PCAP = TOP / "examples/pf.conf/web.pcap"
USERS = ("--users", "198.51.100.0/24")


def ruleset(text: str) -> Ruleset:
    """The rules of a text."""
    return convert_text(text, "pf.conf", RuleOptions())


class Pages(FolderCase):
    """No page is green, and the first line says why."""

    def check(self, said: str, *words: object, text: str = "") -> None:
        """Runs a command whose answer is in doubt: by what it prints, in its text, and on its page."""
        into = self.folder / "answer"
        done = pfplan(*words, *(("--into", into) if words[0] in ("run", "play") else ("--page", self.folder / "page")))
        self.assertEqual(done.status, 0, done.err)
        self.assertTrue(done.out.startswith("in doubt: "), done.out)
        self.assertIn(said, done.out.splitlines()[0])
        page = (self.folder / "page") if (self.folder / "page").exists() else into / "report.html"
        self.assertNotIn('class="answer good"', page.read_text("utf-8"))
        first = page.read_text("utf-8").index("<h1>")
        self.assertLess(page.read_text("utf-8").index('class="answer bad"'), first + 400)
        if text:
            self.assertTrue((into / text).read_text("utf-8").startswith("in doubt: "))

    def test_rules_of_another_interface(self) -> None:
        rules, trace = self.write("pf.conf", RULES.format("vio0").replace("block all\n", "")), self.trace(RECORDS)
        for words in (
            ("run", rules, trace, *USERS), ("margins", rules, trace, *USERS), ("compare", rules, rules, trace, *USERS),
            ("size", rules, trace, "--vary", "states=5..9", "--runs", 2, "--grid", 2, *USERS),
        ):  # fmt: skip
            with self.subTest(words[0]):
                (self.folder / "page").unlink(missing_ok=True)
                self.check("vio0", *words, text="summary.txt" if words[0] == "run" else "")
        told = json.loads((self.folder / "answer/summary.json").read_text("utf-8"))["doubts"]
        self.assertEqual(len(told), 2)
        self.assertIn("rules are of vio0, and no record is", told[0])
        self.assertIn("records are of em0, and no rule names it", told[1])

    def test_a_play_on_another_interface(self) -> None:
        rules = self.write("pf.conf", "pass in on vio0\n")
        scenario = self.write(
            "s.toml",
            'seconds = 3\nserver = "192.0.2.1:80"\n[group.a]\nkind = "visits"\nfrom = "198.51.100.0/24"\nhosts = 2\n',
        )
        self.check("vio0", "play", rules, scenario, text="summary.txt")

    def test_entries_that_are_missing(self) -> None:
        rules = self.write("pf.conf", "pass in on em0 from any to (egress)\npass in on em0\n")
        self.check("missing that the rules need", "run", rules, self.trace(RECORDS), *USERS, text="summary.txt")

    def test_kills(self) -> None:
        self.assertEqual(of_kills(0), [])
        (told,) = of_kills(2)
        self.assertIn("before 2 kills it is not known which states of the source had run out", told)

    def test_tags_without_routes(self) -> None:
        """No route says where a packet came in that is seen on its way out, so rules do not know what it got there."""
        rules = self.write("pf.conf", "match in on em0 tag LAN\npass in on em0\npass out on em0 tagged LAN\n")
        trace = self.trace(RECORDS)
        for words in (
            ("run", rules, trace, *USERS), ("margins", rules, trace, *USERS), ("compare", rules, rules, trace, *USERS),
            ("size", rules, trace, "--vary", "states=5..9", "--runs", 2, "--grid", 2, *USERS),
        ):  # fmt: skip
            with self.subTest(words[0]):
                (self.folder / "page").unlink(missing_ok=True)
                self.check("rules ask packets out for tagged LAN", *words, text="summary.txt" * (words[0] == "run"))
        told = json.loads((self.folder / "answer/summary.json").read_text("utf-8"))
        self.assertEqual((len(told["doubts"]), [it["text"][:8] for it in told["undecided"]]), (1, ["pass out"]))

    def test_tags_of_a_play_without_routes(self) -> None:
        rules = self.write("pf.conf", "pass in on em0 tag WEB\nblock out ! tagged WEB\n")
        scenario = self.write(
            "s.toml",
            'seconds = 3\nserver = "192.0.2.1:80"\n[group.a]\nkind = "visits"\nfrom = "198.51.100.0/24"\nhosts = 2\n',
        )
        self.check("rules ask packets out for tagged WEB", "play", rules, scenario, text="summary.txt")

    def test_no_user(self) -> None:
        rules, trace = self.write("pf.conf", RULES.format("em0")), self.trace(RECORDS)
        for command in ("run", "margins"):
            (self.folder / "page").unlink(missing_ok=True)
            self.check("no connection of the users 10.9.0.0/16", command, rules, trace, "--users", "10.9.0.0/16")

    def test_nothing_in_doubt(self) -> None:
        rules, trace = self.write("pf.conf", RULES.format("em0") + "pass on lo0\n"), self.trace(RECORDS)
        done = pfplan("run", rules, trace, *USERS, "--into", self.folder / "answer")
        self.assertTrue(done.out.startswith("100 % of the users' connections were served"), done.out)
        self.assertIn('class="answer good"', (self.folder / "answer/report.html").read_text("utf-8"))

    def test_servers_that_inside_forgot(self) -> None:
        rules = self.write("pf.conf", "pass in on em0\n")
        self.check("of the capture's packets are not read", "run", rules, PCAP, "--inside", "10.9.8.0/32", *USERS)


class Plays(FolderCase):
    """What is held is asked at the end of each second, and who is shut out is said first."""

    def test_the_limit_is_met(self) -> None:
        rules = self.write("pf.conf", "set limit states 30\nset timeout { tcp.first 2, tcp.opening 2 }\npass\n")
        bots = '[group.bots]\nkind = "hold"\nfrom = "203.0.113.0/24"\nhosts = 20\nrate = 60\n'
        users = '[group.office]\nkind = "visits"\nfrom = "198.51.100.0/24"\nhosts = 9\npatience = 2\nretries = 1\n'
        scenario = self.write("s.toml", f'seconds = 9\nserver = "192.0.2.1:80"\n{users}begin = 3\n{bots}')
        done = pfplan("play", rules, scenario, "--into", self.folder / "played")
        self.assertEqual(done.status, 0, done.err)
        self.assertRegex(done.out, r"^A  pf: shut out: office \([0-8] of 9 served\); [^;]* served without waiting, ")
        text = (self.folder / "played/summary.txt").read_text("utf-8")
        self.assertRegex(text, r"\nmost states held +30, limit met\n")
        held = json.loads((self.folder / "played/pf/summary.json").read_text("utf-8"))["held"]
        self.assertEqual(max(it["states"] for it in held), 30)
        page = (self.folder / "played/report.html").read_text("utf-8")
        self.assertIn("30 states held at most: the limit was met", page)


class Words(FolderCase):
    def test_users_add_up(self) -> None:
        rules, trace = self.write("pf.conf", RULES.format("em0")), self.trace(RECORDS)
        found = pfplan("margins", rules, trace, "--users", "198.51.100.0/24", "--users", "10.9.0.0/16", "--json")
        told = json.loads(found.out)
        self.assertEqual((told["users"], told["doubts"]), ("198.51.100.0/24,10.9.0.0/16", []))

    def test_a_share_that_may_be_a_part(self) -> None:
        for text, said in (("0.9", "is 90% meant, or 0.9%?"), (".95", "is 95% meant"), ("1", "is 100% meant")):
            with self.assertRaises(Exception) as caught:
                share_word(text)
            self.assertIn(said, str(caught.exception))
        self.assertEqual([100 * share_word(it) for it in ("0.5%", "1%", "90", "99.5 %", "0", "100")],
                         [0.5, 1, 90, 99.5, 0, 100])  # fmt: skip

    def test_names_of_folders(self) -> None:
        for given, wanted in (
            (("d1.conf", "q/d1.conf", "A-d1.conf"), ["A-d1-A", "B-d1", "A-d1"]),
            (("a.conf", "b.conf"), ["a", "b"]),
            (("summary.txt.conf", "report.conf", ".x"), ["A-summary.txt", "B-report", "C-x"]),
        ):
            names = names_of([Path(it) for it in given])
            self.assertEqual(names, wanted)
            self.assertEqual(len(set(names)), len(given))


class Finding(FolderCase):
    """The interface of a capture."""

    def pcapng(self, *names: str) -> Path:
        """A pcapng file with interfaces of these names."""
        blocks = [struct.pack("<IIIHHqI", 0x0A0D0D0A, 28, 0x1A2B3C4D, 1, 0, -1, 28)]
        for name in names:
            text = name.encode() + bytes(-len(name) % 4)
            body = struct.pack("<HHI", 1, 0, 65535) + struct.pack("<HH", 2, len(name)) + text + bytes(4)
            blocks.append(struct.pack("<II", 1, len(body) + 12) + body + struct.pack("<I", len(body) + 12))
        path = self.folder / "names.pcapng"
        path.write_bytes(b"".join(blocks))
        return path

    def test_by_the_rules(self) -> None:
        plain, one, two = "pass in\n", RULES.format("vio0"), RULES.format("vio0") + "pass out on vio1\n"
        egress = Machine(read_ifconfig("vio1: flags=8843<UP> mtu 1500\n\tgroups: egress\nlo0: flags=1<LOOPBACK>\n"))
        none = self.pcapng()
        self.assertEqual(interface_of("em3", none, [ruleset(one)], Machine()), "em3")
        self.assertIsNone(interface_of(None, none, [ruleset(plain)], Machine()))
        skipping = ruleset("set skip on lo0\n" + one + "pass on lo0\n")
        self.assertEqual(interface_of(None, None, [skipping], Machine()), "vio0")
        self.assertEqual(interface_of(None, none, [ruleset(two)], egress), "vio1")
        with self.assertRaises(Trouble) as caught:
            interface_of(None, none, [ruleset(two)], Machine())
        self.assertEqual(caught.exception.message, "--if: of which interface is the capture? The rules name vio0, vio1")

    def test_by_the_capture(self) -> None:
        self.assertEqual(names_in(self.pcapng("igc0", "lo")), ["igc0", "lo"])
        self.assertEqual(interface_of(None, self.pcapng("igc0"), [ruleset(RULES.format("vio0"))], Machine()), "igc0")
        both = self.pcapng("igc0", "vio0")
        self.assertEqual(interface_of(None, both, [ruleset(RULES.format("vio0"))], Machine()), "vio0")
        self.assertEqual((names_in(PCAP), is_log(PCAP)), ([], False))
        self.assertTrue(is_log(TOP / "examples/agree/pflog"))
        for text in (b"", b"\x0a\x0d\x0d\x0a", b"\x0a\x0d\x0d\x0a" + bytes(40)):
            path = self.folder / "cut"
            path.write_bytes(text)
            self.assertEqual(names_in(path), [])

    def test_a_run_finds_it(self) -> None:
        rules = self.write("pf.conf", RULES.format("vio0"))
        words = ("--inside", "203.0.113.5/32", "--users", "192.0.2.0/25", "--into", self.folder / "answer")
        done = pfplan("run", rules, PCAP, *words)
        self.assertEqual(done.status, 0, done.err)
        self.assertIn(",vio0,", (self.folder / "answer/trace.csv").read_text("utf-8"))
        done = pfplan("run", self.write("two.conf", RULES.format("vio0") + RULES.format("vio1")), PCAP, *words)
        self.assertEqual((done.status, done.err.count("--if: of which interface is the capture?")), (2, 1), done.err)


class Reasons(unittest.TestCase):
    def test_interfaces(self) -> None:
        items = ["pass quick on em9 no state", "pass in on em0", "block on ! em1", "block in on !em2 all"]
        items += ["pass on any", "pass out on lo0"]
        self.assertEqual(of_interfaces(items, {"em0"}, {0}), [])
        self.assertEqual(len(of_interfaces(items, {"em0"})), 1)
        self.assertEqual(len(of_interfaces(items, {"em4"}, {0})), 2)
        self.assertEqual(of_interfaces(["pass"], {"em4"}), [])

    def test_tags(self) -> None:
        """Which way the answer errs, and that with routes it does not; nor by a tag that rules for packets out give."""
        gives = "match in on em0 all flags any tag LAN"
        for items, way in (
            ([gives, "pass out all flags S/SA tagged LAN keep state"], "pf passes more"),
            ([gives, "pass out all flags S/SA !tagged LAN keep state"], "pf blocks more"),
            ([gives, "block drop all tagged LAN"], "pf blocks more"),
            ([gives, "block return out all ! tagged LAN"], "pf passes more"),
            ([gives, "pass out all tagged LAN keep state (max 3)"], "pf may block or pass more"),
            ([gives, "match all tag WEB tagged LAN"], "pf may block or pass more"),
            ([gives, "pass out all tagged LAN", "block out all tagged LAN"], "pf may block or pass more"),
            (["pass out all received-on em0"], "pf passes more"), (["block all !received-on em0"], "pf passes more"),
        ):
            with self.subTest(items):
                said = of_tags(items, NO_ROUTES)
                self.assertEqual((len(said), f"; so {way} (--routes" in said[0]), (1, True), said)
                self.assertEqual(of_tags(items, routes_of(["set route 0.0.0.0/0 em0"])), [])
        for items in (
            [gives, "pass in all tagged LAN"], ["match out all tag LAN", "pass out all tagged LAN"],
            ["pass out all tagged LAN"], [gives, "pass in all received-on em0"], [gives, "pass out all"],
        ):  # fmt: skip
            self.assertEqual(of_tags(items, NO_ROUTES), [], items)

    def test_translation(self) -> None:
        """Of records of an inner interface, with routes, where sources are translated outside; and of plays."""
        routes = routes_of(["set route { 0.0.0.0/0 em0, 10.0.0.0/8 em2 }"])
        items = ["match out on em0 inet from 10.0.0.0/8 to any flags any nat-to 192.0.2.1", "pass all flags S/SA"]
        for seen, known, count in (
            ({"em0"}, routes, 0), ({"em2"}, routes, 1), ({"em0", "em2"}, routes, 1), ({"em2"}, NO_ROUTES, 0),
        ):  # fmt: skip
            self.assertEqual(len(of_translation(items, seen, known)), count, seen)
        self.assertIn("on em0, and records are of em2: what comes back", of_translation(items, {"em2"}, routes)[0])
        self.assertEqual(of_translation(["match in on em0 all rdr-to 10.0.0.5"], {"em2"}, routes), [])
        inside: dict[str, object] = {**ONE, "interface": "em2"}
        played = scenario({"one": inside}, forward={"em2": "em0"})
        self.assertEqual(len(of_translated_play(items, played, NO_ROUTES)), 1)
        for it in (scenario({"one": inside}), scenario({"one": ONE}, forward={"em0": "em2"})):
            self.assertEqual(of_translated_play(items, it, NO_ROUTES), [])

    def test_frames(self) -> None:
        self.assertEqual(of_frames(Frames(100, 60, {"not IP": 40})), [])
        self.assertEqual(of_frames(Frames(100, 96, {"neither in nor out": 4})), [])
        self.assertEqual(len(of_frames(Frames(100, 1, {"neither in nor out": 99}))), 1)
        note = "the networks of --inside say the other direction of 7 packets: is em0 an inner interface?"
        self.assertEqual(of_frames(Frames(9, 9, {}, (note,))), [note])

    def test_directions(self) -> None:
        items = ["block", "pass in on em0 proto tcp to any port 80", "pass out on em0 proto udp to any port 53:54"]
        self.assertEqual(of_directions(items, {("in", "80"): 9, ("out", "53"): 3}), [])
        self.assertEqual(len(of_directions(items, {("out", "80"): 9, ("in", "80"): 3})), 1)
        self.assertEqual(len(of_directions(items, {("in", "54"): 9})), 1)
        self.assertEqual(of_directions(items, {("out", "8080"): 9}), [])

    def test_profiles(self) -> None:
        self.assertEqual(of_profiles(("a", "b"), (Profile.OWN, Profile.OWN)), [])
        said = "the rulesets ask for different machines, a by papers, b by openbsd-7.4: --profile gives all of them one"
        self.assertEqual(of_profiles(("a", "b"), (Profile.OWN, Profile.OPENBSD)), [said])


if __name__ == "__main__":
    unittest.main()
