"""Scenarios: what is read, and how each mistake is told; plays by the command, whose traces the program answers with
the same report."""

import json
import random
import re
import subprocess
import unittest
from pathlib import Path

import tomllib

from pfplan.common.errors import Trouble
from pfplan.common.repository import TOP, program
from pfplan.plays.model import KINDS, Visits
from pfplan.plays.playing import Task, play
from pfplan.plays.reading import OF_KIND, numbers_of, read_scenario, value_of
from pfplan.plays.returning import answers_of, words_of
from pfplan.tests.playing import scenario
from pfplan.tests.support import FolderCase, pfplan
from pfplan.tests.test_plays import drawn

HEAD = 'seconds = 10\nserver = { web = ["192.0.2.1:80", "192.0.2.1:443"], six = "[2001:db8::1]:80" }\n'
HOMES = '[group.homes]\nkind = "visits"\nfrom = "198.51.100.0/24"\nhosts = 3\n'
BOTS = '[group.bots]\nkind = "hold"\nfrom = "203.0.113.0/24"\nhosts = 20\nrate = 5\n'
# a text, and what is said of it behind the file's name
MISTAKES = (
    ("seconds = \n", "no TOML: Invalid value (at line 1, column 11)"),
    (HOMES, "the head: seconds is wanted, and is not there"),
    ("seconds = 10\n" + HOMES, 'server: server is wanted, as server = "192.0.2.1:80"'),
    (HEAD, "group: a group is wanted, as [group.homes]"),
    (HEAD + "seed = 0\n" + HOMES, "the head: seed: wanted a whole number from 1 to 2147483646; there is 0"),
    ("second = 1\n" + HEAD + HOMES, "the head: second: no such word; is seconds meant?"),
    (
        'seconds = 10\nserver = "192.0.2.1"\n' + HOMES,
        "server: server: wanted an address and a port, as \"192.0.2.1:80\" or \"[2001:db8::1]:80\", and "
        "'192.0.2.1' is none",
    ),
    (HEAD + "[group.a]\nhosts = 1\n", "group.a: kind is wanted, and is not there"),
    (
        HEAD + HOMES.replace('"visits"', '"visit"'),
        'group.homes: kind: wanted one of visits, hold, connect, syn, udp, query, trace; is visits meant?; '
        'there is "visit"',
    ),
    (HEAD + HOMES + "host = 3\n", "group.homes: host: no such word; is hosts meant?"),
    (HEAD + HOMES + "rate = 3\n", "group.homes: rate: no such word; there are"),
    (
        HEAD + HOMES.replace("hosts = 3", "hosts = 300"),
        "group.homes: hosts: 198.51.100.0/24 has 254 addresses, and 300 are asked for",
    ),
    (HEAD + HOMES + "people = 2\n", "group.homes: people: 2 are fewer than the 3 hosts that they sit at"),
    (HEAD + HOMES + "stay = 1.5\n", "group.homes: stay: wanted a whole number from 1 to 86400; there is 1.5"),
    (HEAD + HOMES + "users = 1\n", "group.homes: users: wanted true or false; there is 1"),
    (HEAD + HOMES + "begin = 5\nend = 5\n", "group.homes: end: 5 is not after begin, 5"),
    (HEAD + HOMES + "begin = 10\n", "group.homes: begin: 10 is not below seconds, 10"),
    (HEAD + HOMES + 'to = "wep"\n', "group.homes: to: no server is named 'wep'; is web meant?"),
    (HEAD + HOMES + 'to = "six"\n', "group.homes: to: [2001:db8::1]:80 and 198.51.100.0/24 are of two families"),
    (
        HEAD + HOMES + "visits = 2\nevery = 3\n",
        "group.homes: every: visits come at random moments, or every so many seconds; one of the two is given",
    ),
    (HEAD + HOMES + 'interface = "a b"\n', 'group.homes: interface: wanted the name of an interface, as "em0"'),
    (
        HEAD + BOTS.replace("rate = 5", "rate = 0"),
        "group.bots: rate: wanted a number a second, from 0.001 to 1000000; there is 0",
    ),
    (HEAD + BOTS + "patience = true\n", "group.bots: patience: wanted a whole number from 1 to 86400; there is true"),
    (HEAD + '[group.a]\nkind = "trace"\n', "group.a: file is wanted, and is not there"),
    (HEAD + 'forward = { "em 0" = "em1" }\n' + HOMES, 'forward: em 0: wanted the name of an interface, as "em0"'),
    (HEAD + 'forward = { "10.0.0.0/33" = "em1" }\n' + HOMES, "forward: 10.0.0.0/33: wanted a network"),
    (HEAD + '[group."a b"]\nkind = "syn"\n', "group.a b: the name of a group has letters, digits, _ and -"),
    (HEAD + "group = 3\n", "group: a group is wanted, as [group.homes]"),
    (HEAD + "group = { a = 3 }\n", "group.a: wanted a table, as [group.a]"),
    ("time,dir,if,proto,src,sport,dst,dport,flags\n", "a trace, where a scenario is wanted"),
    ("", "an empty file, where a scenario is wanted"),
    (f"seconds = {'1' * 5000}\n" + HOMES, "a number of more than 4,300 digits"),
    (
        HEAD.replace("10", "0x" + "f" * 5000) + HOMES,
        "the head: seconds: wanted a whole number from 1 to 1000000; there is a number of more than 4,300 digits",
    ),
    (HEAD + HOMES + "vanish = 101\n", "group.homes: vanish: wanted a whole number from 0 to 100; there is 101"),
)  # fmt: skip
RULES = """set limit states 40
table <bad> persist
block return in
block drop out
block in quick from <bad>
pass out proto tcp from 192.0.2.1 keep state
pass in proto tcp to 192.0.2.1 port 80 keep state (max 30, max-src-conn 4, max-src-conn-rate 9/5, overload <bad> \
flush global)
pass in proto tcp to 2001:db8::1 port 80 keep state (max-src-states 3)
pass in proto tcp to 192.0.2.1 port 443 no state
pass in proto udp to 192.0.2.1 port 53
"""
EVERYTHING = """seconds = 20
server = { web = ["192.0.2.1:80", "192.0.2.1:443"], six = "[2001:db8::1]:80", dns = "192.0.2.1:53" }

[group.homes]
kind = "visits"
from = "198.51.100.0/24"
to = "web"
hosts = 12
visits = 2
stay = 3

[group.office]
kind = "visits"
from = "2001:db8:c::/64"
hosts = 1
people = 9
parallel = 2

[group.holders]
kind = "hold"
from = "203.0.113.0/28"
to = "web"
hosts = 4
rate = 2
every = 3

[group.closers]
kind = "connect"
from = "203.0.113.16/28"
to = "web"
hosts = 2
rate = 3
end = 9

[group.forged]
kind = "syn"
from = "0.0.0.0/0"
to = "web"
rate = 15
begin = 5

[group.noise]
kind = "udp"
from = "0.0.0.0/0"
to = "dns"
rate = 5

[group.asked]
kind = "query"
from = "198.51.100.0/25"
to = "dns"
hosts = 9
rate = 2
users = true

[group.laid]
kind = "trace"
file = "trace"
begin = 3
"""


class Reading(FolderCase):
    def test_mistakes(self) -> None:
        for text, said in MISTAKES:
            path = self.write("scenario.toml", text)
            with self.subTest(text=text), self.assertRaises(Trouble) as caught:
                read_scenario(path)
            message = caught.exception.message
            self.assertTrue(message.startswith(f"{path}: {said}"), message)
            self.assertEqual((caught.exception.status, "\n" in message), (1, False))

    def test_no_file(self) -> None:
        done = pfplan("play", self.write("rules", RULES), self.folder / "none.toml", "--into", self.folder / "out")
        self.assertEqual((done.status, done.err), (4, f"pfplan play: {self.folder}/none.toml: no such file\n"))

    def test_defaults(self) -> None:
        homes = read_scenario(self.write("scenario.toml", HEAD + HOMES)).groups[0]
        assert isinstance(homes, Visits)
        self.assertEqual(
            (homes.people, homes.visits, homes.retries, homes.patience, homes.reloads, homes.users),
            (3, 1, 6, 30, 1, True),
        )
        self.assertEqual((homes.stay, homes.vanish), (60, 0))
        self.assertEqual(
            [it.address.version for it in homes.to],
            [4, 4],
        )
        self.assertEqual([it.shown() for it in homes.to], ["192.0.2.1:80", "192.0.2.1:443"])

    def test_the_example_that_is_printed(self) -> None:
        """It is read, has a group of each kind, and tells each word."""
        done = pfplan("scenario")
        groups = read_scenario(self.write("scenario.toml", done.out)).groups
        self.assertEqual({it.kind for it in groups} | {"trace"}, set(KINDS))
        laid = done.out.replace("# [group.real]", "[group.real]")
        for kind in KINDS:
            text = laid[laid.index(f'kind = "{kind}"') :]
            for field in OF_KIND[kind]:
                self.assertIn(field.name, text if kind == "trace" else laid, (kind, field.name))

    def test_numbers(self) -> None:
        path = self.write("scenario.toml", HEAD + HOMES + BOTS)
        tables = tomllib.loads(path.read_text("utf-8"))
        known = numbers_of(tables)
        self.assertEqual(
            (known["seconds"], known["bots.rate"], known["homes.patience"]),
            ((1, 1_000_000), (1, 1_000_000), (1, 86400)),
        )
        self.assertEqual(
            [value_of(tables, it) for it in ("seconds", "bots.rate", "homes.patience", "seed")], [10, 5, 30, 1]
        )
        changed = read_scenario(path, {"bots.rate": 77, "seconds": 4})
        self.assertEqual((changed.groups[1].rate, changed.seconds), (77, 4))  # type: ignore[attr-defined]


class Command(FolderCase):
    def play(self, text: str, *rules: Path, name: str = "scenario.toml") -> tuple[int, str]:
        done = pfplan("play", *rules, self.write(name, text), "--into", self.folder / "out")
        return done.status, done.err

    def test_the_trace_that_came_of_a_play_gives_its_report(self) -> None:
        self.trace([f"{7 + it // 4},in,em0,tcp,192.0.2.77,{5000 + it},192.0.2.1,80,S" for it in range(20)])
        rules = self.write("rules", RULES), self.write(
            "other.conf", RULES.replace("block return in", "block in").replace("states 40", "states 400")
        )
        for more in ("", 'forward = { em0 = "em1" }\n'):
            self.assertEqual(self.play(more + EVERYTHING, *rules), (0, ""))
            for name in ("rules", "other"):
                kept = self.folder / "out" / name
                again = subprocess.run(
                    [program(), "replay", kept / "rules", kept / "trace.csv"], capture_output=True, check=True
                ).stdout
                self.assertEqual(again, (kept / "report").read_bytes())
                self.assertGreater(len(again), 10_000)
        before = {
            it: (self.folder / "out" / it).read_bytes()
            for it in ("summary.txt", "rules/trace.csv", "other/summary.json", "report.html")
        }
        done = pfplan("play", *rules, self.folder / "scenario.toml", "--into", self.folder / "out", "--jobs", 1)
        self.assertEqual(done.status, 0)
        for name, was in before.items():
            self.assertEqual((self.folder / "out" / name).read_bytes(), was, name)

    def test_the_scenario_may_stand_first(self) -> None:
        """The order of before, in each place of the options, makes the same files."""
        scenario = self.write("s.toml", HEAD + HOMES)
        one, other = self.write("one.conf", RULES), self.write("other.conf", "pass\n")
        for name, words in (
            ("new", (one, other, scenario, "--into")), ("apart", (one, "--jobs", 1, other, scenario, "--into")),
            ("old", (scenario, one, other, "--into")), ("old-apart", (scenario, "--jobs", 1, one, other, "--into")),
        ):  # fmt: skip
            done = pfplan("play", *words, self.folder / name)
            self.assertEqual((done.status, done.err), (0, ""), name)
        for name in ("apart", "old", "old-apart"):
            for it in ("summary.txt", "report.html", "one/trace.csv", "other/report"):
                self.assertEqual((self.folder / name / it).read_bytes(), (self.folder / "new" / it).read_bytes(), name)
        alone = pfplan("play", scenario, "--into", self.folder / "alone")
        self.assertEqual(alone.err, "pfplan play: the following arguments are required: [RULES ...] SCENARIO\n")

    def test_drawn_plays_give_their_reports_again(self) -> None:
        """Drawn groups against drawn rules: the trace that came of each gives the same report."""
        words = ["", "return", "return-rst", "drop"]
        options = [
            "", "keep state (max 40)", "keep state (max-src-states 3)",
            "keep state (max-src-nodes 5, max-src-states 4)", "keep state (max-src-conn 3, overload <bad> flush)",
            "keep state (max-src-conn-rate 6/5, overload <bad> flush global)", "no state",
            "keep state (tcp.first 3, tcp.opening 2, tcp.closed 1)",
        ]  # fmt: skip
        for seed in range(1, 7):
            numbers = random.Random(seed)

            def one(several: list[str], numbers: random.Random = numbers) -> str:
                return several[int(numbers.random() * len(several))]

            rules = (
                f"set limit {{ states {one(['30', '100', '5000'])} }}\nset timeout interval {one(['1', '10'])}\ntable "
                "<bad> persist\n"
            )
            rules += f"block {one(words)}\nblock {one(words)} in quick from <bad>\n"
            rules += "".join(f"pass {one(['in', ''])} proto {one(['tcp', 'udp'])} {one(options)}\n" for _ in range(4))
            path, kept = self.write("rules", rules), (self.folder / "trace", self.folder / "report")
            drawn_words = drawn(seed, seconds=6, forward={"em0": one(["em0", "em1"])})
            it = scenario(drawn_words.pop("groups"), **drawn_words)  # type: ignore[arg-type]
            end = play(Task(it, path, answers_of(words_of(rules)), (), *kept)).end
            again = subprocess.run([program(), "replay", path, kept[0]], capture_output=True, check=True).stdout
            self.assertEqual(again, kept[1].read_bytes(), rules)
            self.assertEqual(end.rows, again.count(b"\n") - 1)

    def laid(self, *records: str, seconds: int = 10) -> tuple[int, str]:
        """A play over which a trace of some records is laid."""
        self.trace(records)
        text = HEAD.replace("10", str(seconds)) + HOMES.replace("hosts", "stay = 1\nhosts")
        return self.play(text + '[group.real]\nkind = "trace"\nfile = "trace"\n', self.write("rules", "pass\n"))

    def test_faults_of_a_trace_that_is_laid_over_it(self) -> None:
        """They name the user's file and row, and the folder has no trace."""
        good = "5,in,em0,tcp,192.0.2.77,5000,192.0.2.1,80,S"
        for bad, said in (
            ("5,in,em0,tcp,192.0.2.777,5000,192.0.2.1,80,S", "row 2: field 5"),
            ("5,in,em0", "row 2: columns"),
            ("4" + good[1:], "row 2: time falls"),
            ("x" + good[1:], "row 2: field 1"),
            ("5,add,bad,,198.51.100.0/24,,,,", "row 2: an administrator's record, which a play does not take"),
            ("5,held,,,,,,,", "row 2: 'held', an administrator's record, which a play does not take"),
        ):
            with self.subTest(said):
                status, told = self.laid(good, bad)
                self.assertEqual((status, told), (1, f"pfplan play: {self.folder}/trace: {said}\n"))
                self.assertFalse((self.folder / "out/rules/trace.csv").exists())

    def test_records_of_a_trace_that_are_not_played(self) -> None:
        records = [f"{it},in,em0,tcp,192.0.2.77,{5000 + it},192.0.2.1,80,S" for it in range(400)]
        for count, seconds in ((8, 10), (400, 5)):
            self.assertEqual(self.laid(*records[:count], seconds=seconds), (0, ""))
            group = json.loads((self.folder / "out/rules/summary.json").read_text("utf-8"))["groups"][1]
            self.assertEqual(group["packets"] + group["not_played"], count)
            self.assertEqual(group["not_played"] > 0, count == 400)
            text = (self.folder / "out/summary.txt").read_text("utf-8")
            self.assertEqual("not played: the play was over" in text, count == 400)
        page = (self.folder / "out/report.html").read_text("utf-8")
        self.assertIn("of its trace came after the play was over", page)

    def test_the_most_states(self) -> None:
        """Each second's purge takes out all that were made in the one before: at its end the limit is met."""
        rules = "set limit states 60\nset timeout { tcp.first 1, tcp.opening 1, interval 1 }\npass\n"
        flood = '[group.forged]\nkind = "syn"\nfrom = "203.0.113.0/24"\nrate = 90\n'
        self.assertEqual(self.play(HEAD + flood, self.write("rules", rules)), (0, ""))
        found = json.loads((self.folder / "out/rules/summary.json").read_text("utf-8"))
        self.assertEqual((found["most_held"], found["limit_met"]), (60, True))
        self.assertRegex((self.folder / "out/summary.txt").read_text("utf-8"), "most states held +60, limit met")

    def test_who_is_shut_out_stands_first(self) -> None:
        office = '[group.office]\nkind = "visits"\nfrom = "203.0.113.5/32"\nhosts = 1\npeople = 5\npatience = 3\n'
        rules = self.write("rules", "pass\nblock in from 203.0.113.5\n")
        self.assertEqual(self.play(HEAD + HOMES + office, rules), (0, ""))
        text = (self.folder / "out/summary.txt").read_text("utf-8")
        self.assertIn(
            "shut out: office (0 of 5 served); 37 % of the users' connections are served without waiting, "
            "37 % in the end",
            text,
        )
        rules = self.write("rules", "pass\nblock in from 198.51.100.1\n")
        self.assertEqual(self.play(HEAD + HOMES + "patience = 3\n", rules), (0, ""))
        self.assertIn("shut out: 1 host of homes's 3; 66 %", (self.folder / "out/summary.txt").read_text("utf-8"))

    def test_seeds(self) -> None:
        """Each seed is played; the first is the scenario's own, whose files are kept."""
        scenario_text = HEAD + HOMES.replace("hosts = 3", "hosts = 40\nstay = 2") + BOTS
        words = self.write("rules", "set limit states 30\npass\n"), self.write("s.toml", scenario_text)
        done = pfplan("play", *words, "--into", self.folder / "many", "--seeds", 3)
        self.assertEqual((done.status, done.err), (0, ""))
        many = json.loads((self.folder / "many/rules/summary.json").read_text("utf-8"))
        self.assertEqual([many["seed"], *(it["seed"] for it in many["other_seeds"])], [1, 2, 3])
        second = self.write("s2.toml", "seed = 2\n" + scenario_text)
        self.assertEqual(pfplan("play", words[0], second, "--into", self.folder / "one").status, 0)
        one = json.loads((self.folder / "one/rules/summary.json").read_text("utf-8"))
        keys = ("name", "connections", "served", "served_without_waiting", "gave_up")
        self.assertEqual(many["other_seeds"][0]["groups"], [{it: group[it] for it in keys} for group in one["groups"]])
        text = (self.folder / "many/summary.txt").read_text("utf-8")
        self.assertIn("3 seeds from 1 on: median (lowest to highest)", text)
        self.assertRegex(text, r"served without waiting +\d+ % \(\d+ % to \d+ %\)")
        self.assertNotRegex(text, r"\d\.\d %")

    def test_a_play_that_is_too_large(self) -> None:
        """It is refused before it begins: words that are small alone can be too many together."""
        large = HEAD.replace("10", "1000000") + HOMES + "people = 1000000\nvisits = 100000\nparallel = 100\n"
        rules = self.write("rules", "pass\n")
        status, said = self.play(large, rules)
        self.assertEqual(status, 2)
        self.assertIn("some 150,000,000,000,000 records are expected, 150,000,000,000,000 of them of group homes", said)
        self.assertFalse((self.folder / "out").exists())
        small = self.write("small.toml", HEAD + HOMES)
        for words in (
            ("play", rules, small, "--into", self.folder / "out"),
            ("compare", rules, rules, small),
            ("size", rules, small, "--vary", "homes.people=3..9"),
        ):
            done = pfplan(*words, "--most", 20)
            self.assertEqual((done.status, done.out), (2, ""), words)
            self.assertIn("some 45 records are expected", done.err)
        done = pfplan("size", rules, small, "--vary", "homes.people=3..900000", "--most", 1000)
        self.assertIn("some 13,500,000 records are expected", done.err)

    def test_numbers_for_machines(self) -> None:
        self.assertEqual(self.play(HEAD + HOMES + BOTS, self.write("rules", RULES)), (0, ""))
        summary = json.loads((self.folder / "out/rules/summary.json").read_text("utf-8"))
        self.assertEqual([it["name"] for it in summary["groups"]], ["homes", "bots"])
        self.assertEqual(summary["groups"][0]["connections"], 3)
        self.assertEqual(summary["held"][0]["moment"], 0)
        self.assertEqual(summary["most_held"], max(it["states"] for it in [*summary["held"], summary["end"]]))

    def test_entries_by_records(self) -> None:
        """A table that a rules text can't hold comes by records, which stand in the trace that came of the play."""
        addresses = self.write("addresses", "".join(f"10.{it >> 8}.{it & 255}.1\n" for it in range(50_000)))
        conf = self.write("pf.conf", f'table <bad> persist file "{addresses}"\nblock in quick from <bad>\npass\n')
        self.assertEqual(self.play(HEAD + HOMES, conf, name="with.toml"), (0, ""))
        kept = self.folder / "out" / "pf"
        again = subprocess.run(
            [program(), "replay", kept / "rules", kept / "trace.csv"], capture_output=True, check=True
        )
        self.assertEqual(again.stdout, (kept / "report").read_bytes())
        self.assertTrue(again.stdout.endswith(b" entries=50000\n"))

    def test_a_program_that_ends(self) -> None:
        """What it said is told, and no file is left that looks whole."""
        script = self.write(
            "ends", f"#!/bin/sh\ntest $1 = replay || exec '{program()}' \"$@\"\necho 'no memory' >&2\nexit 4\n"
        )
        script.chmod(0o755)
        rules = self.write("rules", RULES)
        words = "play", rules, self.write("scenario.toml", HEAD + HOMES), "--into", self.folder / "out"
        done = pfplan(*words, env={"PFSRC": str(script)})
        self.assertEqual((done.status, done.out), (4, ""))
        self.assertEqual(done.err, f"pfplan play: {script}: no memory (rules {self.folder}/out/rules/rules)\n")
        self.assertFalse((self.folder / "out").exists())

    def test_rules_refused(self) -> None:
        status, said = self.play(HEAD + HOMES, self.write("rules", "pass in port 80\n"))
        self.assertEqual(status, 3)
        self.assertIn("rules: line 1", said)

    def test_two_rulesets_of_one_name(self) -> None:
        (self.folder / "a").mkdir()
        self.assertEqual(
            self.play(HEAD + HOMES, self.write("rules", "pass\n"), self.write("a/rules", "block\n")), (0, "")
        )
        self.assertEqual(
            sorted(it.name for it in (self.folder / "out").iterdir() if it.is_dir()), ["A-rules", "B-rules"]
        )

    def test_resets(self) -> None:
        """A rule that returns ends an attempt at once; `set block-policy` says so for those that say nothing."""
        tries = []
        for text in (
            "block drop",
            "block return",
            "set block-policy return\nblock",
            "set block-policy return\nblock drop",
            "block return-rst",
        ):
            self.assertEqual(self.play(HEAD + HOMES + "reloads = 2\n", self.write("rules", text + "\n")), (0, ""))
            tries.append(json.loads((self.folder / "out/rules/summary.json").read_text("utf-8"))["groups"][0]["tries"])
        self.assertEqual(tries, [45, 9, 9, 45, 9])

    def test_examples_tell_what_comes_of_them(self) -> None:
        """The shares in the README of the examples, for those that are soon played."""
        folder = TOP / "examples" / "scenarios"
        rows = [
            it.split(" | ") for it in (folder / "README.md").read_text("utf-8").splitlines() if it.startswith("| `")
        ]
        documented = {row[0].split("`")[1].removesuffix(".toml"): row[1:3] for row in rows if row[1].endswith("%")}
        self.assertEqual(sorted(documented), sorted(it.stem for it in folder.glob("*.toml")))
        for name in ("backlog", "crawler", "dns", "office"):
            rules = [folder / f"{name}-{it}.conf" for it in ("first", "better")]
            done = pfplan("play", *rules, folder / f"{name}.toml", "--into", self.folder / "out")
            shares = [re.findall(r"(\S+ %) of the users", it)[0] for it in done.out.splitlines()[:2]]
            self.assertEqual(shares, documented[name], name)

    def test_examples(self) -> None:
        for path in sorted((TOP / "examples" / "scenarios").glob("*.toml")):
            with self.subTest(path.name):
                read_scenario(path)


if __name__ == "__main__":
    unittest.main()
