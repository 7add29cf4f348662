"""Texts that stand for more than any ruleset does end soon and by name; files that a text names stay where they belong;
names are shown escaped."""

import time
import unittest

from pfplan.common.errors import Status, Trouble
from pfplan.pf.conversion import RuleOptions, convert, convert_text
from pfplan.pf.lexer import Budget
from pfplan.tests.support import STAND_IN, FolderCase, pfplan


class Bounds(FolderCase):
    """Time and memory of texts that expand."""

    def refused(self, text: str) -> str:
        """Why a text is refused; it takes seconds at most."""
        began = time.process_time()
        with self.assertRaises(Trouble) as caught:
            convert(self.write("pf.conf", text), RuleOptions())
        self.assertLess(time.process_time() - began, 20)
        self.assertEqual(caught.exception.status, Status.RULES)
        return caught.exception.message.removeprefix(f"{self.folder}/")

    def test_macros(self) -> None:
        text = f'm = "{" 10.0.0.1" * 12000}"\n' + "block in from { $m }\n" * 400
        self.assertEqual(
            self.refused(text), "pf.conf: line 20: the text stands for more than 2,000,000 characters by its macros"
        )

    def test_words(self) -> None:
        self.assertEqual(
            self.refused("set debug" + " a" * 1_000_001 + "\n"),
            "pf.conf: line 1: the text stands for more than 1,000,000 words",
        )

    def test_files(self) -> None:
        for number in range(8):
            self.write(f"{number}.conf", f'include "{number + 1}.conf"\n' * 8 if number < 7 else "pass\n")
        self.assertRegex(
            self.refused('include "0.conf"\n'),
            r"\d\.conf: line \d: the text stands for more than 500 files that it includes",
        )

    def test_lists(self) -> None:
        ports = " ".join(map(str, range(1, 251)))
        text = f"pass in on ! egress proto tcp from any port {{ {ports} }} to any port {{ {ports} }}\n" * 9
        self.assertEqual(
            self.refused(text), "pf.conf: line 9: the text stands for more than 500,000 rules by its lists"
        )

    def test_nine_thousand_ranges(self) -> None:
        ranges = " ".join(f"{it}:{it + 1}" for it in range(1, 36001, 4))
        began = time.process_time()
        self.assertEqual(
            len(convert_text(f"pass in proto tcp to port {{ {ranges} }}\n", "x", RuleOptions()).origins), 9000
        )
        self.assertLess(time.process_time() - began, 5)

    def test_a_budget_is_of_one_call(self) -> None:
        self.assertEqual(Budget(), Budget(1_000_000, 2_000_000, 500, 500_000))


class NamedFiles(FolderCase):
    """Files that a text names."""

    def setUp(self) -> None:
        super().setUp()
        (self.folder / "root" / "etc").mkdir(parents=True)
        self.secret = self.write("secret", "root:hidden:0:0\n")
        self.conf = self.folder / "root" / "etc" / "pf.conf"

    def refusal(self, text: str, *words: object) -> tuple[int, str]:
        """The status and standard error of `rules` over a text in the folder."""
        self.conf.write_text(text, "utf-8")
        done = pfplan("rules", self.conf, *words, "--out", self.folder / "made")
        return done.status, done.err

    def test_root_confines(self) -> None:
        (self.folder / "root" / "etc" / "link").symlink_to(self.secret)
        root = ("--root", self.folder / "root")
        for name in ("../../secret", "/../secret", "/etc/link", "link"):
            for text in (
                f'include "{name}"\npass\n',
                f'table <t> file "{name}"\npass\n',
                f'anchor x\nload anchor x from "{name}"\n',
            ):
                status, err = self.refusal(text, *root)
                self.assertEqual(status, Status.RULES, (text, err))
                self.assertIn(f"'{name}' leads out of --root", err)
                self.assertNotIn("hidden", err)
        (self.folder / "root" / "etc" / "more").write_text("pass\n", "utf-8")
        for name in ("more", "/etc/more", "../etc/more"):
            self.assertEqual(self.refusal(f'include "{name}"\n', *root)[0], 0)

    def test_without_root_nothing_strange_is_quoted(self) -> None:
        for text in (f'include "{self.secret}"\npass\n', f'anchor x\nload anchor x from "{self.secret}"\n'):
            status, err = self.refusal(text)
            self.assertEqual(status, Status.RULES)
            self.assertNotIn("hidden", err)
            self.assertIn(f"{self.secret} is no text of rules at its line 1; nothing of it is quoted", err)
        status, err = self.refusal(f'table <t> file "{self.secret}"\ntable <u> file "{self.secret}"\nblock from <t>\n')
        self.assertEqual(status, 0)
        self.assertNotIn("hidden", err)
        self.assertIn(f"1 entries of <t> in {self.secret}", err)
        self.assertEqual(err.count("absolute names in the text are read from this machine"), 1)

    def test_entries_that_are_no_table(self) -> None:
        words = "".join(f"word{it}\n" for it in range(500))
        status, err = self.refusal("table <t>\nblock from <t>\n", "--entries", f"t={self.write('words', words)}")
        self.assertEqual((status, err.count("\n")), (Status.RULES, 1))
        self.assertIn("none of its 500 words is an address", err)
        status, err = self.refusal(
            "table <t>\nblock from <t>\n", "--entries", f"t={self.write('words', '10.0.0.1 ' + words)}"
        )
        self.assertEqual(
            (status, err.count("give it with --address word"), err.count("490 entries of <t>")), (0, 10, 1)
        )

    def test_a_long_rule_is_cut(self) -> None:
        ports = ", ".join(map(str, range(1, 8000)))
        status, err = self.refusal(f"pass in proto tcp to port {{ {ports} }} user root\n")
        self.assertEqual((status, err.count(" ..: can change an answer")), (0, 1), err[:1000])
        self.assertLess(len(err), 1000)

    def test_many_labels_are_one_line(self) -> None:
        status, err = self.refusal("".join(f'pass in proto tcp to port {it} label "l{it}"\n' for it in range(1, 5001)))
        self.assertEqual((status, err.count("\n")), (0, 2))
        self.assertIn("pf.conf: lines 1 to 5000: left out: label, 5,000 times: changes no answer", err)


class Names(FolderCase):
    """Names with control bytes, and empty rules."""

    def test_names_are_escaped(self) -> None:
        name = "a\x1b[31mb\n"
        trace = self.trace(["0,in,em0,udp,203.0.113.1,1000,192.0.2.1,53,"])
        conf = self.write(name, "pass user root\nfrob\n")
        for words in (
            ("rules", conf),
            ("rules", self.folder / f"no{name}"),
            ("summary", conf),
            ("compare", conf, conf, trace),
            ("trace", conf),
            ("run", conf, trace, "--into", self.folder / "x"),
        ):
            done = pfplan(*words, env={"PFSRC": str(STAND_IN)})
            self.assertNotEqual(done.status, 0, words)
            self.assertEqual(done.err.count("\n"), 1, (words, done.err))
            self.assertIn("a\\x1b[31mb\\n", done.err)
        conf.write_text("pass user root\npass in\n", "utf-8")
        done = pfplan("run", conf, trace, "--into", self.folder / f"into{name}", env={"PFSRC": str(STAND_IN)})
        self.assertEqual(done.status, 0, done.err)
        self.assertNotIn("\x1b", done.out + done.err + (self.folder / f"into{name}" / "report.html").read_text("utf-8"))

    def test_an_empty_rules_file(self) -> None:
        """It is an empty ruleset, as for pfctl."""
        empty, trace = self.write("empty", ""), self.trace(["0,in,em0,udp,203.0.113.1,1000,192.0.2.1,53,"])
        report, users = self.report(["new @0"]), ("--users", "203.0.113.0/24")
        for words in (
            ("rules", empty), ("run", empty, trace, "--into", self.folder / "x"), ("compare", empty, empty, trace),
            ("margins", empty, trace), ("size", empty, trace, "--vary", "states=1..5", *users),
            ("summary", report, "--rules", empty),
        ):  # fmt: skip
            done = pfplan(*words, env={"PFSRC": str(STAND_IN)})
            # what is asked of it may be refused, and not that it is empty
            self.assertNotIn("where rules are wanted", done.err)
            self.assertIn(done.status, (0, 1), (words, done.err))


if __name__ == "__main__":
    unittest.main()
