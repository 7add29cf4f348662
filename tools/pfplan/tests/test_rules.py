"""The command `pfplan rules`: files, words, labels, and what is refused."""

import contextlib
import io
import subprocess
import tempfile
import unittest
from pathlib import Path

from pfplan.__main__ import main
from pfplan.common.errors import Trouble
from pfplan.common.listings import NAME as LIST
from pfplan.common.repository import TOP, program
from pfplan.pf.conversion import RuleOptions, convert, convert_text
from pfplan.pf.left_out import Leftover
from pfplan.pf.profiles import Profile, profile_of
from pfplan.pf.statements import SourceLine
from pfplan.replays.runs import show_rules


PROFILE = "set profile openbsd-7.4"


def text_of(text: str, **more: object) -> str:
    """The rules text of a text."""
    return convert_text(text, "pf.conf", RuleOptions(**more)).text  # type: ignore[arg-type]


class Rulesets(unittest.TestCase):
    """What convert answers."""

    def test_example(self) -> None:
        """The example has the rules and the lines that stand beside it, and pfsrc accepts the rules."""
        folder = "examples/pf.conf"
        with contextlib.chdir(TOP), contextlib.redirect_stderr(
            io.StringIO()
        ) as errors, tempfile.TemporaryDirectory() as made:
            words = [
                f"{folder}/etc/pf.conf",
                "--root",
                folder,
                "--ifconfig",
                f"{folder}/ifconfig",
                "--out",
                f"{made}/rules",
            ]
            self.assertEqual(main(["rules", *words]), 0)
            self.assertEqual(Path(made, "rules").read_text("utf-8"), Path(folder, "rules").read_text("utf-8"))
            self.assertEqual(errors.getvalue(), Path(folder, "told").read_text("utf-8"))
            ended = subprocess.run([program(), "check", f"{made}/rules"], capture_output=True, text=True, check=False)
            self.assertEqual(ended.stdout, "ok items=55 tables=5 entries=16\n")

    def test_profile(self) -> None:
        """A text gets the line of the profile once, and first; the word of the command line stands above what it
        says, and without one a canonical text means what it says."""
        own = "pass all\n"
        for text, wanted in ((own, f"{PROFILE}\n{own}"), (f"{own}{PROFILE}\n{PROFILE}\n", f"{PROFILE}\n{own}")):
            self.assertEqual(text_of(text), wanted)
            self.assertEqual(text_of(text, profile=Profile.OPENBSD), wanted)
            self.assertEqual(text_of(text, profile=Profile.OWN), own)
        with tempfile.TemporaryDirectory() as folder:
            for profile in Profile:
                path = Path(folder, profile.value)
                path.write_text("".join(f"{it}\n" for it in profile.lines()) + own, "utf-8")
                shown = show_rules(path)
                self.assertIs(profile_of(shown), profile)
                made = text_of("".join(f"{it}\n" for it in shown))
                self.assertIs(profile_of(made.splitlines()), profile)

    def test_labels(self) -> None:
        """Each item has its own label, by its number."""
        made = convert_text(
            'block\npass in on em0 proto tcp from 10/8 to port { 80 443 } label "$if $proto $srcaddr $dstport $nr"\n',
            "x",
            RuleOptions(),
        )
        self.assertEqual(made.labels, {1: "em0 tcp 10.0.0.0/8 80 1", 2: "em0 tcp 10.0.0.0/8 443 2"})

    def test_origins(self) -> None:
        """Each item has the place of its statement, heads of anchors too."""
        made = convert_text('block\nanchor "a" {\n  pass proto tcp \\\n  to port { 1 2 }\n}\n', "x", RuleOptions())
        self.assertEqual(made.origins, (SourceLine("x", 1), SourceLine("x", 2), SourceLine("x", 3), SourceLine("x", 3)))

    def test_leftovers(self) -> None:
        """A leftover has its file, line, text, reason, and whether an answer can change."""
        made = convert_text("pass\n\nblock in user root\n", "x", RuleOptions())
        self.assertEqual(
            made.leftovers,
            (
                Leftover(
                    "x", 3, "block in user root", "a trace does not carry what it asks (user)", True, "pf blocks more"
                ),
            ),
        )

    def test_strict(self) -> None:
        """The first thing that can change an answer is refused with its line, and one that can't is not."""
        self.assertEqual(text_of("pass queue a\n", strict=True), f"{PROFILE}\npass all\n")
        with self.assertRaises(Trouble) as raised:
            text_of("pass queue a\npass user 5\n", strict=True)
        self.assertIn("pf.conf: line 2: left out: pass user 5: can change an answer", raised.exception.message)
        self.assertEqual(raised.exception.status, 3)

    def test_refused_text_writes_nothing(self) -> None:
        """A text that is refused leaves a file as it was, and makes none."""
        with tempfile.TemporaryDirectory() as folder, contextlib.redirect_stderr(io.StringIO()):
            source, made = Path(folder, "pf.conf"), Path(folder, "made")
            source.write_text("pass in on em0\nblock frob\n", "utf-8")
            words = ["rules", str(source), "--out", str(made)]
            self.assertEqual(main(words), 3)
            self.assertEqual([it.name for it in Path(folder).iterdir()], ["pf.conf"])
            source.write_text("pass in on em0\n", "utf-8")
            self.assertEqual(main(words), 0)
            kept = made.read_text("utf-8")
            source.write_text("pass in on em0\nblock frob\n", "utf-8")
            self.assertEqual(main(words), 3)
            self.assertEqual(made.read_text("utf-8"), kept)
            self.assertEqual(sorted(it.name for it in Path(folder).iterdir()), [LIST, "made", "pf.conf"])

    def test_too_many_rules(self) -> None:
        """More rules than pfsrc takes are refused, and so are lists that would never end."""
        ports = "{ " + " ".join(map(str, range(1, 102))) + " }"
        text = f"pass proto tcp from port {ports} to port {ports}\n"
        with self.assertRaisesRegex(
            Trouble, "pf.conf: line 1: the text stands for more than 10000 rules and anchors, which pfsrc does not take"
        ):
            text_of(text)
        hosts = "{ " + " ".join(f"10.0.0.{it}" for it in range(100)) + " }"
        with self.assertRaisesRegex(Trouble, "line 1: its lists stand for 102010000 rules"):
            text_of(f"pass proto tcp from {hosts} port {ports} to {hosts} port {ports}\n")

    def test_no_end(self) -> None:
        """Anchors of lists in anchors of lists, and macros of macros, come to an end."""
        text = "".join(f'anchor "a{it}" on {{ em0 em1 em2 }} {{\n' for it in range(16)) + "pass\n" + "}\n" * 16
        with self.assertRaisesRegex(Trouble, "more than 10000 rules and anchors"):
            text_of(text)
        text = 'a0 = "1 2 3 4 5 6 7 8"\n' + "".join(f"a{it + 1} = $a{it} $a{it}\n" for it in range(30))
        with self.assertRaisesRegex(Trouble, "has more than 131072 characters"):
            text_of(text)
        with self.assertRaisesRegex(Trouble, "lists stand in one another more than 64 times"):
            text_of("table <t> " + "{" * 5000 + "}" * 5000 + "\n")

    def test_deep(self) -> None:
        """Anchors inside 16 others are told; lists and files that are too deep are refused."""
        text = "".join(f'anchor "a{it}" {{\n' for it in range(18)) + "pass\n" + "}\n" * 18
        made = convert_text(text, "x", RuleOptions())
        self.assertEqual([it.line for it in made.leftovers], [17])
        with self.assertRaisesRegex(Trouble, "lists stand in one another more than 64 times"):
            text_of("pass from " + "{ " * 70 + "10.0.0.1" + " }" * 70 + "\n")
        with tempfile.TemporaryDirectory() as folder:
            Path(folder, "x").write_text('include "x"\n', "utf-8")
            with self.assertRaisesRegex(Trouble, "files include one another more than 16 times"):
                convert(Path(folder, "x"), RuleOptions())

    def test_names_of_files(self) -> None:
        """A file of odd bytes in its name is named without them; a folder, or nothing, is no file."""
        with tempfile.TemporaryDirectory() as folder:
            odd = Path(folder, "a\x1b[31m.conf")
            odd.write_text("frob\n", "utf-8")
            with self.assertRaisesRegex(Trouble, r"a\\x1b\[31m.conf: line 1: 'frob': wanted a statement"):
                convert(odd, RuleOptions())
            for path in (Path(folder), Path(folder, "none")):
                with self.assertRaises(Trouble) as raised:
                    convert(path, RuleOptions())
                self.assertEqual(raised.exception.status, 4)

    def test_anchor_twice(self) -> None:
        """An anchor that is called twice has one table; one that counts states is carried once."""
        with tempfile.TemporaryDirectory() as folder:
            Path(folder, "a").write_text("table <t> { 10.0.0.1 }\npass from <t>\n", "utf-8")
            Path(folder, "pf.conf").write_text('anchor "a" in\nanchor "a" out\nload anchor a from "a"\n', "utf-8")
            made = convert(Path(folder, "pf.conf"), RuleOptions())
            self.assertEqual(made.text.count("table <a.t>"), 1)
            self.assertEqual(made.text.count("pass from <a.t> to any"), 2)
            Path(folder, "a").write_text("pass keep state (max 5)\n", "utf-8")
            made = convert(Path(folder, "pf.conf"), RuleOptions())
            self.assertEqual((made.text.count("max 5"), [it.line for it in made.leftovers]), (1, [2]))


if __name__ == "__main__":
    unittest.main()
