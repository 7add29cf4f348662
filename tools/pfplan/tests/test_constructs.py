"""Each construct of pf.conf(5): what becomes of it. The cases are in constructs.txt, and docs/PFCONF.md names them.

A case is `=== NAME WORDS`, a text, what `pfplan rules WORDS` writes behind `--- rules`, and what it says on standard
error behind `--- errors`. The line of the profile is left out, unless the words name one or the text is a canonical
one. Files that the texts name are in the folder constructs/.
"""

import contextlib
import io
import os
import re
import subprocess
import tempfile
import unittest
from dataclasses import dataclass
from pathlib import Path

from pfplan.__main__ import main
from pfplan.common.repository import TOP, program
from pfplan.tests.routed import environment

HERE = Path(__file__).resolve().parent
TEXTS = HERE / "constructs"
PROFILE = "set profile openbsd-7.4"
NOTHING = "# no rule and no setting is left"
# cases with a `match` that does nothing, since nothing stands behind `no nat`
IDLE = ("old_statements", "no_scrub_old")


@dataclass(frozen=True)
class Case:
    """A text and what comes of it."""

    name: str
    words: tuple[str, ...]
    text: str
    rules: str
    errors: str


def cases() -> list[Case]:
    """All cases of constructs.txt."""
    found = []
    for block in (HERE / "constructs.txt").read_text("utf-8").split("=== ")[1:]:
        head, _, rest = block.partition("\n")
        text, _, errors = rest.partition("--- errors\n")
        text, _, rules = text.partition("--- rules\n")
        name, *words = head.split()
        is_whole = "--profile" in words or name == "canonical_text"
        found.append(Case(name, tuple(words), text, rules if is_whole else with_profile(rules), errors))
    return found


def with_profile(rules: str) -> str:
    """A rules text with the line that a pf.conf gets by itself: first, but behind the comment on entries by records."""
    lines = [it for it in rules.splitlines() if it != NOTHING]
    at = len(lines) > 0 and lines[0].startswith("# entries:")
    return "".join(f"{it}\n" for it in [*lines[:at], PROFILE, *lines[at:]]) if rules else ""


def answer(name: str, words: tuple[str, ...], text: str) -> tuple[int, str, str]:
    """Status, standard output and standard error of `pfplan rules` on a file of that name, in the folder of the
    texts."""
    with tempfile.TemporaryDirectory() as folder, contextlib.chdir(folder):
        for it in TEXTS.iterdir():
            os.symlink(it, it.name)
        Path(name).write_text(text, "utf-8")
        output, errors = io.StringIO(), io.StringIO()
        with contextlib.redirect_stderr(errors):
            status = main(["rules", *words, "--out", "made", name])
        if Path("made").exists():
            output.write(Path("made").read_text("utf-8"))
    return status, output.getvalue(), errors.getvalue()


class Constructs(unittest.TestCase):
    """What becomes of each construct."""

    def test_each(self) -> None:
        """Rules and what is said are those of the case; a text that is refused has no rules."""
        for case in cases():
            with self.subTest(case.name):
                status, rules, errors = answer(case.name, case.words, case.text)
                self.assertEqual(rules, case.rules)
                self.assertEqual(errors, case.errors)
                self.assertEqual(status, 3 if errors.startswith("pfplan rules: ") else 0)

    def test_accepted(self) -> None:
        """Every rules text is accepted by pfsrc."""
        for case in cases():
            with self.subTest(case.name), tempfile.NamedTemporaryFile("w") as file:
                file.write(case.rules)
                file.flush()
                name = environment().get("PFSRC", program()) if "set route" in case.rules else program()
                ended = subprocess.run([name, "check", file.name], capture_output=True, text=True, check=False)
                self.assertEqual((ended.returncode, ended.stderr), (0, ""))

    def test_again(self) -> None:
        """Expanding what was expanded changes nothing, and leaves nothing out. Of a text with entries by records
        test_entries says so; of a `match` that stands for `no nat`, and does nothing, it is told."""
        for case in cases():
            if (
                not case.rules.removeprefix(f"{NOTHING}\n")
                or case.name in ("on_group_unknown", "received_on_unknown", "set_skip_groups", *IDLE)
                or case.rules.startswith("# entries:")
            ):
                continue
            with self.subTest(case.name):
                words = case.words if "--profile" in case.words else ()
                _, rules, errors = answer("again", words, case.rules)
                self.assertEqual(rules, case.rules)
                # whose giver was left out
                noted = r"(note: no rule of this text gives the tag .*\n)*"
                count = r"again: \d+ items?; left out: 0 that can change an answer, 0 that change none\n"
                self.assertRegex(errors, f"^{noted}{count}$")

    def test_documented(self) -> None:
        """docs/PFCONF.md names every case, and no other."""
        names = {case.name for case in cases()}
        named = set(re.findall(r"`([a-z_]+)`(?=[^|]*\|$)", (TOP / "docs/PFCONF.md").read_text("utf-8"), re.MULTILINE))
        self.assertEqual(named, names)


if __name__ == "__main__":
    unittest.main()
