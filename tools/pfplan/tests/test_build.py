"""tools/build and tools/unproved, with a stand-in for the toolchain: what they ask of it, tell and hand on."""

import json
import os
import pty
import re
import shutil
import signal
import subprocess
import sys
import time
from pathlib import Path

from pfplan.common.repository import TOP
from pfplan.tests.support import Done, FolderCase

# Notes its words. `all check` tells that low and mid are done, and works on mid between; it would go on with the
# program, which `run` makes.
RT_BUILDS = """#!/bin/sh
name=$(basename "$PWD")
echo "$name: $*" >> "$RT_NOTES"
work() { sh -c 'sleep "$0"; :' "$2" rattle check --crate-name "$1" --jobs 1; }
case $1 in
all)
    [ -z "$RT_FAILS" ] || { echo 'src/main.rt:1:1: error: no proof'; exit 1; }
    work mid 0.5 &
    sleep 0.2
    printf '== low\\nfn low::f: proved\\n'
    wait
    printf '== mid\\n'
    work "$name" 50
    echo "$name: not ended" >> "$RT_NOTES" ;;
run)
    work "$name" "$RT_SECONDS_OF_WORK"
    printf '#!/bin/sh\\necho %s 1 "$@"\\n' "$name" > "out/$name"
    chmod +x "out/$name" ;;
esac
"""
# Notes its words, what it reads, and the files that the words name; says what it is told to say.
RT_TRIES = f"""#!{sys.executable}
import json, os, signal, sys, time
words = sys.argv[1:]
given = words[words.index("--") + 1:]
files = {{it: open(it, encoding="utf-8").read() for it in given if os.path.isfile(it)}}
read = sys.stdin.read()
with open(os.environ["RT_NOTES"], "w", encoding="utf-8") as notes:
    json.dump({{"rt": words[:2], "folder": os.getcwd(), "words": given, "input": read, "files": files}}, notes)
time.sleep(float(os.environ.get("RT_SECONDS_OF_WORK", 0)))
sys.stdout.write(os.environ.get("RT_OUT", ""))
sys.stderr.write(os.environ["RT_ERR"])
sys.exit(int(os.environ["RT_STATUS"]))
"""
ENDED = "checked: ended status={0}\nrun=ended status={0} runners=1 proved=no\n"
FIRST = "not proved: `rt try` builds the sources and runs them once, in 1 to 3 minutes\n"
LAST = "the answer is of a program that is NOT PROVED (--unproved)\n"


class WithToolchain(FolderCase):
    """A test with a stand-in for rt before all else on the PATH."""

    def setUp(self) -> None:
        super().setUp()
        self.notes = self.folder / "notes"
        self.env = {name: it for name, it in os.environ.items() if name not in ("PFSRC", "PFSTRACE")}
        self.env |= {"PATH": f"{self.folder / 'bin'}:{os.environ['PATH']}", "RT_NOTES": str(self.notes)}

    def rt(self, text: str) -> None:
        """Has rt be this script."""
        (self.folder / "bin").mkdir(exist_ok=True)
        self.write("bin/rt", text).chmod(0o755)

    def call(self, *words: object, stdin: str = "", **env: str) -> Done:
        """Calls a program in the folder."""
        ended = subprocess.run(
            [*map(str, words)],
            input=stdin,
            capture_output=True,
            text=True,
            cwd=self.folder,
            env=self.env | env,
            check=False,
            timeout=60,
        )
        return Done(ended.returncode, ended.stdout, ended.stderr)


class Build(WithToolchain):
    """Over a repository of two programs and two libraries."""

    def setUp(self) -> None:
        super().setUp()
        self.rt(RT_BUILDS)
        self.env |= {"RT_SECONDS_OF_WORK": "0.5", "RT_FAILS": ""}
        self.write("crates.txt", "low:\nmid: low\npfsrc: mid # a program\npfstrace: mid low\nother: low\n")
        self.write("HANDLES", "Handles allowed: none.\n")
        for name in ("pfsrc", "pfstrace", "mid", "low"):
            self.folder.joinpath("crates", name, "src").mkdir(parents=True)
            self.write(f"crates/{name}/src/main.rt", "fn main() {}\n")
        self.folder.joinpath("tools").mkdir()
        for name in ("pfsrc", "pfstrace", "tools/build", "tools/unproved"):
            shutil.copy2(TOP / name, self.folder / name)

    def asked(self) -> list[str]:
        """What was asked of rt since the last time."""
        lines = self.notes.read_text("utf-8").splitlines() if self.notes.exists() else []
        self.notes.unlink(missing_ok=True)
        return [re.sub(r"--jobs \d+", "--jobs N", it) for it in lines]

    def test_a_first_call_builds_and_answers(self) -> None:
        done = self.call("./pfsrc", "show", "rules")
        self.assertEqual((done.status, done.out), (0, "pfsrc 1 show rules\n"), done.err)
        self.assertEqual(self.asked(), ["pfsrc: all check --jobs N", "pfsrc: run -- --version"])
        self.assertRegex(
            done.err,
            r"\Apfsrc: proves and builds 3 crates, \d+ at a time; the first time this takes 15 to 40 minutes\n"
            r"pfsrc: an answer in 1 to 3 minutes, of a program that is not proved: `\./pfsrc --unproved WORD \.\.`\n"
            r"pfsrc: 1 of 3 crates, \d+ s; in work: mid \d+ s\n"
            r"pfsrc: 2 of 3 crates, \d+ s(; in work: .*)?\n"
            r"pfsrc: 3 of 3 crates, \d+ s\n\Z",
        )
        self.assertEqual((self.call("./pfsrc", "show"), self.asked()), (Done(0, "pfsrc 1 show\n", ""), []))

    def test_several_in_one_go(self) -> None:
        done = self.call("tools/build", "pfsrc", "pfstrace")
        self.assertEqual((done.status, done.out), (0, ""), done.err)
        self.assertEqual(
            self.asked(), ["pfsrc: all check --jobs N", "pfsrc: run -- --version", "pfstrace: run -- --version"]
        )
        self.assertIn("pfsrc, pfstrace: proves and builds 4 crates", done.err)
        self.assertEqual(re.findall(r"(\d) of 4 crates", done.err), ["1", "2", "3", "4"])
        self.assertEqual((self.call("tools/build", "pfsrc", "pfstrace"), self.asked()), (Done(0, "", ""), []))
        self.write("crates/pfstrace/src/main.rt", "fn main() { }\n")
        os.utime(self.folder / "crates" / "pfsrc" / "out" / "pfsrc")
        done = self.call("tools/build", "pfsrc", "pfstrace")
        self.assertEqual([it.split()[0] for it in self.asked()], ["pfstrace:", "pfstrace:"])
        self.assertIn("pfstrace: proves and builds 3 crates", done.err)

    def test_a_dry_run_builds_nothing(self) -> None:
        done = self.call("tools/build", "--dry-run", "pfsrc", "pfstrace")
        self.assertEqual((done.status, done.out, self.asked()), (70, "", []))
        self.assertIn("/out/pfsrc: is not built yet: `./pfsrc --version` builds it\n", done.err)
        self.assertEqual(self.call("./pfsrc").status, 0)
        self.assertEqual(self.call("tools/build", "--dry-run", "pfsrc"), Done(0, "", ""))
        self.write("crates/low/src/main.rt", "fn main() { }\n")
        self.assertRegex(
            self.call("tools/build", "--dry-run", "pfsrc").err,
            r"/out/pfsrc: is older than .*/low/src/main.rt: `\./pfsrc --version` builds it anew\n\Z",
        )

    def test_what_does_not_build(self) -> None:
        done = self.call("./pfstrace", RT_FAILS="yes")
        self.assertEqual((done.status, done.out), (70, ""))
        self.assertIn("src/main.rt:1:1: error: no proof\npfstrace: the program did not build; the whole log", done.err)
        self.assertEqual(self.call("tools/build", "pfsrc", "pfstrace", RT_FAILS="yes").status, 70)
        self.assertEqual([it.split()[0] for it in self.asked()], ["pfstrace:", "pfsrc:"])
        done = self.call(sys.executable, "./tools/build", "pfsrc", PATH=str(self.folder))
        self.assertEqual(
            (done.status, done.err),
            (70, "pfsrc: the toolchain's command rt is not on the PATH; README.md says what is needed\n"),
        )
        self.assertEqual(self.call("tools/build", "low").status, 2)

    def test_a_second_call_waits_for_the_first(self) -> None:
        env = self.env | {"RT_SECONDS_OF_WORK": "4"}
        first = subprocess.Popen(["tools/build", "pfsrc"], cwd=self.folder, env=env, stderr=subprocess.DEVNULL)
        while not self.notes.exists():
            time.sleep(0.01)
        done = self.call("./pfsrc", "show")
        self.assertEqual((first.wait(), done.status, done.out), (0, 0, "pfsrc 1 show\n"))
        self.assertIn("pfsrc: another call is building; waiting for it\n", done.err)
        self.assertEqual(len(self.asked()), 2)

    def test_a_terminal_has_one_line(self) -> None:
        ours, theirs = pty.openpty()
        child = subprocess.Popen(
            ["tools/build", "pfsrc"], cwd=self.folder, env=self.env | {"RT_SECONDS_OF_WORK": "5"}, stderr=theirs
        )
        os.close(theirs)
        said = b""
        while True:
            try:
                said += os.read(ours, 4096)
            except OSError:
                break
        self.assertEqual(child.wait(), 0)
        os.close(ours)
        *shown, last = said.decode().split("\r\033[K")
        found = [re.fullmatch(r"pfsrc: 2 of 3 crates, \d+ s; in work: pfsrc (\d+) s", it) for it in shown]
        self.assertGreater(len({it[1] for it in found if it}), 1, shown)
        self.assertRegex(last, r"\Apfsrc: 3 of 3 crates, \d+ s\r\n\Z")

    def test_an_interrupt_ends_the_toolchain_too(self) -> None:
        self.env["RT_SECONDS_OF_WORK"] = "50"
        child = subprocess.Popen(
            ["tools/build", "pfsrc"], cwd=self.folder, env=self.env, stderr=subprocess.PIPE, text=True
        )
        assert child.stderr is not None
        while "2 of 3 crates" not in child.stderr.readline():
            pass
        begun = time.monotonic()
        child.send_signal(signal.SIGTERM)
        self.assertEqual(child.wait(), 128 + signal.SIGTERM)
        child.stderr.read()
        child.stderr.close()
        self.assertLess(time.monotonic() - begun, 10)


class Unproved(WithToolchain):
    def setUp(self) -> None:
        super().setUp()
        self.rt(RT_TRIES)
        self.env |= {"RT_ERR": ENDED.format(0), "RT_STATUS": "0"}

    def answer(self, name: str, *words: object, stdin: str = "", **env: str) -> Done:
        """What the script of a program does for --unproved."""
        return self.call(TOP / name, "--unproved", *words, stdin=stdin, **env)

    def given(self, name: str, *words: object, stdin: str = "") -> list[str]:
        """The words that the program got, without this test's folder; <..> stands for a file with this text."""
        done = self.answer(name, *words, stdin=stdin)
        self.assertEqual((done.status, done.out, done.err), (0, "", f"{name}: {FIRST}{name}: {LAST}"))
        asked = json.loads(self.notes.read_text("utf-8"))
        self.assertEqual((asked["rt"], asked["folder"]), (["try", "--seconds"], str(TOP / "crates" / name)))
        self.input = asked["input"]
        return [
            it if it.startswith(f"{self.folder}/") or it not in asked["files"] else f"<{asked['files'][it]}>"
            for it in (it.replace(f"{self.folder}/", "./") if not Path(it).is_file() else it for it in asked["words"])
        ]

    def test_words_of_pfsrc(self) -> None:
        rules = self.write("rules", "pass\n")
        self.assertEqual(self.given("pfsrc", "replay", "rules", "gone", stdin="x"), ["replay", str(rules), "./gone"])
        self.assertEqual(self.input, "")
        self.assertEqual(
            self.given("pfsrc", "replay", "--line-buffered", "rules", "-", stdin="trace"),
            ["replay", "--line-buffered", str(rules), "<trace>"],
        )
        # (the program itself refuses this)
        self.assertEqual(self.given("pfsrc", "replay", "-", "-", stdin="x"), ["replay", "-", "-"])
        self.assertEqual(self.given("pfsrc", "show", "./-", stdin="x"), ["show", "././-"])
        self.assertEqual(self.given("pfsrc", "help", "replay"), ["help", "replay"])
        self.assertEqual((self.given("pfsrc", "--version", stdin="x"), self.input), (["--version"], ""))
        self.assertEqual((self.given("pfsrc", stdin="both"), self.input), ([], "both"))
        self.assertEqual((self.given("pfsrc", "--line-buffered", stdin="it"), self.input), (["--line-buffered"], "it"))

    def test_words_of_pfstrace(self) -> None:
        capture = self.write("em0", "frames")
        self.assertEqual(
            self.given("pfstrace", "--interface", "em0", "--inside", "192.0.2.0/24", "em0"),
            ["--interface", "em0", "--inside", "192.0.2.0/24", str(capture)],
        )
        for word in ("--answers", "--told"):
            self.assertEqual(self.given("pfstrace", word, "new", "em0"), [word, "./new", str(capture)])
            self.assertEqual(self.given("pfstrace", f"{word}=new", "--", "em0"), [f"{word}=./new", "--", str(capture)])
            self.assertEqual(self.given("pfstrace", word, "-", "em0"), [word, "-", str(capture)])
        self.assertEqual(self.given("pfstrace", "--mac", "a", stdin="frames"), ["--mac", "a", "<frames>"])
        self.assertEqual(self.given("pfstrace", "--mac", stdin="frames"), ["--mac"])
        self.assertEqual(self.given("pfstrace", "--help", stdin="frames"), ["--help"])

    def test_a_pipe_is_read_here(self) -> None:
        done = self.call("bash", "-c", f"{TOP / 'pfsrc'} --unproved check <(echo pass)")
        self.assertEqual((done.status, done.err), (0, f"pfsrc: {FIRST}pfsrc: {LAST}"))
        asked = json.loads(self.notes.read_text("utf-8"))
        self.assertEqual([asked["files"].get(it) for it in asked["words"]], [None, "pass\n"])
        self.assertFalse(Path(asked["words"][1]).exists())

    def test_the_capture_stays(self) -> None:
        capture = self.write("pflog", "frames")
        done = self.call("bash", "-c", f"{TOP / 'pfstrace'} --unproved --answers pflog < pflog")
        self.assertEqual((done.status, done.err), (2, f"pfstrace: {FIRST}error: --answers: this is the capture\n"))
        self.assertEqual((self.notes.exists(), capture.read_text("utf-8")), (False, "frames"))

    def test_an_answer_is_handed_on(self) -> None:
        said = "trace: row 3: field 4\n"
        ended = {"RT_OUT": "1 new @1\n", "RT_ERR": said + ENDED.format(1), "RT_STATUS": "1"}
        done = self.answer("pfsrc", "replay", "a", "b", **ended)
        self.assertEqual((done.status, done.out, done.err), (1, "1 new @1\n", f"pfsrc: {FIRST}{said}pfsrc: {LAST}"))
        both = "interpreter: ended status=0\n" + ENDED.format(0).replace("runners=1", "runners=2")
        done = self.answer("pfsrc", RT_OUT="end\n", RT_ERR=both)
        self.assertEqual((done.status, done.out, done.err), (0, "end\n", f"pfsrc: {FIRST}pfsrc: {LAST}"))

    def test_without_an_answer_nothing_is_printed(self) -> None:
        faults = (
            ("src/main.rt:1:1: error: x\nrun=none proved=no\n", "1", r"src/main\.rt:1:1: error: x\n"),
            ("| 1 new\nchecked: fault: overflow\nrun=fault proved=no\n", "4", r"pfsrc: .*\nchecked: fault: overflow\n"),
            (
                "| 1 new\nchecked: no-answer: the program wrote more than 1048576 bytes to it\nrun=no-answer\n",
                "6",
                r"pfsrc: .*\npfsrc: --unproved: no answer: it has more than 1 MiB; ",
            ),
        )
        for said, status, wanted in faults:
            done = self.answer("pfsrc", "check", "rules", RT_OUT="1 new @1\n", RT_ERR=said, RT_STATUS=status)
            self.assertEqual((done.status, done.out), (70, ""))
            self.assertRegex(done.err, wanted)
            self.assertRegex(done.err, r"pfsrc: --unproved: no answer: .*\n\Z")

    def test_a_reader_that_goes_away(self) -> None:
        env = {"RT_OUT": "x" * 100_000}
        done = self.call("bash", "-c", f"{TOP / 'pfsrc'} --unproved check rules | true; exit ${{PIPESTATUS[0]}}", **env)
        self.assertEqual((done.status, done.err), (4, f"pfsrc: {FIRST}write failed\n"))

    def test_no_toolchain(self) -> None:
        done = self.call(sys.executable, TOP / "tools" / "unproved", "pfsrc", "check", "rules", PATH=str(self.folder))
        self.assertEqual(done.status, 70)
        self.assertEqual(
            done.err, "pfsrc: the toolchain's command rt is not on the PATH; README.md says what is needed\n"
        )
