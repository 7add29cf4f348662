"""tools/install: what it installs runs from there, and what fails leaves nothing behind."""

import os
import subprocess
import sys
import unittest
from pathlib import Path

from pfplan.common.repository import TOP
from pfplan.tests.support import Done, FolderCase

ROUTER = TOP / "examples" / "pf.conf"
COMMANDS = ("pfplan", "pfsrc", "pfstrace")


def built(name: str) -> str:
    """The built program, which the tests may get by another name."""
    return os.environ.get(name.upper()) or str(TOP / "crates" / name / "out" / name)


class Install(FolderCase):
    def setUp(self) -> None:
        super().setUp()
        self.prefix = self.folder / "prefix"
        self.env = {name.upper(): str(self.program(name)) for name in ("pfsrc", "pfstrace")}

    def program(self, name: str, version: str = "1") -> Path:
        """A program that says its name and version, and nothing else."""
        path = self.write(f"{name}-{version}", f"#!/bin/sh\necho {name} {version}\n")
        path.chmod(0o755)
        return path

    def call(self, *words: object, **env: str) -> Done:
        """Calls a program, without PFSRC and PFSTRACE where they are not given."""
        around = {name: it for name, it in os.environ.items() if name not in ("PFSRC", "PFSTRACE")} | env
        ended = subprocess.run(
            [*map(str, words)], capture_output=True, text=True, cwd=self.folder, env=around, check=False, timeout=120
        )
        return Done(ended.returncode, ended.stdout, ended.stderr)

    def install(self, **env: str) -> Done:
        """Calls tools/install."""
        return self.call(sys.executable, TOP / "tools" / "install", self.prefix, **(self.env | env))

    def refused(self, status: int, said: str, **env: str) -> None:
        """Installs, which fails, and leaves nothing that runs."""
        done = self.install(**env)
        self.assertEqual((done.status, done.out), (status, ""), done.err)
        self.assertIn(said, done.err)
        self.assertRegex(done.err, r"^install: .*; nothing is changed\n$")
        self.assertEqual(self.files(), [])

    def files(self) -> list[str]:
        """The files and links below PREFIX."""
        return sorted(
            str(it.relative_to(self.prefix)) for it in self.prefix.rglob("*") if it.is_symlink() or not it.is_dir()
        )

    def test_what_is_installed_answers_as_the_repository_does(self) -> None:
        programs = {name.upper(): built(name) for name in ("pfsrc", "pfstrace")}
        done = self.install(**programs)
        self.assertEqual((done.status, done.err), (0, ""))
        words = (
            "run",
            ROUTER / "etc" / "pf.conf",
            ROUTER / "web.pcap",
            "--root",
            ROUTER,
            "--ifconfig",
            ROUTER / "ifconfig",
            "--users",
            "198.51.100.0/24",
            "--into",
        )
        installed = self.call(self.prefix / "bin" / "pfplan", *words, "installed")
        here = self.call(TOP / "pfplan", *words, "here", **programs)
        self.assertEqual((installed.status, installed.err), (0, here.err))
        for name in ("rules", "trace.csv", "report", "summary.json", "DIFFERENCES.md"):
            self.assertEqual(
                (self.folder / "installed" / name).read_bytes(), (self.folder / "here" / name).read_bytes(), name
            )
        # (size calls pfplan itself for each value)
        sized = self.call(
            self.prefix / "bin" / "pfplan",
            "size",
            "here/rules",
            "here/trace.csv",
            "--vary",
            "states=100..5000",
            "--grid",
            "2",
            "--runs",
            "2",
            "--users",
            "198.51.100.0/24",
        )
        self.assertEqual((sized.status, sized.err), (0, ""))

    def test_it_is_whole_and_readable(self) -> None:
        self.assertEqual(self.install().status, 0)
        for name in COMMANDS:
            self.assertTrue(os.access(self.prefix / "bin" / name, os.X_OK), name)
            page = self.prefix / "share" / "man" / "man1" / f"{name}.1"
            self.assertEqual(page.read_bytes(), (TOP / "man" / f"{name}.1").read_bytes())
        home = self.prefix / "lib" / "pfplan"
        self.assertEqual(
            sorted(it.name for it in home.iterdir()),
            ["completion", "docs", "man", "pfplan", "pfsrc", "pfstrace", "tools"],
        )
        self.assertEqual(
            [it for it in home.rglob("*") if not it.stat().st_mode & 0o044 or it.name in ("tests", "__pycache__")], []
        )
        here = {
            it.relative_to(TOP)
            for it in (TOP / "tools" / "pfplan").rglob("*")
            if it.is_file() and not {"tests", "__pycache__"}.intersection(it.parts)
        }
        self.assertEqual({it.relative_to(home) for it in (home / "tools").rglob("*") if it.is_file()}, here)

    def test_a_second_takes_the_place_of_the_first(self) -> None:
        self.assertEqual(self.install().status, 0)
        before = self.files()
        self.assertEqual(self.install(PFSRC=str(self.program("pfsrc", "2"))).status, 0)
        self.assertEqual(self.call(self.prefix / "bin" / "pfsrc").out, "pfsrc 2\n")
        self.assertEqual(self.files(), before)

    def test_a_second_that_fails_leaves_the_first(self) -> None:
        self.assertEqual(self.install().status, 0)
        before = self.files()
        self.assertEqual(self.install(PFSRC="/bin/false").status, 70)
        self.assertEqual((self.files(), self.call(self.prefix / "bin" / "pfsrc").out), (before, "pfsrc 1\n"))

    def test_programs_that_are_none(self) -> None:
        self.refused(70, "none: is no program (PFSRC names it)", PFSRC=str(self.folder / "none"))
        self.refused(70, "is no built pfstrace: --version ends with status 0", PFSTRACE=self.env["PFSRC"])
        self.refused(70, "/bin/false: is no built pfsrc: --version ends with status 1", PFSRC="/bin/false")
        self.refused(70, "/pfsrc: is no built pfsrc: --version ends with status ", PFSRC=str(TOP / "pfsrc"))

    def test_places_that_cannot_be_written(self) -> None:
        self.prefix.mkdir()
        self.prefix.joinpath("bin").write_text("", "utf-8")
        done = self.install()
        self.assertEqual((done.status, self.files()), (4, ["bin"]))
        self.assertIn("/prefix/bin: File exists", done.err)
        self.prefix = Path("/dev/null")
        self.assertEqual(self.install().err, "install: /dev/null/lib: Not a directory; nothing is changed\n")

    def test_what_others_made_stays(self) -> None:
        for name in ("bin/pfsrc", "lib/pfplan"):
            self.prefix = self.folder / name.replace("/", "-")
            other = self.prefix / name
            other.parent.mkdir(parents=True)
            other.write_text("other", "utf-8")
            done = self.install()
            self.assertEqual((done.status, self.files(), other.read_text("utf-8")), (4, [name], "other"))
            self.assertIn("is there already, and tools/install did not make it", done.err)

    def test_programs_are_beside_pfplan_else_on_the_path(self) -> None:
        self.assertEqual(self.install().status, 0)
        on_the_path = self.folder / "path"
        on_the_path.mkdir()
        self.program("pfsrc", "path").rename(on_the_path / "pfsrc")
        code = "from pfplan.common.repository import program; print(program())"
        for beside, wanted in (("pfsrc", self.prefix / "lib" / "pfplan" / "pfsrc"), ("gone", on_the_path / "pfsrc")):
            self.prefix.joinpath("lib", "pfplan", "pfsrc").rename(self.prefix / "lib" / "pfplan" / beside)
            shown = self.call(
                sys.executable,
                "-B",
                "-c",
                code,
                PATH=f"{on_the_path}:{os.defpath}",
                PYTHONPATH=str(self.prefix / "lib" / "pfplan" / "tools"),
            )
            self.assertEqual((shown.out, shown.err), (f"{wanted}\n", ""))


if __name__ == "__main__":
    unittest.main()
