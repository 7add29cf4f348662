"""The command `trace`, over a stand-in for ./pfstrace. What pfstrace makes of captures is in cases/captures."""

import os
import shutil
import signal
import subprocess
import sys
import time
import unittest

from pfplan.common.errors import Status
from pfplan.common.repository import TOP
from pfplan.tests.support import Done, FolderCase, heed_interrupts, pfplan
from pfplan.traces.pf_answers import HEAD as ANSWERS

NAME = "$(touch here) a=b.pcap"
ONE = "printf 'time,dir\\n5,in\\n'"


class Captures(FolderCase):
    def setUp(self) -> None:
        super().setUp()
        self.capture = self.folder / NAME
        self.capture.write_bytes(b"\xd4\xc3\xb2\xa1" + bytes(20))

    def pfstrace(self, script: str) -> dict[str, str]:
        """A pfstrace that is a script, as the environment names it."""
        program = self.write("pfstrace", f'#!/bin/sh\ntest "$1" = --version && exit 0\n{script}\n')
        program.chmod(0o755)
        return {"PFSTRACE": str(program)}

    def call(self, script: str, *words: object, capture: str = NAME, stdin: str = "") -> Done:
        """Runs the command in the folder, with a pfstrace that is a script."""
        return pfplan("trace", capture, *words, stdin=stdin, env=self.pfstrace(script), cwd=self.folder)

    def read(self, name: str) -> str:
        """What a file in the folder holds."""
        return (self.folder / name).read_text("utf-8")

    def test_whole(self) -> None:
        made = "time,dir\n5,in\n7,out\n"
        script = (
            "echo 'frames 3: records 2' >&2; printf 'time,dir\\n5,in\\n7,out\\n'; for it; do echo \"$it\"; done > words"
        )
        given = ("--inside", "192.0.2.0/24", "--inside", "2001:db8::/32,198.51.100.7", "--if", "vlan3")
        self.assertEqual(self.call(script, *given), Done(0, made, "frames 3: records 2\n"))
        words = ["--interface", "vlan3", "--inside", "192.0.2.0/24,2001:db8::/32,198.51.100.7/32", NAME]
        self.assertEqual(self.read("words").splitlines(), words)
        self.assertEqual(
            self.call(script, *given, "--zero"), Done(0, "time,dir\n0,in\n2,out\n", "frames 3: records 2\n")
        )
        self.assertEqual(self.read("words").splitlines(), words)
        self.assertEqual(self.call(script, "--out", "trace"), Done(0, "", "frames 3: records 2\n"))
        self.assertEqual((self.read("words"), self.read("trace")), (f"{NAME}\n", made))
        self.assertEqual(self.left(), [NAME, "pfstrace", "trace", "words"])

    def test_the_interface_s_own_address(self) -> None:
        lines: tuple[str, ...] = (
            "em0: flags=8843<UP> mtu 1500",
            "\tlladdr 00:00:5e:00:53:01",
            "\tinet 192.0.2.1 netmask 0xffffff00",
        )
        lines += ("carp0: flags=8843<UP> mtu 1500",)
        lines += (
            "\tlladdr 00:00:5e:00:01:07",
            "\tcarp: MASTER carpdev em0 vhid 7 advbase 1 advskew 0",
            "tun0: flags=51<UP> mtu 1500",
        )
        self.write("ifconfig", "\n".join(lines) + "\n")
        script = f'echo "$*" > words; {ONE}'
        for name, macs in (
            ("em0", "--mac 00:00:5e:00:53:01,00:00:5e:00:01:07 "),
            ("carp0", "--mac 00:00:5e:00:01:07 "),
            ("tun0", ""),
        ):
            with self.subTest(name):
                self.assertEqual(
                    self.call(script, "--ifconfig", "ifconfig", "--if", name), Done(0, "time,dir\n5,in\n", "")
                )
                self.assertEqual(self.read("words"), f"--interface {name} {macs}--inside 192.0.2.0/24 {NAME}\n")

    def test_directions_by_networks_alone(self) -> None:
        counts = "directions: by pflog 0, by a cooked header 0, by --mac {}, by networks {}; networks contradict {}"
        for mac, networks, against, said in (
            (3, 0, 0, ""),
            (
                0,
                3,
                0,
                "directions of 3 packets are by networks alone: all turned if em1 is an inner interface. With "
                "--ifconfig FILE and --if NAME its own address (lladdr) tells them\n",
            ),
            (
                3,
                0,
                2,
                "the networks of --inside say the other direction of 2 packets: is em1 an inner interface? Theirs is "
                "by their frames\n",
            ),
        ):
            with self.subTest(said):
                account = counts.format(mac, networks, against)
                done = self.call(f"echo '{account}' >&2; {ONE}", "--if", "em1", "--inside", "192.0.2.0/24")
                self.assertEqual(done, Done(0, "time,dir\n5,in\n", f"{account}\n{said}"))

    def test_a_name_like_an_option(self) -> None:
        (self.folder / "-r").write_bytes(self.capture.read_bytes())
        done = self.call(f'echo "$*" > words; {ONE}', capture="./-r")
        self.assertEqual((done, self.read("words")), (Done(0, "time,dir\n5,in\n", ""), "./-r\n"))

    def test_standard_input(self) -> None:
        """pfstrace gets a copy of it, which is gone at the end."""
        done = self.call(f'echo "$1" > words; cat "$1" > given; {ONE}', capture="-", stdin="\x01 a capture")
        self.assertEqual((done, self.read("given")), (Done(0, "time,dir\n5,in\n", ""), "\x01 a capture"))
        self.assertFalse(os.path.exists(self.read("words").strip()))

    def test_told(self) -> None:
        """The word of before, --told, is read too."""
        script = f'printf \'{ANSWERS}\\n1,block,7,a,0\\n\' > "$2"; echo "$1 $3" > words; {ONE}'
        self.assertEqual(self.call(script, "--answers", "told", "--out", "trace"), Done(0, "", ""))
        self.assertEqual(self.call(script, "--told", "told", "--out", "trace"), Done(0, "", ""))
        self.assertEqual((self.read("told"), self.read("trace")), (f"{ANSWERS}\n1,block,7,a,0\n", "time,dir\n5,in\n"))
        self.assertEqual(
            (self.read("words"), self.left()), (f"--answers {NAME}\n", [NAME, "pfstrace", "told", "trace", "words"])
        )

    def test_it_fails(self) -> None:
        words = ("--answers", "told", "--out", "trace")
        self.assertEqual(self.call(f'echo {ANSWERS} > "$2"; {ONE}', *words).status, 0)
        before = (self.read("told"), self.read("trace"))
        for end, status, why in (
            (
                "echo 'capture: behind frame 1: the file ends within it' >&2; exit 1",
                Status.REFUSED,
                "capture: behind frame 1: the file ends within it (--partial takes the frames before it)",
            ),
            ("echo 'frames 1: records 1' >&2; echo 'read failed' >&2; exit 4", Status.FAILED, "read failed"),
            ("exit 9", Status.REFUSED, "status 9"),
            ("kill -9 $$", Status.REFUSED, "status -9"),
        ):
            with self.subTest(why):
                done = self.call(f'echo {ANSWERS} > "$2"; {ONE}; echo 9; {end}', *words)
                self.assertEqual(done, Done(status, "", f"pfplan trace: {NAME}: pfstrace: {why}\n"))
                self.assertEqual((self.read("told"), self.read("trace")), before)
                self.assertEqual(self.left(), [NAME, "pfstrace", "told", "trace"])
                self.assertEqual(self.call(f"{ONE}; {end}").out, "")

    def test_no_records(self) -> None:
        account = (
            "frames {}: records {}, not IP 1, later fragments 0, cut before their ports 0, neither in nor out {}, of "
            "a link type that is not read 0"
        )
        for counts, words, why in (
            ((0, 0, 0), (), "no frames in the capture"),
            ((9, 0, 8), (), "it does not tell which way its packets go: give --inside or --ifconfig"),
            (
                (9, 0, 8),
                ("--inside", "192.0.2.0/24"),
                "none of its 9 frames is a record: 8 neither in nor out, 1 not IP",
            ),
            ((9, 1, 7), (), ""),
        ):
            with self.subTest(counts=counts, words=words):
                line = account.format(*counts)
                done = self.call(f"{ONE}; echo '{line}' >&2", *words)
                wanted = (
                    Done(Status.REFUSED, "", f"pfplan trace: {NAME}: {why}\n")
                    if why
                    else Done(0, "time,dir\n5,in\n", f"{line}\n")
                )
                self.assertEqual(done, wanted)

    def test_a_capture_that_is_cut(self) -> None:
        wanted = "frames 1: records 1, not IP 0, neither in nor out 0"
        script = f"{ONE}; echo '{wanted}' >&2; echo 'capture: behind frame 1: the file ends within it' >&2; exit 1"
        self.assertEqual(
            self.call(script, "--partial"),
            Done(0, "time,dir\n5,in\n", f"{wanted}\ncapture: behind frame 1: the file ends within it\n"),
        )
        self.assertEqual(self.call(f"{ONE}; echo 'read failed' >&2; exit 4", "--partial").status, Status.FAILED)

    def test_packed(self) -> None:
        for command in ("gzip", "zstd"):
            if shutil.which(command) is None:
                continue
            packed = subprocess.run(
                [command, "-c"], input=b"\xd4\xc3\xb2\xa1 a capture", stdout=subprocess.PIPE, check=True
            ).stdout
            (self.folder / "packed").write_bytes(packed)
            done = self.call(f'cat "$1" > given; {ONE}', capture="packed")
            self.assertEqual((done.status, (self.folder / "given").read_bytes()), (0, b"\xd4\xc3\xb2\xa1 a capture"))
            (self.folder / "packed").write_bytes(packed[:-4])
            self.assertIn(f"pfplan trace: packed: {command} can't unpack it: ", self.call(ONE, capture="packed").err)

    def test_no_program(self) -> None:
        rows = (
            (
                str(self.folder / "pfstrace"),
                f"{self.folder}/pfstrace: can't be run: No such file or directory (PFSTRACE names the program)",
            ),
            ("/bin/false", "/bin/false: is not pfstrace: --version ends with status 1"),
        )
        for program, why in rows:
            done = pfplan("trace", NAME, "--out", "trace", env={"PFSTRACE": program}, cwd=self.folder)
            self.assertEqual((done, self.left()), (Done(Status.NOT_BUILT, "", f"pfplan trace: {why}\n"), [NAME]))

    def test_a_program_that_can_not_be_built(self) -> None:
        program = self.write("pfstrace", "#!/bin/sh\necho 'pfstrace: the command rt is not on the PATH' >&2\nexit 70\n")
        program.chmod(0o755)
        done = pfplan("trace", NAME, "--out", "trace", env={"PFSTRACE": str(program)}, cwd=self.folder)
        self.assertEqual(
            (done, self.left()),
            (Done(Status.NOT_BUILT, "", "pfstrace: the command rt is not on the PATH\n"), [NAME, "pfstrace"]),
        )

    def test_an_interrupt(self) -> None:
        around = os.environ | self.pfstrace(f"{ONE}; echo > begun; exec sleep 60")
        words = [sys.executable, str(TOP / "pfplan"), "trace", NAME, "--answers", "told", "--out", "trace"]
        begun = self.folder / "begun"
        for number in (signal.SIGINT, signal.SIGTERM):
            with self.subTest(number=number):
                process = subprocess.Popen(
                    words, stderr=subprocess.PIPE, text=True, env=around, cwd=self.folder, preexec_fn=heed_interrupts
                )
                while not begun.exists() and process.poll() is None:
                    time.sleep(0.05)
                process.send_signal(number)
                _, err = process.communicate(timeout=30)
                self.assertEqual((process.returncode, err), (Status.INTERRUPTED, "pfplan trace: interrupted\n"))
                begun.unlink()
                self.assertEqual(self.left(), [NAME, "pfstrace"])

    def test_words(self) -> None:
        input_said = f"{self.capture}: it is the input {self.capture}, which no output may replace"
        for words, why in (
            (("--inside", "192.0.2.300"), "--inside: '192.0.2.300' is no prefix"),
            (("--outsid", "192.0.2.0/24"), "'--outsid': no such word; is --outside meant? (pfplan trace --help)"),
            (("--if", "any"), "--if/--interface: 'any' is no name of an interface"),
            (("--out", self.capture), input_said), (("--answers", self.capture), input_said),
        ):
            done = pfplan("trace", self.capture, *words)
            self.assertEqual((done.status, done.out, done.err), (2, "", f"pfplan trace: {why}\n"))


if __name__ == "__main__":
    unittest.main()
