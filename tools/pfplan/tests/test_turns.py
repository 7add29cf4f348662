"""Who asks the program, and the program, take turns on one processor, and all is as before behind that."""

import os
import tempfile
import unittest
from pathlib import Path
from typing import Any
from unittest import mock

from pfplan.common.errors import Trouble
from pfplan.plays.firewalls import Pfsrc, PlayFiles
from pfplan.plays.playing import Played, Task, play_all
from pfplan.plays.turns import Turns

RULES = "block\n"
PACKET = ",in,em0,tcp,192.0.2.9,4000,192.0.2.1,80,S\n"
NOTHING: Any = None


def told() -> tuple[set[int], int]:
    """What the system was told of this process: its processors, and whether it goes on at once."""
    return os.sched_getaffinity(0), os.sched_getscheduler(0)


def play_nothing(task: Task) -> Played:
    """A play that says on which processor it is."""
    (processor,) = os.sched_getaffinity(0)
    return Played(NOTHING, NOTHING, NOTHING, last=processor)


@unittest.skipUnless(hasattr(os, "sched_getaffinity"), "the system can't be told of processors")
class TestTurns(unittest.TestCase):
    def setUp(self) -> None:
        self.before = told()

    def test_turns_end_as_they_began(self) -> None:
        turns = Turns()
        turns.begin()
        self.assertEqual(len(os.sched_getaffinity(0)), 1)
        turns.wait()
        self.assertTrue(turns.is_waiting)
        turns.end()
        self.assertEqual(told(), self.before)

    def test_turns_that_never_began_change_nothing(self) -> None:
        turns = Turns()
        turns.wait()
        turns.end()
        self.assertEqual(told(), self.before)

    def test_a_play_leaves_the_processors_as_they_were(self) -> None:
        with tempfile.TemporaryDirectory() as name:
            rules = Path(name, "rules")
            rules.write_text(RULES, "utf-8")
            with Pfsrc(rules, PlayFiles()) as firewall:
                self.assertEqual(len(os.sched_getaffinity(0)), 1)
                lines = firewall.decide([PACKET] * 3000, "7")
            self.assertEqual(lines, [f"{row} block @0" for row in range(1, 3001)])
            self.assertEqual(told(), self.before)

    def test_a_program_that_can_not_be_run_leaves_them_too(self) -> None:
        before = os.environ.get("PFSRC")
        os.environ["PFSRC"] = "/nowhere/pfsrc"
        try:
            with self.assertRaises(Trouble):
                Pfsrc(Path("rules"), PlayFiles())
        finally:
            if before is None:
                del os.environ["PFSRC"]
            else:
                os.environ["PFSRC"] = before
        self.assertEqual(told(), self.before)

    def test_a_program_that_ends_at_once_leaves_them_too(self) -> None:
        with tempfile.TemporaryDirectory() as name:
            rules = Path(name, "rules")
            rules.write_text("no rule\n", "utf-8")
            with mock.patch("pfplan.plays.firewalls.os.write", side_effect=BrokenPipeError):
                with self.assertRaisesRegex(Trouble, "line 1"):
                    Pfsrc(rules, PlayFiles())
        self.assertEqual(told(), self.before)

    def test_plays_side_by_side_have_a_processor_each(self) -> None:
        with mock.patch("pfplan.plays.playing.play", play_nothing):
            found = [it.last for it in play_all([NOTHING] * 4, 2)]
        self.assertEqual(len({*found[:2]}), min(2, len(self.before[0])))
        self.assertLessEqual({*found}, self.before[0])
        self.assertEqual(told(), self.before)
