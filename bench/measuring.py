"""Runs a program to its end, and measures its processor time and memory."""
from __future__ import annotations

import os
import re
import subprocess
import sys
import time
from dataclasses import dataclass
from pathlib import Path


@dataclass(frozen=True)
class Measure:
    """The processor seconds of a run, in the program and in the system, and the most memory that it held, in KiB."""

    user: float
    system: float
    peak: int

    @property
    def processor(self) -> float:
        """All processor seconds. The system knows their sum exactly, and how they divide only from samples."""
        return self.user + self.system


def held_most(process: int) -> int:
    """The most memory that a process has held so far, in KiB; 0 once it has ended."""
    found = re.search(r"VmHWM:\s+(\d+) kB", Path(f"/proc/{process}/status").read_text("ascii"))
    return int(found[1]) if found else 0


def run_once(words: list[str]) -> Measure:
    """Runs a program whose output is thrown away. Its memory is asked of /proc: `wait4` also counts that of this script."""
    with subprocess.Popen(words, stdin=subprocess.DEVNULL, stdout=subprocess.DEVNULL, stderr=subprocess.DEVNULL) as process:
        peak, ended = 0, 0
        while not ended:
            peak = max(peak, held_most(process.pid))
            ended, status, used = os.wait4(process.pid, os.WNOHANG)
            time.sleep(0 if ended else 0.001)
        process.returncode = os.waitstatus_to_exitcode(status)
    if process.returncode != 0:
        sys.exit(f"bench: {' '.join(words)} ended with status {process.returncode}")
    return Measure(used.ru_utime, used.ru_stime, peak)


def count_instructions(words: list[str]) -> int:
    """How many instructions a run takes, as valgrind counts them: the same in each run, whatever else the machine does."""
    counted = ["valgrind", "--tool=callgrind", "--callgrind-out-file=/dev/null", *words]
    done = subprocess.run(counted, stdin=subprocess.DEVNULL, stdout=subprocess.DEVNULL, stderr=subprocess.PIPE, text=True, check=False)
    found = re.search(r"Collected : (\d+)", done.stderr)
    if done.returncode != 0 or not found:
        sys.exit(f"bench: {' '.join(counted)} ended with status {done.returncode}")
    return int(found[1])
