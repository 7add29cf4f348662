"""What the scripts of this folder have in common: the built program, runs of it side by side, and a count of what holds."""
import os
import subprocess
import sys
from concurrent.futures import ProcessPoolExecutor
from dataclasses import dataclass, field
from typing import Callable, Dict, Iterable, List, Optional, TypeVar

TOP = os.path.dirname(os.path.dirname(os.path.realpath(__file__)))
PROGRAM = f"{TOP}/crates/pfsrc/out/pfsrc"
SECONDS = 60

Item = TypeVar("Item")
Answer = TypeVar("Answer")


@dataclass(frozen=True)
class Ran:
    """How a run ended, and what it wrote."""

    status: int
    out: bytes
    err: bytes


@dataclass
class Tally:
    """How much held and how much did not; what did not is printed."""

    passed: int = 0
    failed: int = 0
    named: Dict[str, int] = field(default_factory=dict)

    def tell(self, holds: bool, what: str) -> None:
        if holds:
            self.passed += 1
            return
        self.failed += 1
        if self.failed <= 20:
            print(f"faults: {what}")

    def count(self, name: str) -> None:
        """One more of those that a line tells together."""
        self.named[name] = self.named.get(name, 0) + 1

    def end(self) -> int:
        """Prints the last line; the status of the script."""
        print(f"{self.passed} passed, {self.failed} failed")
        return 0 if self.passed > 0 and self.failed == 0 else 1


def build() -> None:
    """Builds the program where it is not there yet, which proves it."""
    subprocess.run([f"{TOP}/pfsrc", "--help"], stdout=subprocess.DEVNULL, stderr=subprocess.DEVNULL, check=False)
    if not os.path.isfile(PROGRAM):
        sys.exit("faults: there is no program")


def compile_shim(folder: str) -> str:
    """Compiles what stands between a program and the C library."""
    shim = f"{folder}/faults.so"
    subprocess.run(["cc", "-shared", "-fPIC", "-O1", "-o", shim, f"{TOP}/faults/faults.c"], check=True)
    return shim


def run(words: List[str], given: bytes = b"", env: Optional[Dict[str, str]] = None) -> Ran:
    """Runs a command over an input. One that takes longer than a minute has the status -1."""
    try:
        ran = subprocess.run(words, input=given, capture_output=True, timeout=SECONDS, env=env, check=False)
    except subprocess.TimeoutExpired:
        return Ran(-1, b"", b"it takes more than a minute")
    return Ran(ran.returncode, ran.stdout, ran.stderr)


def on_rules(word: str, text: bytes) -> Ran:
    """`pfsrc check` or `pfsrc show` of a rules text."""
    return run([PROGRAM, word, "/dev/stdin"], text)


def side_by_side(call: Callable[[Item], Answer], items: Iterable[Item]) -> List[Answer]:
    """The answers of a call for each item, in order, worked out on all processors."""
    listed = list(items)
    with ProcessPoolExecutor(os.cpu_count()) as pool:
        return list(pool.map(call, listed, chunksize=max(1, min(64, len(listed) // 16))))
