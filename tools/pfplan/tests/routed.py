#!/usr/bin/env python3
"""pfsrc with routes, for tests: reports are those of the plain reader of bench/reader, and the canonical text is that
of ./pfsrc without the routes, with their line put back. What has no routes ./pfsrc does itself.

    routed.py --version | check RULES | show RULES | replay [--line-buffered] RULES TRACE
"""

import csv
import importlib
import os
import re
import subprocess
import sys
import tempfile
from collections.abc import Iterator
from functools import cache
from pathlib import Path
from typing import TextIO

TOP = Path(__file__).resolve().parents[3]
PFSRC = str(TOP / "pfsrc")
ROUTE = re.compile(r"^[ \t]*set[ \t]+route[ \t]+(?:\{([^}]*)\}|([^\n]*))[ \t]*\n", re.MULTILINE)
# what asks for a route
ASKING = "set profile openbsd-7.4\nset route 0.0.0.0/0 em0\n"


@cache
def environment() -> dict[str, str]:
    """What a test gives its calls: this stand-in, unless the program takes routes itself."""
    with tempfile.NamedTemporaryFile("w", encoding="latin-1") as rules:
        rules.write(ASKING)
        rules.flush()
        words = [os.environ.get("PFSRC") or PFSRC, "check", rules.name]
        takes = subprocess.run(words, capture_output=True, check=False).returncode == 0
    return {} if takes else {"PFSRC": str(Path(__file__).resolve())}


def without_routes(word: str, text: str) -> "subprocess.CompletedProcess[str]":
    """What ./pfsrc says of a text without its routes."""
    with tempfile.NamedTemporaryFile("w", encoding="latin-1") as plain:
        plain.write(ROUTE.sub("\n", text))
        plain.flush()
        return subprocess.run([PFSRC, word, plain.name], capture_output=True, text=True, check=False)


def show(text: str) -> int:
    """Prints the canonical text."""
    pairs: dict[str, str] = {}
    for found in ROUTE.finditer(text):
        words = (found[1] or found[2]).replace(",", " ").split()
        for prefix, name in zip(words[::2], words[1::2], strict=True):
            pairs.pop(prefix, None)
            pairs[prefix] = name
    done = without_routes("show", text)
    if done.returncode:
        sys.stderr.write(done.stderr)
        return done.returncode
    lines = done.stdout.splitlines()
    last = max(at for at, it in enumerate(lines) if it.startswith("set "))
    lines.insert(last + 1, f"set route {{ {', '.join(' '.join(it) for it in pairs.items())} }}")
    print("\n".join(lines))
    return 0


def records_of(file: TextIO) -> Iterator[list[str]]:
    """The records of a trace as they come: a line is read when it is asked for."""
    for record in csv.reader(iter(file.readline, "")):
        if record:
            yield record


def replay(text: str, trace: str, *, is_buffered: bool) -> int:
    """Prints a report."""
    sys.path.insert(0, str(TOP / "bench"))
    names = ("machine", "rules_text", "trace")
    of_machine, of_rules, of_trace = (importlib.import_module(f"reader.{it}") for it in names)
    machine = of_machine.Machine(of_rules.rules_of(text))
    row = 0
    with open(0 if trace == "-" else trace, encoding="latin-1") as file:
        records = records_of(file)
        next(records)
        try:
            for row, record in enumerate(records, 1):
                event = of_trace.event_of(of_trace.Fields(row, record))
                print(f"{row} {machine.answer(event)}", flush=is_buffered)
        except of_trace.TraceFault as fault:
            print(fault, file=sys.stderr)
            return 1
    print(f"end rows={row} {machine.amounts()}")
    return 0


def main(words: list[str]) -> int:
    """Does what the words ask for."""
    names = [it for it in words[1:] if not it.startswith("--")]
    text = Path(names[0]).read_text("latin-1") if names else ""
    if not ROUTE.search(text):
        os.execv(PFSRC, [PFSRC, *words])
    if words[0] == "check":
        return without_routes("check", text).returncode
    if words[0] == "show":
        return show(text)
    return replay(text, names[1], is_buffered="--line-buffered" in words)


if __name__ == "__main__":
    sys.exit(main(sys.argv[1:]))
