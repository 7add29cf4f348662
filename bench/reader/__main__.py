"""Writes a report: `python3 -m reader replay RULES TRACE`, in this folder's parent."""
import argparse
import sys
from pathlib import Path

from reader.report import TEXT_LIMIT, replay
from reader.values import NotRead


def main() -> int:
    """Reads the words, then both files."""
    parser = argparse.ArgumentParser(prog="reader", description=__doc__)
    parser.add_argument("command", choices=["replay"])
    parser.add_argument("rules", type=Path)
    parser.add_argument("trace", type=Path)
    given = parser.parse_args()
    try:
        with given.rules.open("rb") as rules, given.trace.open("rb") as trace:
            report = replay(rules.read(TEXT_LIMIT + 1), trace.read())
    except NotRead as why:
        print(f"not read: {why}", file=sys.stderr)
        return 5
    sys.stdout.write(report.text)
    if report.fault:
        print(report.fault, file=sys.stderr)
    return 1 if report.fault else 0


if __name__ == "__main__":
    sys.exit(main())
