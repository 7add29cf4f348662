"""Counts what came of the records of reports, so that it is seen that each outcome did come."""
import re
from typing import Counter

OUTCOMES = [
    "new", "state", "proxy", "cookie", "pass", "block", "skip", "expire", "add", "delete", "held", "kill", "drop:cookie",
    "drop:max", "drop:max-src-nodes", "drop:src-nodes", "drop:max-src-states", "drop:states",
    "kill:max-src-conn", "kill:max-src-conn-rate", "kill:max-src-conn+max-src-conn-rate", "overload=added", "overload=held", "overload=full",
    "overload=none",
]
# Where the packet leaves, behind what came of it first.
SECOND = ["> new", "> state", "> pass", "> block", "> drop:max", "> drop:states", "> proxy"]
# What comes of translation alone, at either interface.
TRANSLATED = ["drop:translate", "drop:state-insert", "> drop:translate", "> drop:state-insert"]


def count(report: str, counts: Counter[str]) -> None:
    """Counts the words of a report's lines, but not of its last."""
    for line in report.splitlines()[:-1]:
        words = line.split(" ")
        counts[words[1]] += 1
        counts.update(re.findall(r"overload=\w+|> [a-z:-]+", line))


def tell(counts: Counter[str], of_profile: bool = False) -> int:
    """Prints how often each outcome came, those at a second interface and of translation too where that is asked for; how many never did."""
    names = OUTCOMES + SECOND + TRANSLATED if of_profile else OUTCOMES
    for name in names:
        print(f"{counts[name]:8} {name}")
    return sum(counts[name] == 0 for name in names)
