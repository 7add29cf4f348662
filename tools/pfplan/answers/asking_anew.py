"""Asks the program anew: what was held before a record, and when the record would have been let in."""

from __future__ import annotations

from collections.abc import Iterator
from dataclasses import dataclass
from itertools import groupby
from pathlib import Path

from pfplan.answers.episodes import PASSING, Event
from pfplan.plays.firewalls import Pfsrc, PlayFiles
from pfplan.traces.entries import add_records
from pfplan.traces.insertions import Heard
from pfplan.traces.records import Answer, Traces, read_answer

AFTER = 3600  # seconds behind the end of the trace that are tried


@dataclass(frozen=True)
class Asked:
    """What is held before a record, and the first moment at whose end the same packet is let in; None for none
    that was tried."""

    states: int
    nodes: int
    entries: int
    let_in: int | None
    tried: int


def ask(rules: Path, trace: Path, event: Event) -> Asked:
    """Replays the trace up to a record that was refused, and tries its packet again at the end of each later second.

    A packet that is refused changes nothing that is held, so a try leaves the trace as it was; but under the profile of
    OpenBSD one that `max` refuses may leave a source node, as if its client had tried; and one that is refused on its
    way out renews the state that it has where it came in. Entries of tables that come by records are put before the
    first. Trouble as the program's own.
    """
    with Pfsrc(rules, PlayFiles()) as firewall:
        seconds = _seconds(trace)
        row = 0
        for second, lines in seconds:
            if not row:
                Heard(rules, ()).take(firewall.decide([f"{it}\n" for it in add_records(rules, second)]))
            before = lines[: max(0, event.row - 1 - row)]
            firewall.decide(before)
            row += len(before)
            if len(before) < len(lines):
                break
        (held,) = firewall.decide([f"{second},held,,,,,,,\n"])
        states, nodes, entries = (int(it.rpartition("=")[2]) for it in held.split(" ")[3:])
        packet = lines[len(before)].partition(",")[2]
        rest = lines[len(before) :]
        while True:
            firewall.decide(rest)
            if _is_let_in(firewall, second, packet):
                return Asked(states, nodes, entries, second, second)
            following = next(seconds, None)
            if following is None:
                break
            # a second without records of its own is tried too
            for quiet in range(second + 1, min(following[0], second + AFTER)):
                if _is_let_in(firewall, quiet, packet):
                    return Asked(states, nodes, entries, quiet, quiet)
            second, rest = following
        for quiet in range(second + 1, second + AFTER + 1):
            if _is_let_in(firewall, quiet, packet):
                return Asked(states, nodes, entries, quiet, quiet)
        return Asked(states, nodes, entries, None, second + AFTER)


def _is_let_in(firewall: Pfsrc, second: int, packet: str) -> bool:
    (line,) = firewall.decide([f"{second},{packet}"])
    answer = read_answer(line)
    return isinstance(answer, Answer) and answer.decisive.word in (*PASSING, "cookie")


def _seconds(trace: Path) -> Iterator[tuple[int, list[str]]]:
    """The records of each second, with their line feeds."""
    lines = (it for block in Traces(trace).blocks() for it in block)
    for second, records in groupby(lines, key=lambda it: it.partition(",")[0]):
        yield int(second), [f"{it}\n" for it in records]
