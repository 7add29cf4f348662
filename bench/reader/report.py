"""The report of a trace under a rules text."""
from __future__ import annotations

from dataclasses import dataclass

from reader.machine import Machine
from reader.rules_text import rules_of
from reader.trace import TraceFault, events_of
from reader.values import NotRead

TEXT_LIMIT = 1_048_576


@dataclass(frozen=True)
class Report:
    """The lines of a report, and the fault that ended it, if one did."""

    text: str
    fault: str = ""


def replay(rules: bytes, trace: bytes) -> Report:
    """The report that `pfsrc replay` writes."""
    if len(rules) > TEXT_LIMIT:
        raise NotRead("a text that is too long")
    said = rules_of(rules.decode("latin-1"))
    machine = Machine(said)
    lines = []
    try:
        for row, event in enumerate(events_of(trace, said), 1):
            lines.append(f"{row} {machine.answer(event)}\n")
    except TraceFault as fault:
        return Report("".join(lines), str(fault))
    return Report("".join([*lines, f"end rows={len(lines)} {machine.amounts()}\n"]))
