"""The first and the last moment of a trace, and the steps between them in which its records are counted."""

from pathlib import Path

from pfplan.traces.records import Traces

STEPS = (1, 2, 5, 10, 15, 30, 60, 120, 300, 600, 900, 1800, 3600, 7200, 14400, 43200, 86400, 604800, 2592000, 31536000)
MOST_STEPS = 120


def step_of(first: int, last: int) -> int:
    """Seconds in a step, so that there are at most 120 steps from the first moment to the last."""
    return next((it for it in STEPS if (last - first) // it < MOST_STEPS), STEPS[-1])


def last_moment_of(trace: Path) -> int | None:
    """The moment of the last record of a trace, of which only the end is read; None where that is no record."""
    with open(trace, "rb") as file:
        file.seek(0, 2)
        file.seek(max(0, file.tell() - 4096))
        lines = file.read().decode("latin-1").split()
    time = lines[-1].partition(",")[0] if lines else ""
    return int(time) if time.isascii() and time.isdigit() else None


def first_moment_of(trace: Path) -> int | None:
    """The moment of the first record of a trace; None where there is none."""
    for lines in Traces(trace).blocks():
        time = lines[0].partition(",")[0]
        return int(time) if time.isascii() and time.isdigit() else None
    return None
