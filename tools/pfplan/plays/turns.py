"""A process that asks another one and waits for its answer, again and again: the two take turns.

On two processors each turn begins with a processor that has to be woken up, and that has other things in its caches. So
both stay on one, where the system can be told so (Linux). And who asks is woken up by the first line of an answer, but
does not go on before who answers waits for the next question: so all lines are read at once.
"""

from __future__ import annotations

import os
from pathlib import Path

# what Linux says of a process (proc(5)): behind its name, at this place, the processor on which it is
_STAT = Path("/proc/self/stat")
_PROCESSOR = 36


class Turns:
    """Has this process, and those that it starts from `begin` to `wait`, take turns on one processor, up to `end`.
    Where the system can't be told so, or has been told otherwise, all is as before."""

    def __init__(self) -> None:
        self._processors: set[int] = set()
        self.is_waiting = False

    def begin(self) -> None:
        """Stays on the processor on which it is now."""
        try:
            if os.sched_getscheduler(0) == os.SCHED_OTHER:
                processors = os.sched_getaffinity(0)
                os.sched_setaffinity(0, {int(_STAT.read_bytes().rpartition(b")")[2].split()[_PROCESSOR])})
                self._processors = processors
        except (AttributeError, OSError, ValueError, IndexError):
            pass

    def wait(self) -> None:
        """From now on no answer has it go on at once; `is_waiting` says so."""
        if self._processors:
            os.sched_setscheduler(0, os.SCHED_BATCH, os.sched_param(0))
            self.is_waiting = True

    def end(self) -> None:
        """As it was before `begin`."""
        if self.is_waiting:
            os.sched_setscheduler(0, os.SCHED_OTHER, os.sched_param(0))
            self.is_waiting = False
        if self._processors:
            os.sched_setaffinity(0, self._processors)
            self._processors = set()
