"""How far a long command is: one line on standard error, on a terminal alone."""

import sys
import threading
import time
from typing import TextIO


class Progress:
    """Counts what is done of all, and shows it twice a second, as `trace: 40 % of 1,000,000 records, 350,000 a second,
    2 s left`.

    Threads may call it side by side. Where the stream is no terminal it prints nothing.
    """

    def __init__(self, what: str, total: int, unit: str, stream: TextIO | None = None) -> None:
        self._what = what
        self._total = total
        self._unit = unit
        self._stream = sys.stderr if stream is None else stream
        self._shows = self._stream.isatty()
        self._begin = time.monotonic()
        self._shown = 0.0
        self._width = 0
        self._done = 0
        self._lock = threading.Lock()

    @property
    def shows(self) -> bool:
        """Whether anybody sees it."""
        return self._shows

    def at(self, done: int) -> None:
        """So much is done."""
        with self._lock:
            self._done = done
            self._show()

    def advance(self, more: int = 1) -> None:
        """So much more is done."""
        with self._lock:
            self._done += more
            self._show()

    def finish(self) -> None:
        """Takes the line away."""
        with self._lock:
            if self._width:
                self._stream.write("\r" + " " * self._width + "\r")
                self._stream.flush()
                self._width = 0

    def line(self) -> str:
        """What is shown now."""
        passed = max(time.monotonic() - self._begin, 0.001)
        rate = self._done / passed
        line = f"{self._what}: {self._done:,} of {self._total:,} {self._unit}"
        if self._total:
            line += f" ({100 * self._done // self._total} %)"
        if self._done and self._total >= self._done:
            line += f", {rate:,.0f} a second, {(self._total - self._done) / rate:,.0f} s left"
        return line

    def _show(self) -> None:
        now = time.monotonic()
        if not self._shows or now - self._shown < 0.5:
            return
        self._shown = now
        line = self.line()
        self._stream.write("\r" + line.ljust(self._width))
        self._stream.flush()
        self._width = len(line)
