"""How numbers are written for people: thousands by commas, shares that never round up to all or down to none."""

from __future__ import annotations

import datetime

# A moment from here on is one since 1970, and is told as a clock's time: this one is the first of 1980.
SINCE_1970 = 315_532_800


def counted(count: int, unit: str, units: str | None = None) -> str:
    """`1 state`, `1,200 states`."""
    return f"{count:,} {unit if count == 1 else units or unit + 's'}"


def share_text(part: int, whole: int) -> str:
    """The share of a count in per cent with one decimal. `100 %` is all of it and `0 %` none: what rounds there is `>
    99.9 %` or `< 0.1 %`.

    `-` where there is nothing to have a share of.
    """
    if whole <= 0:
        return "-"
    if part <= 0:
        return "0 %"
    if part >= whole:
        return "100 %"
    tenths = (2000 * part + whole) // (2 * whole)
    if tenths >= 1000:
        return "> 99.9 %"
    if tenths == 0:
        return "< 0.1 %"
    return f"{tenths // 10}.{tenths % 10} %"


def moment_text(moment: int) -> str:
    """A moment for people: a date and a time of day (UTC) where it counts from 1970, else the number of seconds."""
    if moment < SINCE_1970:
        return str(moment)
    return datetime.datetime.fromtimestamp(moment, datetime.UTC).strftime("%Y-%m-%d %H:%M:%S UTC")
