"""What ./pfstrace says of a capture's frames: how many are records, and why the others are none."""

import re
from collections.abc import Mapping, Sequence
from dataclasses import dataclass

_HEAD = re.compile(r"frames (\d+): records (\d+)((?:, [^,;]* \d+)*)")
_REASON = re.compile(r", ([^,;]*) (\d+)")
_COUNTS = ("frames ", "directions: ")
NEITHER_WAY = "neither in nor out"


@dataclass(frozen=True, slots=True)
class Frames:
    """What became of the frames of a capture: how many there are, the records made, and the others by why they are
    none.

    `notes` are the sentences beside the counts: that the capture is cut, or that its directions are not sure.
    """

    frames: int
    records: int
    others: Mapping[str, int]
    notes: tuple[str, ...] = ()


def frames_of(account: Sequence[str]) -> Frames | None:
    """The counts in an account; None where it has none."""
    found = next((it for line in account if (it := _HEAD.match(line))), None)
    if found is None:
        return None
    notes = tuple(it for it in account if not it.startswith(_COUNTS))
    return Frames(
        int(found[1]), int(found[2]), {reason: int(count) for reason, count in _REASON.findall(found[3])}, notes
    )


def reasons_of(frames: Frames) -> str:
    """Why frames are no records, the most frequent reason first: `8 neither in nor out, 1 not IP`."""
    counts = sorted(((count, reason) for reason, count in frames.others.items() if count), reverse=True)
    return ", ".join(f"{count:,} {reason}" for count, reason in counts)
