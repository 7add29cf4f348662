"""Which values are tried between two bounds: a grid first, then values around its edges, where what is wanted begins or
ends to hold."""

from collections.abc import Mapping, Sequence
from dataclasses import dataclass

# A range that grows this many times or more is divided evenly by factors, else by differences.
WIDE = 20
# Values at an edge are told apart down to this share of them.
FINEST = 200


def first_grid(low: int, high: int, count: int) -> list[int]:
    """Up to `count` values from `low` to `high`, both among them."""
    if high <= low or count < 2:
        return [low]
    steps = count - 1
    if low > 0 and high >= WIDE * low:
        found = {round(low * (high / low) ** (it / steps)) for it in range(count)}
    else:
        found = {low + round(it * (high - low) / steps) for it in range(count)}
    return sorted(found | {low, high})


def is_logarithmic(values: Sequence[int]) -> bool:
    """Whether the values want an axis that grows by factors."""
    return len(values) > 1 and values[0] > 0 and values[-1] >= WIDE * values[0]


def refined(meets: Mapping[int, bool], between: int) -> list[int]:
    """Values to try next: up to `between` inside each pair of neighbours of which one meets what is wanted and the
    other does not.

    None where all such neighbours are next to one another, or nearer than half a per cent.
    """
    values = sorted(meets)
    found: set[int] = set()
    for low, high in zip(values, values[1:]):
        gap = high - low
        if meets[low] == meets[high] or gap <= max(1, high // FINEST):
            continue
        found.update(low + gap * it // (between + 1) for it in range(1, between + 1))
    return sorted(found - set(values))


@dataclass(frozen=True)
class Valley:
    """Where a share falls and rises again: at `top` it was higher, at `bottom` lowest, at `again` higher once more."""

    top: int
    bottom: int
    again: int


def valleys(shares: Mapping[int, float]) -> list[Valley]:
    """The places where the share does not rise and then fall once, from the lowest value to the highest."""
    values = sorted(shares)
    found: list[Valley] = []
    top, bottom = (values[0] if values else 0), None
    for value in values[1:]:
        share = shares[value]
        if bottom is None and share < shares[top] or bottom is not None and share <= shares[bottom]:
            bottom = value
        elif bottom is None:
            top = value
        else:
            found.append(Valley(top, bottom, value))
            top, bottom = value, None
    return found


def around_best(shares: Mapping[int, float]) -> list[int]:
    """Values to try next where none meets what is wanted: halfway from the best to its neighbours."""
    values = sorted(shares)
    best = max(values, key=lambda it: shares[it])
    at = values.index(best)
    halves = {(best + it) // 2 for it in values[max(0, at - 1) : at + 2]}
    return sorted(it for it in halves - set(values) if abs(it - best) > best // FINEST)


def intervals(meets: Mapping[int, bool]) -> list[tuple[int, int]]:
    """The runs of neighbours among the values tried that meet what is wanted: the first and the last of each."""
    found: list[tuple[int, int]] = []
    is_open = False
    for value in sorted(meets):
        if meets[value]:
            found.append((found.pop()[0], value) if is_open else (value, value))
        is_open = meets[value]
    return found
