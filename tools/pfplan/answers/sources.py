"""Which sources have the greatest counts, in bounded memory."""

import ipaddress
from collections import Counter
from collections.abc import Iterable
from dataclasses import dataclass

# How many sources are counted at a time.
MOST = 100_000


@dataclass(frozen=True, slots=True)
class Source:
    """An address and its count."""

    address: str
    count: int


class Sources:
    """Counts by source. Past 100,000 of them the lower half is dropped; a count is then at least what is told."""

    def __init__(self) -> None:
        self._counts: Counter[str] = Counter()
        self.dropped = 0  # the greatest count that was dropped

    def add(self, sources: Iterable[str]) -> None:
        """Adds one for each record of a source. Those without a source count for nothing."""
        self._counts.update(sources)
        self._bound()

    def add_one(self, source: str, count: int) -> None:
        """Adds to the count of a source."""
        self._counts[source] += count
        self._bound()

    def _bound(self) -> None:
        if len(self._counts) > MOST:
            kept = self._counts.most_common(MOST // 2 + 1)
            self.dropped = max(self.dropped, kept.pop()[1])
            self._counts = Counter(dict(kept))

    def top(self, most: int) -> list[Source]:
        """The sources with the greatest counts; of equal ones the lower address comes first."""
        self._counts.pop("", None)
        if not self._counts or most < 1:
            return []
        least = self._counts.most_common(most)[-1][1]
        best = [Source(address, count) for address, count in self._counts.items() if count >= max(least, 1)]
        return sorted(best, key=lambda it: (-it.count, _sort_key(it.address)))[:most]


def _sort_key(address: str) -> tuple[int, int, str]:
    try:
        value = ipaddress.ip_address(address)
    except ValueError:
        return 7, 0, address
    return value.version, int(value), address
