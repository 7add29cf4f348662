"""Which packets that pf took itself made a state: the report says `proxy` of others, too."""

from pfplan.answers.connections import may_be_made

# Seconds for which a cookie is good at most: two turns of pf's secret.
GOOD = 30
# The protocol, and the address and port of either end, as a record has them.
Ends = tuple[str, ...]


class Cookies:
    """The ends whose SYN got a cookie that may be good still. Memory is that of the cookies of a minute at most."""

    def __init__(self) -> None:
        self._now: set[Ends] = set()
        self._before: set[Ends] = set()
        self._since = 0

    def makes(self, word: str, moment: int, direction: str, ends: Ends, flags: str) -> bool:
        """Whether a state was made at a packet that got a word: a SYN that pf answered itself, or the first packet
        behind a cookie. Moments do not fall."""
        if word == "cookie":
            self._give(moment, ends)
            return False
        return word == "proxy" and (self._take(ends) or may_be_made(direction, flags))

    def _give(self, moment: int, ends: Ends) -> None:
        if moment - self._since >= GOOD:
            self._before = self._now if moment - self._since < 2 * GOOD else set()
            self._now, self._since = set(), moment
        self._now.add(ends)

    def _take(self, ends: Ends) -> bool:
        for it in (self._now, self._before):
            if ends in it:
                it.remove(ends)
                return True
        return False
