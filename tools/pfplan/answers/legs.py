"""The legs of a record: what became of its packet on the interface where it comes in, and on that where it leaves.

With routes a record is a packet's whole way. One of a packet in has its own interface first, and the second by the
route of its destination. One of a packet out has its own interface second, and the first by the route of its source; if
the firewall sends the packet itself, that is its only one. Without routes a record is of one interface. Where a packet
for the firewall's own address goes on, or what it seems to send came in, `rdr-to` has put another address in, and the
record does not say the other interface.
"""

from collections.abc import Iterator
from dataclasses import dataclass

from pfplan.pf.routes import NO_ROUTES, Routes
from pfplan.traces.records import KILL, Answer

# A direction, and the interface, as far as it is known.
Crossing = tuple[str, str]


@dataclass(frozen=True, slots=True)
class Reply:
    """What a line of a report says of a record: its word, `@N` or `-`, of a kill by a limit the word of the overload
    and the states killed, which an administrator's kill tells too; and the same of the second interface, where that
    was asked."""

    word: str
    rule: str = "-"
    overload: str = ""
    killed: int = 0
    onward: "Reply | None" = None

    @property
    def legs(self) -> "tuple[Reply, ...]":
        """What was said on each interface."""
        return (self,) if self.onward is None else (self, self.onward)

    @property
    def words(self) -> tuple[str, ...]:
        """The word on each interface."""
        return tuple(it.word for it in self.legs)

    @property
    def is_kill(self) -> bool:
        """Whether a limit killed states, on either interface."""
        return any(it.startswith("kill:") for it in self.words)

    @property
    def all_killed(self) -> int:
        """How many states limits killed."""
        return sum(it.killed for it in self.legs if it.word.startswith("kill:"))

    @property
    def is_order(self) -> bool:
        """Whether it is the answer to a record by which an administrator takes out states."""
        return self.word == KILL


def reply_of(answer: Answer) -> Reply:
    """What a line of a report says, but for its row."""
    onward = reply_of(answer.onward) if answer.onward else None
    return Reply(answer.word, answer.rule, answer.overload, answer.killed, onward)


@dataclass(frozen=True, slots=True)
class Leg:
    """One interface of a packet's way: its direction and name, the flags that the packet has there, and what was
    said."""

    place: Crossing
    flags: str
    reply: Reply


@dataclass(frozen=True)
class Legs:
    """Knows the routes, and so the interfaces of a packet's way."""

    routes: Routes = NO_ROUTES

    def first(self, place: Crossing, source: str) -> Crossing:
        """Where the packet of a record was asked first, by the place of the record."""
        if place[0] != "out" or not self.routes or self.routes.is_local(source):
            return place
        return "in", self.routes.to(source)

    def second(self, place: Crossing, target: str) -> Crossing:
        """Where it was asked on its way out."""
        if place[0] == "out":
            return place
        return "out", "" if not self.routes or self.routes.is_local(target) else self.routes.to(target)

    def of(self, place: Crossing, source: str, target: str, flags: str, reply: Reply) -> Iterator[Leg]:
        """The legs of a record at a place. Behind `proxy` it is pf's own SYN that goes on."""
        if reply.onward is None:
            yield Leg(self.first(place, source), flags, reply)
            return
        first = self.first(place, source) if self.routes else ("in", place[1] if place[0] == "in" else "")
        yield Leg(("in", "") if first[0] == "out" else first, flags, reply)
        yield Leg(self.second(place, target), "S" if reply.word == "proxy" else flags, reply.onward)


def place_text(place: Crossing) -> str:
    """A place in a sentence: `on its way out, on em1`."""
    way = "where it comes in" if place[0] == "in" else "on its way out"
    return f"{way}, on {place[1]}" if place[1] else way
