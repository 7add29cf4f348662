"""Those that flood: hosts that hold connections or close them at once, and packets of forged addresses."""

from __future__ import annotations

from collections.abc import Callable
from dataclasses import dataclass
from fractions import Fraction
from random import Random
from socket import inet_ntoa

from pfplan.plays.askers import Question
from pfplan.plays.clients import Client, Crew, Phase
from pfplan.plays.counts import Count
from pfplan.plays.hosts import FIRST_PORT, PORTS, Addresses, Host, Hosts, Way
from pfplan.plays.servers import Backlog
from pfplan.plays.worlds import SLOTS, Fate, World

# How many forged packets are made at a time.
MADE = 1024


class Flooder(Client):
    """A connection of a flood: kept by a packet every so many slots, or closed at once.

    One that is kept has what it wanted once it is open, one that is closed when its FIN is answered.
    """

    __slots__ = ("_every", "_has_all")

    def __init__(self, crew: Crew, host: Host, every: int) -> None:
        super().__init__(crew, host)
        self._every = every
        self._has_all = False
        if crew.count.group.users:
            crew.world.going += 1

    def opened(self) -> None:
        """Closes, or goes on."""
        if self._every:
            self._serve(self._crew.cycle)
            self._keep_later()
        else:
            self.close()

    def answered(self, number: int) -> None:
        """The packet that keeps it is answered."""
        self._keep_later()

    def _keep_later(self) -> None:
        world = self._crew.world
        world.at(world.now + self._every, self._keep, self._turn)

    def _keep(self, turn: int) -> None:
        if turn == self._turn and self._phase is Phase.OPEN:
            self.want("PA", -1)

    def closed(self) -> None:
        """It has what it wanted."""
        self._serve(2 * self._crew.cycle)

    def fail(self) -> None:
        """It is refused, or cut off after it was open."""
        if not self._has_all:
            self._crew.count.give_up(self._began)
            self._end()

    def _serve(self, undisturbed: int) -> None:
        self._has_all = True
        self._crew.count.serve(self._host.name, self._began, max(0, self._crew.world.now - self._began - undisturbed))
        self._end()

    def _end(self) -> None:
        """A play that waits for users need not wait for this one."""
        if self._crew.count.group.users:
            self._crew.world.going -= 1


class Pace:
    """How many come in a slot, at a rate a second, from a first slot to below a last one; to the end of all without
    one."""

    def __init__(self, rate: Fraction, first: int, last: int | None) -> None:
        self._part, self._whole = (rate / SLOTS).as_integer_ratio()
        self._first = first
        self._last = last

    def of(self, slot: int) -> int:
        """How many come in this slot, which is one of these."""
        if self._whole == 1:
            return self._part
        before = (slot - self._first) * self._part
        return -(-(before + self._part) // self._whole) + -before // self._whole

    def next(self, slot: int) -> int | None:
        """The next slot in which one comes, from one on."""
        found = max(slot, self._first)
        if self._whole > 1:
            since = found - self._first
            found = self._first + -(-since * self._part // self._whole) * self._whole // self._part
        return found if self._last is None or found < self._last else None


class Openers:
    """Hosts of a group that open connections at a rate, each time another of them at random."""

    def __init__(
        self, crew: Crew, pace: Pace, hosts: Hosts, addresses: Addresses, make: Callable[[Host], Client | Question]
    ) -> None:
        self._crew = crew
        self._pace = pace
        self._hosts = hosts
        self._addresses = addresses
        self._make = make
        self.next = pace.next

    def emit(self, slot: int) -> bool:
        """Opens the connections of a slot, whose packets come among those of all others."""
        random = self._crew.random.random
        for _ in range(self._pace.of(slot)):
            self._make(self._hosts.of(self._addresses.name(int(random() * self._addresses.count)))).open()
        return False

    def emit_behind(self) -> None:
        """Nothing comes behind others."""


@dataclass(frozen=True)
class Forgery:
    """What is forged: the flags, and how many packets come when. `backlog` answers SYN packets that come through."""

    flags: str
    pace: Pace
    backlog: Backlog | None


class Forger:
    """Packets of forged addresses. Nobody hears an answer to them."""

    def __init__(
        self, world: World, count: Count, ways: tuple[Way, ...], random: Random, addresses: Addresses, forgery: Forgery
    ) -> None:
        self._world = world
        self._count = count
        self._ways = ways
        self._random = random.random
        self._addresses = addresses
        self._first = addresses.first
        self._hosts = addresses.count
        self._pace = forgery.pace
        self._backlog = forgery.backlog
        self._end = forgery.flags + "\n"
        self._before, self._behind = ways[0].parts(self._end)
        self._answers_to, self._source = ways[0].answers_to, slice(len(self._before), -len(self._behind))
        is_plain = addresses.version == 4 and len(ways) == 1 and not ways[0].is_forwarded
        self._send = self._send_plain if is_plain else self._send_others
        self._left = 0
        # packets that are made, and how many of them were sent
        self._made: list[str] = []
        self._sent = 0
        self.next = forgery.pace.next

    def emit(self, slot: int) -> bool:
        """Sends the first half of what is sent in a slot."""
        many = self._pace.of(slot)
        self._count.packets += many
        self._left = many - many // 2
        if many > 1:
            self._send(many // 2)
        return True

    def emit_behind(self) -> None:
        """Sends the second half."""
        self._send(self._left)

    def _send_plain(self, many: int) -> None:
        """Packets of IPv4 to one server, that are asked once."""
        end = self._sent + many
        if len(self._made) < end:
            self._made = self._made[self._sent :] + self._make(max(many, MADE))
            self._sent, end = 0, many
        texts = self._made[self._sent : end]
        self._sent = end
        self._world.ask_all(texts, self._hear_fates, texts)

    def _make(self, many: int) -> list[str]:
        """The next so many packets."""
        random, first, hosts, before, behind = self._random, self._first, self._hosts, self._before, self._behind
        return [
            f"{before}{inet_ntoa((first + int(random() * hosts)).to_bytes(4, 'big'))},"
            f"{FIRST_PORT + int(random() * PORTS)}{behind}"
            for _ in range(many)
        ]

    def _hear_fates(self, texts: list[str], fates: list[Fate]) -> None:
        """What became of packets that went out together: there are few kinds of fates."""
        through = texts
        if not (fates[0].passes and fates.count(fates[0]) == len(fates)):
            through = [text for text, fate in zip(texts, fates) if fate.passes]
            for one in dict.fromkeys(fates):
                if one.is_taken:
                    self._count.passed += fates.count(one)
                elif not one.passes:
                    self._count.refuse(one, self._world.now, fates.count(one))
        self._count.passed += len(through)
        if through and self._backlog is not None:
            start, source = self._answers_to, self._source
            self._backlog.come([f"{start}{it[source]},SA\n" for it in through])

    def _send_others(self, many: int) -> None:
        """Packets of either family, to one of several servers, that may be forwarded."""
        for _ in range(many):
            host = self._addresses.name(int(self._random() * self._hosts))
            port = FIRST_PORT + int(self._random() * PORTS)
            way = self._ways[int(self._random() * len(self._ways))]
            answer = way.back(host, port)[0] + "SA\n"
            self._world.ask(tuple([it + self._end for it in way.there(host, port)]), self._hear_fate, answer)

    def _hear_fate(self, answer: str, fate: Fate) -> None:
        if not (fate.passes or fate.is_taken):
            self._count.refuse(fate, self._world.now)
            return
        self._count.passed += 1
        if fate.passes and self._backlog is not None:
            self._backlog.come([answer])
