"""Clients: hosts that open connections, repeat what is not answered, and give up.

What is not answered is repeated after 1 second, and each time after twice as long (RFC 6298, 2 and 5). A client that
had to repeat its SYN waits
3 seconds for the first answer behind it (RFC 6298, 5.7). It gives up after its retries, or when its patience is at
its end.
"""

from __future__ import annotations

from dataclasses import dataclass
from enum import Enum
from random import Random

from pfplan.plays.counts import Count
from pfplan.plays.flows import SHUT, WINDOW, Flow, Packet
from pfplan.plays.hosts import Host, Way
from pfplan.plays.worlds import SLOTS, World

LONGEST = 64 * SLOTS  # from one repetition to the next (RFC 6298, 2.5: at least 60 seconds)
AFTER_SYN = 3 * SLOTS
PAUSE = SLOTS  # from giving up to coming back


class Phase(Enum):
    """How far a connection is."""

    IDLE = 0
    OPENING = 1
    OPEN = 2
    CLOSING = 3


@dataclass(frozen=True)
class Crew:
    """What the connections of a group have in common. Delays are in slots, `patience` too."""

    world: World
    count: Count
    ways: tuple[Way, ...]
    random: Random
    answer: int
    round_trip: int
    retries: int
    patience: int

    @property
    def cycle(self) -> int:
        """From a packet to the next one that its answer leads to."""
        return self.answer + self.round_trip

    def way(self) -> Way:
        """The way to a server of the group."""
        return self.ways[0] if len(self.ways) == 1 else self.ways[int(self.random.random() * len(self.ways))]


class Client:
    """A connection that a host wants, in one attempt or several. What it does once it is open is that of its kind."""

    __slots__ = (
        "_asked",
        "_began",
        "_crew",
        "_flow",
        "_host",
        "_is_cut",
        "_phase",
        "_sent",
        "_since",
        "_step",
        "_turn",
        "_waiting",
        "_way",
    )

    def __init__(self, crew: Crew, host: Host) -> None:
        self._crew = crew
        self._host = host
        self._way = crew.way()
        self._began = crew.world.now
        self._flow: Flow | None = None
        self._phase = Phase.IDLE
        self._is_cut = False
        self._asked = 0
        self._sent = 0
        self._since = 0
        self._step = SLOTS
        self._turn = 0
        self._waiting: tuple[str, int] = ("", 0)
        crew.count.begin(host.name)

    def open(self) -> None:
        """Begins an attempt, from a new port."""
        crew = self._crew
        port = self._host.take()
        if port is None:
            self.fail()
            return
        self._flow = Flow(
            crew.world, self._way, self._host.name, port, self, crew.count, (crew.answer, crew.round_trip)
        )
        self._phase = Phase.OPENING
        self._asked = 0
        self._step = SLOTS
        self.want("S", 0)

    def want(self, flags: str, number: int) -> None:
        """Sends what has to be answered."""
        world = self._crew.world
        self._waiting = (flags, number)
        self._turn += 1
        self._sent = 1
        self._since = world.now
        self._send(flags, number)
        world.at(world.now + min(self._step, self._crew.patience), self._late, self._turn)

    def _send(self, flags: str, number: int) -> None:
        assert self._flow is not None
        if flags == "S":
            self._crew.count.tries += 1
        self._flow.send(flags, number)

    def _late(self, turn: int) -> None:
        """The answer to the last packet has not come in its time."""
        if turn != self._turn:
            return
        world, patience = self._crew.world, self._crew.patience
        if self._sent > self._crew.retries or world.now - self._since >= patience:
            self.leave()
            self.fail()
            return
        self._send(*self._waiting)
        after = min(self._step << self._sent, LONGEST)
        self._sent += 1
        world.at(min(world.now + after, self._since + patience), self._late, turn)

    def hear(self, packet: Packet) -> None:
        """A packet of the server has come, or word that the connection is refused."""
        flow, flags, number = packet
        if flow is not self._flow:
            return  # of an attempt that is over
        if flags == "R":
            self.leave()
            self.fail()
        elif flags == "SA":
            flow.send("A", 0)
            if self._phase is Phase.OPENING:
                self._phase = Phase.OPEN
                self._turn += 1
                self._step = AFTER_SYN if self._sent > 1 else SLOTS
                self._crew.count.opened += 1
                self.opened()
        elif flags == SHUT:
            self._hear_pf()
        elif flags == WINDOW:
            if self._waiting == ("A", 0):
                self._turn += 1
                self._waiting = ("", 0)
                self.opened()
        elif flags == "FA":
            flow.send("A", 0)
            if self._phase is Phase.CLOSING:
                self.leave()
                self.closed()
        else:
            if flags == "PA":
                flow.send("A", 0)
            if self._phase is Phase.OPEN and (number == self._waiting[1]) and self._waiting[0] == "PA":
                self._turn += 1
                self._step = SLOTS
                self._waiting = ("", 0)
                self.answered(number)

    def _hear_pf(self) -> None:
        """pf has answered the SYN, with a window of 0: asks again and again for room (RFC 9293, 3.8.6.1)."""
        if self._phase is Phase.OPENING:
            self._phase = Phase.OPEN
            self._step = AFTER_SYN if self._sent > 1 else SLOTS
            self._crew.count.opened += 1
            self.want("A", 0)

    def close(self) -> None:
        """Sends a FIN."""
        self._phase = Phase.CLOSING
        self.want("FA", 0)

    def leave(self) -> None:
        """The attempt is over: its port is free again."""
        assert self._flow is not None
        self._host.busy.discard(self._flow.port)
        self._flow = None
        self._phase = Phase.IDLE
        self._turn += 1

    def lose(self) -> None:
        """A packet did not go through. A connection is cut off once, however many of its packets are refused."""
        if not self._is_cut and self._phase in (Phase.OPEN, Phase.CLOSING) and not self.is_served:
            self._is_cut = True
            self._crew.count.killed += 1

    @property
    def is_served(self) -> bool:
        """Whether it has what it wanted."""
        return False

    def opened(self) -> None:
        """The handshake is done."""

    def answered(self, number: int) -> None:
        """What was asked is answered."""

    def closed(self) -> None:
        """The FIN is answered."""

    def fail(self) -> None:
        """An attempt came to nothing."""
        self._crew.count.give_up(self._began)


@dataclass(frozen=True)
class Habit:
    """What visitors do: how many requests, how many slots from one to the next, how often they come back after an
    attempt that failed, and whether they go without a FIN."""

    requests: int
    gap: int
    reloads: int
    vanishes: bool = False


class Visitor(Client):
    """A person who asks, waits for each answer, and closes or vanishes.

    Served is who has the last answer, or where nothing is asked, who could close.
    """

    __slots__ = ("_habit", "_is_done", "_reloads")

    def __init__(self, crew: Crew, host: Host, habit: Habit) -> None:
        super().__init__(crew, host)
        self._habit = habit
        self._reloads = 0
        self._is_done = False

    @property
    def is_served(self) -> bool:
        """Whether the last answer has come."""
        return self._is_done

    def opened(self) -> None:
        """Asks at once; where nothing is asked, closes after a while."""
        if self._habit.requests:
            self.want("PA", 1)
        else:
            self._later(self._habit.gap)

    def answered(self, number: int) -> None:
        """Asks the next after a while, or closes."""
        self._asked = number
        if number == self._habit.requests:
            self._serve(self._crew.cycle * 2 + (number - 1) * max(self._habit.gap, self._crew.cycle))
        self._later(max(0, self._habit.gap - self._crew.cycle))

    def _later(self, slots: int) -> None:
        if slots:
            world = self._crew.world
            world.at(world.now + slots, self._go_on, self._turn)
        else:
            self._go_on(self._turn)

    def _go_on(self, turn: int) -> None:
        if turn != self._turn:
            return
        if self._asked < self._habit.requests:
            self.want("PA", self._asked + 1)
        elif self._habit.vanishes:
            self.leave()
            self._serve(self._crew.cycle + self._habit.gap)
            self._crew.world.going -= 1
        else:
            self.close()

    def _serve(self, undisturbed: int) -> None:
        if not self._is_done:
            self._is_done = True
            waited = self._crew.world.now - self._began - undisturbed
            self._crew.count.serve(self._host.name, self._began, max(0, waited))

    def closed(self) -> None:
        """It is over."""
        self._serve(self._crew.cycle * 2 + self._habit.gap)
        self._crew.world.going -= 1

    def fail(self) -> None:
        """Comes back, or gives up. Who has been served leaves."""
        world = self._crew.world
        if self._is_done:
            world.going -= 1
        elif self._reloads < self._habit.reloads:
            self._reloads += 1
            world.at(world.now + PAUSE, self._again, None)
        else:
            self._crew.count.give_up(self._began)
            world.going -= 1

    def _again(self, _: None) -> None:
        self.open()
