"""Servers: they answer what reaches them. What they do by themselves is in the standards, or as Linux does it."""

from __future__ import annotations

from collections.abc import Sequence
from typing import Protocol

from pfplan.plays.counts import Count
from pfplan.plays.hosts import Way
from pfplan.plays.listeners import Listener
from pfplan.plays.worlds import SLOTS, Fate, World

# How often a server repeats what is not acknowledged, each time after twice as long (tcp_synack_retries of Linux).
REPEATS = 5


class Carrier(Protocol):
    """What carries the packets of a server."""

    def send_back(self, flags: str, number: int) -> None:
        """A packet from the server."""


class Server:
    """The server's side of one connection (RFC 9293, 3.10.7)."""

    __slots__ = ("_flow", "_is_asked", "_is_half", "_is_open", "_listener", "_owed", "_repeats", "_turn", "_world")

    def __init__(self, world: World, flow: Carrier, listener: Listener | None) -> None:
        """Without a listener nobody counts what is half open."""
        self._listener = listener
        self._is_half = False
        self._world = world
        self._flow = flow
        self._is_asked = False
        self._is_open = False
        self._turn = 0
        self._owed: tuple[str, int] = ("", 0)
        self._repeats = 0

    def hear(self, packet: tuple[object, str, int]) -> None:
        """A packet has come."""
        _, flags, number = packet
        if flags == "S":
            self._is_asked = True
            if not self._is_open and self._has_room():
                self._answer("SA", 0)
            return
        if not self._is_asked:
            if flags != "R":  # of a handshake that pf led with the host, and did not go on to lead here
                self._flow.send_back("R", 0)
            return
        self._leave()
        if flags == "A":
            self._is_open = True
            self._turn += 1  # what was sent is acknowledged
        elif flags == "R":
            self._turn += 1
        elif flags == "FA":
            self._answer("FA", 0)
        else:
            self._is_open = True
            if number < 0:
                self._turn += 1
                self._flow.send_back("A", number)
            else:
                self._answer("PA", number)

    def _has_room(self) -> bool:
        """Whether a SYN is answered: where its connection is half open, or has room in the backlog."""
        if self._listener is None or self._is_half:
            return True
        self._is_half = self._listener.take()
        return self._is_half

    def _leave(self) -> None:
        """The connection is half open no longer."""
        if self._listener is not None and self._is_half:
            self._listener.leave()
            self._is_half = False

    def _answer(self, flags: str, number: int) -> None:
        """Sends what has to be acknowledged, and repeats it where that does not come (RFC 6298, 5)."""
        self._owed = (flags, number)
        self._turn += 1
        self._repeats = 0
        self._flow.send_back(flags, number)
        self._world.at(self._world.now + SLOTS, self._late, self._turn)

    def _late(self, turn: int) -> None:
        if turn != self._turn:
            return
        if self._repeats == REPEATS:
            self._leave()
            return
        self._repeats += 1
        self._flow.send_back(*self._owed)
        self._world.at(self._world.now + (SLOTS << self._repeats), self._late, turn)


class Backlog:
    """Half open connections of forged addresses: their SYN|ACK goes out again and again, nothing comes, and they
    are forgotten.

    Each is known by the record of its answer, of one that is forwarded by the first of both. A connection that is
    forgotten and comes again has another object as its text.
    """

    def __init__(self, world: World, count: Count, ways: Sequence[Way], answer: int) -> None:
        """`answer` are the slots that a server takes."""
        self._world = world
        self._count = count
        self._answer = answer
        self._forwarding = [it for it in ways if it.is_forwarded]
        self._listening = [it for it in ways if it.listener]
        self._half: dict[str, str] = {}
        self._coming: dict[int, list[str]] = {}
        # those that are answered in a slot, and how often they were before
        self._due: dict[int, list[tuple[list[str], int]]] = {}
        self._is_any_gone = False

    def come(self, answers: list[str]) -> None:
        """SYN packets of forged addresses were let in now: these are the servers' answers to them, and go out once the
        servers have taken their time."""
        slot = self._world.now + self._answer
        there = self._coming.get(slot)
        if there is None:
            self._coming[slot] = answers
            self._wake(slot)
        else:
            there += answers

    def _wake(self, slot: int) -> None:
        """Has the answers of a slot sent in it, all at once."""
        if slot not in self._due:
            self._due[slot] = []
            self._world.at(slot, self._answer_all, slot)

    def _answer_all(self, slot: int) -> None:
        """SYN packets have come to the server, and others wait for theirs to be acknowledged."""
        due = self._due.pop(slot)
        coming = self._coming.pop(slot, None)
        if coming is not None:
            due.append((self._new(coming), 0))
        sent: list[str] = []
        for waiting, before in due:
            left = self._left(waiting) if self._is_any_gone else waiting
            if before > REPEATS:
                for it in left:
                    self._leave(it)
            elif left:
                sent += left
                again = slot + (SLOTS << before)
                if again not in self._due:
                    self._wake(again)
                self._due[again].append((left, before + 1))
        if sent:
            self._send(sent)

    def _send(self, answers: list[str]) -> None:
        if not self._forwarding:
            self._world.ask_all(answers, self._hear_fates, answers)
            return
        for it in answers:
            behind = [way.last_of(it) for way in self._forwarding if way.has_sent(it)]
            self._world.ask((it, *behind[:1]), self._hear_fate, it)

    def _new(self, coming: list[str]) -> list[str]:
        """Those that were not half open. Who is, is answered once more, and goes on as it was."""
        half, new = self._half, []
        if not self._listening and half.keys().isdisjoint(coming) and len(set(coming)) == len(coming):
            half.update(zip(coming, coming))
            return coming
        for it in coming:
            if it in half:
                self._send([half[it]])
            elif self._has_room(it):
                half[it] = it
                new.append(it)
        return new

    def _has_room(self, answer: str) -> bool:
        """Whether the server has room for one more that is half open; without a backlog it always has."""
        listener = self._listener_of(answer)
        return listener is None or listener.take()

    def _listener_of(self, answer: str) -> Listener | None:
        return next((it.listener for it in self._listening if it.has_sent(answer)), None)

    def _leave(self, answer: str) -> None:
        """It is half open no longer."""
        del self._half[answer]
        listener = self._listener_of(answer) if self._listening else None
        if listener:
            listener.leave()

    def _left(self, waiting: list[str]) -> list[str]:
        """Those that are half open still."""
        half = self._half
        return [it for it in waiting if half.get(it) is it]

    def _hear_fates(self, answers: list[str], fates: list[Fate]) -> None:
        """What became of answers that went out together: there are few kinds of fates."""
        first = fates[0]
        if first.passes and fates.count(first) == len(fates):
            return
        for one in dict.fromkeys(fates):
            if one.passes or one.is_taken:
                continue
            self._count.refuse(one, self._world.now, fates.count(one))
            if one.resets:
                for it in (answer for answer, fate in zip(answers, fates) if fate is one):
                    self._forget(it)

    def _hear_fate(self, answer: str, fate: Fate) -> None:
        if not (fate.passes or fate.is_taken):
            self._count.refuse(fate, self._world.now)
            if fate.resets:
                self._forget(answer)

    def _forget(self, answer: str) -> None:
        """A server that gets a RST forgets the connection."""
        if answer in self._half:
            self._leave(answer)
            self._is_any_gone = True
