"""Questions by UDP with an answer each, as resolvers ask a DNS server.

A question is asked again where none comes (RFC 1035, 7.2).
"""

from __future__ import annotations

from dataclasses import dataclass

from pfplan.plays.clients import Crew
from pfplan.plays.hosts import Host
from pfplan.plays.worlds import Fate


@dataclass(frozen=True)
class Manner:
    """After how many slots a question is asked again, how often, and whether a play waits for its end."""

    again: int
    retries: int
    is_awaited: bool


class Question:
    """A question of a host, from one port, until it is answered or given up."""

    __slots__ = ("_back", "_began", "_crew", "_host", "_is_over", "_manner", "_port", "_sent", "_there")

    def __init__(self, crew: Crew, host: Host, manner: Manner) -> None:
        self._crew = crew
        self._host = host
        self._manner = manner
        self._began = crew.world.now
        self._sent = 0
        self._is_over = False
        self._port = host.take()
        self._there: tuple[str, ...] = ()
        self._back: tuple[str, ...] = ()
        crew.count.begin(host.name)

    def open(self) -> None:
        """Asks for the first time."""
        port = self._port
        if port is None:
            self._end(False)
            return
        way = self._crew.way()
        self._there = tuple([f"{it}\n" for it in way.there(self._host.name, port)])
        self._back = tuple([f"{it}\n" for it in way.back(self._host.name, port)])
        self._ask()

    def _ask(self) -> None:
        world, count = self._crew.world, self._crew.count
        self._sent += 1
        count.tries += 1
        count.packets += 1
        world.ask(self._there, self._hear_fate, None)
        world.at(world.now + self._manner.again, self._late, self._sent)

    def _hear_fate(self, _: None, fate: Fate) -> None:
        world = self._crew.world
        if fate.passes:
            self._crew.count.passed += 1
            world.at(world.now + self._crew.answer, self._answer, None)
            return
        self._crew.count.refuse(fate, world.now)
        if fate.tells:
            world.at(world.now + self._crew.round_trip, self._hear, False)

    def _answer(self, _: None) -> None:
        self._crew.world.ask(self._back, self._hear_fate_back, None)

    def _hear_fate_back(self, _: None, fate: Fate) -> None:
        world = self._crew.world
        if fate.passes:
            world.at(world.now + self._crew.round_trip, self._hear, True)
        else:
            self._crew.count.refuse(fate, world.now)

    def _hear(self, is_answered: bool) -> None:
        if not self._is_over:
            self._end(is_answered)

    def _late(self, sent: int) -> None:
        if self._is_over or sent != self._sent:
            return
        if self._sent > self._manner.retries:
            self._end(False)
        else:
            self._ask()

    def _end(self, is_answered: bool) -> None:
        self._is_over = True
        crew = self._crew
        if self._port is not None:
            self._host.busy.discard(self._port)
        if is_answered:
            crew.count.opened += 1
            crew.count.serve(self._host.name, self._began, max(0, crew.world.now - self._began - crew.cycle))
        else:
            crew.count.give_up(self._began)
        if self._manner.is_awaited:
            crew.world.going -= 1
