"""A flow: the packets between one port of a host and a server, on their way through the firewall."""

from __future__ import annotations

from typing import Protocol

from pfplan.plays.counts import Count
from pfplan.plays.hosts import Way
from pfplan.plays.servers import Server
from pfplan.plays.worlds import Fate, World

# the flow, the flags, and the number of the request or the answer (below 0 for what keeps a connection)
Packet = tuple["Flow", str, int]
# What a host hears of pf itself: a SYN|ACK that lets it send nothing yet (its window is 0), and an ACK that opens the
# window, once the server has answered.
SHUT, WINDOW = "SYN|ACK of pf", "ACK of pf"


class Caller(Protocol):
    """The host's side of a connection."""

    def hear(self, packet: Packet) -> None:
        """A packet has come, or `R` where the connection was refused."""

    def lose(self) -> None:
        """A packet of the connection did not go through. For counting alone: the host itself hears nothing of it."""


class Flow:
    """A connection's packets.

    A packet that goes through reaches the other side; one that a rule refuses may be answered by a RST. By a rule with
    `synproxy state`, and where it gives SYN cookies, pf takes those of a handshake, and leads one with the host, and
    then one with the server.
    """

    __slots__ = (
        "_answer",
        "_back",
        "_caller",
        "_count",
        "_is_acknowledged",
        "_is_routed",
        "_round_trip",
        "_server",
        "_there",
        "_world",
        "port",
    )

    def __init__(
        self, world: World, way: Way, host: str, port: int, caller: Caller, count: Count, delays: tuple[int, int]
    ) -> None:
        """`delays` are the slots that a server takes, and those to the host and back."""
        self._world = world
        self._there = way.there(host, port)
        self._back = way.back(host, port)
        self._caller = caller
        self._count = count
        self._answer, self._round_trip = delays
        self._server = Server(world, self, way.listener)
        self._is_acknowledged = False
        self._is_routed = way.is_routed
        self.port = port

    def send(self, flags: str, number: int) -> None:
        """A packet to the server."""
        end = flags + "\n"
        self._count.packets += 1
        there = self._there
        if len(there) == 1:
            self._world.ask_once(there[0] + end, self._hear_fate_there, (self, flags, number))
        else:
            self._world.ask(tuple([it + end for it in there]), self._hear_fate_there, (self, flags, number))

    def send_back(self, flags: str, number: int) -> None:
        """A packet from the server."""
        end = flags + "\n"
        back = self._back
        if len(back) == 1:
            self._world.ask_once(back[0] + end, self._hear_fate_back, (self, flags, number))
        else:
            self._world.ask(tuple([it + end for it in back]), self._hear_fate_back, (self, flags, number))

    def _hear_fate_there(self, packet: Packet, fate: Fate) -> None:
        world = self._world
        if fate.passes:
            self._count.passed += 1
            world.at(world.now + self._answer, self._server.hear, packet)
            return
        if fate.is_taken:
            self._count.passed += 1
            self._take(packet[1], fate.own)
            return
        self._count.refuse(fate, world.now)
        self._caller.lose()
        if fate.resets:
            world.at(world.now + self._round_trip, self._caller.hear, (self, "R", 0))

    def _hear_fate_back(self, packet: Packet, fate: Fate) -> None:
        world = self._world
        if fate.passes:
            world.at(world.now + self._round_trip, self._caller.hear, packet)
            return
        if fate.is_taken:
            if packet[1] == "SA":
                self._send_of_pf("A")
                world.at(world.now + self._round_trip, self._caller.hear, (self, WINDOW, 0))
            return
        self._count.refuse(fate, world.now)
        self._caller.lose()
        if fate.resets:
            world.at(world.now + self._answer, self._server.hear, (self, "R", 0))

    def _take(self, flags: str, own: Fate | None) -> None:
        """pf has taken a packet of the host: it answers a SYN. Once the host has acknowledged that, it sends a SYN to
        the server, again at each packet of the host, until the server has answered. `own` is what became of that SYN,
        where the firewall has routes."""
        world = self._world
        if flags == "S":
            if not self._is_acknowledged:
                world.at(world.now + self._round_trip, self._caller.hear, (self, SHUT, 0))
            return
        self._is_acknowledged = self._is_acknowledged or flags in ("A", "PA")
        if own is not None:
            self._hear_fate_of_pf((self, "S", 0), own)
        elif self._is_acknowledged and not self._is_routed:
            self._send_of_pf("S")

    def _send_of_pf(self, flags: str) -> None:
        """A packet of pf's own to the server, which is asked where it leaves, unless the firewall has routes: then it
        has asked of each SYN itself."""
        packet = (self, flags, 0)
        if len(self._there) > 1:
            self._world.ask_once(f"{self._there[1]}{flags}\n", self._hear_fate_of_pf, packet)
        else:
            self._world.at(self._world.now + self._answer, self._server.hear, packet)

    def _hear_fate_of_pf(self, packet: Packet, fate: Fate) -> None:
        world = self._world
        if fate.passes:
            world.at(world.now + self._answer, self._server.hear, packet)
        elif not fate.is_taken:
            self._count.refuse(fate, world.now)
