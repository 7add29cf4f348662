"""Addresses and ports of hosts, and the texts of the packets between two ends."""

import ipaddress

from pfplan.common.networks import Network
from pfplan.pf.routes import NO_ROUTES, Routes
from pfplan.plays.listeners import Listener
from pfplan.plays.model import Endpoint, Forward
from pfplan.plays.reading import room

FIRST_PORT, PORTS = 1024, 64512


def address_text(value: int, version: int) -> str:
    """The text of an address by its number."""
    if version == 6:
        return str(ipaddress.IPv6Address(value))
    return f"{value >> 24}.{value >> 16 & 255}.{value >> 8 & 255}.{value & 255}"


class Host:
    """A host: its address, and the ports that it uses."""

    __slots__ = ("busy", "name", "turn")

    def __init__(self, name: str) -> None:
        self.name = name
        self.turn = 0
        self.busy: set[int] = set()

    def take(self) -> int | None:
        """A port that it does not use, in turn; None where it uses all of them."""
        if len(self.busy) == PORTS:
            return None
        while True:
            self.turn += 1
            port = FIRST_PORT + self.turn % PORTS
            if port not in self.busy:
                self.busy.add(port)
                return port


class Addresses:
    """The addresses of a network that are used, by number."""

    def __init__(self, origin: Network, hosts: int) -> None:
        self.count = hosts or room(origin)
        self.first = int(origin.network_address) + (origin.num_addresses > 2)
        self.version = origin.version

    def name(self, number: int) -> str:
        """The address of a host."""
        return address_text(self.first + number, self.version)


class Hosts:
    """All hosts that have connections, each once, whichever groups it is in."""

    def __init__(self) -> None:
        self._hosts: dict[str, Host] = {}

    def of(self, name: str) -> Host:
        """The host of an address."""
        found = self._hosts.get(name)
        if found is None:
            found = self._hosts[name] = Host(name)
        return found


class Way:
    """The way between the hosts of a group and a server: the interfaces that its packets are asked on, one or two.

    Where the firewall has routes, it asks the second one by itself: a packet then has one record, where it comes in.
    """

    def __init__(
        self,
        forward: Forward,
        interface: str,
        server: Endpoint,
        protocol: str,
        listener: Listener | None = None,
        routes: Routes = NO_ROUTES,
    ) -> None:
        """`listener` is the server's, where it has a backlog."""
        self.is_routed = bool(routes)
        onward = forward.next(interface, server.address)
        if self.is_routed:
            onward = "" if routes.is_local(str(server.address)) else routes.to(str(server.address))
        end = f"{server.address},{server.port}"
        self._in = (f",in,{interface},{protocol},", f",{end},")
        self._in_behind = f",out,{onward},{protocol},"
        self._out_behind = f",in,{onward},{protocol},{end},"
        self.answers_to = f",out,{interface},{protocol},{end},"
        if self.is_routed and onward:
            self.answers_to = self._out_behind
        self.is_forwarded = bool(onward) and not self.is_routed
        self.listener = listener

    def there(self, host: str, port: int) -> tuple[str, ...]:
        """The records of a packet to the server, behind their moment and up to the flags."""
        end = f"{host},{port}"
        first = f"{self._in[0]}{end}{self._in[1]}"
        return (first, f"{self._in_behind}{end}{self._in[1]}") if self.is_forwarded else (first,)

    def back(self, host: str, port: int) -> tuple[str, ...]:
        """The records of a packet from the server."""
        end = f"{host},{port},"
        last = f"{self.answers_to}{end}"
        return (f"{self._out_behind}{end}", last) if self.is_forwarded else (last,)

    def has_sent(self, first: str) -> bool:
        """Whether the first record of a packet from a server is one of this server's."""
        return first.startswith(self._out_behind if self.is_forwarded else self.answers_to)

    def last_of(self, first: str) -> str:
        """The second record of such a packet, that is forwarded."""
        return self.answers_to + first[len(self._out_behind) :]

    def parts(self, end: str) -> tuple[str, str]:
        """What stands before and behind the source in the record of a packet to the server."""
        return self._in[0], self._in[1] + end
