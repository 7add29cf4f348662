"""What a scenario says: the servers, the way to them, and the groups of hosts with what they do.

Times are in seconds, delays in milliseconds.
"""

from collections.abc import Mapping
from dataclasses import dataclass, field
from fractions import Fraction
from pathlib import Path

from pfplan.common.networks import Address, Network

KINDS = ("visits", "hold", "connect", "syn", "udp", "query", "trace")


@dataclass(frozen=True)
class Endpoint:
    """Where a server listens."""

    address: Address
    port: int

    def shown(self) -> str:
        """`192.0.2.1:80`, `[2001:db8::1]:80`."""
        return f"[{self.address}]:{self.port}" if self.address.version == 6 else f"{self.address}:{self.port}"


@dataclass(frozen=True)
class Forward:
    """Where the router sends on what it let in: by the network of the target, else by the interface that it came
    in on."""

    networks: tuple[tuple[Network, str], ...] = ()
    interfaces: Mapping[str, str] = field(default_factory=dict)

    def next(self, interface: str, target: Address) -> str:
        """The interface on which a packet goes out; nothing where the firewall itself is the target."""
        fitting = [(it.prefixlen, out) for it, out in self.networks if it.version == target.version and target in it]
        found = max(fitting)[1] if fitting else self.interfaces.get(interface, "")
        return "" if found == interface else found

    def __bool__(self) -> bool:
        return bool(self.networks or self.interfaces)


@dataclass(frozen=True)
class Group:
    """What all groups have.

    `begin` and `end` bound the seconds in which they begin what they do; without an end, to the end of the play.

    `round_trip` is the milliseconds from the firewall to a host of the group and back.
    """

    name: str
    kind: str
    users: bool
    to: tuple[Endpoint, ...]
    interface: str
    begin: int
    end: int | None
    round_trip: int


@dataclass(frozen=True)
class Crowd(Group):
    """Hosts that have addresses of a network. `hosts` of them are used; 0 is all."""

    origin: Network
    hosts: int


@dataclass(frozen=True)
class Visits(Crowd):
    """People whose connections have requests and answers; several people may be behind each address. Of 100 visits
    `vanish` end without a FIN."""

    people: int
    visits: int
    every: int
    parallel: int
    requests: int
    stay: int
    vanish: int
    retries: int
    patience: int
    reloads: int


@dataclass(frozen=True)
class Holders(Crowd):
    """Hosts that open connections, at a rate of all together, and keep them by a packet every so many seconds; 0
    closes them at once."""

    rate: Fraction
    every: int
    retries: int
    patience: int


@dataclass(frozen=True)
class Forgers(Crowd):
    """Packets of forged addresses: SYN packets, or UDP packets."""

    rate: Fraction


@dataclass(frozen=True)
class Askers(Crowd):
    """Hosts that ask questions by UDP, and ask again where no answer comes."""

    rate: Fraction
    again: int
    retries: int


@dataclass(frozen=True)
class Laid(Group):
    """The records of a trace, or the packets of a capture, from a moment on. They come whatever the firewall does."""

    file: Path
    inside: tuple[Network, ...]


@dataclass(frozen=True)
class Scenario:
    """A scenario.

    `answer` is the milliseconds that a server takes, `wait` the seconds within which a connection is served without
    waiting. `backlog` is how many connections may be half open at a server, 0 as many as come.
    """

    name: str
    seconds: int
    seed: int
    interface: str
    forward: Forward
    answer: int
    wait: int
    groups: tuple[Group, ...]
    backlog: int = 0

    @property
    def has_users(self) -> bool:
        """Whether a group is of users."""
        return any(it.users for it in self.groups)
