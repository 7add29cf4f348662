"""Where packets leave the firewall: its routes, as the lines `set route` of a rules text have them."""

import ipaddress
import re
from collections.abc import Iterator, Mapping, Sequence
from dataclasses import dataclass, field
from functools import cached_property

from pfplan.common.networks import Network
from pfplan.pf.interfaces import shown

# The interface of packets that are for the firewall itself; so are those without a route.
LOCAL = "lo0"
# What is never forwarded: multicast, the broadcast of a link, and addresses of one link alone.
UNFORWARDED = tuple(
    ipaddress.ip_network(it) for it in ("224.0.0.0/4", "255.255.255.255/32", "ff00::/8", "fe80::/10")
)
# Addresses whose route is remembered.
KNOWN = 100_000
# What a prefix is found by: the family, its length, and the bits of that length.
_Bits = tuple[int, int, int]
_LINE = re.compile(r"\s*set\s+route\s+(?:\{([^{}]*)\}|(\S+\s+\S+))")


@dataclass(frozen=True)
class Routes:
    """The interface by which packets to a prefix leave, for each prefix that has a route. Of those that cover an
    address the longest one counts."""

    by_network: Mapping[Network, str] = field(default_factory=dict)

    def __bool__(self) -> bool:
        return bool(self.by_network)

    def __len__(self) -> int:
        return len(self.by_network)

    @property
    def interfaces(self) -> frozenset[str]:
        """The interfaces by which packets leave."""
        return frozenset(self.by_network.values()) - {LOCAL}

    def to(self, address: str) -> str:
        """The interface by which packets to an address leave; LOCAL for those to the firewall itself, and for a text
        that is no address."""
        name = self._known.get(address)
        if name is None:
            if len(self._known) > KNOWN:
                self._known.clear()
            name = self._known[address] = self._find(address)
        return name

    def is_local(self, address: str) -> bool:
        """Whether an address is the firewall's own, or has no route."""
        return self.to(address) == LOCAL

    def needed(self) -> "Routes":
        """Those routes alone that change where some packet leaves: not those whose covering route has the same
        interface, nor those to the firewall itself that none covers."""
        kept: dict[Network, str] = {}
        found: dict[_Bits, str] = {}
        for network, name in sorted(self.by_network.items(), key=lambda it: it[0].prefixlen):
            version, value = network.version, int(network.network_address)
            if _longest(found, version, value, network.prefixlen - 1, network.max_prefixlen) != name:
                kept[network] = name
                found[_bits(network)] = name
        return Routes({it: kept[it] for it in self.by_network if it in kept})

    def lines(self) -> list[str]:
        """The lines of a rules text that say them, the wider ones of a family first where they begin alike."""
        networks = sorted(self.by_network, key=lambda it: (it.version, int(it.network_address), it.prefixlen))
        return [f"set route {shown(it)} {self.by_network[it]}" for it in networks]

    @cached_property
    def _known(self) -> dict[str, str]:
        return {}

    @cached_property
    def _by_bits(self) -> dict[_Bits, str]:
        return {_bits(it): name for it, name in self.by_network.items()}

    def _find(self, address: str) -> str:
        try:
            value = ipaddress.ip_address(address)
        except ValueError:
            return LOCAL
        return _longest(self._by_bits, value.version, int(value), value.max_prefixlen, value.max_prefixlen)


NO_ROUTES = Routes()


def _bits(network: Network) -> _Bits:
    value = int(network.network_address) >> (network.max_prefixlen - network.prefixlen)
    return network.version, network.prefixlen, value


def _longest(found: Mapping[_Bits, str], version: int, value: int, length: int, most: int) -> str:
    """The interface of the longest prefix, of at most so many bits, that covers an address; LOCAL for none."""
    for it in range(length, -1, -1):
        name = found.get((version, it, value >> (most - it)))
        if name is not None:
            return name
    return LOCAL


def routes_of(shown_lines: Sequence[str]) -> Routes:
    """The routes of a canonical text, or of another rules text that pfsrc takes, by its lines."""
    found: dict[Network, str] = {}
    for prefix, name in _pairs_in(shown_lines):
        found[ipaddress.ip_network(prefix, strict=False)] = name
    return Routes(found)


def _pairs_in(lines: Sequence[str]) -> Iterator[tuple[str, str]]:
    """The prefixes and interfaces that the lines `set route` name."""
    for line in lines:
        said = _LINE.match(line) if "route" in line else None
        words = (said[1] or said[2]).replace(",", " ").split() if said else []
        yield from zip(words[::2], words[1::2], strict=False)
