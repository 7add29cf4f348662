"""Addresses and networks of either family, and names of interfaces."""

import ipaddress
import re
from collections.abc import Iterable

Address = ipaddress.IPv4Address | ipaddress.IPv6Address
Network = ipaddress.IPv4Network | ipaddress.IPv6Network


def interface_name(text: str) -> str:
    """The text, which is a name that an interface may have in a trace. ValueError for another."""
    if text in ("any", "rdomain") or not re.fullmatch(r"[A-Za-z0-9_.-]{1,15}", text):
        raise ValueError(f"'{text}' is no name of an interface")
    return text


def network_of(text: str) -> Network:
    """The network of an address, or of one with a length, whatever bits stand behind that. ValueError for another
    text."""
    return ipaddress.ip_network(text, strict=False)


def is_within(network: Network, others: Iterable[Network]) -> bool:
    """Whether one of some other networks has all addresses of a network."""
    for it in others:
        if isinstance(network, ipaddress.IPv4Network) and isinstance(it, ipaddress.IPv4Network):
            if network.subnet_of(it):
                return True
        elif isinstance(network, ipaddress.IPv6Network) and isinstance(it, ipaddress.IPv6Network):
            if network.subnet_of(it):
                return True
    return False
