"""The interfaces of the firewall: their groups and addresses, from what ifconfig prints there or from the command
line."""

import ipaddress
import re
from collections.abc import Iterable
from dataclasses import dataclass, field

from pfplan.common.networks import Address, Network

Given = ipaddress.IPv4Interface | ipaddress.IPv6Interface
MODIFIERS = ("network", "broadcast", "peer", "0")
_MAC = re.compile(r"[0-9A-Fa-f]{2}(:[0-9A-Fa-f]{2}){5}")
_HEAD = re.compile(r"([A-Za-z0-9_.-]+): flags=[0-9a-f]+(?:<([A-Z0-9_,]*)>)?")


@dataclass(frozen=True)
class Location:
    """An address or network that a name stands for. A link-local address has the interface that it is on as its
    zone."""

    network: Network
    zone: str = ""


@dataclass(frozen=True)
class Configured:
    """One address of an interface, with what else ifconfig prints beside it."""

    address: Address
    network: Network
    broadcast: Address | None = None
    peer: Address | None = None


@dataclass
class Interface:
    """One interface of the firewall; `mac` is its address on its link, and `parent` the interface that a carp(4) is on,
    where it has one."""

    name: str
    is_loopback: bool = False
    groups: tuple[str, ...] = ()
    addresses: list[Configured] = field(default_factory=list)
    mac: str = ""
    parent: str = ""


@dataclass
class Machine:
    """What is known of the firewall: `interfaces` by name (none without ifconfig), and what the command line says of
    names.

    Of `given`, a name with `:network` has networks, and any other has addresses, whose networks are known where they
    have a length.
    """

    interfaces: dict[str, Interface] = field(default_factory=dict)
    given: dict[str, list[Given]] = field(default_factory=dict)
    members_given: dict[str, list[str]] = field(default_factory=dict)

    def members(self, name: str) -> list[str] | None:
        """The interfaces of a group; None where the name is no group that is known."""
        if name in self.members_given:
            return self.members_given[name]
        found = [it.name for it in self.interfaces.values() if name in it.groups]
        return found or None

    def others(self, names: Iterable[str]) -> list[str] | None:
        """All interfaces but these; None where ifconfig was not given."""
        left_out = set(names)
        return [it for it in self.interfaces if it not in left_out] if self.interfaces else None

    def loopbacks(self) -> list[str]:
        """The loopback interfaces; `lo0` where ifconfig was not given."""
        return [it.name for it in self.interfaces.values() if it.is_loopback] if self.interfaces else ["lo0"]

    def locations(self, text: str, *, is_dynamic: bool = False) -> list[Location] | None:
        """What `em0`, `em0:network`, `egress:0`, `self` and their like stand for; None where the name is not known.

        In parentheses (`is_dynamic`) the kernel takes no link-local address for the first one of `:0`. (pf.conf(5),
        PARAMETERS, "from source")
        """
        name, *modifiers = text.split(":")
        if text in self.given:
            return _locations_of(self.given[text], modifiers)
        if any(it not in MODIFIERS for it in modifiers):
            return None
        if set(modifiers) <= {"0", "network"} and name in self.given:
            given = self.given[name]
            is_known = "network" not in modifiers or all(it.network.prefixlen < it.max_prefixlen for it in given)
            return _locations_of(given, modifiers) if is_known else None
        if name == "self":
            names = list(self.interfaces)
        else:
            names = [name] if name in self.interfaces else self.members(name) or []
        if not all(it in self.interfaces for it in names) or not names:
            return None
        return [found for it in names for found in _locations_on(self.interfaces[it], modifiers, is_dynamic)]

    def macs(self, name: str) -> list[str]:
        """The addresses to which the frames of an interface go: its own, and those of each carp(4) on it. None where it
        has none."""
        return [it.mac for it in self.interfaces.values() if it.mac and name in (it.name, it.parent)]

    def networks_on(self, name: str) -> list[Network]:
        """The networks of an interface, without link-local ones."""
        found = self.interfaces[name].addresses if name in self.interfaces else []
        return list(dict.fromkeys(it.network for it in found if not it.address.is_link_local))

    def inside(self) -> list[Network]:
        """What is behind the firewall, with its own addresses: the networks of interfaces that are neither loopback nor
        `egress`."""
        found: list[Network] = []
        for it in self.interfaces.values():
            for configured in it.addresses:
                if it.is_loopback or configured.address.is_link_local:
                    continue
                own = ipaddress.ip_network(configured.address)
                found.append(own if "egress" in it.groups else configured.network)
        return list(dict.fromkeys(found))


def _locations_of(given: Iterable[Given], modifiers: list[str]) -> list[Location]:
    """What addresses stand for that were given on the command line."""
    found = [Location(it.network if "network" in modifiers else ipaddress.ip_network(it.ip)) for it in given]
    return _first_of_each_family(found) if "0" in modifiers else found


def _locations_on(interface: Interface, modifiers: list[str], is_dynamic: bool) -> list[Location]:
    found: list[Location] = []
    for it in interface.addresses:
        is_local = it.address.version == 6 and it.address.is_link_local
        if "network" in modifiers:
            if not is_local:
                found.append(Location(it.network))
        elif "broadcast" in modifiers:
            if it.broadcast is not None:
                found.append(Location(ipaddress.ip_network(it.broadcast)))
        elif "peer" in modifiers:
            if it.peer is not None:
                found.append(Location(ipaddress.ip_network(it.peer)))
        else:
            found.append(Location(ipaddress.ip_network(it.address), interface.name if is_local else ""))
    if "0" in modifiers and is_dynamic:
        found = [it for it in found if not it.zone]
    return _first_of_each_family(found) if "0" in modifiers else found


def _first_of_each_family(found: list[Location]) -> list[Location]:
    first: dict[int, Location] = {}
    for it in found:
        first.setdefault(it.network.version, it)
    return list(first.values())


def read_ifconfig(text: str) -> dict[str, Interface]:
    """The interfaces in what ifconfig prints (ifconfig(8)); lines that say nothing of names, groups and addresses are
    passed over."""
    found: dict[str, Interface] = {}
    current: Interface | None = None
    for line in text.splitlines():
        if head := _HEAD.match(line):
            current = Interface(head[1], "LOOPBACK" in (head[2] or "").split(","))
            found[head[1]] = current
        elif current is not None:
            _read_line(current, line.split())
    return found


def _read_line(interface: Interface, words: list[str]) -> None:
    if words[:1] == ["groups:"]:
        interface.groups = (*interface.groups, *words[1:])
    elif words[:1] == ["lladdr"] and _MAC.fullmatch(" ".join(words[1:])):
        interface.mac = words[1]
    elif words[:1] == ["carp:"] and "carpdev" in words[:-1]:
        interface.parent = words[words.index("carpdev") + 1]
    elif words[:1] in (["inet"], ["inet6"]) and len(words) > 1:
        configured = _configured(words)
        if configured is not None:
            interface.addresses.append(configured)


def _configured(words: list[str]) -> Configured | None:
    behind = dict(zip(words[2:], words[3:], strict=False))
    try:
        address = ipaddress.ip_address(words[1].split("%")[0].split("/")[0])
        length = _length(words[1], behind, address.max_prefixlen)
        network = ipaddress.ip_network(f"{address}/{length}", strict=False)
        broadcast = ipaddress.ip_address(behind["broadcast"]) if "broadcast" in behind else None
        far = behind.get("-->") or behind.get("->")
        peer = ipaddress.ip_address(far.split("%")[0]) if far else None
    except ValueError:
        return None
    return Configured(address, network, broadcast, peer)


def _length(address: str, behind: dict[str, str], most: int) -> int:
    if "prefixlen" in behind:
        return int(behind["prefixlen"])
    if "/" in address:
        return int(address.split("/")[1])
    mask = behind.get("netmask", "")
    if mask.startswith("0x"):
        return int(mask, 16).bit_count()
    return ipaddress.ip_network(f"0.0.0.0/{mask}").prefixlen if mask else most


def prefix_of(text: str, length: int | None) -> Network | None:
    """The network that a text of an address and a length name; `10/8` and `172.16/12` are read as pfctl does. None
    where it is none."""
    if length is not None and re.fullmatch(r"[0-9]{1,3}(\.[0-9]{1,3}){0,2}", text):
        text += ".0" * (3 - text.count("."))
    if "%" in text:
        return None
    try:
        address = ipaddress.ip_address(text)
        return ipaddress.ip_network(address if length is None else f"{address}/{length}", strict=False)
    except ValueError:
        return None


def cut(network: Network, length: int) -> Network:
    """A network, as wide as a length makes it."""
    return network.supernet(new_prefix=length) if length < network.prefixlen else network


def shown(network: Network) -> str:
    """A network as a rules text writes it: without the length that is the whole address's, and without dots in an IPv6
    address."""
    text = str(network.network_address)
    if network.version == 6 and "." in text:
        number = int(network.network_address) & 0xFFFFFFFF
        text = f"{text[: text.rindex(':') + 1]}{number >> 16:x}:{number & 0xFFFF:x}"
    return text if network.prefixlen == network.max_prefixlen else f"{text}/{network.prefixlen}"
