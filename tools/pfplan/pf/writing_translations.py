"""Translation as a rules text of pfsrc writes it: one address for each rule, of one family (pf.conf(5), TRANSLATION,
POOL OPTIONS).

A translation that can't be written is left out, and told. A `pass` rule then stays, as it matches the same packets; a
`match` rule goes whole, as rules behind it would see other addresses.
"""

import ipaddress
from collections.abc import Mapping, Sequence
from dataclasses import dataclass, field, replace

from pfplan.common.networks import Network
from pfplan.pf.combinations import Combination
from pfplan.pf.interfaces import Machine, cut, prefix_of, shown
from pfplan.pf.left_out import (
    BLOCKS_MORE,
    LACK_NOTE,
    OTHER_STATES,
    TRANSLATIONS,
    Reason,
    Teller,
    harmless,
    telling,
)
from pfplan.pf.reading_pools import STATIC_PORT, STICKY
from pfplan.pf.services import port_of
from pfplan.pf.statements import Host, HostKind, Part, Pool, Rule
from pfplan.pf.writing_lists import FAMILIES

_STICKS = telling("pf makes a source node for each source, which set limit src-nodes counts", BLOCKS_MORE)
_ALONE = harmless("there is one address to choose")
_OF_NETWORKS = telling("each address of a network gets another one, and a rules text has one for all", OTHER_STATES)
_ONE_WAY = telling("the rule is for packets out alone, so what comes in to its address is not translated", OTHER_STATES)
_NO_WAY = telling("pf wants in or out of a rule that translates", OTHER_STATES)
_APART = telling("it stands for two rules, one of each family, and each would count states by itself", OTHER_STATES)
_NO_PORT = telling("its ports are none that /etc/services has", OTHER_STATES)


@dataclass(frozen=True)
class Written:
    """A rule that comes of a combination: `clause` is what it translates, `direction` where that is not the rule's own.

    `puts` are the addresses and the port that a packet has behind it: source, destination, port of the destination.
    `number` says which of the rules that pfctl makes of the combination it is.
    """

    made: Combination
    clause: str = ""
    direction: str = ""
    puts: tuple[str, str, str] = ("", "", "")
    number: int = 0


@dataclass(frozen=True)
class Planned:
    """An item that comes of a rule: what is written, its state clause, and the place of its number in pf."""

    rule: Rule
    written: Written
    clause: str = ""
    number: int | None = None


@dataclass(frozen=True)
class Lack:
    """A translation that can't be written: the part of the rule, and why."""

    part: str
    reason: Reason


@dataclass
class Translator:
    """Writes the translations of one text. `tables` are the entries of tables by their names in the rules text."""

    machine: Machine
    teller: Teller
    tables: Mapping[str, Sequence[Network]] = field(default_factory=dict)
    _partly: set[Part] = field(default_factory=set)  # of which some addresses are not known

    def written(
        self, rule: Rule, combinations: Sequence[Combination], names: Mapping[str, str], counts: bool
    ) -> list[Written]:
        """The rules that come of a rule's combinations; none where it is a match rule whose translation can't be
        written. `names` are those of tables in the rules text, and `counts` says that it has to be one rule."""
        found: list[Written] = []
        lacks: dict[Lack, None] = {}
        for made in combinations:
            rules = self._rules(rule, made, names, counts)
            if not isinstance(rules, Lack):
                found += rules
                continue
            lacks[rules] = None
            if rule.action == "pass":
                found.append(Written(made))
        for it in lacks:
            self.teller.note(LACK_NOTE)
            if found:
                self.teller.tell(rule.place, it.part, it.reason, rule)
            else:
                self.teller.tell_whole(rule, it.reason)
        return found

    def _rules(
        self, rule: Rule, made: Combination, names: Mapping[str, str], counts: bool
    ) -> list[Written] | Lack:
        parts = [it for kind in TRANSLATIONS if (it := rule.filter.part(kind)) is not None]
        pools = [self._networks(it.pool or Pool(), names) for it in parts]
        self._partly.update(it for it in parts if self._unknown(it.pool or Pool(), names))
        families = [made.of] if made.of else _families_of(pools)
        if counts and len(families) > 1:
            return Lack(parts[0].text, _APART)
        if not rule.filter.direction and all(it.kind != "binat-to" for it in parts):
            return Lack(parts[0].text, _NO_WAY)
        found: list[Written] = []
        for family in families or [""]:
            said = replace(made, family=family, of=family) if len(families) > 1 else replace(made, of=family)
            for part, networks in zip(parts, pools, strict=True):
                if not any(FAMILIES[it.version] == family for it in networks):
                    return Lack(part.text, self._no_address(part.pool or Pool(), family, names))
            rules = self._of_family(rule, said, list(zip(parts, pools, strict=True)), family)
            if isinstance(rules, Lack):
                return rules
            found += rules
        return found

    def _of_family(
        self, rule: Rule, made: Combination, parts: Sequence[tuple[Part, list[Network]]], family: str
    ) -> list[Written] | Lack:
        clauses: list[str] = []
        source = destination = port = ""
        for part, networks in parts:
            fitting = [it for it in networks if FAMILIES[it.version] == family]
            address = shown(ipaddress.ip_network(fitting[0].network_address))
            if part.kind == "binat-to":
                return self._both_ways(rule, made, part, fitting)
            ports = _ports_of(part, made)
            if ports is None:
                return Lack(part.text, _NO_PORT)
            self._tell(rule, part, fitting, address, ports)
            clauses.append(f"{part.kind} {address}{ports}")
            if part.kind == "nat-to":
                source = address
            else:
                destination, port = address, ports.replace("port ", "port = ").strip()
        return [Written(made, " ".join(clauses), puts=(source, destination, port))]

    def _both_ways(self, rule: Rule, made: Combination, part: Part, fitting: list[Network]) -> list[Written] | Lack:
        """The two rules that pfctl makes of binat-to: of packets out, and of packets in to the address that it puts
        in."""
        own = prefix_of(made.source, None)
        if own is None or fitting[0].prefixlen < fitting[0].max_prefixlen:
            return Lack(part.text, _OF_NETWORKS)
        address = shown(fitting[0])
        self._tell(rule, part, fitting, address, "")
        outward = Written(made, f"nat-to {address} {STATIC_PORT}", "out", (address, "", ""))
        if rule.filter.direction:
            self.teller.tell(rule.place, part.kind, _ONE_WAY, rule)
            return [outward]
        turned = replace(
            made, source=made.destination, source_port=made.destination_port, destination=address,
            destination_port=made.source_port,
        )  # fmt: skip
        return [outward, Written(turned, f"rdr-to {made.source}", "in", ("", made.source, ""), 1)]

    def _tell(self, rule: Rule, part: Part, fitting: list[Network], address: str, ports: str) -> None:
        """Tells what a written translation does otherwise in pf, which may choose."""
        pool = part.pool or Pool()
        words = [it for it in pool.words if it not in (STATIC_PORT, STICKY)]
        is_one = len(fitting) == 1 and fitting[0].prefixlen == fitting[0].max_prefixlen
        if not is_one or _is_table(pool) or part in self._partly:
            why = f"pf spreads connections over its addresses; here all have {address}"
            self.teller.tell(rule.place, part.text, telling(why, OTHER_STATES), rule)
        else:
            for it in words:
                self.teller.tell(rule.place, it, _ALONE, rule)
        if STICKY in pool.words:
            self.teller.tell(rule.place, STICKY, _STICKS, rule)
        if part.kind == "rdr-to" and STATIC_PORT in pool.words:
            self.teller.tell(rule.place, STATIC_PORT, harmless("it is of nat-to alone"), rule)
        written = ports.strip().removeprefix("port ")
        is_first = part.kind == "rdr-to" and ":" in pool.port and ":" not in written
        is_counted = pool.port.endswith("*")
        if is_first and not (is_counted and _is_of_one_port(rule)):
            does = "counts on with the ports of the rule" if is_counted else "spreads connections over the ports"
            why = f"pf {does}; here all have {written}"
            self.teller.tell(rule.place, f"port {pool.port}", telling(why, OTHER_STATES), rule)

    def _networks(self, pool: Pool, names: Mapping[str, str]) -> list[Network]:
        """The addresses of a pool that are known, in its order."""
        return [network for it in pool.hosts for network in self._of_host(it, names)]

    def _unknown(self, pool: Pool, names: Mapping[str, str]) -> list[Host]:
        """The hosts of a pool that have no address that is known."""
        return [it for it in pool.hosts if not self._of_host(it, names)]

    def _of_host(self, host: Host, names: Mapping[str, str]) -> list[Network]:
        if host.kind is HostKind.TABLE:
            return [*self.tables.get(names.get(host.text, host.text), ())]
        if host.kind is HostKind.RANGE:
            ends = [prefix_of(it, None) for it in (host.text, host.last)]
            return [it for it in ends if it is not None]
        network = prefix_of(host.text, host.length) if host.kind is HostKind.NAME else None
        if network is not None:
            return [network]
        found = self.machine.locations(host.text, is_dynamic=host.kind is HostKind.DYNAMIC) or ()
        return [it.network if host.length is None else cut(it.network, host.length) for it in found if not it.zone]

    def _no_address(self, pool: Pool, family: str, names: Mapping[str, str]) -> Reason:
        """Why a pool has no address of a family."""
        unknown = self._unknown(pool, names)
        if not unknown:
            return telling(f"it has no address of {family}" if family else "it has no address", OTHER_STATES)
        host = unknown[0]
        if host.kind is HostKind.TABLE:
            return telling(f"no address of {host.shown()} is in the text", OTHER_STATES)
        help_ = "" if self.machine.interfaces or "." in host.text else " or --ifconfig"
        why = f"the address of {host.text} is not there; give it with --address {host.text}=ADDRESS{help_}"
        return telling(why, OTHER_STATES, is_missing=True)


def _is_table(pool: Pool) -> bool:
    return any(it.kind is HostKind.TABLE for it in pool.hosts)


def _families_of(pools: Sequence[Sequence[Network]]) -> list[str]:
    """The families of which each of the pools has an address."""
    return [
        family
        for version, family in FAMILIES.items()
        if all(any(it.version == version for it in pool) for pool in pools)
    ]


def _is_of_one_port(rule: Rule) -> bool:
    ports = rule.filter.destination.ports
    return bool(ports) and all(it.operator == "=" for it in ports)


def _ports_of(part: Part, made: Combination) -> str | None:
    """The ports of a translation, as a rules text writes them; None where they are no ports.

    `port P:*` of rdr-to counts on from P as the rule's ports do: to P where it asks for one port. Of several the first
    is taken.
    """
    pool = part.pool or Pool()
    if part.kind == "nat-to" and STATIC_PORT in pool.words:
        return f" {STATIC_PORT}"
    if not pool.port:
        return ""
    numbers = [port_of(it) or 0 for it in pool.port.split(":") if it not in ("", "*")]
    if not numbers or 0 in numbers or numbers != sorted(numbers):
        return None
    if part.kind == "rdr-to" or len(numbers) == 1:
        return f" port {numbers[0]}"
    return f" port {numbers[0]}:{numbers[1]}"
