"""The routes of a scenario: those that its table `forward` says, as lines `set route` of a rules text would."""

import ipaddress

from pfplan.common.networks import Network
from pfplan.pf.routes import LOCAL, NO_ROUTES, Routes
from pfplan.plays.model import Crowd, Forgers, Group, Scenario


def routes_of_scenario(scenario: Scenario) -> Routes:
    """The routes by which packets go the ways that a scenario gives them: to its servers, and back to the networks of
    its groups. None where it forwards nothing, or lays records of any addresses over the play, or where routes can't
    say what it says: two ways to one end."""
    groups = [it for it in scenario.groups if isinstance(it, Crowd)]
    if not scenario.forward or len(groups) < len(scenario.groups):
        return NO_ROUTES
    found: dict[Network, str] = {}
    named = [*scenario.forward.networks, *(way for it in groups for way in _ways(scenario, it))]
    for network, name in named:
        if found.setdefault(network, name) != name:
            return NO_ROUTES
    routes = Routes(found)
    return routes.needed() if all(_is_kept(it, routes, scenario) for it in groups) else NO_ROUTES


def onward_of(scenario: Scenario, group: Group) -> list[tuple[str, str]]:
    """The address of each server of a group, and the interface on which its packets go out to it."""
    forward = scenario.forward
    return [(str(it.address), forward.next(group.interface, it.address) or LOCAL) for it in group.to]


def _ways(scenario: Scenario, group: Crowd) -> list[tuple[Network, str]]:
    """The ways to the servers of a group, and back."""
    there = [(ipaddress.ip_network(address), name) for address, name in onward_of(scenario, group)]
    return [*there, (group.origin, group.interface)]


def _is_kept(group: Crowd, routes: Routes, scenario: Scenario) -> bool:
    """Whether packets of a group go as the scenario has them. The answers to forged ones may go elsewhere."""
    if any(routes.to(address) != name for address, name in onward_of(scenario, group)):
        return False
    if isinstance(group, Forgers):
        return True
    return not any(
        name != group.interface and network.version == group.origin.version and network.overlaps(group.origin)
        for network, name in routes.by_network.items()
        if network.prefixlen > group.origin.prefixlen
    )
