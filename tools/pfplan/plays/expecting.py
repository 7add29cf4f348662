"""How many records a play is expected to have, so that one that would take days is refused before it begins."""

from collections.abc import Mapping

from pfplan.common.errors import Trouble
from pfplan.plays.model import Askers, Crowd, Forgers, Group, Holders, Laid, Scenario, Visits

MOST = 50_000_000
# records of a connection that is opened and closed, of a request with its answer, and of a forged SYN with its answers
BOTH_ENDS, REQUEST, FORGED = 6, 3, 7
# bytes of a record of a trace, at least
SHORTEST = 40


def check_expected(scenario: Scenario, most: int) -> None:
    """Trouble where a play is expected to have more records than `most`: it says how many, and of which group."""
    found = expected_of(scenario)
    total = sum(found.values())
    if total > most:
        name = max(found, key=lambda it: found[it])
        raise Trouble(
            f"{scenario.name}: some {total:,} records are expected, {found[name]:,} of them of group {name};"
            f" --most says how many may be ({most:,})"
        )


def expected_of(scenario: Scenario) -> Mapping[str, int]:
    """The records of each group where all is let in, at each interface that they cross."""
    return {it.name: int(_packets(it, scenario)) * _crossings(it, scenario) for it in scenario.groups}


def _crossings(group: Group, scenario: Scenario) -> int:
    if isinstance(group, Laid):
        return 1
    return 2 if any(scenario.forward.next(group.interface, it.address) for it in group.to) else 1


def _packets(group: Group, scenario: Scenario) -> float:
    """The packets of a group, as many as come within the scenario's seconds."""
    if isinstance(group, Laid):
        return group.file.stat().st_size / SHORTEST if group.file.is_file() else 0
    span = min(group.end or scenario.seconds, scenario.seconds) - group.begin
    if isinstance(group, Visits):
        visits = -(-span // group.every) if group.every else group.visits
        return group.people * visits * group.parallel * (BOTH_ENDS + REQUEST * group.requests)
    assert isinstance(group, Crowd)
    if isinstance(group, Holders):
        kept = (scenario.seconds - group.begin - span / 2) / group.every * 2 if group.every else 0
        return float(group.rate) * span * (BOTH_ENDS + kept)
    if isinstance(group, Askers):
        return float(group.rate) * span * 2
    assert isinstance(group, Forgers)
    return float(group.rate) * span * (FORGED if group.kind == "syn" else 1)
