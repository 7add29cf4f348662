"""Of which interface a capture is, where no word says it: by the capture, by the rules, and by what ifconfig prints."""

from collections.abc import Iterable, Sequence
from pathlib import Path

from pfplan.commands.words import Named
from pfplan.common.errors import Trouble
from pfplan.common.networks import interface_name
from pfplan.pf.conversion import Ruleset
from pfplan.pf.interfaces import Machine
from pfplan.pf.reading_canonical_text import interfaces_of, items_of
from pfplan.traces.capture_names import is_log, names_in
from pfplan.traces.captures import Seen


def interface_of(
    given: str | None, capture: Path | None, rulesets: Iterable[Ruleset], machine: Machine
) -> str | None:
    """The interface of the records of a capture; None where any will do: no rule names one, or the records tell it.

    It is the one that is given, else that of the capture itself, else the only one that rules name, else the only one
    of these in the group `egress`. Trouble where it is still one of several. None for the capture is one that can't be
    looked into.
    """
    if given:
        return given
    if capture is not None and is_log(capture):
        return None
    named: set[str] = set()
    for it in rulesets:
        named |= interfaces_of(items_of(it.text.splitlines()), it.skipped)
    own = [it for it in names_in(capture) if _is_name(it)] if capture is not None else []
    if len(own) == 1:
        return own[0]
    if not named:
        return None
    for found in (set(own) & named, named, named & set(machine.members("egress") or ())):
        if len(found) == 1:
            return found.pop()
    names: Sequence[str] = sorted(named)
    raise Trouble(f"--if: of which interface is the capture? The rules name {', '.join(names)}")


def seen_on(
    given: Sequence[Named], captures: Sequence[Path], rulesets: Sequence[Ruleset], machine: Machine
) -> list[Seen]:
    """Where the packets of captures were seen, by the words that say it and by what ifconfig prints. No capture stands
    for one that can't be looked into. Trouble where the captures are neither one for all nor one for each."""
    if len(given) < 2:
        (one,) = given or [Named()]
        if len(captures) > 1:
            raise Trouble("--if: of several captures, it names the interface of each")
        name = interface_of(one.name, captures[0] if captures else None, rulesets, machine)
        inside = one.inside or ([] if one.outside else machine.inside())
        return [Seen(name, machine.macs(name or ""), inside, one.outside)]
    if len(captures) not in (0, 1, len(given)):
        raise Trouble(f"--if: {len(given)} interfaces, and {len(captures)} captures: give one for all, or one for each")
    return [_one_of_several(it, machine) for it in given]


def _one_of_several(given: Named, machine: Machine) -> Seen:
    """One interface of several. Where only ifconfig tells networks, those of an inner one are in front of it."""
    name = given.name or ""
    if given.inside or given.outside:
        return Seen(name, machine.macs(name), given.inside, given.outside)
    if name in machine.interfaces and "egress" not in machine.interfaces[name].groups:
        return Seen(name, machine.macs(name), (), machine.networks_on(name))
    return Seen(name, machine.macs(name), machine.inside())


def _is_name(text: str) -> bool:
    try:
        return bool(interface_name(text))
    except ValueError:
        return False
