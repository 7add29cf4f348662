"""Why an answer may be of something else than what was meant: what is told first, and makes a page red."""

from __future__ import annotations

import re
from collections.abc import Collection, Iterable, Mapping, Sequence
from pathlib import Path
from typing import Protocol

from pfplan.common.figures import counted, share_text
from pfplan.common.inputs import Kind, kind_of
from pfplan.common.limits import OF_RULES
from pfplan.pf.left_out import joined_ways, way_of_asking
from pfplan.pf.profiles import Profile
from pfplan.pf.reading_canonical_text import interfaces_of
from pfplan.pf.routes import NO_ROUTES, Routes
from pfplan.plays.model import Laid, Scenario
from pfplan.plays.routing import onward_of
from pfplan.traces.accounts import NEITHER_WAY, Frames
from pfplan.traces.ways import interfaces_in

# The share of a capture's packets that may be unread, and how many interfaces or missing things a sentence names.
SMALL, NAMED = 0.05, 5
# Why a frame is no record that would be one if it were understood.
_UNREAD = (NEITHER_WAY, "cut before their ports", "of a link type that is not read")
_PORTS = re.compile(r" to .*?port (?:= )?(\d+)(?::(\d+))?")
_GIVEN = re.compile(r" tag (\S+)")
_NAT = re.compile(r"(?:pass|match) out .*?on (\S+) .*nat-to ")
_ASKED = re.compile(r" (! ?)?(tagged|received-on) (\S+)")


class Left(Protocol):
    """What was left out of a pf.conf."""

    @property
    def text(self) -> str:
        """What stands there."""

    @property
    def changes_answer(self) -> bool:
        """Whether that can change an answer."""

    @property
    def is_missing(self) -> bool:
        """Whether a word of the command line gives what is not there."""


def of_interfaces(
    items: Sequence[str], seen: Collection[str], skipped: Collection[int] = (), onward: Collection[str] = ()
) -> list[str]:
    """Rules of interfaces that no record has, and records of interfaces that no rule names. `items` are the texts of
    rules by number, of which `skipped` stand for `set skip`; of `onward` packets were asked too, by their routes."""
    named = interfaces_of(items, skipped)
    without_records = sorted(named - {*seen, *onward})
    without_rules = sorted(set(seen) - named) if named else []
    found = []
    if without_records and seen:
        found.append(
            f"rules are of {_listed(without_records)}, and no record is: these rules were not asked (--if names the "
            "interface of a capture)"
        )
    if without_rules:
        found.append(f"records are of {_listed(without_rules)}, and no rule names it")
    return found


def of_frames(frames: Frames | None) -> list[str]:
    """More than a small share of a capture's packets that are not read, or whose directions are in doubt."""
    if frames is None:
        return []
    unread = {why: frames.others.get(why, 0) for why in _UNREAD if frames.others.get(why)}
    packets, count = frames.records + sum(unread.values()), sum(unread.values())
    found = []
    if count > SMALL * packets:
        whys = ", ".join(f"{number:,} {why}" for why, number in sorted(unread.items(), key=lambda it: -it[1]))
        inside = "; does --inside name all networks behind the firewall?" if NEITHER_WAY in unread else ""
        found.append(f"{share_text(count, packets)} of the capture's packets are not read: {whys}{inside}")
    return found + [it for it in frames.notes if it.startswith("the networks of --inside say the other direction")]


def of_missing(leftovers: Iterable[Left]) -> list[str]:
    """What a pf.conf leaves to its machine, and nobody gave: entries, anchors, addresses, groups."""
    missing = [it.text for it in leftovers if it.changes_answer and it.is_missing]
    if not missing:
        return []
    verb = "is" if len(missing) == 1 else "are"
    return [f"{counted(len(missing), 'thing')} {verb} missing that the rules need: {_listed(missing)}"]


def of_users(users: str, connections: int) -> list[str]:
    """That there is nobody of whom the answer could be."""
    return [] if connections or not users else [f"no connection of the users {users} is in the trace"]


def of_kills(guessed: int) -> list[str]:
    """That of so many kills it is a guess which states they took."""
    if not guessed:
        return []
    return [
        f"before {counted(guessed, 'kill')} it is not known which states of the source had run out: those quiet the "
        "longest are taken to have, so another connection of that source may be told as killed or removed, and not more"
    ]


def of_directions(items: Sequence[str], begun: Mapping[tuple[str, str], int]) -> list[str]:
    """That inside and outside look swapped: most connections of users, by direction and port, go the way in which no
    rule is of their port, while a rule of the other way is."""
    ports: dict[str, set[int]] = {"in": set(), "out": set()}
    for text in items:
        for way in ports.keys() & set(text.split(" ")[:3]):
            ports[way].update(_ports(text))
    turned = {"in": ports["out"] - ports["in"], "out": ports["in"] - ports["out"]}
    wrong = sum(count for (way, port), count in begun.items() if port.isdigit() and int(port) in turned.get(way, ()))
    total = sum(begun.values())
    if not total or 2 * wrong <= total:
        return []
    return [
        f"inside and outside look swapped: {wrong:,} of {counted(total, 'connection')} of users go the way in which no "
        "rule is of their port"
    ]


def of_tags(items: Sequence[str], routes: Routes) -> list[str]:
    """That rules ask packets out for what is known where these came in, while without routes a record is asked on one
    interface alone. A tag that no rule for packets in gives is known there as well as in pf."""
    given = {tag for text in items if not _is_way(text, "out") for tag in _GIVEN.findall(text)}
    asked = [
        (text, bool(sign), f"{word} {name}")
        for text in items
        if not routes and not _is_way(text, "in")
        for sign, word, name in _ASKED.findall(text)
        if word == "received-on" or name in given
    ]
    if not asked:
        return []
    ways = [way_of_asking(text.split(" ")[0], _counts(text), holds_here=negated) for text, negated, _ in asked]
    names = list(dict.fromkeys(name for _, _, name in asked))
    return [
        f"rules ask packets out for {_listed(names)}, and without routes a record is asked on one interface alone: the "
        "tags that rules gave a packet where it came in are not known there, nor that interface; so "
        f"{joined_ways(ways)} (--routes FILE, what netstat -rn prints)"
    ]


def of_translation(items: Sequence[str], seen: Collection[str], routes: Routes) -> list[str]:
    """That records are of an inner interface, while sources are translated on an outer one: what comes back there has
    the inner addresses in such a record, by which no state of the outer interface is found."""
    outer = sorted({found[1] for text in items if (found := _NAT.match(text))})
    inner = sorted({*seen} - {*outer})
    if not (routes and outer and inner):
        return []
    return [
        f"nat-to translates sources on {_listed(outer)}, and records are of {_listed(inner)}: what comes back has the "
        f"inner addresses in these, by which no state is found on {_listed(outer)}, so answers that pf passes are "
        f"blocked here (a capture of {_listed(outer)} alone has the translated addresses)"
    ]


def of_translated_play(items: Sequence[str], scenario: Scenario, routes: Routes) -> list[str]:
    """That a play asks both interfaces of answers that come back to a translated address: which port was taken is in no
    report, so they come to the inner address."""
    seen = {it.interface for it in scenario.groups}
    inner = [it for it in items if (found := _NAT.match(it)) and found[1] not in seen]
    if not ((routes or scenario.forward) and inner):
        return []
    return [
        "a play with two interfaces has no translated answers, so those to connections of nat-to are blocked here and "
        "pf passes them: play the inner interface alone, without forward and routes, where nat-to of packets in takes "
        "its ports in the same way"
    ]


def of_replay(items: Sequence[str], trace: Path, scenario: Scenario | None, routes: Routes = NO_ROUTES) -> list[str]:
    """The doubts of a replay of a trace, or of a play, under rules of these texts."""
    seen = interfaces_played(scenario) if scenario else interfaces_in(trace)
    translated = of_translated_play(items, scenario, routes) if scenario else of_translation(items, seen, routes)
    return [*of_interfaces(items, seen, (), routes.interfaces), *of_tags(items, routes), *translated]


def of_routes(names: Sequence[str], routes: Sequence[Routes]) -> list[str]:
    """The doubt of rulesets some of which have routes: the others are asked on one interface of each packet."""
    having = [name for name, it in zip(names, routes, strict=True) if it]
    if len(having) in (0, len(names)):
        return []
    return [
        f"{_listed(having)} {'has' if len(having) == 1 else 'have'} routes, and asks both interfaces of a packet; the "
        "others ask one: --routes gives all of them the same"
    ]


def of_forwarding(scenario: Scenario, routes: Routes) -> list[str]:
    """That routes lead packets of a scenario elsewhere than it says."""
    found = {
        (address, name, routes.to(address))
        for group in scenario.groups
        for address, name in onward_of(scenario, group)
        if routes and scenario.forward and routes.to(address) != name
    }
    return [
        f"the scenario sends packets to {address} on by {name}, and the routes by {other}: the routes count"
        for address, name, other in sorted(found)[:NAMED]
    ]


def of_ways(twice: int) -> list[str]:
    """That packets are in a trace twice, where either record stands for both interfaces."""
    if not twice:
        return []
    return [
        f"{counted(twice, 'record')} of the trace are of packets that came in on another interface of it, by the "
        "routes of the rules: they count twice (run, compare, size and margins leave such records out)"
    ]


def of_profiles(names: Sequence[str], profiles: Sequence[Profile]) -> list[str]:
    """The doubt of rulesets that ask for different machines: what differs may come of that."""
    if len(set(profiles)) < 2:
        return []
    said = ", ".join(f"{name} by {it.value}" for name, it in zip(names, profiles, strict=True))
    return [f"the rulesets ask for different machines, {said}: --profile gives all of them one"]


def interfaces_played(scenario: Scenario) -> set[str]:
    """The interfaces that the packets of a scenario have."""
    found = {*(name for _, name in scenario.forward.networks), *scenario.forward.interfaces.values()}
    for it in scenario.groups:
        is_trace = isinstance(it, Laid) and kind_of(it.file) is Kind.TRACE
        found |= interfaces_in(it.file) if isinstance(it, Laid) and is_trace else {it.interface}
    return found - {""}


def _is_way(text: str, way: str) -> bool:
    """Whether a rule is for packets of one direction alone."""
    return way in text.split(" ")[:3]


def _counts(text: str) -> bool:
    return any(f"{it} " in text for it in OF_RULES)


def _ports(text: str) -> Iterable[int]:
    found = _PORTS.search(text)
    return range(int(found[1]), int(found[2] or found[1]) + 1) if found else ()


def _listed(names: Sequence[str]) -> str:
    more = f" and {len(names) - NAMED:,} more" if len(names) > NAMED else ""
    return ", ".join(names[:NAMED]) + more
