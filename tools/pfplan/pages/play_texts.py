"""How plays of a scenario are told as a text."""

from __future__ import annotations

from collections.abc import Callable, Iterator, Sequence
from fractions import Fraction
from typing import Any, TypeVar

from pfplan.answers.plays_beside import PlaysBeside
from pfplan.common.figures import counted
from pfplan.common.limits import ADVICE
from pfplan.common.visible import visible
from pfplan.pages.record_texts import letters
from pfplan.plays.counts import Count
from pfplan.plays.model import Askers, Forgers, Laid
from pfplan.plays.playing import Played
from pfplan.traces.orders import rows_told
from pfplan.traces.records import WORDS

Row = tuple[str, list[str]]
T = TypeVar("T")
# Below this share of its connections a group is shut out.
SHUT_OUT = Fraction(1, 2)


def rows_of(found: PlaysBeside) -> Iterator[Row]:
    """The table: a name and a cell for each ruleset. A cell of several seeds tells the median, and from where to where
    they range."""
    for at, group in enumerate(found.scenario.groups):
        counts = [[it.tally.counts[at] for it in side] for side in found.sides]
        yield f"{group.name} ({group.kind})", ["" for _ in counts]
        if isinstance(group, Forgers | Laid):
            yield from _packet_rows(counts)
        else:
            yield from _connection_rows(counts, "" if isinstance(group, Askers) else "killed")
        yield from _refusal_rows(counts)
    sides = found.sides
    yield "most states held", [
        _numbers(side, lambda it: it.most_held) + (", limit met" if any(it.is_full for it in side) else "")
        for side in sides
    ]
    yield "states held at the end", [_numbers(side, lambda it: it.end.states) for side in sides]
    if found.scenario.backlog:
        yield "most half open at a server", [_numbers(side, lambda it: it.tally.most_half_open) for side in sides]
        yield "SYN packets that a server left unanswered", [
            _numbers(side, lambda it: it.tally.unanswered) for side in sides
        ]
    if any(it.tally.states_killed for side in sides for it in side):
        yield "states killed", [_numbers(side, lambda it: it.tally.states_killed) for side in sides]
    if any(it.tally.overloads["added"] for side in sides for it in side):
        yield "sources put into an overload table", [
            _numbers(side, lambda it: it.tally.overloads["added"]) for side in sides
        ]
    effects = rows_told([[it.tally.effects for it in side] for side in sides])
    for name, several in effects:
        yield name, [_numbers(side, int) for side in several]
    yield "last second", [_numbers(side, lambda it: it.last) for side in sides]


def _numbers(several: Sequence[T], value: Callable[[T], int]) -> str:
    return median_text([value(it) for it in several], lambda it: f"{it:,}")


def median_text(values: Sequence[Any], text: Callable[[Any], str]) -> str:
    """The only value; or the median of several, and the range where it is one."""
    ordered = sorted(values)
    low, middle, high = (text(ordered[it]) for it in (0, (len(ordered) - 1) // 2, -1))
    return middle if low == high else f"{middle} ({low} to {high})"


def _packet_rows(counts: Sequence[Sequence[Count]]) -> Iterator[Row]:
    yield "  packets", [_numbers(side, lambda it: it.packets) for side in counts]
    yield "  let in", [_shares(side, lambda it: (it.passed, it.packets)) for side in counts]
    if any(it.left_over for side in counts for it in side):
        yield "  not played: the play was over", [_numbers(side, lambda it: it.left_over) for side in counts]


def _connection_rows(counts: Sequence[Sequence[Count]], killed: str) -> Iterator[Row]:
    group = counts[0][0].group
    is_flood = not group.users
    yield "  questions" if group.kind == "query" else "  connections", [
        _numbers(side, lambda it: it.connections) for side in counts
    ]
    if is_flood and group.kind != "query":
        yield "  opened", [_shares(side, lambda it: (it.opened, it.connections)) for side in counts]
    if not is_flood or group.kind == "query":
        yield "  served", [_shares(side, lambda it: (it.served, it.connections)) for side in counts]
        yield "  served without waiting", [
            _shares(side, lambda it: (it.served_at_once, it.connections)) for side in counts
        ]
        for name, share in (("median wait", 0.5), ("95 of 100 wait at most", 0.95), ("longest wait", 1.0)):
            yield f"  {name}", [_waits(side, share) for side in counts]
    if not is_flood:
        yield "  hosts shut out", [_numbers(side, shut_out_hosts) for side in counts]
    yield "  tries", [_numbers(side, lambda it: it.tries) for side in counts]
    yield "  gave up", [_shares(side, lambda it: (it.gave_up, it.connections)) for side in counts]
    if killed:
        yield "  cut off once let in", [_shares(side, lambda it: (it.killed, it.connections)) for side in counts]


def _refusal_rows(counts: Sequence[Sequence[Count]]) -> Iterator[Row]:
    """The words by which packets of a group, or answers to it, did not go through, and when."""
    for word in WORDS:
        if not any(word in it.refused for side in counts for it in side):
            continue
        cells = []
        for side in counts:
            found = [it.refused[word] for it in side if word in it.refused]
            number = _numbers(side, lambda it: it.refused[word].packets if word in it.refused else 0)
            span = f", {when(min(it.first for it in found), max(it.last for it in found))}" if found else ""
            cells.append(number + span)
        yield f"  {word}: packets, seconds", cells


def when(first: int, last: int) -> str:
    """The seconds in which something happened."""
    return f"at {first}" if first == last else f"{first} to {last}"


def _shares(several: Sequence[T], value: Callable[[T], tuple[int, int]]) -> str:
    """A count and its share; of several seeds the shares alone."""
    if len(several) > 1:
        return share_range([value(it) for it in several])
    part, whole = value(several[0])
    return f"{part:,} ({per_cent(part, whole)})"


def share_range(shares: Sequence[tuple[int, int]]) -> str:
    """The median of shares, and their range."""
    found = [it for it in shares if it[1]]
    if not found:
        return "-"
    return median_text([Fraction(*it) for it in found], lambda it: per_cent(it.numerator, it.denominator))


def per_cent(part: int, whole: int) -> str:
    """A share in whole per cents, rounded down: what another seed would give differs by more than a decimal. `100 %` is
    all, `0 %` none."""
    if whole <= 0:
        return "-"
    return "< 1 %" if 0 < 100 * part < whole else f"{100 * part // whole} %"


def _waits(several: Sequence[Count], share: float) -> str:
    found = [it for it in (one.wait_at(share) for one in several) if it is not None]
    return median_text(found, lambda it: f"{it:.1f} s") if found else "-"


def users_of(play: Played) -> tuple[int, int, int]:
    """Of all groups of users: connections, served without waiting, and served at all."""
    counts = play.tally.users()
    return (
        sum(it.connections for it in counts),
        sum(it.served_at_once for it in counts),
        sum(it.served for it in counts),
    )


def all_are_served(play: Played) -> bool:
    """Whether there are users, and each is served without waiting."""
    connections, at_once, _ = users_of(play)
    return 0 < connections == at_once


def shut_out_hosts(count: Count) -> int:
    """The addresses of users of which no connection was served."""
    return len(count.hosts) - len(count.served_hosts)


def shut_out(side: Sequence[Played]) -> Iterator[str]:
    """Who is not served in the end under one ruleset: a group with fewer than half of its connections, or some hosts of
    one. Of several seeds the worst is told."""
    for at, count in enumerate(side[0].tally.counts):
        several = [it.tally.counts[at] for it in side if it.tally.counts[at].connections]
        if not count.group.users or not several:
            continue
        worst = min(several, key=lambda it: Fraction(it.served, it.connections))
        hosts = max(several, key=shut_out_hosts)
        if worst.served < SHUT_OUT * worst.connections:
            yield f"{count.group.name} ({worst.served:,} of {worst.connections:,} served)"
        elif shut_out_hosts(hosts):
            yield f"{counted(shut_out_hosts(hosts), 'host')} of {count.group.name}'s {len(hosts.hosts):,}"


def headline_of(found: PlaysBeside, at: int) -> str:
    """What became of the users under one ruleset, in a sentence: who is shut out stands first."""
    side = found.sides[at]
    users = [users_of(it) for it in side]
    if not any(connections for connections, _, _ in users):
        return "no user is in the scenario"
    out = list(shut_out(side))
    at_once = share_range([(served, connections) for connections, served, _ in users])
    in_the_end = share_range([(served, connections) for connections, _, served in users])
    return (f"shut out: {', '.join(out)}; " if out else "") + (
        f"{at_once} of the users' connections are served without waiting, {in_the_end} in the end"
    )


def advised(found: PlaysBeside) -> Iterator[str]:
    """The words by which packets were refused under some ruleset, and of which it is known what helps."""
    for word in ADVICE:
        if any(word in it.refused for side in found.sides for play in side for it in play.tally.counts):
            yield word


def subject_of(found: PlaysBeside) -> str:
    """What was played, and what the words of the table mean."""
    scenario = found.scenario
    orders = f" with {visible(found.orders)};" if found.orders else ""
    return (
        f"{visible(scenario.name)}: {counted(scenario.seconds, 'second')},{orders} {seeds_text(found)};"
        f" without waiting: within {counted(scenario.wait, 'second')} of what it takes undisturbed"
    )


def seeds_text(found: PlaysBeside) -> str:
    """Which seeds were played, and what the cells tell of several."""
    seeds = [it.scenario.seed for it in found.sides[0]]
    if len(seeds) == 1:
        return f"seed {seeds[0]}; other seeds can differ by several per cent (--seeds)"
    return f"{len(seeds)} seeds from {seeds[0]} on: median (lowest to highest)"


def text_of(found: PlaysBeside) -> str:
    """The plays for people."""
    names = letters(len(found.names))
    lines = [subject_of(found)]
    lines += [
        f"  {letter}  {visible(name)}: {headline_of(found, at)}"
        for at, (letter, name) in enumerate(zip(names, found.names))
    ]
    rows = list(rows_of(found))
    first = max(len(name) for name, _ in rows)
    widths = [max(len(letter), *(len(cells[at]) for _, cells in rows)) for at, letter in enumerate(names)]
    lines += ["", (" " * first + "".join(f"  {letter.rjust(width)}" for letter, width in zip(names, widths))).rstrip()]
    lines += [
        (name.ljust(first) + "".join(f"  {cell.rjust(width)}" for cell, width in zip(cells, widths))).rstrip()
        for name, cells in rows
    ]
    lines += [line for word in advised(found) for line in ("", f"{word}: {ADVICE[word]}")]
    return "\n".join(lines) + "\n"
