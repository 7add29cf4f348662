"""Rulesets that are replayed side by side over one trace: the answers of each, and what became of the users'
connections under each.

The trace is read once, and each ruleset's report comes from a pipe; memory is that of a block of lines, however long
they are. A record is taken apart only where it may be one of a user or is the first or last at which a limit was met.
"""

import ipaddress
from collections import Counter
from collections.abc import Callable, Iterator, Sequence
from dataclasses import dataclass, field
from itertools import islice
from pathlib import Path

from pfplan.answers.connections import Connections, Holding, Key
from pfplan.answers.cookies import Cookies
from pfplan.answers.counting import Answers
from pfplan.answers.legs import Legs
from pfplan.common.errors import Status, Trouble
from pfplan.common.networks import Network
from pfplan.pf.reading_canonical_text import Flushes
from pfplan.traces.records import KILL, Traces
from pfplan.traces.rows import Rows


@dataclass(slots=True)
class Met:
    """When a limit was met: the moments of the first and the last record that it refused or killed for."""

    first: int
    last: int


@dataclass(slots=True)
class Side:
    """One ruleset: the lines of its report as they come, and what is counted of them. `texts` are those of the block
    that was just read, `cookies` those that pf gave, and `legs` knows its routes."""

    name: str
    report: Iterator[str]
    answers: Answers
    connections: Connections
    texts: list[str] = field(default_factory=list)
    met: dict[str, Met] = field(default_factory=dict)
    cookies: Cookies = field(default_factory=Cookies)
    legs: Legs = field(default_factory=Legs)


def side_of(
    name: str,
    report: Iterator[str],
    users: Sequence[Network],
    ended: Callable[[Key, int, str], None] | None = None,
    hear: Callable[[int, str], None] | None = None,
    flushes: Flushes | None = None,
    numbers: Rows | None = None,
    holding: Holding | None = None,
) -> Side:
    """A ruleset at the beginning of its report. `ended` and `hear` hear of each connection of a user that is over, as
    Connections says.

    `flushes` and `holding` are as Connections takes them, and `numbers` are those of the report's rows, as Answers
    says.
    """
    connections = Connections(users, hear or _pass_over, ended, flushes, holding=holding)
    legs = Legs(flushes.routes) if flushes else Legs()
    return Side(name, report, Answers(name, None, numbers), connections, legs=legs)


def follow(
    trace: Path,
    sides: Sequence[Side],
    users: Sequence[Network],
    each: Callable[[int, Sequence[str]], None] | None = None,
) -> None:
    """Reads the trace and the reports to their ends. `each` is told of each block: the row before it, and the lines of
    its records.

    Trouble where a report is cut or is not of this trace, and as the reports' own where the program refuses rules or
    trace.
    """
    row = 0
    picks = Picks(users)
    for lines in Traces(trace).blocks():
        for side in sides:
            _take_answers(side, trace, row, lines)
        if users:
            last = _moment_of(lines[-1])
            for side in sides:
                side.connections.last = last
            _follow_users(sides, row, lines, picks)
        if each:
            each(row, lines)
        row += len(lines)
    for side in sides:
        if side.answers.take(list(side.report)):
            raise Trouble(
                f"{trace}: row {row + 1}: the report of {side.name} has more rows than the trace has records",
                Status.REFUSED,
            )
        side.answers.finish(False)
        side.connections.finish()


class Picks:
    """Which lines of a trace may be of a user: by the bytes that all addresses of a network of theirs have in
    common."""

    def __init__(self, users: Sequence[Network]) -> None:
        found = {common_text(it) for it in users}
        self._texts = [it for it in found if not any(other != it and other in it for other in found)]

    def of(self, lines: Sequence[str]) -> Sequence[int]:
        """The places in a block of the lines that may be of a user."""
        texts = self._texts
        if "," in texts:
            return range(len(lines))
        if len(texts) == 1:
            text = texts[0]
            return [at for at, line in enumerate(lines) if text in line]
        return [at for at, line in enumerate(lines) if any(it in line for it in texts)]

    def are_many(self, text: str, count: int) -> bool:
        """Whether of so many lines of a text one in four or more may be of a user."""
        return "," in self._texts or sum(map(text.count, self._texts)) * 4 >= count

    def rows_in(self, text: str, behind: int) -> Iterator[tuple[int, str]]:
        """The same of a text of whole lines, the first of which is that of the row behind `behind`: rows, and their
        lines."""
        if "," in self._texts or len(self._texts) > 1:
            lines = text.split("\n")[:-1]
            yield from ((behind + at + 1, lines[at]) for at in self.of(lines))
            return
        row, counted = behind + 1, 0
        at = text.find(self._texts[0])
        while at >= 0:
            row += text.count("\n", counted, at)
            counted, end = at, text.index("\n", at)
            yield row, text[text.rfind("\n", 0, at) + 1 : end]
            at = text.find(self._texts[0], end)


def common_text(network: Network) -> str:
    """What stands in each line of a trace that has an address of the network: `,198.51.100.`, or a colon for IPv6,
    which is written in many ways."""
    if isinstance(network, ipaddress.IPv6Network):
        return ":"
    first = str(network.network_address).split(".")
    last = str(network.broadcast_address).split(".")
    same = next((at for at in range(4) if first[at] != last[at]), 4)
    return "," + "".join(f"{it}." for it in first[:same]) if same < 4 else f",{'.'.join(first)},"


def _pass_over(begin: int, outcome: str) -> None:
    """Nothing is counted by moment here."""


def _take_answers(side: Side, trace: Path, row: int, lines: Sequence[str]) -> None:
    """Reads what the report says of the lines behind a row. Trouble where it ends before them."""
    side.texts = side.answers.take(list(islice(side.report, len(lines))))
    if len(side.texts) != len(lines):
        raise Trouble(
            f"{trace}: row {row + len(side.texts) + 1}: the trace has more records than the report of {side.name}",
            Status.REFUSED,
        )
    _note_limits(side, row, lines)


def _note_limits(side: Side, row: int, lines: Sequence[str]) -> None:
    """The moments of the first and the last record of this block at which each limit was met."""
    for word, limit in side.answers.limits.items():
        if limit.last_row <= row:
            continue
        last = _moment_of(lines[limit.last_row - row - 1])
        if word in side.met:
            side.met[word].last = last
        else:
            side.met[word] = Met(_moment_of(lines[limit.first_row - row - 1]), last)


def _moment_of(line: str) -> int:
    return int(line.partition(",")[0])


def _follow_users(sides: Sequence[Side], row: int, lines: Sequence[str], picks: Picks) -> None:
    """Gives the records of users to each side, with the words that it told of them."""
    members = sides[0].connections.members
    members.of(set())  # what it remembers is kept within bounds there
    kills = {at for side in sides for at in _kills_of(side)}
    for at in sorted({*picks.of(lines), *kills}) if kills else picks.of(lines):
        column = lines[at].split(",")
        if len(column) != 9 or column[1] not in ("in", "out", KILL):
            continue
        is_of_user = column[1] != KILL and (members.has(column[4]) or members.has(column[6]))
        if is_of_user or at in kills:
            _follow_record(sides, row + at + 1, at, column, is_of_user)


def _kills_of(side: Side) -> Iterator[int]:
    """The places in the block of a side's kills, by limits and by an administrator."""
    if any("kill" in it for it in set(side.texts)):
        yield from (at for at, text in enumerate(side.texts) if "kill" in text)


def _follow_record(sides: Sequence[Side], row: int, at: int, column: Sequence[str], is_of_user: bool) -> None:
    """Gives a record to each side, with what its report says of it."""
    for side in sides:
        reply = side.answers.reply_of(side.texts[at])
        if is_of_user and reply.word != "skip":
            side.connections.follow(row, reply, column)
        side.connections.take_kill(row, reply, column)


def word_counts(answers: Answers) -> Counter[str]:
    """How many records have each word."""
    return Counter({word: sum(rules.values()) for word, rules in answers.by_rule.items()})
