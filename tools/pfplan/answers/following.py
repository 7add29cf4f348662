"""Gives blocks of records to the connections of users. Most records are later packets of connections that are served:
they are passed over without more than a look."""

from collections.abc import Collection, Mapping, Sequence
from dataclasses import dataclass
from itertools import compress
from operator import or_

from pfplan.answers.connections import BAD, Connections
from pfplan.answers.legs import Reply
from pfplan.traces.records import ORDERS

# The words of records that are no packets with ports: those that are skipped, and those of an administrator.
NO_PACKETS = ("skip", *sorted(ORDERS))


def columns_of(lines: Sequence[str]) -> list[list[str]] | None:
    """The nine columns of some lines; None where one has not nine. One split serves all of them: between two lines
    stands a part that no line holds."""
    parts = ",\n,".join(lines).split(",")
    if len(parts) != 10 * len(lines) - 1 or parts[9::10].count("\n") != len(lines) - 1:
        return None
    return [parts[it::10] for it in range(9)]


@dataclass(frozen=True, slots=True)
class Meanings:
    """The texts of answers, by what they are to a connection. One may be in none of these."""

    states: Collection[str]
    bad: Collection[str]
    no_packets: Collection[str]
    kills: Collection[str]

    @classmethod
    def of(cls, replies: Mapping[str, Reply]) -> "Meanings":
        return cls(
            {text for text, it in replies.items() if set(it.words) == {"state"}},
            {text for text, it in replies.items() if it.word in BAD},
            {text for text, it in replies.items() if it.word in NO_PACKETS},
            {text for text, it in replies.items() if it.is_kill or it.is_order},
        )


@dataclass(frozen=True, slots=True)
class Picked:
    """The records of a block that have to be looked at: their rows, their columns, and the texts of their answers."""

    rows: Sequence[int]
    columns: Sequence[Sequence[str]]
    texts: Sequence[str]


def _picked(
    behind: int,
    columns: Sequence[Sequence[str]],
    texts: Sequence[str],
    users: Collection[str],
    kills: Collection[str],
) -> Picked:
    """Those with an address of a user, and those that kill. Where most addresses are of users, all."""
    rows = range(behind + 1, behind + 1 + len(texts))
    if 2 * len(users) >= len({*columns[4], *columns[6]}):
        return Picked(rows, columns, texts)
    are_users = map(or_, map(users.__contains__, columns[4]), map(users.__contains__, columns[6]))
    wanted = list(map(or_, are_users, map(kills.__contains__, texts)) if kills else are_users)
    left = [list(compress(it, wanted)) for it in columns]
    return Picked(list(compress(rows, wanted)), left, list(compress(texts, wanted)))


def follow_block(
    connections: Connections,
    behind: int,
    columns: Sequence[Sequence[str]],
    texts: Sequence[str],
    replies: Mapping[str, Reply],
) -> None:
    """Follows the records behind a row: by their columns, what the report says of each, and what that text means."""
    users = connections.members.of({*columns[4], *columns[6]})
    means = Meanings.of(replies)
    states, bad, no_packets, kills = means.states, means.bad, means.no_packets, means.kills
    picked = _picked(behind, columns, texts, users, kills)
    rows, columns, texts = picked.rows, picked.columns, picked.texts
    flags_of = set(columns[8])
    closing = {it for it in flags_of if "F" in it or "R" in it}
    plain = {it for it in flags_of if "S" not in it}
    known = map(connections.known, zip(columns[3], columns[4], columns[5], columns[6], columns[7]))
    moment, time = 0, ""
    for at, (found, text, flags, then) in enumerate(zip(known, texts, columns[8], columns[0])):
        if then != time:
            time, moment = then, int(then)
        flow = found[0].flow if found is not None and flags in plain else None
        if flow is not None and (flow.is_answered if text in states else flow.is_lost and text in bad):
            flow.seen = moment
            if text in states and flags in closing and flow.state == "open":
                flow.state = "closed"
            continue
        if found is not None and text not in no_packets:
            ways = (columns[1][at], columns[2][at])
            connections.follow_pair(found, rows[at], moment, ways, flags, replies[text])
        elif text not in no_packets and (columns[4][at] in users or columns[6][at] in users):
            connections.follow(rows[at], replies[text], [it[at] for it in columns])
        if text in kills:
            connections.take_kill(rows[at], replies[text], [it[at] for it in columns])
