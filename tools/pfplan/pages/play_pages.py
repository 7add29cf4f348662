"""The page of a play: who was served under each ruleset, and how long they waited. The answer stands first."""

from __future__ import annotations

from collections import Counter
from collections.abc import Iterator, Mapping, Sequence

from pfplan.answers.plays_beside import PlaysBeside
from pfplan.answers.timelines import Moment, Timeline
from pfplan.common.errors import Trouble
from pfplan.common.figures import counted
from pfplan.common.limits import ADVICE
from pfplan.common.visible import visible
from pfplan.pages.doubt_texts import doubt_parts
from pfplan.pages.frames import answer, bullets, code, document, figure, gallery, key, more_of, section, soft, table
from pfplan.pages.markup import Child, Markup, join, tag
from pfplan.pages.pictures import Role, draw
from pfplan.pages.play_texts import advised, all_are_served, headline_of, rows_of, shut_out, subject_of, users_of, when
from pfplan.pages.record_texts import WHY
from pfplan.pages.timeline_pictures import MAKERS, most_of
from pfplan.plays.model import Scenario
from pfplan.plays.playing import Played
from pfplan.traces.moments import step_of

NOT_MODELLED = (
    "Nothing is lost on the way, no line is ever full, and a packet takes as long in the flood as before: whoever is "
    "not"
    " served was refused by pf.",
    "The server answers all that it is asked. It has no limits of its own; what it holds half open is not counted.",
    "Whoever gives up sends nothing more, not even a RST. Addresses of forged packets belong to nobody who would "
    "answer.",
    "pf lets states that have expired or were killed go later, by up to some interval seconds, so near a limit it "
    "refuses"
    " more than is told here.",
    "What is not in the scenario is not counted: ICMP, sequence numbers, and states from before its first second.",
)
FOOTER = (
    "Made by pfplan, which is tested and not proved. The firewall is the proved program pfsrc: it gives the same "
    "report of"
    " the trace that came of a play. How far its answers agree with a running pf is not proved."
)
TITLES = {"users": "Users' connections a second, by when they began", "held": "States held"}
KEYS: Mapping[str, Sequence[tuple[str, Role]]] = {
    "users": (("served without waiting", Role.SERVED), ("served late", Role.LOST), ("given up", Role.REFUSED)),
    "held": (),
}


def timeline_of(scenario: Scenario, play: Played, last: int) -> Timeline:
    """The users' connections and the states held, from the first second to one in which nothing more is shown."""
    seconds = step_of(0, scenario.seconds)
    counts = play.tally.users()
    moments = []
    for begin in range(0, last, seconds):
        counters = ([it.prompt for it in counts], [it.late for it in counts], [it.lost for it in counts])
        at_once, late, lost = (_in(begin, seconds, it) / seconds for it in counters)
        moments.append(Moment(float(begin), 0.0, 0.0, 0.0, at_once, lost, late))
    held = tuple((float(it.moment), float(it.states)) for it in play.tally.fills if it.moment <= last)
    return Timeline(tuple(moments), held, float(last), any(it.connections for it in counts))


def _in(begin: int, seconds: int, counters: Sequence[Counter[int]]) -> int:
    return sum(it[at] for it in counters for at in range(begin, begin + seconds))


def page_of(found: PlaysBeside, drawn: Mapping[str, Sequence[Markup]], why_none: str, differences: str) -> str:
    """The text of the page. `why_none` says why there are no pictures."""
    title = f"{visible(found.scenario.name)}, played"
    good = not found.doubts and all(all_are_served(it) for side in found.sides for it in side)
    points: list[Child] = [f"{name}: {headline_of(found, at)}" for at, name in enumerate(found.names)]
    doubts = [
        f"{name}: {counted(number, 'thing')} left out of the pf.conf can change this answer; left-out.txt says which"
        for name, number in zip(found.names, found.left_out)
        if number
    ]
    parts: list[Child] = [tag("h1", title), *doubt_parts(found.doubts), soft(subject_of(found))]
    parts.extend(soft(it.told()) for it in dict.fromkeys(found.profiles))
    if len(points) == 1:
        parts.append(
            answer(
                f"{headline_of(found, 0)[0].upper()}{headline_of(found, 0)[1:]}.",
                good,
                bullets([*limit_points(found.plays[0]), *advice_points(found), *left_points(found), *doubts]),
            )
        )
    else:
        points += [*advice_points(found), *left_points(found)]
        parts.append(answer(best_text(found), None, bullets([*points, *doubts])))
    parts.extend(_pictures(found, drawn, why_none))
    rows: list[Sequence[Child]] = [[_name_cell(name), *cells] for name, cells in rows_of(found)]
    parts.append(section("Group by group", table(["", *found.names], rows, "t" + "n" * len(found.names))))
    parts.append(section("What a play can't know", bullets(NOT_MODELLED), more_of(differences)))
    parts.append(tag("footer", FOOTER))
    return document(title, parts)


def best_text(found: PlaysBeside) -> str:
    """Which ruleset serves the most users without waiting, and whom it shuts out."""
    if not any(users_of(it)[0] for it in found.plays):
        return "No user is in the scenario."
    shares = [sum(users_of(it)[1] for it in side) for side in found.sides]
    best = [at for at, it in enumerate(shares) if it == max(shares)]
    names = " and ".join(found.names[at] for at in best)
    serves = "serves" if len(best) == 1 else "serve"
    out = list(shut_out(found.sides[best[0]])) if len(best) == 1 else []
    return f"{names} {serves} the most users without waiting" + (f", and shuts out {', '.join(out)}." if out else ".")


def advice_points(found: PlaysBeside) -> Iterator[Child]:
    """What helps against refusals that no number of a limit moves."""
    for word in advised(found):
        yield join([code(word), f": {WHY[word]}; {ADVICE[word]}"])


def left_points(found: PlaysBeside) -> Iterator[Child]:
    """The traces that were not played to their end."""
    for at, group in enumerate(found.scenario.groups):
        left = max(it[0].tally.counts[at].left_over for it in found.sides)
        if left:
            yield f"{group.name}: {counted(left, 'record')} of its trace came after the play was over"


def _name_cell(name: str) -> Child:
    return name.strip() if name.startswith(" ") else tag("strong", name)


def limit_points(play: Played) -> Iterator[Child]:
    """What refused the users, and when."""
    for count in play.tally.users():
        for word, it in count.refused.items():
            why = f": {WHY[word]}" if word in WHY else ""
            yield join(
                [
                    f"{count.group.name}: ",
                    code(word),
                    f" {counted(it.packets, 'packet')}, second {when(it.first, it.last)}{why}",
                ]
            )
    yield f"{counted(play.most_held, 'state')} held at most" + (": the limit was met" if play.is_full else "")


def drawn_of(found: PlaysBeside) -> tuple[dict[str, list[Markup]], str]:
    """The pictures of each kind, one for each ruleset, those of a kind on one scale; or why there are none.

    Connections begin within the scenario's seconds; how full the table is, is shown to the end of the longest play.
    """
    ends = {"users": found.scenario.seconds, "held": max(found.scenario.seconds, *(it.last for it in found.plays))}
    drawn = {}
    for kind, end in ends.items():
        lines = [timeline_of(found.scenario, it, end) for it in found.plays]
        if kind == "held" or lines[0].has_users:
            try:
                drawn[kind] = draw([MAKERS[kind](line, most_of(kind, lines)) for line in lines])
            except Trouble as trouble:
                return {}, trouble.message
    return drawn, ""


def _pictures(found: PlaysBeside, drawn: Mapping[str, Sequence[Markup]], why_none: str) -> Iterator[Markup]:
    if why_none:
        yield section("Over time", soft(f"No pictures: {why_none}."))
    for kind, pictures in drawn.items():
        keys: list[Child] = [key(word, role) for word, role in KEYS[kind]]
        yield section(TITLES[kind], gallery([figure([name, *keys], it) for name, it in zip(found.names, pictures)]))
