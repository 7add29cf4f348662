"""The story of one source or one record in plain words."""

from __future__ import annotations

import ipaddress
from collections.abc import Iterator, Sequence
from dataclasses import asdict, dataclass, field
from pathlib import Path
from typing import Any

from pfplan.answers.asking_anew import Asked, ask
from pfplan.answers.connections import Members
from pfplan.answers.episodes import Episode, Event, episodes, events, is_opening
from pfplan.answers.legs import Legs, place_text, reply_of
from pfplan.common.errors import Status, Trouble
from pfplan.common.figures import SINCE_1970, counted, moment_text
from pfplan.common.limits import ADVICE, LIMITING
from pfplan.common.networks import network_of
from pfplan.common.visible import visible
from pfplan.pages.record_texts import WHY, record_text
from pfplan.pf.origins import Origins
from pfplan.pf.reading_canonical_text import items_of, limit_of, limit_of_all, settings_of
from pfplan.pf.routes import routes_of
from pfplan.traces.records import KILL, ORDERS, Answer, Record

MOST = 40  # runs that are told
MOST_ASKED = 4  # of each kind of refusal the first is asked anew, up to this number of kinds

# What became of a source whose handshake took it past a limit, by the word behind `overload=`.
ENTERED = {
    "added": "the source was put into the rule's overload table",
    "held": "the source was in the rule's overload table already",
    "full": "the tables had no room for the source",
    "none": "the rule has no overload table",
}


@dataclass
class Told:
    """What is told of a source, of a run of its records, or of one record: for machines, and in lines for people."""

    facts: dict[str, Any]
    lines: list[str] = field(default_factory=list)


class Story:
    """Tells of one replay."""

    def __init__(self, rules: Path, trace: Path, report: Path, shown: Sequence[str], origins: Origins) -> None:
        """`shown` is the canonical text of the rules; `origins` are their places in the pf.conf, as far as known."""
        self._rules = rules
        self._trace = trace
        self._report = report
        self._items = items_of(shown)
        self._settings = settings_of(shown)
        self._legs = Legs(routes_of(shown))
        self._origins = origins
        self._asked: set[str] = set()
        self._shown: set[str] = set()

    def of_source(self, address: str) -> Iterator[Told]:
        """A source's story, run by run. Trouble where it has no record."""
        members = Members((ipaddress.ip_network(address),))

        def is_wanted(record: Record) -> bool:
            if record.direction == KILL:
                return ipaddress.ip_address(address) in network_of(record.source)
            return members.has(record.source)

        runs = episodes(events(self._trace, self._report, is_wanted), self._legs)
        if not runs:
            raise Trouble(f"{self._trace}: no record has the source {address}", Status.REFUSED)
        total = sum(it.records for it in runs if it.are_packets)
        first, last = runs[0].first.record.time, runs[-1].last
        head = Told({"source": address, "packets": total, "first_moment": first, "last_moment": last})
        head.lines.append(f"{address}: {counted(total, 'packet')}, {_when(first, last)}")
        yield head
        for at, it in enumerate(runs):
            if len(runs) > MOST and MOST // 2 <= at < len(runs) - MOST // 2:
                if at == MOST // 2:
                    left = len(runs) - MOST
                    yield Told(
                        {"more_runs": left}, [f"  .. and {left} more turns between what is let in and what is not"]
                    )
                continue
            yield self._run(it)

    def of_row(self, row: int) -> Told:
        """A record's story. Trouble where the trace has no such row."""
        count = 0

        def is_wanted(record: Record) -> bool:
            nonlocal count
            count += 1
            return count == row

        found = next(events(self._trace, self._report, is_wanted), None)
        if found is None:
            raise Trouble(f"{self._trace}: row {row}: the trace has {counted(count, 'record')}", Status.REFUSED)
        told = Told({"row": row, "moment": found.record.time, "record": asdict(found.record)})
        told.lines.append(f"row {row}, {_second(found.record.time)}: {visible(record_text(found.record))}")
        self._decision(found, told)
        word = found.answer.decisive.word
        if word == "block" or word.startswith("drop:"):
            self._anew(found, told)
        return told

    def _run(self, run: Episode) -> Told:
        """What is told of a run of like answers."""
        first = run.first
        unit = "packet" if run.are_packets else "record"
        when, packets = _when(first.record.time, run.last), counted(run.records, unit)
        told = Told(
            {
                "first_moment": first.record.time, "last_moment": run.last, f"{unit}s": run.records, "row": first.row,
                "record": asdict(first.record),
            }
        )  # fmt: skip
        told.lines += ["", f"{when}: {packets}, the first in row {first.row}: {visible(record_text(first.record))}"]
        if run.is_let_in:
            made = f", and {counted(run.made, 'state')} made" if run.made else ""
            told.facts |= {"word": "in", "states_made": run.made} | self._rule_facts(first.answer.rule)
            told.facts |= {"onward": self._rule_facts(first.answer.onward.rule)} if first.answer.onward else {}
            rules = " and ".join(f"{self._rule(it.rule)}{where}" for it, where in self._placed(first))
            told.lines.append(f"  let in by {rules}{made}")
            return told
        self._decision(first, told)
        opening, word = run.opened, first.answer.decisive.word
        if opening and word not in self._asked and len(self._asked) < MOST_ASKED and not word.startswith("kill:"):
            self._asked.add(word)
            self._anew(opening, told)
        return told

    def _decision(self, event: Event, told: Told) -> None:
        """Tells what decided on a packet, and what went with it, on each interface that was asked."""
        for answer, where in self._placed(event):
            leg = Told({})
            leg.lines += [f" {where}:"] if where else []
            self._decision_there(answer, event.record, leg)
            told.lines += leg.lines
            if answer is event.answer:
                told.facts |= leg.facts
            else:
                told.facts["onward"] = leg.facts

    def _placed(self, event: Event) -> list[tuple[Answer, str]]:
        """What each interface said, and which one that is, where there are two."""
        answer, record = event.answer, event.record
        place = (record.direction, record.interface)
        if place[0] in ORDERS or not (answer.onward or self._legs.routes):
            return [(answer, "")]
        legs = self._legs.of(place, record.source, record.target, record.flags, reply_of(answer))
        return [(it, f" {place_text(leg.place)}") for it, leg in zip(answer.legs, legs, strict=True)]

    def _decision_there(self, answer: Answer, record: Record, told: Told) -> None:
        """The same of one interface."""
        lines = told.lines
        told.facts |= {"word": answer.word} | self._rule_facts(answer.rule)
        lines.append(f"  {answer.word}: {WHY.get(answer.word, 'the answer to a record of an administrator')}")
        if answer.rule != "-":
            lines.append(f"  by {self._rule(answer.rule)}")
        if answer.word == "block" and not is_opening(record):
            lines.append("  It belonged to no state that was held then: its connection had been refused or killed,")
            lines.append("  or its state had run out.")
        if answer.word.startswith("kill:"):
            told.facts |= {"states_killed": answer.killed, "overload": answer.overload}
            lines.append(f"  {counted(answer.killed, 'state')} killed with it; {ENTERED.get(answer.overload, '')}")
        if answer.word == KILL:
            told.facts["states_removed"] = answer.killed
            lines.append(f"  {counted(answer.killed, 'state')} taken out with it")
        if answer.word in LIMITING:
            self._limits(answer.rule, answer.word, told)

    def _limits(self, rule: str, word: str, told: Told) -> None:
        """Tells the numbers of the limits that a word names."""
        own = limit_of(self._text(rule), word)
        of_all = limit_of_all(self._settings, word)
        if own or of_all:
            told.facts["limit"] = own or of_all
        if own:
            told.lines.append(f"  the rule says {own}")
        elif of_all:
            place = self._origins.limits.get(of_all.split(" ")[2], "")
            told.lines.append(f"  the rules say {of_all}{_behind(place)}")
        if word in ADVICE:
            told.lines.append(f"  {ADVICE[word]}")

    def _anew(self, event: Event, told: Told) -> None:
        """Tells what was held, and when it would have been let in, by a replay."""
        found = ask(self._rules, self._trace, event)
        held = {"states": found.states, "nodes": found.nodes, "entries": found.entries}
        told.facts["tried_again"] = {
            "row": event.row, "held_before": held, "let_in": found.let_in, "last_moment_tried": found.tried,
        }  # fmt: skip
        told.lines.append(f"  Held before row {event.row}: {_held(found)}.")
        packet, second = f"packet of row {event.row}", event.record.time
        if found.let_in is None:
            last = moment_text(found.tried)
            told.lines.append(f"  The {packet} is not let in at the end of any later second, up to {last}.")
        elif found.let_in == second:
            told.lines.append(f"  At the end of the same second the {packet} would have been let in.")
        else:
            later = counted(found.let_in - second, "second")
            told.lines.append(
                f"  The {packet} would have been let in at the end of {_second(found.let_in)}, {later} later."
            )

    def _rule_facts(self, name: str) -> dict[str, str | None]:
        """A rule for machines: its number, text and line of the pf.conf."""
        return {"rule": name, "rule_text": self._text(name) or None, "place": self._origins.of(name) or None}

    def _rule(self, name: str) -> str:
        """A rule as it is told: with its line of the pf.conf, and the first time with its text."""
        text = self._text(name)
        if not text:
            return "no rule"
        placed = f"rule {name}{_behind(self._origins.of(name))}"
        if name in self._shown:
            return placed
        self._shown.add(name)
        return f"{placed}, `{visible(text)}`"

    def _text(self, name: str) -> str:
        return self._items[int(name[1:])] if name != "-" and int(name[1:]) < len(self._items) else ""


def _behind(place: str) -> str:
    """A place behind what stands there; nothing where it is not known."""
    return f" ({place})" if place else ""


def _held(found: Asked) -> str:
    parts = [
        counted(found.states, "state"),
        counted(found.nodes, "source node"),
        counted(found.entries, "table entry", "table entries"),
    ]
    return ", ".join(parts)


def _when(first: int, last: int) -> str:
    if first == last:
        return _second(first)
    return f"{'seconds ' if last < SINCE_1970 else ''}{moment_text(first)} to {moment_text(last)}"


def _second(moment: int) -> str:
    """A moment in a sentence: a date and a time of day, or `second 12`."""
    return moment_text(moment) if moment >= SINCE_1970 else f"second {moment}"
