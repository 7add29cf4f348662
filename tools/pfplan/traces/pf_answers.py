"""What pf answered for the packets of a log, as `./pfstrace --answers` writes it, with the rows of one packet put
together.

pf logs a packet more than once where `match` rules log it too, and may log that a rule passes it before a limit refuses
its state. Such rows follow one another. They are one packet here: its last answer that is no `match` counts. With
routes, so are the rows of a packet on its way out.
"""

from collections import deque
from collections.abc import Iterator
from dataclasses import dataclass, field
from pathlib import Path
from typing import TextIO

from pfplan.common.errors import Status, Trouble
from pfplan.common.inputs import HEADER
from pfplan.common.limits import DROPS, KILLS, NO_KEY, NO_PORT
from pfplan.traces.records import Traces, line_blocks

# Seconds within which a packet that came in is on its way out.
TOGETHER = 1
COLUMNS = ("row", "action", "rule", "anchor", "subrule", "reason", "rewritten")
HEAD = ",".join(COLUMNS)
# Reasons of a refusal by a limit, and the words of a report that mean the same (OpenBSD's PFRES_NAMES, and where
# sys/net/pf.c sets them: `max` of a rule; source nodes and what is counted by them; the pool of states, which
# `set limit states` bounds; no port for `nat-to`; another state has a key of the new one).
LIMITS = {
    "state-limit": ("drop:max",),
    "src-limit": (*(it for it in DROPS if "src" in it), *KILLS),
    "memory": ("drop:states",),
    "translate": (NO_PORT,),
    "state-insert": (NO_KEY,),
}


@dataclass(frozen=True, slots=True)
class PfAnswer:
    """What pf said of a packet: the action of its rule, the numbers of the rule, and the reason. A number that is not
    there is None."""

    action: str
    rule: int | None = None
    anchor: str = ""
    subrule: int | None = None
    reason: str = ""
    rewritten: str = ""

    @property
    def is_decision(self) -> bool:
        """Whether it says what became of the packet: a `match` rule passes and blocks nothing."""
        return self.action != "match" or self.is_refusal or self.is_proxied

    @property
    def is_refusal(self) -> bool:
        """Whether pf dropped the packet for another reason than a rule's word, and did not take it itself."""
        return self.reason not in ("", "match", "synproxy")

    @property
    def is_proxied(self) -> bool:
        """Whether pf took the packet itself, by a rule with `synproxy state`."""
        return self.reason == "synproxy"

    def word(self) -> str:
        """In a word: the reason of a drop, else the action."""
        return self.reason if self.is_refusal else "proxy" if self.is_proxied else self.action

    def number(self) -> tuple[int | None, str, int | None]:
        """The numbers of its rule."""
        return self.rule, self.anchor, self.subrule

    def to_line(self, row: int) -> str:
        """A row of a file of answers."""
        rule, subrule = ("" if it is None else str(it) for it in (self.rule, self.subrule))
        return f"{row},{self.action},{rule},{self.anchor},{subrule},{self.reason},{self.rewritten}"


def read_pf_answer(line: str) -> PfAnswer:
    """The answer of a row, whatever its first column is. ValueError says what is wrong with it."""
    column = line.split(",")
    if len(column) not in (5, len(COLUMNS)):
        raise ValueError("not the columns of pf's answers")
    reason, rewritten = column[5:] if len(column) > 5 else ("", "")
    return PfAnswer(column[1], _number(column[2]), column[3], _number(column[4]), reason, rewritten)


def _number(text: str) -> int | None:
    if text and not (text.isascii() and text.isdigit()):
        raise ValueError(f"{text!r} is no number of a rule")
    return int(text) if text else None


@dataclass(eq=False)
class Packet:
    """Rows of a log that follow one another and are of one packet: its line without answers, and those that pf gave.
    `onward` are those on its way out, where its line is that of its way in."""

    line: str
    answers: list[PfAnswer] = field(default_factory=list)
    onward: list[PfAnswer] = field(default_factory=list)

    def takes(self, line: str, answer: PfAnswer) -> bool:
        """Whether the next row of the log is of this packet too."""
        if line != self.line or not self.answers:
            return False
        decided = next((it for it in self.answers if it.is_decision), None)
        if not answer.is_decision:
            return all(it.number() != answer.number() for it in self.answers)
        if decided is None:
            return True
        return answer.reason in LIMITS and not decided.is_refusal and answer.number() == decided.number()

    def told(self) -> list[PfAnswer]:
        """The last answer that says what became of the packet, or a `match`; and the same of its way out. Nothing where
        pf did not log it."""
        found = [[*(it for it in of if it.is_decision)] or of for of in (self.answers, self.onward)]
        return [it[-1] for it in found if it]


@dataclass(frozen=True)
class Merged:
    """How many rows a log has, and how many packets: of more rows than packets, the others were logged again, or on
    their way out, so many as `onward` says. `answers` are pf's."""

    rows: int
    packets: int
    answers: int = 0
    onward: int = 0


def packets_of(trace: Path, told: Path, name: Path) -> Iterator[Packet]:
    """The packets of a log. Trouble with status 1 where the answers are none."""
    answers = _answers(told, name)
    row, answer = next(answers, (0, None))
    packet: Packet | None = None
    number = 0
    for lines in Traces(trace).blocks():
        for number, line in enumerate(lines, number + 1):
            own = answer if row == number else None
            if own is not None:
                row, answer = next(answers, (0, None))
            if packet and own and packet.takes(line, own):
                packet.answers.append(own)
                continue
            if packet:
                yield packet
            packet = Packet(line, [own] if own else [])
    if packet:
        yield packet


def _answers(told: Path, name: Path) -> Iterator[tuple[int, PfAnswer]]:
    """The rows of a file of answers, each with its number."""
    every = (line for lines in line_blocks(told) for line in lines)
    for number, line in enumerate(every, 1):
        if number == 1:
            if not line.startswith(",".join(COLUMNS[:5])):
                raise Trouble(f"{name}: pfstrace wrote no answers of pf", Status.FAILED)
            continue
        try:
            yield int(line.partition(",")[0]), read_pf_answer(line)
        except ValueError as error:
            raise Trouble(f"{name}: pf's answers: line {number}: {error}", Status.FAILED) from None


def merge(packets: Iterator[Packet], trace: TextIO, told: TextIO) -> Merged:
    """Writes the trace of the packets, and the answer of pf for each that it logged."""
    trace.write(f"{HEADER}\n")
    told.write(f"{HEAD}\n")
    rows = number = answers = onward = 0
    for number, packet in enumerate(packets, 1):
        rows += max(1, len(packet.answers)) + len(packet.onward)
        onward += bool(packet.onward)
        trace.write(f"{packet.line}\n")
        for it in packet.told():
            answers += 1
            told.write(f"{it.to_line(number)}\n")
    return Merged(rows, number, answers, onward)


def forwarded_once(packets: Iterator[Packet]) -> Iterator[Packet]:
    """The packets of a log, of which one that was logged where it came in, and on its way out within a second, is one:
    with what pf said there. Memory is that of two seconds."""
    waiting: deque[tuple[int, str, Packet]] = deque()
    coming: dict[str, deque[Packet]] = {}
    for packet in packets:
        moment, way, _, ends = packet.line.split(",", 3)
        while waiting and int(moment) - waiting[0][0] > TOGETHER:
            yield _passed_on(*waiting.popleft()[1:], coming)
        if way == "out" and ends in coming:
            there = coming[ends].popleft()
            there.onward = packet.answers
            if not coming[ends]:
                del coming[ends]
            continue
        waiting.append((int(moment), ends, packet))
        if way == "in":
            coming.setdefault(ends, deque()).append(packet)
    yield from (it for _, _, it in waiting)


def _passed_on(ends: str, packet: Packet, coming: dict[str, deque[Packet]]) -> Packet:
    """A packet whose way out is not waited for any more."""
    if packet in (there := coming.get(ends, deque())):
        there.remove(packet)
        if not there:
            del coming[ends]
    return packet
