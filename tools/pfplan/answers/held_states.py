"""Which states of a source are held before a limit kills some of them, and which had run out by then.

A report tells how many states a kill took. Where more of the source were made, the program is asked: in a replay of its
own a packet of each of them stands before the record that kills. It is of an interface that nothing else has, and a
rule before all others blocks what comes there: so it is answered by `state` or `proxy` where its state is held, and
makes none. What it renews is killed by the next record.
"""

import tempfile
from collections.abc import Callable, Iterable, Sequence
from contextlib import ExitStack
from dataclasses import dataclass, field
from pathlib import Path

from pfplan.answers.legs_apart import apart
from pfplan.answers.sides import Side, follow, side_of
from pfplan.common.errors import Status, Trouble
from pfplan.common.networks import Network
from pfplan.pf.reading_canonical_text import Flushes
from pfplan.pf.routes import routes_of
from pfplan.replays.runs import replayed, show_rules
from pfplan.traces.insertions import Heard, asking
from pfplan.traces.records import KILL

_BLOCK = 1 << 20


@dataclass(frozen=True, slots=True)
class _Question:
    """States that are asked for at a moment, by the columns of a packet of each without its interface."""

    moment: int
    states: tuple[str, ...]

    def packets(self, interface: str) -> list[str]:
        """A packet of each state, on an interface. One without flags begins no connection anew."""
        parts = [it.partition(",") for it in self.states]
        return [f"{self.moment},{direction},{interface},{ends}," for direction, _, ends in parts]


@dataclass
class HeldStates:
    """Collects which states are asked for before which rows, and answers once the program has been asked."""

    _questions: dict[int, _Question] = field(default_factory=dict)
    _answers: dict[int, frozenset[str]] = field(default_factory=dict)

    @property
    def is_asked(self) -> bool:
        """Whether somebody asked for what was not known."""
        return bool(self._questions)

    def held(self, row: int, moment: int, states: Iterable[str]) -> frozenset[str] | None:
        """Those of some states that are held before the record of a row; None where that is not known yet."""
        if row not in self._answers:
            self._questions[row] = _Question(moment, tuple(states))
        return self._answers.get(row)

    def find(self, rules: Path, trace: Path, entries: Sequence[str]) -> None:
        """Asks the program all at once. It stays unknown where the rules can't take one rule more; and under routes
        where they ask what a packet brings along from its first interface. Trouble as the program's."""
        shown = show_rules(rules)
        if not routes_of(shown):
            self._ask(rules.read_bytes(), trace, entries, lambda row: row)
            return
        # A packet that is asked would go on to its second interface, and change what is held there.
        with apart(rules, shown, trace, entries) as legs:
            if legs is not None:
                self._ask(legs.rules, legs.trace, entries, legs.row)

    def _ask(self, rules: bytes, trace: Path, entries: Sequence[str], row_of: Callable[[int], int]) -> None:
        """The same of rules without routes; the row of a question is this one of the trace."""
        interface = _free_name(rules, trace)
        questions = sorted(self._questions.items())
        before = {row_of(row): it.packets(interface) for row, it in questions}
        with ExitStack() as stack:
            text = stack.enter_context(tempfile.NamedTemporaryFile(prefix="pfplan-"))
            text.write(f"block quick on {interface} all\n".encode() + rules)
            text.flush()
            asked = stack.enter_context(asking(trace, 0, entries, before))
            heard = _Answers(Path(text.name), ())
            try:
                with replayed(Path(text.name), trace, asked, heard) as lines:
                    for _ in lines:
                        pass
            except Trouble as trouble:
                if trouble.status != Status.RULES:
                    raise
                return
        said = iter(heard.are_held)
        self._answers = {row: frozenset(text for text in it.states if next(said)) for row, it in questions}
        self._questions = {}


class _Answers(Heard):
    """What a replay answers to the packets that were put in: whether the state of each is held."""

    def __init__(self, rules: Path, moments: Sequence[int]) -> None:
        super().__init__(rules, moments)
        self.are_held: list[bool] = []

    def take(self, lines: Sequence[str]) -> None:
        """Reads lines of the report, those of records that were put in."""
        super().take([it for it in lines if " add - " in it])
        self.are_held += [it.split(" ")[1] in ("state", "proxy") for it in lines if " add - " not in it]


def _free_name(text: bytes, trace: Path) -> str:
    """A name of an interface that neither the rules nor the trace have."""
    number = 0
    name = b"ask0"
    with open(trace, "rb") as file:
        last = b""
        while block := file.read(_BLOCK):
            # a name may stand across the border of two blocks
            part = last[-16:] + block
            while name in text or name in part:
                number += 1
                name = f"ask{number}".encode()
                file.seek(0)
                part = b""
            last = part
    return name.decode()


def _has_orders(trace: Path) -> bool:
    """Whether a trace may have records by which an administrator takes out states."""
    with open(trace, "rb") as file:
        return any(f",{KILL},".encode() in it for it in file)


def followed_again(
    rules: Path,
    trace: Path,
    users: Sequence[Network],
    flushes: Flushes | None,
    entries: Sequence[str],
    holding: HeldStates,
    hear: Callable[[int, str], None] | None = None,
) -> Side:
    """Asks which states were held, and then follows the connections of users in a replay, as `sides.follow` does."""
    holding.find(rules, trace, entries)
    with asking(trace, 0, entries) as asked:
        with replayed(rules, trace, asked, asked.heard(rules)) as lines:
            side = side_of(rules.name, lines, users, None, hear, flushes, asked.numbers, holding)
            follow(trace, [side], users)
    return side


def states_held(
    rules: Path, trace: Path, users: Sequence[Network], flushes: Flushes, entries: Sequence[str]
) -> HeldStates:
    """Which states are held before the kills of a replay that leave it open."""
    holding = HeldStates()
    if users and (flushes.rules or _has_orders(trace)):
        with asking(trace, 0, entries) as asked:
            with replayed(rules, trace, asked, asked.heard(rules)) as lines:
                side = side_of(rules.name, lines, users, None, None, flushes, asked.numbers, holding)
                follow(trace, [side], users)
        if holding.is_asked:
            holding.find(rules, trace, entries)
    return holding
