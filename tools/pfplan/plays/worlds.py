"""What happens in a play, in its order: a discrete event simulation.

Time runs in slots of 10 milliseconds, of which only those are visited in which something happens. Nobody hears of a
packet's fate before the slots of the shortest way have passed, so all packets of so many slots are asked in one write.
The moment of a record is a whole second: in it, records are in the order of their slots. The moment of a host is told
by when its packets are at the firewall: what it does at slot 100 is what it sends so that it comes there at slot 100.
"""

import heapq
from collections import deque
from collections.abc import Callable, Iterator, Mapping, Sequence
from dataclasses import dataclass
from operator import itemgetter
from typing import Any, Protocol

from pfplan.common.errors import Status, Trouble
from pfplan.plays.firewalls import Firewall
from pfplan.plays.returning import DROP, Answer
from pfplan.traces.orders import Effects
from pfplan.traces.records import ONWARD, PASSING, End

SLOTS = 100  # in a second
# Fates that are remembered by their texts.
KNOWN = 20_000


@dataclass(frozen=True, slots=True, eq=False)
class Fate:
    """What became of a packet: whether it went through, and of one that did not whether its sender was told so. Packets
    of one text have one and the same."""

    word: str
    passes: bool
    resets: bool  # by a RST or an ICMP error to a sender of TCP
    tells: bool  # by an ICMP error to one of UDP
    text: str
    killed: int = 0  # states that were killed with it
    overload: str = ""  # what a kill did to the overload table
    is_taken: bool = False  # by pf itself, which leads the handshake (`synproxy state`, or by a SYN cookie)
    own: "Fate | None" = None  # of the SYN that pf then sent to the server, where the firewall has routes


# hears the fate of a packet, and what it was sent for
Hearer = Callable[[Any, Fate], None]
# hears the fates of several
HearerOfAll = Callable[[list[Any], list[Fate]], None]
# packets of a slot that are asked in turn: the slot, how many they are, who hears the fates of all of them,
# and what each was sent for; where nobody hears all, who hears of each, and what it was sent for
Part = tuple[int, int, HearerOfAll | None, list[Any]]


class Emitter(Protocol):
    """What sends by itself, in slots that it knows beforehand."""

    def next(self, slot: int) -> int | None:
        """The next slot in which it sends, from one on; None where there is none."""

    def emit(self, slot: int) -> bool:
        """Sends what comes before the events of a slot; whether more comes behind them."""

    def emit_behind(self) -> None:
        """Sends that."""


@dataclass(frozen=True)
class Asking:
    """When the firewall is asked how much is held: at the end of each second in which packets came, and where none
    came every `step` seconds. `hear` hears the second and the text of the answer."""

    step: int
    hear: Callable[[int, str], None]


HELD = ",held,,,,,,,\n"


def slots_of(milliseconds: int) -> int:
    """A delay in slots, at least one."""
    return max(1, -(-milliseconds * SLOTS // 1000))


def _moments_of(asking: Asking, second: int, following: int) -> Iterator[int]:
    """When it is asked how much is held from the end of a second on, before a following one."""
    if second >= 0:
        yield second
    yield from range((second // asking.step + 1) * asking.step, following, asking.step)


class World:
    """The calendar, the packets that wait to be asked, and the firewall.

    `going` counts what has to be over before a play ends.
    """

    def __init__(self, firewall: Firewall, returning: Mapping[int, Answer], lookahead: int, seconds: int) -> None:
        self.now = 0
        self.going = 0
        self.rows = 0
        self._firewall = firewall
        self._returning = returning
        self._lookahead = lookahead
        self._last = seconds * SLOTS
        self._calendar: dict[int, list[tuple[Callable[[Any], None], Any]]] = {}
        self._sending: dict[int, list[tuple[int, Emitter]]] = {}
        self._slots: list[int] = []
        # packets that wait to be asked, in parts; those behind the last part each have a hearer
        self._texts: list[str] = []
        self._parts: list[Part] = []
        self._hearers: list[tuple[Hearer, Any]] = []
        # how many digits the number of a row has, with its space, and the first row that has more
        self._width, self._wider = 2, 10
        self._known: dict[str, Fate] = {}
        self._orders: deque[tuple[int, str]] = deque()
        self.effects = Effects()

    def at(self, slot: int, call: Callable[[Any], None], argument: Any) -> None:
        """Has something done in a slot from now on."""
        there = self._calendar.get(slot)
        if there is None:
            self._calendar[slot] = [(call, argument)]
            if slot not in self._sending:
                heapq.heappush(self._slots, slot)
        else:
            there.append((call, argument))

    def ask(self, texts: tuple[str, ...], hear: Hearer, argument: Any) -> None:
        """Sends a packet now: through the firewall, and where it is forwarded through it again. `hear` hears its fate.

        A text is the record behind its moment, with its line feed.
        """
        if len(texts) == 1:
            self.ask_once(texts[0], hear, argument)
        else:
            self.ask_once(texts[0], self._onward, (texts[1], hear, argument))

    def ask_once(self, text: str, hear: Hearer, argument: Any) -> None:
        """Sends a packet that is not forwarded."""
        self._texts.append(text)
        self._hearers.append((hear, argument))

    def ask_all(self, texts: list[str], hear: HearerOfAll, arguments: list[Any]) -> None:
        """Sends packets that are not forwarded, now. `hear` hears the fates of all of them at once."""
        if self._hearers:
            self._close()
        self._texts += texts
        self._parts.append((self.now, len(texts), hear, arguments))

    def _close(self) -> None:
        """Makes a part of the packets that each have a hearer."""
        self._parts.append((self.now, len(self._hearers), None, self._hearers))
        self._hearers = []

    def put(self, records: Sequence[str]) -> None:
        """Has entries put into tables before all else. Trouble with status 3 where a table does not take one."""
        for line in self._firewall.decide([f"{it}\n" for it in records]):
            if line.endswith(" add - full"):
                raise Trouble(
                    "TooManyEntries: entries that come by records go past set limit table-entries", Status.RULES
                )
            if line.endswith(" add - conflict"):
                raise Trouble("Duplicate: an entry that comes by a record is there with the other sign", Status.RULES)
        self.rows += len(records)

    def _onward(self, behind: tuple[str, Hearer, Any], fate: Fate) -> None:
        """A packet that is forwarded went through, or not; `behind` is what is asked of it on its way out."""
        if fate.passes:
            self.ask_once(*behind)
        else:
            behind[1](behind[2], fate)

    def run(
        self,
        emitters: Sequence[Emitter],
        hear: Callable[[int], None],
        asking: Asking | None,
        orders: Sequence[str] = (),
    ) -> End:
        """Runs to the end: to the last second of the scenario, and then until all that is going is over.

        `hear` hears of each second in which something happens. `orders` are records of an administrator, whose moments
        do not fall: each comes behind all packets of its second, and `effects` counts what they do.
        """
        self._orders = deque((int(it.partition(",")[0]), it) for it in orders)
        for number, it in enumerate(emitters):
            self._post(number, it, 0)
        second, slot = -1, self._next()
        while slot is not None and (slot < self._last or self.going):
            if slot // SLOTS != second:
                self._pass(asking, second, slot // SLOTS)
                second = slot // SLOTS
                hear(second)
            end = min(slot + self._lookahead, (second + 1) * SLOTS)
            self._window(str(second), end if slot >= self._last else min(end, self._last))
            slot = self._next()
        end = max(second + 1, self._last // SLOTS)
        self._pass(asking, second, end)
        if self._orders:
            self._pass(None, end, self._orders[-1][0] + 1)
        return self._firewall.end()

    def _post(self, number: int, emitter: Emitter, slot: int) -> None:
        """Notes when an emitter sends next; of those of a slot the first sends first."""
        found = emitter.next(slot)
        if found is None:
            return
        there = self._sending.get(found)
        if there is None:
            self._sending[found] = [(number, emitter)]
            if found not in self._calendar:
                heapq.heappush(self._slots, found)
        else:
            there.append((number, emitter))
            there.sort(key=itemgetter(0))

    def _next(self) -> int | None:
        """The next slot in which something happens."""
        while self._slots and self._slots[0] not in self._calendar and self._slots[0] not in self._sending:
            heapq.heappop(self._slots)
        return self._slots[0] if self._slots else None

    def _pass(self, asking: Asking | None, second: int, following: int) -> None:
        """What comes at the end of a second, and before a following one: the records of an administrator, and behind
        those of its moment the question how much is held, at the end of the second and then every so many."""
        moments = [] if asking is None else list(_moments_of(asking, second, following))
        texts = [(it, True, f"{it}{HELD}") for it in moments]
        while self._orders and self._orders[0][0] < following:
            moment, line = self._orders.popleft()
            texts.append((moment, False, f"{line}\n"))
        if not texts:
            return
        texts.sort(key=itemgetter(0, 1))
        lines = self._firewall.decide([it for _, _, it in texts])
        self.rows += len(texts)
        for (moment, is_question, _), line in zip(texts, lines):
            if not is_question:
                self.effects.take([line.partition(" ")[2]])
            elif asking is not None:
                asking.hear(moment, line)

    def _window(self, second: str, end: int) -> None:
        """Lets happen what does in the slots of one second below `end`, and asks the packets of them."""
        slots, calendar, sending = self._slots, self._calendar, self._sending
        while slots and slots[0] < end:
            slot = self.now = heapq.heappop(slots)
            behind = self._emit(slot) if slot in sending else ()
            if slot in calendar:
                for call, argument in calendar.pop(slot):
                    call(argument)
            for it in behind:
                it.emit_behind()
            if self._hearers:
                self._close()
        # packets that are forwarded are asked once more, in the same slot
        while self._parts:
            self._decide(second)
            if self._hearers:
                self._close()

    def _emit(self, slot: int) -> Sequence[Emitter]:
        """Has those send that send in a slot. Answers those that send more behind the events."""
        behind = []
        for number, it in self._sending.pop(slot):
            if it.emit(slot):
                behind.append(it)
            self._post(number, it, slot + 1)
        return behind

    def _decide(self, second: str) -> None:
        """Asks the firewall of all that waits, and tells everybody what became of their packets."""
        texts, parts = self._texts, self._parts
        self._texts, self._parts = [], []
        fates = self._fates(self._firewall.decide(texts, second))
        end = 0
        for self.now, count, hear_all, arguments in parts:
            begin, end = end, end + count
            if hear_all is not None:
                hear_all(arguments, fates[begin:end])
                continue
            for (hear, argument), fate in zip(arguments, fates[begin:end]):
                hear(argument, fate)

    def _fates(self, lines: Sequence[str]) -> list[Fate]:
        """The fates that the next lines of the report tell."""
        known = self._known
        first, self.rows = self.rows + 1, self.rows + len(lines)
        if first >= self._wider:
            self._width, self._wider = len(str(first)) + 1, 10 ** len(str(first))
        width = self._width
        if self.rows < self._wider:
            try:
                return [known[it[width:]] for it in lines]
            except KeyError:
                pass
        return [self._fate_of(it.partition(" ")[2]) for it in lines]

    def _fate_of(self, text: str) -> Fate:
        """The fate that the text of a line tells, behind its row."""
        found = self._known.get(text)
        if found is None:
            if len(self._known) > KNOWN:
                self._known.clear()
            found = self._known[text] = self._fate(text)
        return found

    def _fate(self, text: str) -> Fate:
        """Reads it: what the interface said on which the packet leaves, unless it was let through there."""
        first, _, second = text.partition(ONWARD)
        word, _, rest = first.partition(" ")
        if word == "proxy" and second:
            return Fate(word, False, False, False, text, is_taken=True, own=self._fate(second))
        if second.partition(" ")[0] not in ("", *PASSING):
            word, _, rest = second.partition(" ")
        if word in ("state", "new", "pass", "skip"):
            return Fate(word, True, False, False, text)
        if word in ("proxy", "cookie"):
            return Fate(word, False, False, False, text, is_taken=True)
        if word.startswith("kill:"):
            _, overload, killed = rest.split(" ")
            return Fate(word, False, False, False, text, int(killed.partition("=")[2]), overload.partition("=")[2])
        if word != "block" or not rest.startswith("@"):
            return Fate(word, False, False, False, text)
        answer = self._returning.get(int(rest[1:]), DROP)
        return Fate(word, False, answer.resets, answer.tells, text)
