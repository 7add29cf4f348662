"""What a play comes to, group by group."""

from array import array
from collections import Counter
from collections.abc import Sequence
from dataclasses import dataclass, field

from pfplan.plays.listeners import Listener
from pfplan.plays.model import Group
from pfplan.plays.worlds import SLOTS, Fate
from pfplan.traces.orders import Effects
from pfplan.traces.records import read_held


@dataclass(slots=True)
class Refusal:
    """A word by which packets of a group did not go through: how many, and the first and the last second."""

    packets: int
    first: int
    last: int


@dataclass
class Count:
    """What became of a group.

    `waits` are those of the connections that were served, in slots; `killed` had been let in and were cut off.

    `prompt`, `late` and `lost` count connections by the second in which they began. `hosts` are the addresses of users
    that wanted one, `served_hosts` those of them that were served at all. `left_over` are records of a trace to which
    the play did not come.
    """

    group: Group
    wait: int
    connections: int = 0
    opened: int = 0
    served: int = 0
    gave_up: int = 0
    tries: int = 0
    killed: int = 0
    packets: int = 0
    passed: int = 0
    waits: "array[int]" = field(default_factory=lambda: array("l"))
    prompt: Counter[int] = field(default_factory=Counter)
    late: Counter[int] = field(default_factory=Counter)
    lost: Counter[int] = field(default_factory=Counter)
    refused: dict[str, Refusal] = field(default_factory=dict)
    states_killed: int = 0
    overloads: Counter[str] = field(default_factory=Counter)
    hosts: set[str] = field(default_factory=set)
    served_hosts: set[str] = field(default_factory=set)
    left_over: int = 0

    @property
    def served_at_once(self) -> int:
        """How many were served within `wait` seconds of what they take undisturbed."""
        return sum(self.prompt.values())

    def begin(self, host: str) -> None:
        """A host wants a connection."""
        self.connections += 1
        if self.group.users:
            self.hosts.add(host)

    def serve(self, host: str, begin: int, waited: int) -> None:
        """A connection of a host that began in a slot was served, so many slots later than undisturbed."""
        self.served += 1
        if self.group.users:
            self.served_hosts.add(host)
        self.waits.append(waited)
        (self.prompt if waited <= self.wait * SLOTS else self.late)[begin // SLOTS] += 1

    def give_up(self, begin: int) -> None:
        """A connection that began in a slot is given up."""
        self.gave_up += 1
        self.lost[begin // SLOTS] += 1

    def refuse(self, fate: Fate, slot: int, packets: int = 1) -> None:
        """Packets of one fate did not go through."""
        second = slot // SLOTS
        if fate.overload:
            self.states_killed += fate.killed * packets
            self.overloads[fate.overload] += packets
        there = self.refused.get(fate.word)
        if there is None:
            self.refused[fate.word] = Refusal(packets, second, second)
        else:
            there.packets += packets
            there.last = second

    def wait_at(self, share: float) -> float | None:
        """The wait in seconds that this share of those served do not pass; None where none was served."""
        if not self.waits:
            return None
        ordered = sorted(self.waits)
        return ordered[max(0, -(-int(share * 1000) * len(ordered) // 1000) - 1)] / SLOTS


@dataclass(frozen=True, slots=True)
class Fill:
    """What is held at a moment."""

    moment: int
    states: int
    nodes: int
    entries: int


@dataclass
class Tally:
    """What a play comes to: the groups in the scenario's order, and what was held: of each `step` seconds the moment at
    which the most states were. `listeners` are those of the servers, where these have a backlog; `effects` are what
    records of an administrator did."""

    counts: list[Count]
    step: int = 1
    listeners: list[Listener] = field(default_factory=list)
    fills: list[Fill] = field(default_factory=list)
    effects: Effects = field(default_factory=Effects)

    def hear_held(self, moment: int, line: str) -> None:
        """So much is held at the end of a second, as a line of the report says."""
        held = read_held(line)
        fill = Fill(moment, held.states, held.nodes, held.entries)
        if not self.fills or self.fills[-1].moment // self.step != moment // self.step:
            self.fills.append(fill)
        elif self.fills[-1].states < fill.states:
            self.fills[-1] = fill

    @property
    def most_half_open(self) -> int:
        """The most connections that were half open at a server at a time."""
        return max((it.most for it in self.listeners), default=0)

    @property
    def unanswered(self) -> int:
        """SYN packets that servers left unanswered, since their backlog was full."""
        return sum(it.unanswered for it in self.listeners)

    def is_met(self, word: str) -> bool:
        """Whether a limit refused a packet, or an answer to one."""
        return any(word in it.refused for it in self.counts)

    def users(self) -> Sequence[Count]:
        """The groups of users."""
        return [it for it in self.counts if it.group.users]

    @property
    def states_killed(self) -> int:
        """How many states limits on sources killed."""
        return sum(it.states_killed for it in self.counts)

    @property
    def overloads(self) -> Counter[str]:
        """What kills did to overload tables: `added`, `held`, `full`, `none`."""
        return sum((it.overloads for it in self.counts), Counter())
