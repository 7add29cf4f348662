"""A play: a scenario, and a firewall that answers it."""

from __future__ import annotations

import contextlib
import sys
import tempfile
from collections.abc import Callable, Iterator, Mapping, Sequence
from pathlib import Path
from random import Random

from pfplan.common.inputs import Kind, check_readable, kind_of
from pfplan.common.outputs import part_file
from pfplan.pf.routes import NO_ROUTES, Routes
from pfplan.plays.askers import Manner, Question
from pfplan.plays.clients import Client, Crew, Habit, Visitor
from pfplan.plays.counts import Count, Tally
from pfplan.plays.firewalls import Firewall, check_records
from pfplan.plays.flooders import Flooder, Forger, Forgery, Openers, Pace
from pfplan.plays.hosts import Addresses, Host, Hosts, Way
from pfplan.plays.laid import Layer
from pfplan.plays.listeners import Listener
from pfplan.plays.model import Askers, Crowd, Forgers, Group, Holders, Laid, Scenario, Visits
from pfplan.plays.returning import Answer
from pfplan.plays.servers import Backlog
from pfplan.plays.worlds import SLOTS, Asking, Emitter, World, slots_of
from pfplan.traces.captures import Seen, make_trace
from pfplan.traces.moments import step_of
from pfplan.traces.records import End
from pfplan.traces.ways import take_ways


class Play:
    """Puts the groups of a scenario into a world, and runs it.

    In a plain play the answers to forged packets are left out, and nobody asks how much is held.
    """

    def __init__(
        self,
        scenario: Scenario,
        firewall: Firewall,
        returning: Mapping[int, Answer],
        traces: Mapping[str, Path],
        is_plain: bool = False,
        routes: Routes = NO_ROUTES,
    ) -> None:
        """`returning` says what rules that block tell the sender, `traces` where the trace of each group of that
        kind is, and `routes` are those of the firewall, which with some asks both interfaces of a packet itself."""
        self._scenario = scenario
        self._traces = traces
        self._is_plain = is_plain
        self._routes = routes
        self._answer = slots_of(scenario.answer)
        self._world = World(firewall, returning, self._lookahead(), scenario.seconds)
        self._hosts = Hosts()
        servers = dict.fromkeys(it for group in scenario.groups for it in group.to)
        self._listeners = {it: Listener(scenario.backlog) for it in servers} if scenario.backlog else {}
        self._emitters: list[Emitter] = []
        self._layers: list[Layer] = []
        counts = [Count(it, scenario.wait) for it in scenario.groups]
        self.tally = Tally(counts, step_of(0, scenario.seconds), list(self._listeners.values()))

    def _lookahead(self) -> int:
        """Slots within which nobody hears of a packet's fate.

        What is forwarded is asked twice in its slot, so slots are asked one by one.
        """
        if self._scenario.forward and not self._routes:
            return 1
        return min([self._answer, *(slots_of(it.round_trip) for it in self._scenario.groups)])

    def run(self, hear: Callable[[int], None], entries: Sequence[str] = (), orders: Sequence[str] = ()) -> End:
        """Plays to the end.

        `hear` hears of the seconds; `entries` are records by which tables get theirs, and `orders` those of an
        administrator that come at their moments. Trouble as the firewall's.
        """
        self._world.put(entries)
        for count in self.tally.counts:
            self._begin(count)
        asking = None if self._is_plain else Asking(self.tally.step, self.tally.hear_held)
        end = self._world.run(self._emitters, hear, asking, orders)
        self.tally.effects = self._world.effects
        for it in self._layers:
            it.end()
        return end

    def _begin(self, count: Count) -> None:
        """Has a group begin what it does."""
        group = count.group
        if isinstance(group, Visits):
            self._begin_visits(group, count)
        elif isinstance(group, Holders):
            every = group.every * SLOTS
            crew = self._crew(group, count, "tcp", group.retries, group.patience)
            self._open(group, crew, lambda host: Flooder(crew, host, every))
        elif isinstance(group, Askers):
            self._begin_askers(group, count)
        elif isinstance(group, Forgers):
            self._begin_forgers(group, count)
        elif isinstance(group, Laid):
            self._layers.append(Layer(self._world, count, self._traces[group.name], str(group.file)))
            self._emitters.append(self._layers[-1])

    def _crew(self, group: Crowd, count: Count, protocol: str, retries: int, patience: int) -> Crew:
        ways = self._ways(group, protocol)
        return Crew(
            self._world,
            count,
            ways,
            self._random(group),
            self._answer,
            slots_of(group.round_trip),
            retries,
            patience * SLOTS,
        )

    def _ways(self, group: Group, protocol: str) -> tuple[Way, ...]:
        forward, listeners = self._scenario.forward, self._listeners if protocol == "tcp" else {}
        return tuple(
            Way(forward, group.interface, it, protocol, listeners.get(it), self._routes) for it in group.to
        )

    def _random(self, group: Group) -> Random:
        """Numbers of the group's own, so that they are the same whatever others do.

        Only `random` of it gives the same everywhere.
        """
        return Random(f"{self._scenario.seed} {group.name}")

    def _last(self, group: Group) -> int | None:
        """The slot below which a group begins what it does: users within the scenario's seconds; a flood without an end
        as long as they do."""
        if group.users or self._is_plain:
            return min(group.end or self._scenario.seconds, self._scenario.seconds) * SLOTS
        return None if group.end is None else group.end * SLOTS

    def _begin_visits(self, group: Visits, count: Count) -> None:
        crew = self._crew(group, count, "tcp", group.retries, group.patience)
        gap = group.stay * SLOTS // max(1, group.requests)
        habits = [Habit(group.requests, gap, group.reloads, it) for it in (False, True)]
        vanishing = Random(f"{self._scenario.seed} {group.name} vanish")
        names = Addresses(group.origin, group.hosts)
        first, last = group.begin * SLOTS, self._last(group) or 0

        def visit(host: int) -> None:
            habit = habits[group.vanish > 0 and vanishing.random() * 100 < group.vanish]
            for _ in range(group.parallel):
                Visitor(crew, self._hosts.of(names.name(host)), habit).open()

        for slot, person in _moments(group, first, last, crew.random):
            self._world.at(slot, visit, person % group.hosts)
            self._world.going += group.parallel

    def _open(self, group: Holders | Askers, crew: Crew, make: Callable[[Host], Client | Question]) -> None:
        pace = Pace(group.rate, group.begin * SLOTS, self._last(group))
        self._emitters.append(Openers(crew, pace, self._hosts, Addresses(group.origin, group.hosts), make))

    def _begin_askers(self, group: Askers, count: Count) -> None:
        crew = self._crew(group, count, "udp", group.retries, 0)
        manner = Manner(group.again * SLOTS, group.retries, group.users)

        def make(host: Host) -> Question:
            if group.users:
                self._world.going += 1
            return Question(crew, host, manner)

        self._open(group, crew, make)

    def _begin_forgers(self, group: Forgers, count: Count) -> None:
        pace = Pace(group.rate, group.begin * SLOTS, self._last(group))
        is_tcp = group.kind == "syn"
        ways = self._ways(group, "tcp" if is_tcp else "udp")
        backlog = Backlog(self._world, count, ways, self._answer) if is_tcp and not self._is_plain else None
        forgery = Forgery("S" if is_tcp else "", pace, backlog)
        addresses = Addresses(group.origin, group.hosts)
        self._emitters.append(Forger(self._world, count, ways, self._random(group), addresses, forgery))


def _moments(group: Visits, first: int, last: int, random: Random) -> Iterator[tuple[int, int]]:
    """When each person of a group comes: at random, or every so many seconds from a moment at random on."""
    for person in range(group.people):
        if group.every:
            step = group.every * SLOTS
            yield from (
                (slot, person) for slot in range(first + int(random.random() * min(step, last - first)), last, step)
            )
        else:
            yield from ((first + int(random.random() * (last - first)), person) for _ in range(group.visits))


@contextlib.contextmanager
def traces_of(scenario: Scenario, routes: Routes = NO_ROUTES) -> Iterator[dict[str, Path]]:
    """The traces of the groups that are laid over a play; those of captures are made for it. With routes each packet
    has one record in them.

    Trouble where a file can't be read, or a record of it is none.
    """
    with tempfile.TemporaryDirectory(prefix="pfplan-") as folder:
        found = {}
        for it in scenario.groups:
            if not isinstance(it, Laid):
                continue
            check_readable(it.file)
            found[it.name] = it.file
            if kind_of(it.file) is Kind.TRACE:
                check_records(it.file)
            else:
                found[it.name] = Path(folder, it.name)
                with part_file(found[it.name]) as out:
                    account = make_trace([it.file], [Seen(it.interface, (), it.inside)], out, is_zero=True)
                for line in account:
                    print(f"{it.name}: {line}", file=sys.stderr)
            if routes:
                found[it.name] = _ways_of(it.name, found[it.name], routes, Path(folder))
        yield found


def _ways_of(name: str, trace: Path, routes: Routes, folder: Path) -> Path:
    """The trace of a group without the records of packets that came in on another interface of it."""
    taken = take_ways(trace, routes, folder / f"{name}.ways")
    for line in taken.notes():
        print(f"{name}: {line}", file=sys.stderr)
    return folder / f"{name}.ways" if taken.left_out else trace
