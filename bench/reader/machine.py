"""The machine: what becomes of each packet, and of what an administrator does."""
from __future__ import annotations

from dataclasses import dataclass, replace
from ipaddress import ip_network
from typing import List, Optional

from reader.configurations import Configuration, Entry, Rule, Translation
from reader.cookies import Guard
from reader.states_and_nodes import State, StatesAndNodes
from reader.phases import (
    ESTABLISHED, FIN_WAIT_2, PROXY_DST, PROXY_SRC, first_phase, step_full, step_other, step_sloppy, tcp_timeout,
)
from reader.trace import Event
from reader.values import SYN, TCP, UDP, Packet, key_of
from reader.verdicts import Verdict, decide


@dataclass(frozen=True)
class Outcome:
    """What became of a packet at one interface: a word, the rule, more to tell; and the packet that goes on, if one does."""

    word: str
    rule: Optional[Rule] = None
    more: str = ""
    onward: Optional[Packet] = None

    def __str__(self) -> str:
        return f"{self.word} " + ("-" if self.rule is None else f"@{self.rule.number}") + self.more


class Machine:
    """All that is held: states and source nodes, the entries of tables, the cookies that are out, and the moments."""

    def __init__(self, said: Configuration) -> None:
        self.said = said
        self.held = StatesAndNodes(said)
        self.guard = Guard(said)
        self.first_moment = 0
        self.now: Optional[int] = None

    # -- time

    def advance(self, time: int) -> None:
        """Does what each second asks, up to a moment."""
        if self.now is None:
            self.first_moment = self.now = time
        while self.now < time:
            self.now += 1
            if self.is_quiet():
                # Nothing is held, so the seconds up to the moment change nothing.
                self.now = time
            self.held.purge(self.now)
            self.guard.pass_second(self.now, self.held.half_open())

    def is_quiet(self) -> bool:
        return not self.held.states and not self.held.nodes and self.guard.turns_at is None

    @property
    def moment(self) -> int:
        assert self.now is not None
        return self.now

    # -- events

    def answer(self, event: Event) -> str:
        """What the report says of an event, behind the number of its row."""
        self.advance(event.time)
        if event.word == "packet" and event.packet is not None:
            return " > ".join(str(outcome) for outcome in self.way_of(event.packet))
        if event.word == "skip":
            return "skip -"
        if event.word == "held":
            return f"held - {self.amounts()}"
        if event.word == "kill":
            return f"kill - killed={self.kill(event)}"
        return f"{event.word} - {self.change_table(event)}"

    def amounts(self) -> str:
        """How much is held."""
        return f"states={len(self.held.states)} nodes={len(self.held.nodes)} entries={self.entry_count()}"

    def entry_count(self) -> int:
        return sum(len(entries) for entries in self.said.tables.values())

    def change_table(self, event: Event) -> str:
        """An entry is added or taken out, or old ones leave."""
        entries = self.said.tables[event.table]
        if event.word == "add":
            assert event.network is not None
            return self.add_entry(event.table, Entry(event.network, event.negated, self.moment))
        before = len(entries)
        if event.word == "delete":
            entries[:] = [it for it in entries if (it.network, it.negated) != (event.network, event.negated)]
        else:
            entries[:] = [it for it in entries if self.moment_of(it) + event.age > self.moment]
        return f"removed={before - len(entries)}"

    def moment_of(self, entry: Entry) -> int:
        """When an entry was added: one of the rules text at the first record."""
        return self.first_moment if entry.added is None else entry.added

    def add_entry(self, table: str, entry: Entry) -> str:
        """Adds an entry unless the table has its prefix or all tables are full."""
        there = [it for it in self.said.tables[table] if it.network == entry.network]
        if there:
            return "held" if there[0].negated == entry.negated else "conflict"
        if self.entry_count() >= self.said.limits["table-entries"]:
            return "full"
        self.said.tables[table].append(entry)
        return "added"

    def kill(self, event: Event) -> int:
        """Takes out the states of a source, or those for a destination too, as their makers sent them."""
        gone = []
        for state in self.held.states:
            destination = state.wire.second if state.direction == "in" else state.inner.first
            if event.network is not None and state.source in event.network:
                gone += [state] if event.destination is None or destination in event.destination else []
        self.held.take_out(gone, self.moment)
        return len(gone)

    # -- the way of a packet

    def way_of(self, packet: Packet) -> List[Outcome]:
        """What becomes of a packet: at the interface where it comes in, and then where it leaves."""
        second = None
        if packet.direction == "out":
            state = self.held.by_wire(key_of(packet))
            inner = outward(packet, state) if state else packet
            first = self.said.route_to(inner.source)
            if first is None:
                return [self.at_interface(packet, state, is_alone=True)]
            second = packet.interface
            packet = replace(inner, direction="in", interface=first)
        outcome = self.come_in(replace(packet, received=packet.interface))
        onward = outcome.onward
        if onward is None:
            return [outcome]
        second = second or self.said.route_to(onward.destination)
        if second is None:
            return [outcome]
        leaving = replace(onward, direction="out", interface=second)
        return [outcome, self.at_interface(leaving, self.held.by_inner(key_of(leaving)))]

    def come_in(self, packet: Packet) -> Outcome:
        """A packet that comes in: it may get a cookie or bring one."""
        key = key_of(packet)
        if packet.is_first_syn and self.guard.gives(key, self.held.half_open(), self.moment):
            return Outcome("cookie")
        state = self.held.by_wire(key)
        brings = packet.proto == TCP and "A" in packet.flags and not packet.flags & frozenset("SR") and state is None
        if brings and self.guard.take(key):
            return self.ask_rules(replace(packet, flags=SYN), is_alone=False, by_cookie=True)
        return self.at_interface(packet, state)

    def at_interface(self, packet: Packet, state: Optional[State], is_alone: bool = False) -> Outcome:
        """A packet of a state, or of none. One that begins a closed connection anew takes its state out."""
        if state is not None and self.begins_anew(packet, state):
            self.held.take_out([state], self.moment)
            state = None
        if state is None:
            return self.ask_rules(packet, is_alone)
        return self.touch(packet, state)

    def begins_anew(self, packet: Packet, state: State) -> bool:
        return self.said.has_profile and packet.is_first_syn and state.other >= FIN_WAIT_2 and state.maker >= FIN_WAIT_2

    # -- a packet of a state

    def touch(self, packet: Packet, state: State) -> Outcome:
        """A packet of a held state renews it, unless pf takes it for the peers."""
        is_forward = packet.direction == state.direction
        going = replace(inward(packet, state) if packet.direction == "in" else packet, tag=state.tag)
        if state.maker == PROXY_SRC:
            return self.talk_with_maker(packet, state, going) if is_forward else Outcome("proxy", state.rule)
        if state.maker == PROXY_DST:
            if is_forward:
                return Outcome("proxy", state.rule, onward=replace(going, flags=SYN))
            state.maker = state.other = ESTABLISHED
            if packet.flags >= frozenset("SA"):
                return Outcome("proxy", state.rule)
        completes = self.step(state, packet, is_forward)
        state.last = self.moment
        killed = self.complete(state) if completes else None
        return killed or Outcome("state", state.rule, onward=going)

    def talk_with_maker(self, packet: Packet, state: State, going: Packet) -> Outcome:
        """A packet of a maker at PROXY_SRC: its ACK completes the handshake, and pf sends a SYN of its own."""
        if "A" not in packet.flags or packet.flags & frozenset("SFR"):
            return Outcome("proxy", state.rule)
        state.maker = PROXY_DST
        return self.complete(state) or Outcome("proxy", state.rule, onward=replace(going, flags=SYN))

    def step(self, state: State, packet: Packet, is_forward: bool) -> bool:
        """Renews the phase; whether the handshake completes."""
        ranks = (state.maker, state.other) if is_forward else (state.other, state.maker)
        completes = False
        if packet.proto != TCP:
            ranks, state.timeout = step_other(packet.proto, *ranks)
        elif self.said.has_profile and not state.rule.options.sloppy:
            ranks, completes = step_full(*ranks, packet.flags)
        else:
            ranks, completes = step_sloppy(*ranks, packet.flags, is_forward)
        state.maker, state.other = ranks if is_forward else (ranks[1], ranks[0])
        if packet.proto == TCP:
            state.timeout = tcp_timeout(ranks)
        return completes

    def complete(self, state: State) -> Optional[Outcome]:
        """A handshake completes: limits on connections and rates are asked, and the source may be killed."""
        state.is_connection = True
        options, node = state.rule.options, self.held.node_of(state.rule, state.source)
        if node is None:
            return None
        if options.rate:
            node.score = score_after(node.score, self.moment - node.score_last, options.rate[1])
            node.score_last = self.moment
        exceeded = []
        if options.max_src_conn is not None and self.held.connections_of(node) > options.max_src_conn:
            exceeded.append("max-src-conn")
        if options.rate and node.score > 1000 * options.rate[0]:
            exceeded.append("max-src-conn-rate")
        if not exceeded:
            return None
        overload = self.overload(state)
        gone = self.held.whom_it_kills(state)
        self.held.take_out(gone, self.moment)
        return Outcome("kill:" + "+".join(exceeded), state.rule, f" overload={overload} killed={len(gone)}")

    def overload(self, state: State) -> str:
        """Adds the source to the rule's table, if it has one."""
        table = state.rule.options.overload
        if table is None:
            return "none"
        added = self.add_entry(table, Entry(ip_network(state.source), False, self.moment))
        return "held" if added == "conflict" else added

    # -- a packet of no state

    def ask_rules(self, packet: Packet, is_alone: bool, by_cookie: bool = False) -> Outcome:
        """The rules decide a packet without a state."""

        def translate(rule: Rule, seen: Packet) -> Optional[Packet]:
            return self.translate(rule, seen, is_alone)

        verdict = Verdict(packet)
        decide(self.said.items, self.said.tables, translate, verdict)
        if verdict.untranslated is not None:
            return Outcome("drop:translate", verdict.untranslated)
        rule = verdict.rule
        if rule is not None and rule.action == "block":
            return Outcome("block", rule)
        going = verdict.packet if rule is None else translate(rule, verdict.packet)
        if going is None:
            return Outcome("drop:translate", rule)
        if rule is None or rule.state == "no":
            return Outcome("drop:cookie", rule) if by_cookie else Outcome("pass", rule, onward=going)
        return self.make_state(packet, going, rule, by_cookie)

    def make_state(self, packet: Packet, going: Packet, rule: Rule, by_cookie: bool) -> Outcome:
        """A state is made unless a limit is met, or a key of it is held."""
        limit = self.held.limit_met(rule, packet.source)
        if limit == "max" and self.said.has_profile:
            self.held.leave_stray(rule, packet.source, self.moment)
        if limit is not None:
            return Outcome("drop:" + limit, rule)
        keys = (key_of(packet), key_of(going))
        wire, inner = keys if packet.direction == "in" else (keys[1], keys[0])
        if self.held.by_wire(wire) or self.held.by_inner(inner):
            return Outcome("drop:state-insert", rule)
        is_proxied = rule.state == "synproxy" and packet.direction == "in" and packet.is_first_syn
        maker, other, timeout = first_phase(packet.proto)
        maker = PROXY_DST if by_cookie else PROXY_SRC if is_proxied else maker
        self.held.add(State(wire, inner, packet.direction, packet.source, rule, maker, other, timeout, self.moment, going.tag))
        if by_cookie:
            return Outcome("proxy", rule, onward=going)
        return Outcome("proxy", rule) if is_proxied else Outcome("new", rule, onward=going)

    def translate(self, rule: Rule, packet: Packet, is_alone: bool) -> Optional[Packet]:
        """The packet with the addresses that a rule gives it, the source first; none where no port is left."""
        if rule.nat_to is not None and not (is_alone and packet.source == rule.nat_to.address):
            found = self.with_free_port(packet, rule.nat_to)
            if found is None:
                return None
            packet = found
        if rule.rdr_to is not None:
            ports = rule.rdr_to.ports
            port = packet.destination_port if ports is None or packet.proto not in (TCP, UDP) else ports[0]
            packet = replace(packet, destination=rule.rdr_to.address, destination_port=port)
        return packet

    def with_free_port(self, packet: Packet, nat_to: Translation) -> Optional[Packet]:
        """The packet from another source, with the least port whose key no state has on that side."""
        packet = replace(packet, source=nat_to.address)
        if nat_to.ports is None or packet.proto not in (TCP, UDP):
            return packet
        holder = self.held.by_inner if packet.direction == "in" else self.held.by_wire
        for port in range(nat_to.ports[0], nat_to.ports[1] + 1):
            found = replace(packet, source_port=port)
            if holder(key_of(found)) is None:
                return found
        return None


def score_after(score: int, passed: int, seconds: int) -> int:
    """The score of a rate behind one more handshake: it decays over the seconds of the rate."""
    score = 0 if passed >= seconds else score - score * passed // seconds
    return min(score + 1000, 4294968000)


def inward(packet: Packet, state: State) -> Packet:
    """A packet that comes in, of a state, with the addresses of its inner key."""
    inner = state.inner
    return replace(
        packet, source=inner.first, source_port=inner.first_port, destination=inner.second, destination_port=inner.second_port,
    )


def outward(packet: Packet, state: State) -> Packet:
    """A packet that goes out, of a state, with the addresses that it has inside."""
    inner = state.inner
    return replace(
        packet, source=inner.second, source_port=inner.second_port, destination=inner.first, destination_port=inner.first_port,
    )
