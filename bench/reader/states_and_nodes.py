"""What is held: states and source nodes as plain lists in the order of making, their counts, and the purge."""
from __future__ import annotations

from dataclasses import dataclass, field
from typing import Dict, List, Optional, Tuple

from reader.configurations import GLOBAL, Configuration, Rule, Scope
from reader.phases import CLOSED, ESTABLISHED
from reader.values import TCP, Address, Key


@dataclass(eq=False)
class State:
    """A state. Its wire key has the addresses outside, its inner key those of the other side. Phase: both ranks and the timeout's name."""

    wire: Key
    inner: Key
    direction: str
    source: Address
    rule: Rule
    maker: int
    other: int
    timeout: str
    last: int
    tag: Optional[str]
    is_connection: bool = False


@dataclass(eq=False)
class Node:
    """A source node. One that is stray was left by a refusal, and has had no state since."""

    scope: Scope
    source: Address
    rule: Rule
    score: int = 0
    score_last: int = 0
    idle: int = 0
    is_stray: bool = False


@dataclass
class StatesAndNodes:
    """States and source nodes, and those that the purge's round has not examined yet."""

    said: Configuration
    states: List[State] = field(default_factory=list)
    nodes: List[Node] = field(default_factory=list)
    pending_states: List[State] = field(default_factory=list)
    pending_nodes: List[Node] = field(default_factory=list)

    def by_wire(self, key: Key) -> Optional[State]:
        """The state with this wire key."""
        return next((state for state in self.states if state.wire == key), None)

    def by_inner(self, key: Key) -> Optional[State]:
        """The state with this inner key."""
        return next((state for state in self.states if state.inner == key), None)

    def states_of_rule(self, rule: Rule) -> List[State]:
        return [state for state in self.states if state.rule is rule]

    def states_of_node(self, node: Node) -> List[State]:
        return [state for state in self.states if state.rule.scope == node.scope and state.source == node.source]

    def has_state(self, node: Node) -> bool:
        return any(state.rule.scope == node.scope and state.source == node.source for state in self.states)

    def connections_of(self, node: Node) -> int:
        """How many of its states have completed their handshake."""
        return len([state for state in self.states_of_node(node) if state.is_connection])

    def half_open(self) -> int:
        """How many states of TCP have a maker whose SYN was not answered."""
        return len([state for state in self.states if state.wire.proto == TCP and CLOSED < state.maker < ESTABLISHED])

    def node_of(self, rule: Rule, source: Address) -> Optional[Node]:
        """The source's node in the rule's scope, if the rule tracks sources and there is one."""
        if rule.scope is None:
            return None
        return next((node for node in self.nodes if node.scope == rule.scope and node.source == source), None)

    def limit_met(self, rule: Rule, source: Address) -> Optional[str]:
        """The first limit that refuses a state; under the profile `max` is asked behind those of the source."""
        maximum = rule.options.maximum
        at_max = ["max"] if maximum is not None and len(self.states_of_rule(rule)) >= maximum else []
        of_source = self.source_limits(rule, source) if rule.scope is not None else []
        at_limit = ["states"] if len(self.states) >= self.said.limits["states"] else []
        found = [*of_source, *at_max, *at_limit] if self.said.has_profile else [*at_max, *of_source, *at_limit]
        return found[0] if found else None

    def source_limits(self, rule: Rule, source: Address) -> List[str]:
        """The limits of a rule that tracks sources which are met."""
        options, node = rule.options, self.node_of(rule, source)
        if node is not None:
            most = options.max_src_states
            return ["max-src-states"] if most is not None and len(self.states_of_node(node)) >= most else []
        in_scope = [it for it in self.nodes if it.scope == rule.scope]
        met = ["max-src-nodes"] if options.max_src_nodes is not None and len(in_scope) >= options.max_src_nodes else []
        return [*met, "src-nodes"] if len(self.nodes) >= self.said.limits["src-nodes"] else met

    def leave_stray(self, rule: Rule, source: Address, now: int) -> None:
        """A node without a state, of a source that has none: idle since now."""
        if rule.scope is not None and self.node_of(rule, source) is None:
            self.nodes.append(Node(rule.scope, source, rule, idle=now, is_stray=True))

    def add(self, state: State) -> None:
        """A new state, behind its node if it needs a new one."""
        rule, node = state.rule, self.node_of(state.rule, state.source)
        if node is not None:
            node.is_stray = False
        elif rule.scope is not None:
            self.nodes.append(Node(rule.scope, state.source, rule))
        self.states.append(state)

    def take_out(self, gone: List[State], now: int) -> None:
        """States leave. A node that loses its last state is idle from now on."""
        if not gone:
            return
        self.states = [state for state in self.states if state not in gone]
        self.pending_states = [state for state in self.pending_states if state not in gone]
        for state in gone:
            node = self.node_of(state.rule, state.source)
            if node is not None and not self.has_state(node):
                node.idle = now

    def lifetimes(self, states: List[State]) -> Dict[Tuple[int, str], int]:
        """The lifetimes of states, by the number of the rule and the timeout, scaled by what is held now."""
        rules = {(state.rule.number, state.timeout): state.rule for state in states}
        return {(number, timeout): self.lifetime(rule, timeout) for (number, timeout), rule in rules.items()}

    def lifetime(self, rule: Rule, timeout: str) -> int:
        """A timeout, scaled down while many states are held."""
        whole = self.said.timeout(rule, timeout)
        own = self.said.pair_of(rule)
        start, end = own or self.said.pair
        if (start, end) == (0, 0):
            return whole
        count = len(self.states_of_rule(rule)) if own else len(self.states)
        if count <= start:
            return whole
        return 0 if count >= end else whole * (end - count) // (end - start)

    def purge(self, second: int) -> None:
        """What is done each second: a slice of states, then a slice of source nodes."""
        limits, interval = self.said.limits, self.said.timeouts["interval"]
        self.pending_states = self.pending_states or list(self.states)
        share = 1 + limits["states"] // interval
        examined, self.pending_states = self.pending_states[:share], self.pending_states[share:]
        lifetimes = self.lifetimes(examined)
        self.take_out([state for state in examined if state.last + lifetimes[state.rule.number, state.timeout] <= second], second)
        self.pending_nodes = self.pending_nodes or list(self.nodes)
        share = 1 + limits["src-nodes"] // interval
        visited, self.pending_nodes = self.pending_nodes[:share], self.pending_nodes[share:]
        over = [node for node in visited if node.idle + self.retention(node) <= second and not self.has_state(node)]
        self.nodes = [node for node in self.nodes if node not in over]

    def retention(self, node: Node) -> int:
        """How long a node without states stays."""
        return 0 if node.is_stray else self.said.retention(None if node.scope == GLOBAL else node.rule)

    def whom_it_kills(self, state: State) -> List[State]:
        """The states that leave with one whose source has passed a limit."""
        options = state.rule.options

        def goes(it: State) -> bool:
            of_rule = it.rule is state.rule or options.flush == "flush global"
            return it is state or (bool(options.flush) and of_rule and self.is_beside(state, it))

        return [it for it in self.states if goes(it)]

    def is_beside(self, state: State, it: State) -> bool:
        """Whether a state is one of the source: made by it, or under the profile with it at the end from which the packets of `state` come."""
        if not self.said.has_profile:
            return it.source == state.source
        return state.source == (it.wire.first if state.direction == "in" else it.wire.second)
