"""What became of the connections of users: each is followed from its first packet through the answers that its packets
got.

A connection is of who began it: with a SYN, and for other protocols with its first packet. A SYN that is repeated
belongs to its connection, and so does a packet of UDP, until another one of these ports can be told (`Connections` says
when). RULES has its outcomes.
"""

import ipaddress
from collections import Counter
from collections.abc import Callable, Iterable, Iterator, Mapping, Sequence
from dataclasses import dataclass, field
from sys import intern
from typing import Protocol

from pfplan.answers.legs import Crossing, Legs, Reply
from pfplan.common.limits import DROPPED_COOKIE, DROPS
from pfplan.common.networks import Network, is_within, network_of
from pfplan.pf.reading_canonical_text import Flushes
from pfplan.pf.routes import NO_ROUTES

# what became of a connection, and when that is said of it
RULES = {
    "served": "its handshake went through, of UDP an answer, and then every packet of it up to the first FIN or RST",
    "unanswered": "it was let in, and the trace shows no handshake, of UDP no answer: the server refused it or did not "
    "answer",
    "refused": "its first packet was blocked or dropped, on one interface or the next, and so was each repetition "
    "of it; or the packet by which it was to get a state, where pf had answered its SYN with a cookie",
    "killed": "its state was killed by a limit on its source, or by the flush that followed, and no repeated SYN was "
    "let in",
    "cut": "it was let in, and a later packet was not: its state had run out, which adaptive timeouts hasten; and no "
    "repeated SYN was let in",
    "removed": "its state was taken out by an administrator (a record kill), and no repeated SYN was let in",
    "late": "it was let in, in the last 3 seconds of the trace, and had no answer by then: it counts neither way",
}
KINDS = tuple(RULES)
REMOVED = "removed"
LATE = "late"
# the same in few words, of many connections
MEANINGS = {
    "served": "went through to their end, or to the trace's",
    "unanswered": "let in; no answer in the trace",
    "refused": "their first packet blocked or dropped",
    "killed": "by a limit on their source, or by its flush",
    "cut": "let in, and lost their state before their end",
    "removed": "their state taken out by an administrator",
    "late": "cut by the end of the trace: begun in its last 3 seconds",
}
# What became of connections that had been let in and then lost their state; a repeated SYN may open them again.
LOST = ("killed", "cut", REMOVED)
# Seconds before the end of a trace in which a missing answer says nothing. A client repeats its SYN after 1 second and
# after 2 more (RFC 6298, 2), so an answer to the first or the second may come within 3.
LAST_SECONDS = 3
# Seconds without a packet after which a SYN of the same ports, or a packet of UDP, begins another connection: a port
# may be used again after twice the lifetime of a segment (RFC 9293, 3.4.1 and 3.6.1).
ANOTHER = 240
# Connections that are over are remembered up to this number, so that their last packets are not taken for those of
# others.
REMEMBERED = 100_000
# Ways and ports by which connections of users are counted.
PORTS = 10_000


def kinds_told(*several: Mapping[str, int]) -> tuple[str, ...]:
    """What may be told of connections with these outcomes: REMOVED only where there is such a connection, since most
    traces have no record of an administrator."""
    return tuple(it for it in KINDS if it != REMOVED or any(outcomes.get(it) for outcomes in several))


class Members:
    """Whether an address is one of some networks; what was asked is remembered."""

    def __init__(self, networks: Sequence[Network]) -> None:
        self._networks = tuple(networks)
        self._members: set[str] = set()
        self._others: set[str] = set()
        self._names: dict[str, str] = {}

    def has(self, address: str) -> bool:
        """Whether a network has it. False for a text that is no address."""
        return address in self._members or address not in self._others and bool(self.of({address}))

    def of(self, addresses: set[str]) -> set[str]:
        """Those of some addresses that a network has."""
        if len(self._members) + len(self._others) > 2 * REMEMBERED:
            self._members, self._others = set(), set()
        for address in addresses - self._others - self._members:
            (self._members if self._ask(address) else self._others).add(address)
        return addresses & self._members

    def name(self, address: str) -> str:
        """The one text of an address that may be written in several ways, as those of IPv6 may (RFC 5952)."""
        if ":" not in address:
            return address
        name = self._names.get(address)
        if name is None:
            if len(self._names) > REMEMBERED:
                self._names.clear()
            try:
                name = str(ipaddress.ip_address(address))
            except ValueError:
                name = address
            self._names[address] = name
        return name

    def _ask(self, address: str) -> bool:
        try:
            value = ipaddress.ip_address(address)
        except ValueError:
            return False
        return any(value in it for it in self._networks)


# protocol, the address and port of the end that began, those of the other end
Key = tuple[str, ...]

# the words of packets that did not go through
BAD = frozenset(("block", DROPPED_COOKIE, *DROPS))


@dataclass(frozen=True, slots=True)
class Entering:
    """That a source got into an overload table: when, by which kill, and by which rule."""

    moment: int
    word: str
    rule: str


@dataclass(slots=True)
class Refusal:
    """Connections that were refused by one word of one rule. `entered` of them are of sources that a kill had put into
    a table before.

    `by` is the word and the rule of those kills; `first` and `last` are their moments. Where packets are asked on two
    interfaces, `way` and `interface` say on which: `in` where they come in, `out` on their way out.
    """

    word: str
    rule: str
    connections: int = 0
    entered: int = 0
    by: tuple[str, str] | None = None
    first: int | None = None
    last: int | None = None
    way: str = ""
    interface: str = ""

    def add(self, entering: Entering | None) -> None:
        """One connection more."""
        self.connections += 1
        if entering is None:
            return
        self.entered += 1
        self.by = (entering.word, entering.rule)
        self.first = entering.moment if self.first is None else min(self.first, entering.moment)
        self.last = entering.moment if self.last is None else max(self.last, entering.moment)


def may_be_made(direction: str, flags: str) -> bool:
    """Whether a packet that pf answers itself may be one that makes a state: a SYN that comes in."""
    return direction == "in" and "S" in flags and "A" not in flags


# the protocols with names of their own, by number
_NAMES = {"6": "tcp", "17": "udp"}


class Holding(Protocol):
    """Knows which states are held before a record that killed some."""

    def held(self, row: int, moment: int, states: Iterable[str]) -> frozenset[str] | None:
        """Those of some states (`State.text`) that are held before the record of a row at a moment; None where that is
        not known."""


@dataclass(slots=True, eq=False)
class _Pair:
    """Two ends of a protocol: the connection between them that began last, and the states that may be held, by whether
    their first packet went in from the lower end."""

    key: Key  # the lower end comes first
    is_tcp: bool
    is_udp: bool
    flow: "_Connection | None" = None
    states: dict[bool, tuple[str, str]] = field(default_factory=dict)  # the rule, and the source it counts for
    texts: list[Key] = field(default_factory=list)  # how records write it, in either direction


# a pair, and whether the source is its lower end
Way = tuple[_Pair, bool]


@dataclass(frozen=True, slots=True)
class State:
    """A state that may be held: its ends, and whether its first packet went in from the lower one."""

    pair: _Pair
    side: bool

    @property
    def text(self) -> str:
        """The columns of a packet of it, from the direction on, without the interface."""
        protocol, source, port, target, target_port = self.pair.key
        return f"{'in' if self.side else 'out'},{protocol},{source},{port},{target},{target_port}"


@dataclass(slots=True)
class _Connection:
    begin: int
    first: int  # the row of its first packet
    seen: int  # the moment of its last packet
    let_in: int  # the moment of the SYN that was let in, or of its first packet
    state: str  # open, closed, stray, or one of KINDS
    is_low: bool  # whether the end that began it is the lower one of its key
    is_counted: bool  # whether a user began it
    is_greeted: bool = False
    is_answered: bool = False
    proxied: bool | None = None  # the side of the state at which pf answers itself, until the server has
    has_cookie: bool = False  # pf has answered its SYN with a cookie, and it has no state
    is_lost: bool = False  # it is not open, and holds no state: a later packet that is blocked changes nothing
    refusal: tuple[str, str, str, str] = ("", "", "", "")  # the word and the rule that refused it, and where
    entering: Entering | None = None
    places: tuple[Crossing, ...] = ()  # directions and interfaces on which a packet of who began it came through

    def outcome(self, pair: _Pair, last: int) -> str:
        """What became of it, by the end of the trace."""
        if self.state not in ("open", "closed"):
            return self.state
        if self.is_answered or not (pair.is_tcp or pair.is_udp) or pair.is_udp and self.is_greeted:
            return "served"
        return LATE if self.state == "open" and last - self.let_in < LAST_SECONDS else "unanswered"

    def is_over(self, moment: int, word: str) -> bool:
        """Whether a SYN is none of it, but begins another of these ports."""
        if self.state in ("stray", "closed") or moment - self.seen >= ANOTHER:
            return True
        return self.is_answered and not (self.state == "open" and word == "state")

    def open_again(self, moment: int) -> None:
        """A repeated SYN of it was let in: what comes of it now counts."""
        if self.state != "refused":
            self.is_greeted, self.places = False, ()
        self.state, self.let_in, self.is_lost, self.proxied = "open", moment, False, None
        self.has_cookie = False

    def waits_for_server(self, side: bool, word: str) -> bool:
        """Whether pf has answered its SYN itself, and its server has not answered since, as a packet of it is let in.
        One that is of no state says that the state is gone."""
        if side is self.proxied and word not in ("state", "proxy", "cookie"):
            self.proxied, self.has_cookie = None, False
        return self.proxied is not None

    def answer_itself(self, side: bool, word: str) -> None:
        """pf has answered its SYN."""
        self.proxied, self.is_greeted, self.has_cookie = side, False, word == "cookie"

    def is_made_by(self, side: bool, word: str, is_low: bool) -> bool:
        """Whether its state is made by a packet, which brought a cookie."""
        return word == "proxy" and self.has_cookie and side is self.proxied and is_low == self.is_low

    def is_beside(self, side: bool, word: str, from_beginner: bool) -> bool:
        """Whether a packet of it changes nothing: a SYN that got a cookie though its connection has a state, or what
        the server of a capture says before pf has asked it, since a cookie is out."""
        if word == "cookie":
            return not (from_beginner and self.has_cookie)
        is_told = word in ("state", "proxy") or word.startswith("kill:")
        return self.has_cookie and side is self.proxied and not from_beginner and not is_told

    def take_proxied(self, side: bool, word: str, flags: str, from_beginner: bool) -> None:
        """A packet of it while it waits for its server. What a server says before pf has asked it changes nothing."""
        if side is not self.proxied:
            return
        if self.has_cookie and word == "proxy" and from_beginner:
            self.is_greeted, self.has_cookie = True, False
        elif word == "state" or self.is_greeted and not from_beginner and "S" in flags and "A" in flags:
            self.is_greeted = self.is_answered = True
            self.proxied, self.has_cookie = None, False
        elif from_beginner and "A" in flags and not set("SFR").intersection(flags):
            self.is_greeted = True


class Connections:
    """Follows the connections of users, and counts those whose end is known.

    A SYN begins another connection where there is none of these ports, or it has been closed, or 4 minutes have passed
    since its last packet, or its handshake was done and its state is not held any more. Of other protocols a packet
    does so 4 minutes after the last one, if no state of it is held. `hear(begin, outcome)` is
    called for each that is over, and `ended(key, first row, outcome)`, which tells it from all others. Memory grows
    with the connections that are open at a time, where `most_open` does not bound them: of more, those that have been
    quiet the longest are counted as they are then, and let go (`forgotten`). `flushes` says what kills flush; None
    where the rules are not known: a kill of several states is then taken for `flush`, unless that source has made
    fewer by the rule. `holding` knows which states had run out before a kill; without it, and where it does not know,
    the states that were quiet the longest are taken to have. `remembered` of those that are over are kept at least, and
    twice as many at most.
    """

    def __init__(
        self,
        users: Sequence[Network],
        hear: Callable[[int, str], None],
        ended: Callable[[Key, int, str], None] | None = None,
        flushes: Flushes | None = None,
        remembered: int = REMEMBERED,
        most_open: int | None = None,
        holding: Holding | None = None,
    ) -> None:
        self.members = Members(users)
        self._users = tuple(users)
        self.outcomes: Counter[str] = Counter()
        self.refusals: dict[tuple[str, str, str, str], Refusal] = {}
        self.without_beginning = 0
        self.begun_by_others = 0
        self.begun: Counter[tuple[str, str]] = Counter()  # those of users, by direction and port of their first packets
        self._hear = hear
        self._ended = ended
        self._flushes = flushes
        self._legs = Legs(flushes.routes if flushes else NO_ROUTES)
        self._has_routes = bool(self._legs.routes)
        self._holding = holding
        self._pairs: dict[Key, _Pair] = {}
        self._by_text: dict[Key, Way] = {}  # and whether the source is the lower end
        self._of_address: dict[str, dict[_Pair, None]] = {}  # those with states that its kills may flush
        self._blurred: set[str] = set()  # sources of which states were forgotten that may be held
        self._entered: dict[str, Entering] = {}
        self._remembered = remembered
        self._most_open = most_open
        self._most = 2 * remembered
        self.forgotten = 0  # those that were open
        self.kills_guessed = 0  # kills of which it is a guess which states they took
        self.last = 0  # the moment of the last record so far, of users or not

    @property
    def known(self) -> Callable[[Key], Way | None]:
        """What is known of two ends as a record writes them: the pair, and whether the source is the lower end."""
        return self._by_text.get

    def follow(self, row: int, reply: Reply, column: Sequence[str]) -> None:
        """A packet between a user and somebody else, with what the report says of it."""
        text = (column[3], column[4], column[5], column[6], column[7])
        found = self._by_text.get(text) or self._pair_of(text)
        self.follow_pair(found, row, int(column[0]), (column[1], column[2]), column[8], reply)

    def follow_pair(self, found: Way, row: int, moment: int, place: Crossing, flags: str, reply: Reply) -> None:
        """As `follow`, where it is known between which ends it goes, and whether the source is the lower one; `place`
        is its direction and its interface. On either interface of its way it is as a packet of its own."""
        if not self._has_routes and reply.onward is None:
            self._follow_leg(found, row, moment, place, flags, reply)
            return
        key, is_low = found[0].key, found[1]
        source, target = (key[1], key[3]) if is_low else (key[3], key[1])
        for it in self._legs.of(place, source, target, flags, reply):
            self._follow_leg(found, row, moment, it.place, it.flags, it.reply)

    def _follow_leg(self, found: Way, row: int, moment: int, place: Crossing, flags: str, reply: Reply) -> None:
        """A packet on one interface."""
        pair, is_low = found
        flow, word = pair.flow, reply.word
        side = (place[0] == "in") is is_low
        is_proxied = word == "proxy" and may_be_made(place[0], flags)
        # by a SYN, or by a packet that brought a cookie
        is_made = is_proxied or word == "proxy" and place[0] == "in" and side not in pair.states
        if word not in ("state", "proxy", "cookie") or is_made or flow and flow.is_made_by(side, word, is_low):
            self._note_state(pair, side, reply, is_low)
        elif word == "state" and flow is not None and flow.is_answered and "S" not in flags:
            # most records: a later packet of a connection that is served
            flow.seen = moment
            if flow.state == "open" and pair.is_tcp and ("F" in flags or "R" in flags):
                flow.state = "closed"
            return
        if pair.is_tcp:
            is_first = "S" in flags and "A" not in flags
        else:
            is_first = flow is None or word != "state" and moment - flow.seen >= ANOTHER
        if flow is None or is_first and (flow.is_over(moment, word) or self._is_of_other(flow, is_low)):
            flow = self._begin(pair, is_low, row, moment, is_first, reply, place)
            if flow.is_counted:
                self._count_begun(place[0], pair.key[4] if is_low else pair.key[2])
        else:
            flow.seen = moment
            if flow.state == "open" and flow.is_beside(side, word, is_low == flow.is_low):
                return
            if flow.state == "open":
                self._go_on(pair, flow, reply, place, flags, is_first, is_low)
            elif is_low == flow.is_low and word not in BAD and self._is_tried_again(pair, flow, is_first):
                flow.open_again(moment)
        if flow.state == "open":
            if is_proxied or word == "cookie" and is_low == flow.is_low:
                flow.answer_itself(side, word)
            if not flow.is_greeted and is_low == flow.is_low and place not in flow.places:
                flow.places += (place,)
        else:
            flow.is_lost = word in BAD and pair.is_tcp and not pair.states

    def take_kill(self, row: int, reply: Reply, column: Sequence[str]) -> None:
        """A record was answered by a kill of states, by a limit or by an administrator; of another nothing changes."""
        if reply.is_order:
            self.remove(row, int(column[0]), column[4], column[6], reply.killed)
        elif reply.is_kill:
            self.kill(row, int(column[0]), column[4], reply, is_in=column[1] == "in")

    def kill(self, row: int, moment: int, source: str, reply: Reply, *, is_in: bool) -> None:
        """A record of a source, in or out, was answered by a kill: other states of it may be gone, and it may be in a
        table now."""
        place = ("in" if is_in else "out", "")
        for it in self._legs.of(place, source, "", "", reply):
            if it.reply.word.startswith("kill:"):
                self._kill(row, moment, self.members.name(source), it.reply, is_in=it.place[0] == "in")

    def _kill(self, row: int, moment: int, source: str, reply: Reply, *, is_in: bool) -> None:
        """The same of a packet on one interface, whose source has one text."""
        if reply.overload in ("added", "held") and self.members.has(source):
            if reply.overload == "added" or source not in self._entered:
                self._entered[source] = Entering(moment, reply.word, reply.rule)
        is_global = self._flush_of(reply, source)
        if is_global is None:
            return
        # all of them are gone now: those that are held are flushed, and the others had run out
        flushed = [
            State(pair, side)
            for pair in self._of_address.get(source, ())
            for side, (rule, of) in pair.states.items()
            if self._is_beside(pair, side, of, source, is_in) and (is_global or rule == reply.rule)
        ]
        # of who is no user other states may be held, which are not followed
        is_whole = self.members.has(source) and source not in self._blurred
        self._lose("killed", flushed, self._held(row, moment, flushed, reply.killed - 1, is_whole))

    def remove(self, row: int, moment: int, source: str, target: str, count: int) -> None:
        """A record of an administrator took out so many states: those that `source` made, for `target` or any. Texts
        that are no networks are of no replay, and take out none."""
        try:
            makers, targets = network_of(source), network_of(target) if target else None
        except ValueError:
            return
        removed = list(self._made_by(makers, targets))
        is_whole = any(is_within(it, self._users) for it in (makers, targets) if it is not None)
        is_whole = is_whole and not any(self._is_in(it, makers) for it in self._blurred)
        self._lose(REMOVED, removed, self._held(row, moment, removed, count, is_whole))

    def _made_by(self, makers: Network, targets: Network | None) -> Iterator[State]:
        """The states that may be held, by who sent their first packet and to whom."""
        one = str(makers.network_address) if makers.num_addresses == 1 else None
        for maker in [one] if one else [it for it in self._of_address if self._is_in(it, makers)]:
            for pair in self._of_address.get(maker, ()):
                target = pair.key[3] if pair.key[1] == maker else pair.key[1]
                if targets is None or self._is_in(target, targets):
                    yield from (State(pair, side) for side, (_, of) in pair.states.items() if of == maker)

    def _is_in(self, address: str, network: Network) -> bool:
        """Whether a network has an address; no text that is none is in it."""
        try:
            return ipaddress.ip_address(address) in network
        except ValueError:
            return False

    def _lose(self, outcome: str, states: Sequence[State], held: Sequence[State]) -> None:
        """States are gone: those that were held by a kill, which is what becomes of their connections, and the others
        had run out."""
        for state in held:
            if state.pair.flow and state.pair.flow.state == "open":
                state.pair.flow.state = outcome
        for state in states:
            self._drop(state.pair, state.side)

    def so_far(self) -> Counter[str]:
        """What became of the connections, with those that are not over as they are now."""
        going_on = ((it, it.flow) for it in self._pairs.values())
        return self.outcomes + Counter(
            flow.outcome(pair, self.last) for pair, flow in going_on if flow and flow.is_counted
        )

    @property
    def refused_by(self) -> Counter[str]:
        """The connections that were refused, by the word."""
        found: Counter[str] = Counter()
        for refusal in self.refusals.values():
            found[refusal.word] += refusal.connections
        return found

    def finish(self) -> None:
        """Counts the connections that are still there at the end of the trace."""
        for pair in self._pairs.values():
            self._end(pair)
        self._pairs.clear()
        self._by_text.clear()
        self._of_address.clear()

    def _pair_of(self, text: Key) -> Way:
        """The ends of a record, and whether its source is the lower one. Ports and addresses may be written in several
        ways."""
        protocol, source, port, target, target_port = text
        if protocol != "tcp":
            protocol = protocol.lstrip("0")
            protocol = _NAMES.get(protocol, protocol)
        if ":" in source:
            source, target = self.members.name(source), self.members.name(target)
        if port[:1] == "0" or target_port[:1] == "0":
            port, target_port = port.lstrip("0") or port[:1], target_port.lstrip("0") or target_port[:1]
        name, source, port, target, target_port = map(intern, (protocol, source, port, target, target_port))
        is_low = (source, port) < (target, target_port)
        key = (name, source, port, target, target_port) if is_low else (name, target, target_port, source, port)
        pair = self._pairs.get(key)
        if pair is None:
            pair = self._pairs[key] = _Pair(key, name == "tcp", name == "udp")
            if len(self._pairs) > self._most:
                self._forget(pair)
            # how most records write it, in both directions
            other = (name, target, target_port, source, port) if is_low else (name, source, port, target, target_port)
            self._by_text[key], self._by_text[other] = (pair, True), (pair, False)
            pair.texts += (key, other)
        found = self._by_text.get(text)
        if found is None:
            pair.texts.append(text)
            found = self._by_text[text] = (pair, is_low)
        return found

    def _count_begun(self, direction: str, port: str) -> None:
        if len(self.begun) < PORTS or (direction, port) in self.begun:
            self.begun[direction, port] += 1

    def _begin(
        self, pair: _Pair, is_low: bool, row: int, moment: int, is_first: bool, reply: Reply, place: Crossing
    ) -> _Connection:
        """A packet that is of no connection before: it begins one, or is of one whose beginning is not known."""
        self._end(pair)
        source = pair.key[1] if is_low else pair.key[3]
        is_counted = is_first and self.members.has(source)
        flow = pair.flow = _Connection(moment, row, moment, moment, "open" if is_first else "stray", is_low, is_counted)
        if not is_first:
            self.without_beginning += 1
        elif not is_counted:
            self.begun_by_others += 1
        if is_first and reply.word in BAD:
            self._refuse(pair, flow, reply, place)
        return flow

    def _is_of_other(self, flow: _Connection, is_low: bool) -> bool:
        """Whether a SYN is of the end that did not begin a connection which has been let in and is lost."""
        return is_low != flow.is_low and flow.state in LOST

    def _is_tried_again(self, pair: _Pair, flow: _Connection, is_first: bool) -> bool:
        """Whether a packet of who began a connection that is not open tries it again."""
        if pair.is_tcp:
            return is_first and flow.state in ("refused", *LOST)
        return flow.state == "refused"

    def _refuse(self, pair: _Pair, flow: _Connection, reply: Reply, place: Crossing) -> None:
        flow.state = "refused"
        flow.refusal = (reply.word, reply.rule, *(place if self._has_routes else ("", "")))
        source = pair.key[1] if flow.is_low else pair.key[3]
        flow.entering = self._entered.get(source) if reply.word == "block" else None

    def _go_on(
        self,
        pair: _Pair,
        flow: _Connection,
        reply: Reply,
        place: Crossing,
        flags: str,
        is_first: bool,
        is_low: bool,
    ) -> None:
        """A packet of a connection that is open; `is_low` is one from the lower end, `is_first` a SYN that may begin
        one."""
        from_beginner, side = is_low == flow.is_low, (place[0] == "in") is is_low
        if reply.word in BAD:
            is_at_begin = from_beginner and not flow.is_greeted and (is_first or not pair.is_tcp)
            is_without_state = flow.has_cookie and from_beginner and side is flow.proxied
            # pf's own SYN to the server, behind a handshake that it led itself
            is_own = flow.proxied is not None and from_beginner and side is not flow.proxied and is_first
            if is_without_state or (is_own or is_at_begin) and place not in flow.places:
                self._refuse(pair, flow, reply, place)
            else:
                flow.state = "cut"
        elif reply.word.startswith("kill:"):
            # its handshake was done by this packet, or before
            flow.is_answered = flow.is_answered or from_beginner and flow.is_greeted and not is_first
            flow.state = "killed"
        elif flow.waits_for_server(side, reply.word):
            flow.take_proxied(side, reply.word, flags, from_beginner)
        elif not from_beginner:
            if not pair.is_tcp or "S" in flags and "A" in flags:
                flow.is_greeted = True
        elif flow.is_greeted and not is_first:
            flow.is_answered = True
        if pair.is_tcp and flow.state == "open" and ("F" in flags or "R" in flags):
            flow.state = "closed"

    def _note_state(self, pair: _Pair, side: bool, reply: Reply, is_low: bool) -> None:
        """What a packet says of its state that is of none yet, or was killed: by which rule it is made, and for which
        source it counts; else it is not held."""
        if reply.word in ("new", "proxy"):
            source = pair.key[1] if is_low else pair.key[3]
            if side in pair.states:
                self._drop(pair, side)
            pair.states[side] = (reply.rule, source)
            for it in self._addresses_of(pair, source):
                self._of_address.setdefault(it, {})[pair] = None
        elif side in pair.states:
            self._drop(pair, side)

    def _drop(self, pair: _Pair, side: bool) -> None:
        """A state is not held any more."""
        _, source = pair.states.pop(side)
        left = {it for _, of in pair.states.values() for it in self._addresses_of(pair, of)}
        for it in self._addresses_of(pair, source):
            there = self._of_address.get(it) if it not in left else None
            if there is not None:
                there.pop(pair, None)
                if not there:
                    del self._of_address[it]

    @property
    def _goes_by_ends(self) -> bool:
        return self._flushes is not None and self._flushes.go_by_ends

    def _addresses_of(self, pair: _Pair, source: str) -> tuple[str, ...]:
        """The addresses whose kills may flush a state that a source made."""
        return (pair.key[1], pair.key[3]) if self._goes_by_ends else (source,)

    def _is_beside(self, pair: _Pair, side: bool, made_by: str, source: str, is_in: bool) -> bool:
        """Whether a state is one of those of a source that a flush takes (pf.conf(5), "flush"; `is_beside` in
        docs/DEFINITIONS.md). The first packet of the state past the limit went in or out."""
        if self._goes_by_ends:
            return pair.key[1 if side is is_in else 3] == source
        return made_by == source

    def _flush_of(self, reply: Reply, source: str) -> bool | None:
        """Whether a kill takes the states of the source by all rules (True) or by its own rule (False); None where it
        takes no other."""
        if self._flushes is not None:
            return self._flushes.rules.get(reply.rule)
        if reply.killed < 2:
            return None
        mine = sum(
            of == source and rule == reply.rule
            for pair in self._of_address.get(source, ())
            for rule, of in pair.states.values()
        )
        return mine < reply.killed - 1

    def _held(
        self, row: int, moment: int, flushed: Sequence[State], count: int, is_whole: bool
    ) -> Sequence[State]:
        """Those of some states that are held before the kill of a row, which took so many of them; `is_whole` says
        that it could take no others."""
        if not count or not flushed:
            return ()
        if len(flushed) <= count and is_whole:
            return flushed
        if self._holding is not None:
            asked = {it.text: it for it in flushed}
            held = self._holding.held(row, moment, asked)
            if held is not None:
                return [asked[it] for it in held if it in asked]
        self.kills_guessed += 1
        return sorted(flushed, key=lambda it: -it.pair.flow.seen if it.pair.flow else 0)[:count]

    def _end(self, pair: _Pair) -> None:
        """Counts the connection between two ends, if there is one to be counted."""
        flow = pair.flow
        if flow is None or not flow.is_counted:
            return
        outcome = flow.outcome(pair, self.last)
        self.outcomes[outcome] += 1
        if outcome == "refused":
            refusal = self.refusals.get(flow.refusal)
            if refusal is None:
                word, rule, way, interface = flow.refusal
                refusal = self.refusals[flow.refusal] = Refusal(word, rule, way=way, interface=interface)
            refusal.add(flow.entering)
        self._hear(flow.begin, outcome)
        if self._ended:
            protocol, low, low_port, high, high_port = pair.key
            key = pair.key if flow.is_low else (protocol, high, high_port, low, low_port)
            self._ended(key, flow.first, outcome)

    def _forget(self, but: _Pair) -> None:
        """Counts the older of the connections that are over, and lets them go; of many that are open, the quietest."""
        found = [(it.flow.seen, it.flow.first, it) for it in self._pairs.values() if it.flow and it is not but]
        over = [it for it in found if it[2].flow and it[2].flow.state != "open"]
        self._let_go(over, self._remembered)
        if self._most_open is not None and len(self._pairs) > self._most_open:
            going_on = [it for it in found if it[2].flow and it[2].flow.state == "open"]
            self.forgotten += self._let_go(going_on, self._most_open)
        self._most = 2 * self._remembered + len(self._pairs)

    def _let_go(self, found: list[tuple[int, int, _Pair]], most: int) -> int:
        """Counts connections and lets them go, but for so many of the last of them; and says how many went."""
        found.sort(key=lambda it: it[:2])
        going = found[: max(0, len(found) - most)]
        for _, _, pair in going:
            self._end(pair)
            del self._pairs[pair.key]
            for text in pair.texts:
                del self._by_text[text]
            for side, (_, source) in list(pair.states.items()):
                if self._holding is not None:
                    self._blurred.update(self._addresses_of(pair, source))
                self._drop(pair, side)
        return len(going)
