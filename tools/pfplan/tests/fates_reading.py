"""What becomes of connections, read slowly and apart from pfplan: over plain lists of packets, states, kills and
flushes.

Nothing of pfplan is used here. A report is a list of texts behind the rows' numbers, and a trace a list of records.
Which states are held before a flush, the machine itself says: a trace that ends before it is replayed with a packet of
each state that was ever made.
"""

import ipaddress
from collections.abc import Callable
from dataclasses import dataclass, field, replace

BLOCKED = (
    "block", "drop:cookie", "drop:translate", "drop:max", "drop:max-src-nodes", "drop:src-nodes", "drop:max-src-states",
    "drop:states", "drop:state-insert",
)  # fmt: skip
# what is put in place of the words of packets that brought a cookie: a state was made by it, or none was
REDEEMED, LOST = "redeemed", "lost"
End = tuple[str, str]


@dataclass(frozen=True)
class Packet:
    """A record of the trace with its answer. Addresses are in their one text."""

    row: int
    moment: int
    place: tuple[str, str]
    protocol: str
    source: End
    target: End
    flags: str
    word: str
    rule: str
    killed: int

    def way(self) -> tuple[End, End]:
        """Its ends by its direction: where packets come from that come in, and the other."""
        return (self.source, self.target) if self.place[0] == "in" else (self.target, self.source)

    def is_answered_by_pf(self) -> bool:
        """Whether it is a SYN that pf answers itself: a state is made, or is held; or a cookie is out."""
        return self.word in ("proxy", "cookie") and self.opens() and self.place[0] == "in"

    def opens(self) -> bool:
        """Whether it may begin a connection: a SYN without ACK, and of another protocol any packet."""
        return self.protocol != "tcp" or "S" in self.flags and "A" not in self.flags


@dataclass
class State:
    """A state that was made: the two ends by the direction of the packet that made it, its rule, and the source it
    counts for."""

    protocol: str
    inner: End
    outer: End
    rule: str
    source: str

    def packet(self, moment: int) -> str:
        """A record of a packet of it, without flags."""
        return f"{moment},in,em9,{self.protocol},{','.join((*self.inner, *self.outer))},"

    def destination(self) -> str:
        """The address to which the packet that made it went."""
        return self.outer[0] if self.inner[0] == self.source else self.inner[0]


@dataclass
class Connection:
    """The packets of one connection so far, since it was let in again where it was. `fate` is empty while it goes on;
    `first` has its first packet, and `seen` is the moment of its last."""

    packets: list[Packet]
    is_counted: bool
    seen: int
    first: list[Packet]
    fate: str = ""
    cookie: tuple[End, End] | None = None

    def plainly(self, packet: Packet) -> Packet | None:
        """A packet, with the word that says what it is where a cookie is out, that is where its connection has no state
        yet; None for one that changes nothing. The cookie is of packets from its first end to the second."""
        is_mine = packet.source == self.packets[0].source
        if packet.word == "cookie":
            is_new = self.cookie is not None or is_refused(self.packets) or packet is self.packets[0]
            if not (is_new and is_mine):
                return None
            self.cookie = packet.way()
        elif self.cookie == packet.way() and not is_refused(self.packets):
            if packet.word in BLOCKED:
                return replace(packet, word=LOST) if is_mine else None
            if packet.word == "proxy" and not is_mine:
                return packet
            if not is_mine and packet.word != "state" and not packet.word.startswith("kill:"):
                return None
            self.cookie = None
            if packet.word == "proxy" and not packet.is_answered_by_pf():
                return replace(packet, word=REDEEMED)
        return packet

    def ends(self) -> set[End]:
        """Its two ends."""
        return {self.packets[0].source, self.packets[0].target}


@dataclass
class Reading:
    """Reads a trace with its report. `flushes` has the rules that flush, by `@N`, with `rule` or `global`. `replay`
    answers the texts of the report of some records. The report is of pf's machine, or of pfsrc's own."""

    users: list[str]
    flushes: dict[str, str]
    replay: Callable[[list[str]], list[str]]
    is_of_pf: bool = False
    connections: list[Connection] = field(default_factory=list)
    states: list[State] = field(default_factory=list)
    last: int = 0

    def read(self, records: list[str], texts: list[str]) -> list[tuple[tuple[str, ...], int, str]]:
        """Each connection of a user: protocol and ends with who began it first, the row of its first packet, and its
        fate."""
        for row, (record, text) in enumerate(zip(records, texts, strict=True), 1):
            if record.split(",")[1] == "kill":
                self.last = int(record.split(",")[0])
                self.take_out(record.split(","), int(text.partition("killed=")[2]), records[: row - 1])
                continue
            packet = packet_of(row, record, text)
            self.last = packet.moment
            if packet.word != "skip":
                self.take(packet, records[: row - 1])
        found = []
        for it in self.connections:
            first = it.first[0]
            if it.is_counted:
                found.append(
                    ((first.protocol, *first.source, *first.target), first.row, it.fate or self.fate_at_end(it))
                )
        return sorted(found)

    def is_user(self, end: End) -> bool:
        """Whether an end is one of a user."""
        return any(ipaddress.ip_address(end[0]) in ipaddress.ip_network(it) for it in self.users)

    def latest(self, packet: Packet) -> Connection | None:
        """The latest connection between the ends of a packet."""
        same = [
            it
            for it in self.connections
            if it.packets[0].protocol == packet.protocol and it.ends() == {packet.source, packet.target}
        ]
        return same[-1] if same else None

    def take(self, packet: Packet, before: list[str]) -> None:
        """A packet, after all those before it."""
        if self.is_user(packet.source) or self.is_user(packet.target):
            self.follow(packet)
        self.change_states(packet, before)

    def follow(self, packet: Packet) -> None:
        """Puts a packet to its connection, or begins one, and notes a fate that is certain by now."""
        connection = self.latest(packet)
        if connection is None or packet.opens() and is_another(connection, packet):
            if connection is not None:
                connection.fate = connection.fate or self.fate_at_end(connection)
            is_begun = packet.opens()
            counted = is_begun and self.is_user(packet.source)
            packets = [packet]
            self.connections.append(Connection(packets, counted, packet.moment, packets, "" if is_begun else "stray"))
            self.connections[-1].plainly(packet)
            return
        connection.seen = packet.moment
        is_again = packet.protocol == "tcp" and packet.opens() and packet.source == connection.packets[0].source
        if connection.fate in ("killed", "cut", "removed") and is_again and packet.word not in BLOCKED:
            # it is tried again: what counts begins anew
            connection.fate, connection.packets, connection.cookie = "", [packet], None
            connection.plainly(packet)
        elif not connection.fate:
            told = connection.plainly(packet)
            if told is not None:
                connection.packets.append(told)
                connection.fate = fate_after(connection.packets)

    def fate_at_end(self, connection: Connection) -> str:
        """What became of a connection that goes on at the end of the trace."""
        if is_refused(connection.packets):
            return "refused"
        first = connection.packets[0]
        through = [it for at, it in enumerate(connection.packets) if not is_refused(connection.packets[: at + 1])]
        if first.protocol == "udp" and any(greets(it, first) for it in through):
            return "served"
        if first.protocol not in ("tcp", "udp") or is_answered(connection.packets):
            return "served"
        return "late" if self.last - let_in(connection.packets).moment < 3 else "unanswered"

    def held(self, moment: int, before: list[str]) -> list[State]:
        """The states that are held after some records, at a moment: the machine answers a packet of each that was ever
        made."""
        packets = [it.packet(moment) for it in self.states]
        said = self.replay(before + packets)[len(before) :]
        return [it for it, text in zip(self.states, said, strict=True) if text.split(" ")[0] in ("state", "proxy")]

    def change_states(self, packet: Packet, before: list[str]) -> None:
        """What a packet does to the states that are held; connections whose states are flushed are killed."""
        inner, outer = packet.way()
        mine = [it for it in self.states if (it.protocol, it.inner, it.outer) == (packet.protocol, inner, outer)]
        # what brings a cookie makes the state: it may have been taken for made at the SYN, and killed since
        is_redeemed = packet.word == "proxy" and packet.place[0] == "in" and all(it.rule == "-" for it in mine)
        if packet.word == "new" or packet.is_answered_by_pf() or is_redeemed:
            self.states = [it for it in self.states if it not in mine] + [
                State(packet.protocol, inner, outer, packet.rule, packet.source[0])
            ]
        if not packet.word.startswith("kill:"):
            return
        flush = self.flushes.get(packet.rule, "")
        gone = list(mine)
        if flush and packet.killed > 1:
            gone += [
                it
                for it in self.held(packet.moment, before)
                if it not in mine and self.is_beside(it, packet) and (flush == "global" or it.rule == packet.rule)
            ]
        assert len(gone) == packet.killed, (packet, gone)
        self.lose(gone, "killed")

    def take_out(self, column: list[str], count: int, before: list[str]) -> None:
        """An administrator's kill of states, by who made them and for whom."""
        gone = [
            it
            for it in self.held(int(column[0]), before)
            if is_in(it.source, column[4]) and (not column[6] or is_in(it.destination(), column[6]))
        ]
        assert len(gone) == count, (column, gone)
        self.lose(gone, "removed")

    def lose(self, gone: list[State], fate: str) -> None:
        """States are gone, and connections that had one and go on have this fate."""
        self.states = [it for it in self.states if it not in gone]
        for connection in self.connections:
            protocol, ends = connection.packets[0].protocol, connection.ends()
            is_hit = any(it.protocol == protocol and {it.inner, it.outer} == ends for it in gone)
            if is_hit and not connection.fate and not is_refused(connection.packets):
                connection.fate = fate

    def is_beside(self, state: State, packet: Packet) -> bool:
        """Whether a flush at this packet may take a state: one that the packet's source made; in pf one whose end on
        the side from which the packet came is that source."""
        end = state.inner if packet.place[0] == "in" else state.outer
        return end[0] == packet.source[0] if self.is_of_pf else state.source == packet.source[0]


def is_in(address: str, network: str) -> bool:
    """Whether a network has an address."""
    return ipaddress.ip_address(address) in ipaddress.ip_network(network, strict=False)


def packet_of(row: int, record: str, text: str) -> Packet:
    """A record and its answer, taken apart."""
    column = record.split(",")
    word, rule, *more = text.split(" ")
    ends = [
        ("" if not address else str(ipaddress.ip_address(address)), str(int(port)))
        for address, port in (column[4:6], column[6:8])
    ]
    killed = int(more[1].removeprefix("killed=")) if word.startswith("kill:") else 0
    return Packet(
        row, int(column[0]), (column[1], column[2]), column[3], ends[0], ends[1], column[8], word, rule, killed
    )


def is_another(connection: Connection, packet: Packet) -> bool:
    """Whether a SYN between the ends of a connection, or a packet of UDP, is none of it."""
    if packet.protocol != "tcp":
        return packet.word != "state" and packet.moment - connection.seen >= 240
    packets, fate = connection.packets, connection.fate
    if fate not in ("", "killed", "cut", "removed") or packet.moment - connection.seen >= 240:
        return True
    if fate and packet.source != packets[0].source:
        return True
    return is_answered(packets) and (bool(fate) or packet.word != "state")


def let_in(packets: list[Packet]) -> Packet:
    """The packet that let a connection in which is not refused: its first, or the first that went through after it
    was refused."""
    refused = [at for at in range(len(packets)) if is_refused(packets[: at + 1])]
    return packets[refused[-1] + 1] if refused else packets[0]


def is_refused(packets: list[Packet]) -> bool:
    """Whether the connection is refused so far: the last of its opening packets at some place was, and no other went
    through there before.

    What comes of the opening packets alone is asked, and no more of them once an answer has come through.
    """
    refused = packets[0].word in BLOCKED
    through = [] if refused else [packets[0].place]
    is_greeted, asking = False, packets[0] if packets[0].is_answered_by_pf() else None
    for packet in packets[1:]:
        is_mine = packet.source == packets[0].source
        if packet.word == LOST:
            refused, is_greeted = True, False
            continue
        if is_mine and packet.opens() and not is_greeted:
            if packet.word in BLOCKED:
                refused = refused or packet.place not in through
            else:
                refused = False
        if not refused and packet.word not in BLOCKED:
            through += [packet.place] if is_mine else []
            is_greeted = is_greeted or asking is None and greets(packet, packets[0])
            asking = packet if is_mine and packet.is_answered_by_pf() else still_asking(asking, packet)
    return refused


def still_asking(syn: Packet | None, packet: Packet) -> Packet | None:
    """The SYN that pf has answered itself, while its client has not answered pf and its state is not gone. What a
    server says until then is no answer to it."""
    if syn is None or packet.source == syn.source and is_plain_ack(packet):
        return None
    is_gone = packet.way() == syn.way() and packet.word not in ("state", "proxy", "cookie", REDEEMED, LOST, *BLOCKED)
    return None if is_gone else syn


def greets(packet: Packet, first: Packet) -> bool:
    """Whether a packet that came through is the answer to the first one."""
    return packet.source != first.source and (packet.protocol != "tcp" or "S" in packet.flags and "A" in packet.flags)


def is_answered(packets: list[Packet]) -> bool:
    """Whether the handshake went through: an answer, and then a packet of who began that opens nothing. What comes
    while it is refused is none of it."""
    first = packets[0]
    packets = [it for at, it in enumerate(packets) if not is_refused(packets[: at + 1])]
    begun = [at for at, it in enumerate(packets) if it.is_answered_by_pf()]
    if begun:
        return begun[0] > 0 and is_answered(packets[: begun[0]]) or any(
            is_joined(packets[at:end]) for at, end in zip(begun, [*begun[1:], len(packets)])
        )
    after = [
        it
        for at, it in enumerate(packets)
        if any(greets(other, first) and other.word not in BLOCKED for other in packets[:at])
    ]
    return any(
        it.source == first.source and it.word not in BLOCKED and not (it.protocol == "tcp" and it.opens())
        for it in after
    )


def is_joined(packets: list[Packet]) -> bool:
    """Whether the server has answered behind a SYN that pf answered itself: its own SYN and ACK behind an ACK of the
    client, or a packet that goes through pf. The first packet is that SYN, and no other is."""
    syn = packets[0]
    mine = [it for it in packets if it.way() == syn.way()]
    known = ("state", "proxy", "cookie", REDEEMED, LOST, *BLOCKED)
    others = [at for at, it in enumerate(mine) if it.word not in known]
    if others and not mine[others[0]].word.startswith("kill:"):
        # its state is gone: what comes then is as of a connection without pf
        return is_joined(mine[: others[0]]) or is_plainly_answered(packets, packets.index(mine[others[0]]))
    acks = [at for at, it in enumerate(mine) if it.source == syn.source and is_plain_ack(it)]
    return any(
        it.word == "state" or it.word == "proxy" and greets(it, syn) and any(ack < at for ack in acks)
        for at, it in enumerate(mine)
    )


def is_plainly_answered(packets: list[Packet], begin: int) -> bool:
    """Whether from a place on an answer comes, or came before by an ACK to pf, and then a packet of who began."""
    syn = packets[0]
    is_greeted = any(
        is_plain_ack(it) and it.source == syn.source and it.way() == syn.way()
        for it in packets[:begin]
    )
    for packet in packets[begin:]:
        if packet.word in BLOCKED:
            continue
        if packet.source == syn.source and is_greeted and not packet.opens():
            return True
        is_greeted = is_greeted or greets(packet, syn)
    return False


def is_plain_ack(packet: Packet) -> bool:
    """Whether a packet that pf took has ACK, and neither SYN, FIN nor RST; or brought a cookie."""
    is_plain = "A" in packet.flags and not set("SFR") & set(packet.flags)
    return packet.word == REDEEMED or packet.word == "proxy" and is_plain


def fate_after(packets: list[Packet]) -> str:
    """The fate that the last packet seals, or nothing. `packets` are those up to it, and none before it has sealed
    one."""
    last = packets[-1]
    if is_refused(packets[:-1]) or is_refused(packets):
        return ""
    if last.word.startswith("kill:"):
        return "killed"
    if last.word in BLOCKED:
        return "cut"
    if last.protocol == "tcp" and ("F" in last.flags or "R" in last.flags):
        return "served" if is_answered(packets) else "unanswered"
    return ""
