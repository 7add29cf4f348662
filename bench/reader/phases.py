"""Where the two peers of a state are, and the timeout that goes with it."""
from __future__ import annotations

from typing import FrozenSet, Tuple

from reader.values import TCP, UDP

CLOSED, SYN_SENT, ESTABLISHED, CLOSING, FIN_WAIT_2, TIME_WAIT = 0, 2, 4, 7, 9, 10
# Above all ranks: the peer who made a state talks with pf.
PROXY_SRC, PROXY_DST = 11, 12
NONE, SINGLE, MULTIPLE = 0, 1, 2
Ranks = Tuple[int, int]


def first_phase(proto: int) -> Tuple[int, int, str]:
    """The ranks of the maker and of the other peer of a new state, and its timeout."""
    if proto == TCP:
        return SYN_SENT, CLOSED, "tcp.first"
    return SINGLE, NONE, "udp.first" if proto == UDP else "other.first"


def step_full(sender: int, receiver: int, flags: FrozenSet[str]) -> Tuple[Ranks, bool]:
    """A packet of TCP under the profile, where the rule isn't sloppy: the ranks after it, and whether it completes the handshake."""
    completes = False
    sender = max(sender, SYN_SENT)
    if "F" in flags:
        sender = max(sender, CLOSING)
    if "A" in flags and receiver == SYN_SENT:
        receiver = ESTABLISHED
        completes = sender == ESTABLISHED
    elif "A" in flags and receiver == CLOSING:
        receiver = FIN_WAIT_2
    if "R" in flags:
        return (TIME_WAIT, TIME_WAIT), completes
    return (sender, receiver), completes


def step_sloppy(sender: int, receiver: int, flags: FrozenSet[str], is_forward: bool) -> Tuple[Ranks, bool]:
    """A packet of TCP by the table of this program: the ranks after it, and whether it completes the handshake."""
    completes = False
    if "S" in flags:
        sender = max(sender, SYN_SENT)
    if "F" in flags:
        sender = max(sender, CLOSING)
    if "A" in flags:
        sender, receiver, completes = acknowledged(sender, receiver, is_forward)
    if "R" in flags:
        return (TIME_WAIT, TIME_WAIT), completes
    return (sender, receiver), completes


def acknowledged(sender: int, receiver: int, is_forward: bool) -> Tuple[int, int, bool]:
    """What an ACK does by that table: the first line that applies."""
    if receiver == SYN_SENT:
        return sender, ESTABLISHED, sender == ESTABLISHED
    if receiver == CLOSING:
        return sender, FIN_WAIT_2, False
    if sender == SYN_SENT and receiver < SYN_SENT:
        return ESTABLISHED, ESTABLISHED, True
    if sender == CLOSING and receiver == ESTABLISHED and is_forward:
        return sender, CLOSING, False
    return sender, receiver, False


def tcp_timeout(ranks: Ranks) -> str:
    """The timeout of a state of TCP: the first line that applies."""
    if min(ranks) >= FIN_WAIT_2:
        return "tcp.closed"
    if min(ranks) >= CLOSING:
        return "tcp.finwait"
    if min(ranks) < ESTABLISHED:
        return "tcp.opening"
    return "tcp.closing" if max(ranks) >= CLOSING else "tcp.established"


def step_other(proto: int, sender: int, receiver: int) -> Tuple[Ranks, str]:
    """A packet of another protocol: the ranks after it, and the timeout."""
    ranks = (max(sender, SINGLE), MULTIPLE if receiver == SINGLE else receiver)
    name = "multiple" if ranks == (MULTIPLE, MULTIPLE) else "single"
    return ranks, ("udp." if proto == UDP else "other.") + name
