"""What the words of a report mean, in a sentence's half, and how a connection and a record are told."""

from collections.abc import Sequence

from pfplan.answers.connections import Key
from pfplan.traces.records import KILL, ONWARD, ORDERS, Record

WHY = {
    "state": "it belongs to a state that is held",
    "new": "the rule lets it through, and a state is made",
    "proxy": "pf answers it itself, or took it itself, until the server has answered (synproxy)",
    "cookie": "pf answers it with a SYN cookie, and keeps nothing else of it",
    "pass": "it passes, and no state is made",
    "block": "the rule blocks it",
    "skip": "ICMP is not answered",
    "drop:translate": "nat-to of the rule has no port left for this remote address and port",
    "drop:max": "the rule holds as many states as its max allows",
    "drop:max-src-nodes": "the rule has as many sources as its max-src-nodes allows, and this one is not among them",
    "drop:src-nodes": "there are as many sources as set limit src-nodes allows, and this one is not among them",
    "drop:max-src-states": "the source has as many states as max-src-states allows",
    "drop:states": "as many states are held as set limit states allows",
    "drop:state-insert": "no limit was met, but another state has a key of the new one",
    "drop:cookie": "it brought a SYN cookie, and no rule makes a state of it",
    "kill:max-src-conn": "the handshake took the source past max-src-conn",
    "kill:max-src-conn-rate": "the handshake took the source past max-src-conn-rate",
    "kill:max-src-conn+max-src-conn-rate": "the handshake took the source past max-src-conn and max-src-conn-rate",
    "expire": "old entries leave a table",
    "held": "it asks how much is held",
    "add": "an entry comes into a table",
    "delete": "an entry leaves a table",
    "kill": "an administrator takes out states",
}


def why(text: str) -> str:
    """Why a record got its answer: `drop:states @4` and so on; of two interfaces why on each."""
    return "; on its way out ".join(WHY.get(it.partition(" ")[0], "") for it in text.split(ONWARD))


def record_text(record: Record) -> str:
    """A record in one line: `in em0 tcp 198.51.100.7:40001 to 192.0.2.1:80 flags S`."""
    if record.direction == KILL:
        return f"kill the states made by {record.source}" + (f" to {record.target}" if record.target else "")
    if record.direction in ORDERS:
        return " ".join(it for it in (record.direction, record.interface, record.source, record.source_port) if it)
    ends = f"{end_text(record.source, record.source_port)} to {end_text(record.target, record.target_port)}"
    flags = f" flags {record.flags}" if record.flags else ""
    return f"{record.direction} {record.interface} {record.protocol} {ends}{flags}"


def connection_text(key: Key) -> str:
    """A connection: `tcp 198.51.100.7:40001 to 192.0.2.1:80`."""
    return f"{key[0]} {end_text(key[1], key[2])} to {end_text(key[3], key[4])}"


def end_text(address: str, port: str) -> str:
    """An address with its port; that of IPv6 in brackets."""
    if not port:
        return address
    return f"[{address}]:{port}" if ":" in address else f"{address}:{port}"


def letters(count: int) -> Sequence[str]:
    """Short names for rulesets: A, B .. Z, A2 .."""
    return [chr(ord("A") + at % 26) + (str(at // 26 + 1) if at >= 26 else "") for at in range(count)]
