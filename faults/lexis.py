"""A reading of rules texts by their tokens alone, and of traces by their records, written from docs/FORMATS.md and not from the program."""
import csv
import io
import re
from dataclasses import dataclass
from typing import AbstractSet, List, Optional, Set, Tuple

SINGLE = b"{}()<>,!="
HEADER = [b"time", b"dir", b"if", b"proto", b"src", b"sport", b"dst", b"dport", b"flags"]
TOKEN_KINDS = {"Syntax", "Unsupported", "Number", "Duplicate"}
RULE_KINDS = {
    "GlobalConn", "GlobalRetention", "OverloadAlone", "AdaptivePair", "PortWithoutProto", "StateOnBlock", "TooDeep", "TooManyRules", "ConstOverload",
    "NeedsProfile", "CookiePair", "TranslationWithoutWay", "TranslationFamily",
}
TEXT_KINDS = {"AdaptivePair", "TooManyTables", "NeedsProfile", "TooManyEntries"}
# What an administrator does, and the columns that say with what; the others are empty.
COMMANDS = {b"expire": (3, 6), b"add": (3, 5), b"delete": (3, 5), b"kill": (5, 7), b"held": ()}


@dataclass(frozen=True)
class Token:
    """A token: its bytes, a line feed for a line end; its line, from 1; and where it ends."""

    text: bytes
    line: int
    end: int

    def is_end(self) -> bool:
        return self.text == b"\n"


def is_word_byte(byte: int) -> bool:
    return 0x21 <= byte <= 0x7E and byte not in SINGLE + b'#"\\'


def end_of_token(text: bytes, at: int) -> int:
    """Where the token ends that begins here."""
    if text[at : at + 1] == b'"':
        closed = re.match(rb'"[^"\n]*"', text[at:])
        return at + (closed.end() if closed else 1)
    end = at
    while end < len(text) and is_word_byte(text[end]):
        end += 1
    return max(end, at + 1)


def tokens_of(text: bytes) -> List[Token]:
    """The tokens of a rules text, but for those that its end makes."""
    found, at, line = [], 0, 1
    while at < len(text):
        byte = text[at : at + 1]
        if byte in (b" ", b"\t", b"\r"):
            at += 1
        elif byte == b"#":
            at = text.find(b"\n", at) if b"\n" in text[at:] else len(text)
        elif text[at : at + 2] == b"\\\n":
            at, line = at + 2, line + 1
        elif byte == b"\n":
            at += 1
            found.append(Token(b"\n", line, at))
            line += 1
        else:
            end = end_of_token(text, at)
            found.append(Token(text[at:end], line, end))
            at = end
    return found


def last_word(tokens: List[Token]) -> Optional[Token]:
    """The last token that is no line end."""
    words = [it for it in tokens if not it.is_end()]
    return words[-1] if words else None


def first_lines(tokens: List[Token]) -> Set[int]:
    """The lines of the tokens with which statements may begin."""
    lines, is_first = set(), True
    for token in tokens:
        if is_first and not token.is_end():
            lines.add(token.line)
        is_first = token.is_end() or token.text == b"}"
    return lines


def depth(tokens: List[Token]) -> int:
    """How many braces and parentheses are open."""
    return sum((it.text in (b"{", b"(")) - (it.text in (b"}", b")")) for it in tokens)


def read_fault(err: bytes) -> Optional[Tuple[int, str]]:
    """The line and the kind of a fault in rules."""
    told = re.fullmatch(rb"rules: line (\d+): (\w+)\n", err)
    return (int(told[1]), told[2].decode()) if told else None


def why_no_fault(text: bytes, line: int, kind: str) -> str:
    """Why a text can't have this fault, or nothing: the line is one that the text has, and fits the kind."""
    tokens, last = tokens_of(text), text.count(b"\n") + 1
    if kind in TOKEN_KINDS:
        return "" if 1 <= line <= last else "a line that the text has not"
    if kind in TEXT_KINDS and line == 0:
        return ""
    if kind in RULE_KINDS:
        return "" if line in first_lines(tokens) else "a line with which no statement begins"
    return "no kind that this text can have"


# Of a trace.


def records_of(trace: bytes) -> List[List[bytes]]:
    """The records of a trace, as a reader of RFC 4180 with any number of fields reads them."""
    text = trace[3:] if trace.startswith(b"\xef\xbb\xbf") else trace
    lines = re.findall(r"[^\r\n]*(?:\r\n|\r|\n)|[^\r\n]+", text.decode("latin-1"))
    return [[it.encode("latin-1") for it in record] for record in csv.reader(lines) if record]


def is_number(field: bytes, most: int) -> bool:
    return re.fullmatch(rb"[0-9]{1,10}", field) is not None and int(field) <= most


def is_quad(field: bytes) -> bool:
    parts = field.split(b".")
    return len(parts) == 4 and all(re.fullmatch(rb"0|[1-9][0-9]{0,2}", it) and int(it) <= 255 for it in parts)


def is_groups(field: bytes) -> bool:
    """Eight groups of hexadecimal digits, or fewer around one `::`."""
    halves = [half.split(b":") if half else [] for half in field.split(b"::")]
    count = sum(len(half) for half in halves)
    fits = count == 8 if len(halves) == 1 else len(halves) == 2 and count < 8
    return fits and all(re.fullmatch(rb"[0-9A-Fa-f]{1,4}", it) for half in halves for it in half)


def family(field: bytes) -> Optional[int]:
    """4 or 6, of an address."""
    return 4 if is_quad(field) else 6 if is_groups(field) else None


def is_prefix(field: bytes) -> bool:
    """An address, or one with a length behind a slash."""
    address, slash, length = field.partition(b"/")
    most = {4: 32, 6: 128}.get(family(address) or 0, -1)
    is_length = re.fullmatch(rb"0|[1-9][0-9]{0,2}", length) is not None and int(length) <= most
    return most > 0 and (is_length if slash else True)


def is_entry(field: bytes) -> bool:
    """A prefix, directly behind a `!` where it is negated."""
    return is_prefix(field.removeprefix(b"!"))


def protocol(field: bytes) -> Optional[int]:
    named = {b"tcp": 6, b"udp": 17, b"icmp": 1, b"icmp6": 58, b"esp": 50, b"ah": 51, b"gre": 47}
    return named.get(field, int(field) if is_number(field, 255) else None)


def bad_field(record: List[bytes]) -> int:
    """The first field that is not accepted, from 1; 0 where all are."""
    accepted = accepted_of_command(record) if record[1] in COMMANDS else accepted_of_packet(record)
    return 0 if all(accepted) else accepted.index(False) + 1


def accepted_of_command(record: List[bytes]) -> List[bool]:
    """Of each field of an administrator's record, whether it is accepted."""
    fits = {
        3: re.fullmatch(rb"[A-Za-z0-9_.-]{1,31}", record[2]) is not None,
        5: is_prefix(record[4]) if record[1] == b"kill" else is_entry(record[4]),
        6: is_number(record[5], 4294967295),
        7: record[6] == b"" or is_prefix(record[6]),
    }
    asked = COMMANDS[record[1]]
    return [is_number(record[0], 4294967295), True] + [fits[it] if it in asked else record[it - 1] == b"" for it in range(3, 10)]


def accepted_of_packet(record: List[bytes]) -> List[bool]:
    """Of each field of a packet's record, whether it is accepted."""
    time, way, name, proto, src, sport, dst, dport, flags = record
    number = protocol(proto)

    def port(field: bytes) -> bool:
        return is_number(field, 65535) if number in (6, 17) else field == b""

    return [
        is_number(time, 4294967295),
        way in (b"in", b"out"),
        re.fullmatch(rb"[A-Za-z0-9_.-]{1,15}", name) is not None,
        number is not None,
        family(src) is not None,
        port(sport),
        family(dst) is not None and family(dst) == family(src),
        port(dport),
        re.fullmatch(rb"[FSRPAUEW]*" if number == 6 else rb"", flags) is not None,
    ]


def read_trace(trace: bytes, tables: AbstractSet[bytes] = frozenset()) -> Tuple[List[List[bytes]], str]:
    """The records before the first fault, and the fault, or nothing. An administrator may change these tables."""
    records = records_of(trace)
    if not records or records[0] != HEADER:
        return [], "trace: row 0: columns"
    good: List[List[bytes]] = []
    for row, record in enumerate(records[1:], 1):
        if len(record) != 9:
            return good, f"trace: row {row}: columns"
        if bad_field(record):
            return good, f"trace: row {row}: field {bad_field(record)}"
        if good and int(record[0]) < int(good[-1][0]):
            return good, f"trace: row {row}: time falls"
        if 3 in COMMANDS.get(record[1], ()) and record[2] not in tables:
            return good, f"trace: row {row}: table"
        good.append(record)
    return good, ""


def write_trace(records: List[List[bytes]]) -> bytes:
    """A plain trace of these records."""
    out = io.BytesIO()
    for record in [HEADER, *records]:
        out.write(b",".join(record) + b"\n")
    return out.getvalue()
