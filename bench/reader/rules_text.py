"""Reads a rules text that the program accepts. Of a text that it refuses it tells no fault: some it does not read, others it takes for what they say."""
from __future__ import annotations

import itertools
import re
from typing import Callable, Dict, FrozenSet, List, Optional, Tuple

from reader.configurations import LIMITS, TIMEOUTS, Anchor, Configuration, Cookies, Entry, Filter, Host, Item, Options, Rule, Translation
from reader.tokens import LINE_END, Tokens
from reader.values import TCP, UDP, BadText, address_of, flags_of, name_of, network_of, number_of, proto_of

MOST = 4294967295
PORTS = {"ssh": 22, "smtp": 25, "domain": 53, "www": 80, "http": 80, "https": 443}
WITHOUT_EFFECT = ["frag", "tcp.tsdiff", "icmp.first", "icmp.error"]
ADAPTIVE = ["adaptive.start", "adaptive.end"]
BLOCK_WORDS = ["drop", "return", "return-rst", "return-icmp", "return-icmp6"]


def rules_of(text: str) -> Configuration:
    """What a rules text says."""
    tokens = Tokens(text)
    said = Configuration()
    numbers = itertools.count()
    while tokens.next:
        if tokens.take("set"):
            read_setting(tokens, said)
        elif tokens.take("table"):
            read_table(tokens, said)
        elif not tokens.take(LINE_END):
            said.items.append(read_item(tokens, said, numbers.__next__))
    return said


def read_setting(tokens: Tokens, said: Configuration) -> None:
    """A statement behind `set`."""
    readers: Dict[str, Callable[[], None]] = {
        "limit": lambda: read_limit(tokens, said), "timeout": lambda: read_timeout(tokens, said.timeouts), "route": lambda: read_route(tokens, said),
    }
    name = tokens.expect("profile", "syncookies", *readers)
    if name == "profile":
        tokens.expect("openbsd-7.4")
        said.has_profile = True
    elif name == "syncookies":
        said.cookies = read_cookies(tokens)
    elif tokens.take("{"):
        tokens.listed("}", readers[name])
    else:
        readers[name]()
    tokens.expect(LINE_END)


def read_limit(tokens: Tokens, said: Configuration) -> None:
    name = tokens.expect(*LIMITS, "frags")
    value = tokens.number(1, MOST)
    if name in LIMITS:
        said.limits[name] = value


def read_timeout(tokens: Tokens, timeouts: Dict[str, int]) -> None:
    name = tokens.expect(*TIMEOUTS, *ADAPTIVE, *WITHOUT_EFFECT)
    value = tokens.number(1 if name == "interval" else 0, MOST if name in ADAPTIVE else 2147483647)
    if name not in WITHOUT_EFFECT:
        timeouts[name] = value


def read_route(tokens: Tokens, said: Configuration) -> None:
    network = tokens.value(network_of)
    said.routes[network] = tokens.value(interface_of)


def read_cookies(tokens: Tokens) -> Cookies:
    found = Cookies(tokens.expect("never", "always", "adaptive"))
    if found.mode == "adaptive" and tokens.take("("):
        tokens.expect("start")
        found.start = tokens.value(share_of)
        tokens.take(",")
        tokens.expect("end")
        found.end = tokens.value(share_of)
        tokens.expect(")")
    return found


def read_table(tokens: Tokens, said: Configuration) -> None:
    """The definition of a table."""
    name = read_table_name(tokens, said)
    entries = said.tables[name]

    def read_entry() -> None:
        negated = bool(tokens.take("!"))
        network = tokens.value(network_of)
        if not any(it.network == network for it in entries):
            entries.append(Entry(network, negated))

    while not tokens.take(LINE_END):
        if tokens.take("{"):
            tokens.listed("}", read_entry)
        elif tokens.expect("persist", "counters", "const") == "const":
            said.constant.append(name)


def read_table_name(tokens: Tokens, said: Configuration) -> str:
    """A table's name in its brackets. A table that is named is there, defined or not."""
    tokens.expect("<")
    name = tokens.value(lambda word: name_of(word, 31))
    tokens.expect(">")
    said.tables.setdefault(name, [])
    return name


def read_item(tokens: Tokens, said: Configuration, number: Callable[[], int]) -> Item:
    """A rule, or an anchor with its body."""
    if tokens.take("anchor"):
        return read_anchor(tokens, said, number)
    place = number()
    action = tokens.expect("pass", "block", "match")
    if action == "block":
        tokens.take(*BLOCK_WORDS)
    asks = Filter(direction=tokens.take("in", "out"))
    skip_log(tokens)
    quick = action != "match" and bool(tokens.take("quick"))
    skip_log(tokens)
    read_filter(tokens, said, asks)
    rule = Rule(place, action, quick, asks, "", Options())
    while not tokens.take(LINE_END):
        read_part(tokens, said, rule)
    if action == "pass":
        rule.state = rule.state or "keep"
    if asks.flags is None and rule.state in ("keep", "synproxy"):
        asks.flags = (frozenset("S"), frozenset("SA"))
    return rule


def read_anchor(tokens: Tokens, said: Configuration, number: Callable[[], int]) -> Anchor:
    """An anchor behind its first word."""
    place = number()
    if tokens.next not in ("in", "out", "quick", "on", "inet", "inet6", "proto", "from", "to", "all", "flags", "{"):
        tokens.word()
    asks = Filter(direction=tokens.take("in", "out"))
    quick = bool(tokens.take("quick"))
    read_filter(tokens, said, asks)
    if tokens.take("flags"):
        asks.flags = tokens.value(flag_test_of)
    tokens.expect("{")
    tokens.expect(LINE_END)
    body: List[Item] = []
    while not tokens.take("}"):
        if not tokens.take(LINE_END):
            body.append(read_item(tokens, said, number))
    tokens.expect(LINE_END)
    return Anchor(place, quick, asks, body)


def skip_log(tokens: Tokens) -> None:
    """Logging, which has no effect."""

    def skip_word() -> None:
        if tokens.expect("all", "matches", "user", "to") == "to":
            tokens.value(interface_of)

    if tokens.take("log") and tokens.take("("):
        tokens.listed(")", skip_word)


def read_filter(tokens: Tokens, said: Configuration, asks: Filter) -> None:
    """What an item asks between `quick` and its flags."""
    if tokens.take("on"):
        asks.not_interface = bool(tokens.take("!"))
        asks.interface = tokens.value(interface_of)
    family = tokens.take("inet", "inet6")
    asks.family = {"inet": 4, "inet6": 6}[family] if family else None
    if tokens.take("proto"):
        asks.proto = tokens.value(proto_of)
    if tokens.take("all"):
        return
    if tokens.take("from"):
        asks.source, asks.source_ports = read_side(tokens, said, asks)
    if tokens.take("to"):
        asks.destination, asks.destination_ports = read_side(tokens, said, asks)


def read_side(tokens: Tokens, said: Configuration, asks: Filter) -> Tuple[Host, Optional[Tuple[int, int]]]:
    """A host, with its ports."""
    host = Host() if tokens.next == "port" or tokens.take("any") else read_host(tokens, said)
    if not tokens.take("port"):
        return host, None
    if asks.proto not in (TCP, UDP):
        raise tokens.not_read()
    tokens.take("=")
    return host, tokens.value(ports_of)


def read_host(tokens: Tokens, said: Configuration) -> Host:
    negated = bool(tokens.take("!"))
    if tokens.next == "<":
        return Host(table=read_table_name(tokens, said), negated=negated)
    return Host(network=tokens.value(network_of), negated=negated)


def read_part(tokens: Tokens, said: Configuration, rule: Rule) -> None:
    """One of the parts that stand behind the hosts in any order."""
    negated = bool(tokens.take("!"))
    part = tokens.expect("tagged", "received-on") if negated else tokens.word()
    if part == "flags":
        rule.asks.flags = tokens.value(flag_test_of)
    elif part in ("no", "keep", "synproxy") and tokens.expect("state"):
        rule.state = part
        if part != "no" and tokens.take("("):
            tokens.listed(")", lambda: read_option(tokens, said, rule.options))
    elif part == "tag":
        rule.tag = tokens.word()
    elif part == "tagged":
        rule.asks.tagged, rule.asks.not_tagged = tokens.word(), negated
    elif part == "received-on":
        rule.asks.received, rule.asks.not_received = tokens.value(interface_of), negated
    else:
        read_translation(tokens, rule, part)


def read_translation(tokens: Tokens, rule: Rule, part: str) -> None:
    """`nat-to` or `rdr-to` behind its word; it gives its rule the family."""
    if part not in ("nat-to", "rdr-to"):
        tokens.place -= 1
        raise tokens.not_read()
    address = tokens.value(address_of)
    ports = (50001, 65535) if part == "nat-to" else None
    if part == "nat-to" and tokens.take("static-port"):
        ports = None
    elif tokens.take("port"):
        ports = tokens.value(ports_of)
    rule.asks.family = address.version
    if part == "nat-to":
        rule.nat_to = Translation(address, ports)
    else:
        rule.rdr_to = Translation(address, ports)


def read_option(tokens: Tokens, said: Configuration, options: Options) -> None:
    """An option of the state."""
    name = tokens.word()
    if name in ("floating", "no-sync"):
        return
    if name == "sloppy":
        options.sloppy = True
    elif name == "source-track":
        options.source_track = tokens.take("rule", "global") or ""
    elif name == "max-src-conn-rate":
        options.rate = tokens.value(rate_of)
    elif name == "overload":
        options.overload = read_table_name(tokens, said)
        if tokens.take("flush"):
            options.flush = "flush global" if tokens.take("global") else "flush"
    elif name in NUMBERS:
        setattr(options, NUMBERS[name], tokens.number(1, MOST))
    else:
        tokens.place -= 1
        read_timeout(tokens, options.timeouts)


NUMBERS = {"max": "maximum", "max-src-nodes": "max_src_nodes", "max-src-states": "max_src_states", "max-src-conn": "max_src_conn"}


def interface_of(text: str) -> str:
    if text in ("any", "rdomain"):
        raise BadText(text)
    return name_of(text, 15)


def share_of(text: str) -> int:
    if not text.endswith("%"):
        raise BadText(text)
    return number_of(text[:-1], 0, 100)


def port_of(text: str) -> int:
    return PORTS[text] if text in PORTS else number_of(text, 0, 65535)


def ports_of(text: str) -> Tuple[int, int]:
    """A port or a range of ports."""
    first, colon, last = text.partition(":")
    found = (port_of(first), port_of(last if colon else first))
    if found[0] > found[1]:
        raise BadText(text)
    return found


def rate_of(text: str) -> Tuple[int, int]:
    if not re.fullmatch("[0-9]+/[0-9]+", text):
        raise BadText(text)
    handshakes, seconds = text.split("/")
    return number_of(handshakes, 1, 4294967), number_of(seconds, 1, 2147483647)


def flag_test_of(text: str) -> Tuple[FrozenSet[str], FrozenSet[str]]:
    """What flags must be set, and of which; `any` asks nothing."""
    if text == "any":
        return frozenset(), frozenset()
    wanted, slash, asked = text.partition("/")
    if not slash or not asked:
        raise BadText(text)
    return flags_of(wanted), flags_of(asked)
