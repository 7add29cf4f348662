"""Reads a scenario: a TOML file. Each mistake is told with the file, the line or the table, and what was wanted."""

from collections.abc import Mapping, Sequence
from pathlib import Path
from typing import Any

import tomllib

from pfplan.common.errors import Status, Trouble, reason_of
from pfplan.common.inputs import Kind, kind_of
from pfplan.common.networks import Network
from pfplan.common.visible import visible
from pfplan.plays import fields
from pfplan.plays.fields import (
    Field,
    Wanted,
    flag,
    interface,
    network,
    networks,
    one_of,
    rate,
    read_table,
    text,
    whole,
)
from pfplan.plays.model import (
    KINDS,
    Askers,
    Endpoint,
    Forgers,
    Forward,
    Group,
    Holders,
    Laid,
    Scenario,
    Visits,
)

MOST_BYTES = 1 << 20
MOST_PACKETS = 2_000_000_000  # of a flood over its whole time
_TIMES = (whole("begin", 0, fields.SECONDS, 0), whole("end", 0, fields.SECONDS, None))
_WAY = (interface("interface", None), whole("round_trip", 1, 900, 40))
_COMMON = (
    one_of("kind", KINDS),
    Field("to", lambda value: fields.strings(value, "the name of a server, or an address and a port"), None),
)
_TRIES = (whole("retries", 0, 20, 6), whole("patience", 1, 86400, 30))
_CROWD = (network("from"), whole("hosts", 1, fields.HOSTS))
_FORGED = (network("from"), whole("hosts", 0, fields.HOSTS, 0), rate("rate"))
OF_KIND: Mapping[str, tuple[Field, ...]] = {
    "visits": (
        *_CROWD,
        whole("people", 1, 1_000_000, None),
        whole("visits", 1, 100_000, 1),
        whole("every", 0, fields.SECONDS, 0),
        whole("parallel", 1, 100, 1),
        whole("requests", 0, 10_000, 3),
        whole("stay", 1, 86400, 60),
        whole("vanish", 0, 100, 0),
        *_TRIES,
        whole("reloads", 0, 100, 1),
        flag("users", True),
    ),
    "hold": (*_CROWD, rate("rate"), whole("every", 1, 86400, 10), *_TRIES, flag("users", False)),
    "connect": (*_CROWD, rate("rate"), *_TRIES, flag("users", False)),
    "syn": _FORGED,
    "udp": _FORGED,
    "query": (*_CROWD, rate("rate"), whole("again", 1, 3600, 5), whole("retries", 0, 20, 2), flag("users", False)),
    "trace": (text("file"), networks("inside")),
}
_WHOLE = (
    whole("seconds", 1, fields.SECONDS),
    whole("seed", 1, fields.MOST_SEED, 1),
    interface("interface", "em0"),
    whole("answer", 1, 900, 20),
    whole("wait", 0, 86400, 3),
    whole("backlog", 0, 1_000_000, 0),
)
_TABLES = ("server", "forward", "group")


def fields_of(kind: str) -> tuple[Field, ...]:
    """The words of a group of some kind."""
    return (*_COMMON, *_WAY, *_TIMES, *OF_KIND[kind])


def read_scenario(path: Path, numbers: Mapping[str, int] | None = None) -> Scenario:
    """The scenario of a file, with other values for some of its numbers (`botnet.rate`, `seconds`).

    Trouble with status 4 where the file can't be read, 1 where it is no scenario.
    """
    return scenario_of(read_tables(path), path, numbers)


def read_tables(path: Path) -> dict[str, Any]:
    """The tables of a file. Trouble as `read_scenario`."""
    kind = kind_of(path)
    if kind is not None and kind is not Kind.OTHER:
        raise Trouble(f"{path}: {kind.value}, where a scenario is wanted", Status.REFUSED)
    try:
        with open(path, "rb") as file:
            given = file.read(MOST_BYTES + 1)
        if len(given) > MOST_BYTES:
            raise Trouble(f"{path}: more than {MOST_BYTES} bytes, where a scenario is wanted", Status.REFUSED)
        return tomllib.loads(given.decode("utf-8"))
    except OSError as error:
        raise Trouble(f"{path}: can't be read: {reason_of(error)}", Status.FAILED) from None
    except UnicodeDecodeError:
        raise Trouble(f"{path}: no UTF-8, which TOML is", Status.REFUSED) from None
    except tomllib.TOMLDecodeError as error:
        raise Trouble(f"{path}: no TOML: {visible(str(error))}", Status.REFUSED) from None
    except RecursionError:
        raise Trouble(f"{path}: no TOML: too deep", Status.REFUSED) from None
    except ValueError:
        raise Trouble(f"{path}: {fields.TOO_LONG}", Status.REFUSED) from None


def is_scenario(path: Path) -> bool:
    """Whether a file is meant as a scenario and not as a trace: by its name, or by what stands in it."""
    if path.suffix == ".toml":
        return True
    if kind_of(path) is not Kind.OTHER:  # (nor is it known of a pipe)
        return False
    try:
        with open(path, "rb") as file:
            begin = file.read(4096).decode("utf-8", "replace")
    except OSError:
        return False
    return any(
        line.split("=")[0].strip() in ("seconds", "server") or line.startswith(("[group.", "[server"))
        for line in begin.splitlines()
    )


def scenario_of(tables: Mapping[str, Any], path: Path, numbers: Mapping[str, int] | None = None) -> Scenario:
    """The scenario of a file's tables. Trouble with status 1 where they are none."""
    table = "the head"
    try:
        tables = _changed(tables, numbers or {})
        found = read_table(tables, _WHOLE, _TABLES)
        table = "server"
        servers = _servers(tables.get("server"))
        table = "forward"
        forward = _forward(tables.get("forward", {}))
        groups = []
        table = "group"
        given = tables.get("group", {})
        if not isinstance(given, dict) or not given:
            raise Wanted("a group is wanted, as [group.homes]")
        for name, words in given.items():
            table = f"group.{visible(name)}"
            groups.append(_group(name, words, found, servers, path))
    except Wanted as error:
        raise Trouble(f"{path}: {table}: {visible(str(error))}", Status.REFUSED) from None
    return Scenario(
        path.name,
        found["seconds"],
        found["seed"],
        found["interface"],
        forward,
        found["answer"],
        found["wait"],
        tuple(groups),
        found["backlog"],
    )


def numbers_of(tables: Mapping[str, Any]) -> dict[str, tuple[int, int]]:
    """The numbers of a scenario that can be moved, with their bounds: `seconds`, `botnet.rate`."""
    found = {it.name: (it.low, it.high) for it in _WHOLE if it.is_number}
    groups = tables.get("group", {})
    for name, words in groups.items() if isinstance(groups, dict) else ():
        if isinstance(words, dict) and words.get("kind") in KINDS:
            found.update({f"{name}.{it.name}": (it.low, it.high) for it in fields_of(words["kind"]) if it.is_number})
    return found


def value_of(tables: Mapping[str, Any], name: str) -> int:
    """The value of a number of `numbers_of` as it stands, rounded where it has decimals."""
    group, dot, word = name.rpartition(".")
    if not dot:
        known = {it.name: it.default for it in _WHOLE}
        return int(tables.get(word, known[word]))
    words = tables["group"][group]
    default = next(it.default for it in fields_of(words["kind"]) if it.name == word)
    value = words.get(word, default)
    return int(value) if isinstance(value, int | float) else 0


def _changed(tables: Mapping[str, Any], numbers: Mapping[str, int]) -> dict[str, Any]:
    """The tables with other values for some numbers."""
    found = dict(tables)
    for name, value in numbers.items():
        group, dot, word = name.rpartition(".")
        if not dot:
            found[word] = value
            continue
        groups = found.get("group")
        if not isinstance(groups, dict) or not isinstance(groups.get(group), dict):
            raise Wanted(f"no group is named '{group}'")
        found["group"] = {**groups, group: {**groups[group], word: value}}
    return found


def _servers(given: Any) -> dict[str, tuple[Endpoint, ...]]:
    """The servers by their names; `server` is the name of one that has none."""
    if given is None:
        raise Wanted('server is wanted, as server = "192.0.2.1:80"')
    named = given if isinstance(given, dict) else {"server": given}
    if not named:
        raise Wanted('a server is wanted, as web = "192.0.2.1:80"')
    found = {}
    for name, value in named.items():
        try:
            found[name] = tuple(
                fields.endpoint(it) for it in fields.strings(value, "an address and a port, or a list of these")
            )
        except Wanted as error:
            raise Wanted(f"{name}: wanted {error}") from None
    return found


def _forward(given: Any) -> Forward:
    """Which interface packets go out on, by the one they came in on or by the target's network."""
    if not isinstance(given, dict):
        raise Wanted('wanted a table, as { em0 = "em1" }')
    by_network: list[tuple[Network, str]] = []
    by_interface: dict[str, str] = {}
    name = interface("interface", None)
    for word, out in given.items():
        try:
            if "/" in word or ":" in word:
                by_network.append((network("network").read(word), name.read(out)))
            else:
                by_interface[name.read(word)] = name.read(out)
        except Wanted as error:
            raise Wanted(f"{word}: wanted {error}") from None
    return Forward(tuple(by_network), by_interface)


def _group(
    name: str, words: Any, head: Mapping[str, Any], servers: Mapping[str, tuple[Endpoint, ...]], path: Path
) -> Group:
    """The group of a table."""
    if not name or not all(it.isalnum() or it in "_-" for it in name):
        raise Wanted("the name of a group has letters, digits, _ and -")
    if not isinstance(words, dict):
        raise Wanted(f"wanted a table, as [group.{name}]")
    kind = read_table({"kind": words["kind"]} if "kind" in words else {}, [one_of("kind", KINDS)])["kind"]
    found = read_table(words, fields_of(kind))
    origin: Network | None = found.pop("from", None)
    common: dict[str, Any] = {
        "name": name,
        "kind": kind,
        "users": found.get("users", False),
        "interface": found["interface"] or head["interface"],
        "to": _targets(found["to"], servers, origin),
        "begin": found["begin"],
        "end": found["end"],
        "round_trip": found["round_trip"],
    }
    if found["begin"] >= head["seconds"]:
        raise Wanted(f"begin: {found['begin']} is not below seconds, {head['seconds']}")
    if found["end"] is not None and found["end"] <= found["begin"]:
        raise Wanted(f"end: {found['end']} is not after begin, {found['begin']}")
    if origin is None:
        return Laid(**common, file=path.parent / found["file"], inside=found["inside"])
    _check_room(kind, found, origin)
    common |= {"origin": origin, "hosts": found["hosts"]}
    return _crowd(kind, common, found, head)


def _crowd(kind: str, common: dict[str, Any], found: Mapping[str, Any], head: Mapping[str, Any]) -> Group:
    """The group of a kind that has hosts."""
    if kind == "visits":
        more = {
            it: found[it]
            for it in ("visits", "every", "parallel", "requests", "stay", "vanish", "retries", "patience", "reloads")
        }
        return Visits(**common, people=found["people"] or found["hosts"], **more)
    end = head["seconds"] if found["end"] is None else found["end"]
    if (end - found["begin"]) * found["rate"] > MOST_PACKETS:
        raise Wanted(f"rate: more than {MOST_PACKETS} over the whole time")
    if kind in ("hold", "connect"):
        every = found["every"] if kind == "hold" else 0
        return Holders(**common, rate=found["rate"], every=every, retries=found["retries"], patience=found["patience"])
    if kind == "query":
        return Askers(**common, rate=found["rate"], again=found["again"], retries=found["retries"])
    return Forgers(**common, rate=found["rate"])


def room(origin: Network) -> int:
    """How many addresses are used of a network: the first and the last are not, where it has more than two."""
    return origin.num_addresses - (2 if origin.num_addresses > 2 else 0)


def _check_room(kind: str, found: Mapping[str, Any], origin: Network) -> None:
    if found["hosts"] > room(origin):
        raise Wanted(f"hosts: {origin} has {room(origin)} addresses, and {found['hosts']} are asked for")
    if kind == "visits" and (found["people"] or found["hosts"]) < found["hosts"]:
        raise Wanted(f"people: {found['people']} are fewer than the {found['hosts']} hosts that they sit at")
    if kind == "visits" and found["every"] and found["visits"] > 1:
        raise Wanted("every: visits come at random moments, or every so many seconds; one of the two is given")


def _targets(
    given: Sequence[str] | None, servers: Mapping[str, tuple[Endpoint, ...]], origin: Network | None
) -> tuple[Endpoint, ...]:
    """The servers that a group asks: those it names, or all of its family."""
    if given is None:
        found = [it for several in servers.values() for it in several]
    else:
        found = [it for name in given for it in (servers[name] if name in servers else (_target(name, servers),))]
    if origin is None:
        return tuple(found)
    fitting = tuple(it for it in found if it.address.version == origin.version)
    if not fitting:
        raise Wanted(
            f"to: no server of the family of {origin}"
            if given is None
            else f"to: {found[0].shown()} and {origin} are of two families"
        )
    return fitting


def _target(name: str, servers: Mapping[str, tuple[Endpoint, ...]]) -> Endpoint:
    if ":" not in name:
        raise Wanted(
            f"to: no server is named '{name}'"
            + (fields.near(name, list(servers)) or f"; there are {', '.join(servers)}")
        )
    try:
        return fields.endpoint(name)
    except Wanted as error:
        raise Wanted(f"to: wanted {error}") from None
