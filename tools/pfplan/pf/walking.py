"""What the statements of a text have together: all of them, and the tables that they name."""

from collections.abc import Iterator

from pfplan.pf.left_out import counts_states
from pfplan.pf.statements import Anchor, HostKind, Rule, Setting, Statement, Table


def walk(statements: tuple[Statement, ...] | list[Statement]) -> Iterator[Statement]:
    """All statements, those of anchors too."""
    for it in statements:
        yield it
        if isinstance(it, Anchor) and it.body is not None:
            yield from walk(it.body)


def any_counts(statements: tuple[Statement, ...] | list[Statement]) -> bool:
    """Whether a rule among the statements counts its states or sources."""
    return any(isinstance(it, Rule) and counts_states(it.filter.state) for it in walk(statements))


def overloaded_tables(statements: list[Statement]) -> frozenset[str]:
    """The tables that rules put sources into."""
    found: set[str] = set()
    for it in walk(statements):
        options = it.filter.state.options if isinstance(it, Rule) and it.filter.state else ()
        found.update(option.table for option in options if option.table)
        if isinstance(it, Setting):
            found.update(option.table for option in it.options if option.table)
    return frozenset(found)


def table_names(statements: list[Statement]) -> set[str]:
    """Every name of a table that the statements have."""
    names: set[str] = set()
    for it in walk(statements):
        if isinstance(it, Table):
            names.add(it.name)
        if isinstance(it, Rule | Anchor):
            hosts = (*it.filter.source.hosts, *it.filter.destination.hosts)
            names.update(host.text for host in hosts if host.kind is HostKind.TABLE)
            options = it.filter.state.options if it.filter.state else ()
            names.update(option.table for option in options if option.table)
    return names
