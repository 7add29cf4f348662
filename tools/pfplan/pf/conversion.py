"""A rules text of a pf.conf as it stands in /etc, or of what pfctl -nvf prints, and what was left out of it."""

import re
from collections import Counter
from collections.abc import Mapping, Sequence
from dataclasses import dataclass, field, replace
from pathlib import Path
from typing import Any

from pfplan.common.errors import Status, Trouble
from pfplan.common.inputs import check_rules, name_of
from pfplan.common.networks import Network
from pfplan.common.outputs import part_file
from pfplan.pf import translations
from pfplan.pf.expansion import Expander
from pfplan.pf.interfaces import Given, Machine, read_ifconfig, shown
from pfplan.pf.left_out import Leftover, Teller
from pfplan.pf.lexer import printable
from pfplan.pf.linking_anchors import Linker
from pfplan.pf.named_files import NamedFiles, read_text
from pfplan.pf.numbers_of_pf import Numbers, PfRule
from pfplan.pf.profiles import NEEDS_PROFILE, Profile, is_without_profile
from pfplan.pf.reading_canonical_text import tables_in
from pfplan.pf.reading_routes import routes_given
from pfplan.pf.reading_statements import parse
from pfplan.pf.routes import NO_ROUTES, Routes
from pfplan.pf.statements import Setting, SourceLine, Statement, Table
from pfplan.pf.walking import overloaded_tables, table_names, walk
from pfplan.pf.writing_lists import Chooser, MadeTables
from pfplan.pf.writing_settings import Settings
from pfplan.pf.writing_tables import TableMaker
from pfplan.traces.entries import (
    beside,
    by_table,
    entries_of_text,
    mark_of,
    marked,
    moved,
    names_to_move,
    write_entries,
)

MOST_BYTES = 1_048_576  # of a rules text of pfsrc
MOST_ALIKE = 20  # leftovers that change no answer, for one reason, each in a line


@dataclass(frozen=True)
class RuleOptions:
    """What the command line says of a text: macros, addresses and interfaces by name, files for tables, anchors and
    ifconfig, and the profile; None for what the text says, else that of OpenBSD."""

    macros: tuple[tuple[str, str], ...] = ()
    addresses: tuple[tuple[str, Given], ...] = ()
    interfaces: tuple[tuple[str, str], ...] = ()
    entries: tuple[tuple[str, Path], ...] = ()
    anchors: tuple[tuple[str, Path], ...] = ()
    ifconfig: Path | None = None
    root: Path | None = None
    strict: bool = False
    by_records: bool = False  # whether tables may get entries by records (traces/entries.py)
    profile: Profile | None = None
    routes: Path | None = None  # what netstat -rn prints on the firewall
    translates: bool = field(default_factory=lambda: translations.TRANSLATES)  # whether it has address translation


@dataclass(frozen=True)
class Ruleset:
    """A rules text, the label and the place of each of its items by number, and what was left out of the pf.conf.

    The items in `skipped` stand for `set skip`, and come before all others. `limits` has the place of each limit for
    all rules. `records` are those by which tables get their entries before the first packet (traces/entries.py); the
    text names them. `pf_rules` are all rules and anchors as pf numbers them, also those that the rules text has not;
    behind `guessed`, where that is a place, the numbers may be others. With `routes` a packet is asked on both
    interfaces of its way. Tables that are `loosened` are `const` in the pf.conf, and not here, as their entries come by
    records.
    """

    text: str
    labels: dict[int, str]
    leftovers: tuple[Leftover, ...]
    notes: tuple[str, ...]
    origins: tuple[SourceLine, ...] = field(default=())
    records: tuple[str, ...] = ()
    pf_rules: tuple[PfRule, ...] = ()
    guessed: SourceLine | None = None
    skipped: frozenset[int] = frozenset()
    limits: dict[str, SourceLine] = field(default_factory=dict)
    routes: Routes = NO_ROUTES
    loosened: frozenset[str] = frozenset()

    @property
    def tables(self) -> dict[str, bool]:
        """The tables that it names, and whether each is `const` in the pf.conf."""
        return tables_in(self.text.splitlines()) | dict.fromkeys(self.loosened, True)

    @property
    def written(self) -> str:
        """The text that a file of it has."""
        return self.text or "# no rule and no setting is left\n"

    def to_json(self) -> dict[str, Any]:
        """All of it for machines (man/pfplan.1)."""
        return {
            "rules": self.written,
            "entries": list(self.records),
            "items": [
                {"rule": f"@{number}", "file": printable(it.file), "line": it.line, "label": self.labels.get(number)}
                for number, it in enumerate(self.origins)
            ],
            "left_out": [it.to_json() for it in self.leftovers],
            "notes": list(self.notes),
        }

    def shown(self) -> list[str]:
        """The lines for standard error: what was left out, what else is to know, and how much there is of each."""
        changing = sum(it.changes_answer for it in self.leftovers)
        lines = [*_shown(self.leftovers), *(f"note: {it}" for it in self.notes)]
        count = (
            f"{len(self.origins)} item{'' if len(self.origins) == 1 else 's'}; left out: {changing} that can change an "
            f"answer, {len(self.leftovers) - changing} that change none"
        )
        return [*lines, count]


def _shown(leftovers: Sequence[Leftover]) -> list[str]:
    """The lines of leftovers. Of those that change no answer, many for one reason are one line, where the first of them
    stands."""

    def kind(it: Leftover) -> tuple[str, str, str]:
        return it.file, it.text.split(" ")[0], it.reason

    counts = Counter(kind(it) for it in leftovers if not it.changes_answer)
    seen: set[tuple[str, str, str]] = set()
    lines = []
    for it in leftovers:
        if it.changes_answer or counts[kind(it)] <= MOST_ALIKE:
            lines.append(it.shown())
        elif kind(it) not in seen:
            seen.add(kind(it))
            same = [other.line for other in leftovers if not other.changes_answer and kind(other) == kind(it)]
            word = printable(it.text.split(" ")[0])
            lines.append(
                f"{printable(it.file)}: lines {min(same)} to {max(same)}: left out: {word}, {len(same):,} times: "
                f"changes no answer: {it.reason}"
            )
    return lines


def convert(path: Path, options: RuleOptions) -> Ruleset:
    """The rules text of a file. Trouble with status 3 at a syntax error, and with status 4 where the file can't be
    read."""
    return convert_named(path, path, options)


def convert_named(path: Path, given: Path, options: RuleOptions) -> Ruleset:
    """The rules text of a file that may be a copy of the pipe or the standard input that was `given`, by whose name it
    is told. Trouble as `convert`."""
    check_rules(path)
    text = read_text(path)
    return convert_text(text, name_of(given), options, entries_of_text(text, given))


def convert_text(text: str, name: str, options: RuleOptions, records: Sequence[str] = ()) -> Ruleset:
    """The rules text of a text; `name` stands for its file in what is told, and says where the files are that it names.

    `records` give tables their entries where the text is a rules text that was made before. Trouble where it says of
    such, and there are none.
    """
    _check_records(text, name, records)
    teller = Teller(options.strict)
    sources = NamedFiles(options.root)
    parsed = parse(text, name, dict(options.macros), sources)
    anchors = {anchor.strip("/"): path for anchor, path in options.anchors}
    profile = options.profile or (Profile.OWN if is_without_profile(text) else Profile.OPENBSD)
    translates = options.translates and profile is Profile.OPENBSD
    linker = Linker(sources, teller, dict(options.macros), anchors, translates)
    statements = linker.link(parsed.statements)
    expander = _expander(statements, teller, sources, options, by_table(records), profile)
    expander.translates = translates
    expander.expand(statements)
    _note_unused(teller, statements, linker, options)
    made = expander.chooser.tables
    routes = _routes(options, expander.settings.routes, profile, teller)
    lines = [*profile.lines(), *routes.lines(), *made.lines(), *expander.lines, *expander.settings.last_lines()]
    left, moving = _by_records(lines, expander, teller) if options.by_records else (lines, [])
    files = list(dict.fromkeys([name, *(it.file for it in teller.leftovers)]))
    leftovers = sorted(teller.leftovers, key=lambda it: (files.index(it.file), it.line))
    whole = "".join(f"{it}\n" for it in left)
    limits = {
        limit: it.place for it in statements if isinstance(it, Setting) and it.name == "limit" for limit, _ in it.pairs
    }
    ruleset = Ruleset(
        whole, expander.labels, tuple(leftovers), _notes(teller, made, sources), tuple(expander.origins), tuple(moving),
        tuple(expander.numbers.found), expander.numbers.guessed, frozenset(expander.skipped), limits,
        routes, frozenset(it for it, is_const in tables_in(lines).items() if is_const and not tables_in(left)[it]),
    )  # fmt: skip
    _check_size(name, lines, ruleset, expander.settings.limits)
    return ruleset


def _check_records(text: str, name: str, records: Sequence[str]) -> None:
    if marked(text) and not records:
        raise Trouble(
            f"{name}: a rules text whose tables get entries by records, from a file beside it: it is to be given by "
            "its name",
            Status.RULES,
        )


def _by_records(lines: Sequence[str], expander: Expander, teller: Teller) -> tuple[list[str], list[str]]:
    """The lines without the entries of tables that get theirs by records, and these records. A note says which tables
    they are."""
    moving = names_to_move(lines, expander.tables.persisting, MOST_BYTES)
    for name, (count, is_const) in moving.items():
        constant = "; the table is not const here, so that they can" if is_const else ""
        teller.note(
            f"table <{name}> has no entries in the rules text: {count:,} come by records, before the first "
            f"packet{constant}"
        )
    left, records = moved(lines, moving)
    return ([mark_of(records), *left], records) if records else (left, records)


def with_routes(ruleset: Ruleset, routes: Routes, note: str) -> Ruleset:
    """A ruleset with routes, behind the line of the profile, and a note that says whose they are; the ruleset itself
    where there are none, or its text has no such line."""
    lines = ruleset.text.splitlines()
    profile = Profile.OPENBSD.lines()[0]
    if not routes or profile not in lines:
        return ruleset
    at = lines.index(profile) + 1
    text = "".join(f"{it}\n" for it in (*lines[:at], *routes.lines(), *lines[at:]))
    return replace(ruleset, text=text, routes=routes, notes=(*ruleset.notes, note))


def write_rules(path: Path, ruleset: Ruleset) -> None:
    """Writes a rules text into a folder of pfplan's own, and beside it the entries that come by records. Trouble with
    status 4 where that fails."""
    if ruleset.records:
        with part_file(beside(path)) as file:
            write_entries(file, ruleset.records)
    with part_file(path) as file:
        file.write(ruleset.written)


def write_ruleset(folder: Path, ruleset: Ruleset) -> None:
    """Writes the files `rules` and `left-out.txt` of a folder of pfplan's own. Trouble as `write_rules`."""
    write_rules(folder / "rules", ruleset)
    with part_file(folder / "left-out.txt") as file:
        file.writelines(f"{it}\n" for it in ruleset.shown())


def _expander(
    statements: list[Statement],
    teller: Teller,
    sources: NamedFiles,
    options: RuleOptions,
    recorded: dict[str, list[str]],
    profile: Profile,
) -> Expander:
    machine = _machine(options)
    tables = MadeTables()
    tables.take(table_names(statements))
    settings = Settings(teller, profile)
    settings.look(it for it in walk(statements) if isinstance(it, Setting))
    maker = TableMaker(machine, sources, teller, dict(options.entries), recorded)
    overloaded = overloaded_tables(statements)
    chooser = Chooser(machine, tables, teller, maker)
    return Expander(chooser, maker, settings, teller, Numbers(machine), overloaded)


def machine_of(ifconfig: Path | None) -> Machine:
    """The firewall that ifconfig told of. Trouble with status 3 where the file is not what ifconfig prints, 4 where it
    can't be read."""
    if ifconfig is None:
        return Machine()
    machine = Machine(read_ifconfig(read_text(ifconfig)))
    if not machine.interfaces:
        raise Trouble(f"{ifconfig}: no interface in it: it is not what ifconfig prints", Status.RULES)
    return machine


def _machine(options: RuleOptions) -> Machine:
    machine = machine_of(options.ifconfig)
    for name, prefix in options.addresses:
        machine.given.setdefault(name, []).append(prefix)
    for group, interface in options.interfaces:
        machine.members_given.setdefault(group, []).append(interface)
    return machine


def _routes(
    options: RuleOptions, in_text: Mapping[Network, str], profile: Profile, teller: Teller
) -> Routes:
    """The routes of the file that was given, else those of the text. Trouble with status 3 where the profile has
    none."""
    if options.routes is None:
        return Routes(in_text)
    if profile is not Profile.OPENBSD:
        raise Trouble(f"--routes {options.routes}: {NEEDS_PROFILE}", Status.RULES)
    found = routes_given(options.routes, machine_of(options.ifconfig))
    for it in (*found.notes, *(["the routes of the text are replaced by those of --routes"] if in_text else [])):
        teller.note(it)
    return found.routes


def _note_unused(teller: Teller, statements: list[Statement], linker: Linker, options: RuleOptions) -> None:
    """Says which tables and anchors of the command line the text does not have."""
    tables = {it.name for it in walk(statements) if isinstance(it, Table)}
    for table, _ in options.entries:
        if table not in tables:
            teller.note(f"--entries {table}: the text defines no table of that name")
    for anchor, _ in options.anchors:
        if anchor.strip("/") not in linker.called():
            teller.note(f"--anchor {anchor}: the text calls no anchor of that name")


def _notes(teller: Teller, made: MadeTables, sources: NamedFiles) -> tuple[str, ...]:
    tables = []
    for name, entries in made.made.items():
        shown_entries = ", ".join(map(shown, entries[:4])) + (" .." if len(entries) > 4 else "")
        tables.append(f"<{name}> stands for what a rule asks for at once: {shown_entries}")
    renamed = [f"table <{old}> is called <{new}>" for old, new in made.renamed.items()]
    return tuple(map(printable, (*teller.notes, *tables, *renamed, *dict.fromkeys(sources.found))))


def _check_size(name: str, lines: list[str], ruleset: Ruleset, limits: dict[str, int]) -> None:
    """Trouble where the rules text is larger than pfsrc takes, or its tables hold more than its own limits allow."""
    tables = len(set(re.findall(r"<([A-Za-z0-9_.-]+)>", ruleset.text)))
    entries = sum(it.count(",") + 1 for it in lines if it.startswith("table ") and "{" in it)
    for count, most, what in (
        (
            len(ruleset.text),
            MOST_BYTES,
            f"bytes of rules text; pfsrc takes {MOST_BYTES} (with --out FILE, entries of tables go into FILE.entries)",
        ),
        (tables, limits["tables"], f"tables; set limit tables is {limits['tables']}"),
        (entries, limits["table-entries"], f"entries of tables; set limit table-entries is {limits['table-entries']}"),
    ):
        if count > most:
            raise Trouble(f"{name}: stands for {count} {what}", Status.RULES)
