"""The tables of a text: their entries from the text, from files and from interfaces (pf.conf(5), TABLES)."""

import re
from collections.abc import Mapping, Sequence
from dataclasses import dataclass, field
from pathlib import Path

from pfplan.common.errors import Status, Trouble
from pfplan.common.networks import Network
from pfplan.pf.interfaces import Machine, cut, prefix_of, shown
from pfplan.pf.left_out import Teller, telling
from pfplan.pf.lexer import printable
from pfplan.pf.named_files import NamedFiles, read_text
from pfplan.pf.statements import Host, HostKind, Table

MOST_TOLD = 10  # entries of a file that are no addresses, each in a line
# what an interface or a host may be called, and no address that is written wrong
_NAME = re.compile(r"(?=[^:]*[A-Za-z])[A-Za-z0-9_.-]{1,255}(:(network|broadcast|peer|0))*")
_COMMENT = re.compile(r"[#;].*")


@dataclass
class TableMaker:
    """Makes the lines of tables.

    An entry that is not there leaves a table narrower, so `! <t>` would match more: such tables are in `narrower`.
    Without a negated entry `<t>` would match more: those are in `wider`. Those that persist without a file, may change,
    and whose entries the command line gives, as a running firewall has them, are in `persisting`, and so are those of
    `recorded`: entries that came by records already. `entries` are those without `!`. All hold names of the rules text.
    """

    machine: Machine
    sources: NamedFiles
    teller: Teller
    files: Mapping[str, Path]
    recorded: Mapping[str, Sequence[str]] = field(default_factory=dict)
    narrower: set[str] = field(default_factory=set)
    wider: set[str] = field(default_factory=set)
    persisting: set[str] = field(default_factory=set)
    entries: dict[str, list[Network]] = field(default_factory=dict)

    def line(self, table: Table, name: str) -> str:
        """The definition, with every entry that is an address. Others are told, as files that are not there."""
        entries: dict[Network, bool] = {}
        files, is_whole = self._files(table)
        for host in [*table.entries, *map(host_of, self.recorded.get(table.name, ()))]:
            self._add(table, name, host, entries)
        for path in files:
            self._add_file(table, name, path, entries)
        if not is_whole:
            self.narrower.add(name)
            if entries:
                self.wider.add(name)
        is_given = (
            table.name in self.files and not table.files and "persist" in table.parts and "const" not in table.parts
        )
        if is_given or table.name in self.recorded:
            self.persisting.add(name)
        self.entries[name] = [it for it, negated in entries.items() if not negated]
        words = ["table", f"<{name}>", *table.parts]
        if entries:
            words.append(f"{{ {', '.join(('!' if negated else '') + shown(it) for it, negated in entries.items())} }}")
        return " ".join(words)

    def _add(self, table: Table, name: str, host: Host, entries: dict[Network, bool]) -> None:
        networks = self._networks(host)
        if networks is None:
            self._tell_entry(table, host)
            (self.wider if host.negated else self.narrower).add(name)
            return
        for it in networks:
            if entries.setdefault(it, host.negated) != host.negated:
                sign = "" if host.negated else "!"
                self.teller.tell(
                    table.place, f"entry {shown(it)} of <{table.name}>", telling(f"{sign}{shown(it)} stands before it")
                )

    def _tell_entry(self, table: Table, host: Host) -> None:
        text = ("!" if host.negated else "") + host.shown().removeprefix("! ")
        reason = telling("it is no address")
        if host.kind is not HostKind.RANGE and _NAME.fullmatch(host.text):
            what = "PREFIX" if ":network" in host.text else "ADDRESS"
            help_ = f"its address is not there; give it with --address {host.text}={what}"
            reason = telling(help_, is_missing=True)
        self.teller.tell(table.place, printable(f"entry {text} of <{table.name}>"), reason)

    def _add_file(self, table: Table, name: str, path: Path, entries: dict[Network, bool]) -> None:
        """The entries of a file. Those that are no addresses are told one by one only as far as that helps a reader,
        and may be shown to one."""
        hosts = entries_of(path)
        wrong = [it for it in hosts if self._networks(it) is None]
        if len(wrong) == len(hosts) > 0 and self.files.get(table.name) == path:
            raise Trouble(
                f"--entries {table.name}: {path}: none of its {len(hosts):,} words is an address", Status.RULES
            )
        for host in hosts:
            if self._networks(host) is not None:
                self._add(table, name, host, entries)
        if not wrong:
            return
        self.wider.update([name] if any(it.negated for it in wrong) else [])
        self.narrower.update([name] if any(not it.negated for it in wrong) else [])
        is_strange = path in self.sources.strange
        for host in [] if is_strange else wrong[:MOST_TOLD]:
            self._tell_entry(table, host)
        more = len(wrong) - (0 if is_strange else MOST_TOLD)
        if more > 0:
            why = "they are no addresses" + (
                ", and are not quoted, as the file's name is absolute (--root confines such names)"
                if is_strange
                else ""
            )
            self.teller.tell(table.place, printable(f"{more:,} entries of <{table.name}> in {path}"), telling(why))

    def _networks(self, host: Host) -> list[Network] | None:
        if host.kind is HostKind.NAME:
            network = prefix_of(host.text, host.length)
            if network is not None:
                return [network]
        if host.kind is HostKind.RANGE:
            return None
        found = self.machine.locations(host.text)
        if found is None:
            return None
        if host.length is None:
            return [it.network for it in found]
        return [cut(it.network, host.length) for it in found if host.length <= it.network.max_prefixlen]

    def _files(self, table: Table) -> tuple[list[Path], bool]:
        """The files of a table, and whether all were there."""
        given = self.files.get(table.name)
        if given is not None:
            return [given], True
        found: list[Path] = []
        is_whole = True
        for name in table.files:
            path = self.sources.find(name, table.place)
            if path is None:
                help_ = f"its entries are not there; give them with --entries {table.name}=FILE"
                self.teller.tell(table.place, f'file "{name}" of <{table.name}>', telling(help_, is_missing=True))
                is_whole = False
            else:
                found.append(path)
        return found, is_whole


def entries_of(path: Path) -> list[Host]:
    """The entries in the file of a table: words, `!` in front of one, and comments behind `#` or `;`. Trouble where it
    can't be read."""
    found: list[Host] = []
    for line in read_text(path).splitlines():
        found += map(host_of, re.sub(r"!\s+", "!", _COMMENT.sub("", line)).split())
    return found


def host_of(word: str) -> Host:
    """The entry that a word of such a file stands for."""
    address, slash, length = word.removeprefix("!").partition("/")
    if slash and not (length.isdecimal() and length.isascii()):
        address, slash = word.removeprefix("!"), ""
    return Host(HostKind.NAME, address, length=int(length) if slash else None, negated=word.startswith("!"))
