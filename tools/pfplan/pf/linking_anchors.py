"""Anchors by name: `load anchor` and the command line say which file has their rules (pf.conf(5), ANCHORS)."""

from collections.abc import Mapping
from dataclasses import dataclass, field, replace
from pathlib import Path

from pfplan.pf.left_out import Teller, harmless, telling
from pfplan.pf.named_files import NamedFiles
from pfplan.pf.reading_statements import parse_file, unquoted
from pfplan.pf.statements import Anchor, Load, OldAnchor, Setting, SourceLine, Statement

DEEPEST = 16  # anchors inside one another, as pfsrc takes them


@dataclass
class Linker:
    """Puts the rules of files into anchors that have no body, with `translates` into those of older translation too."""

    sources: NamedFiles
    teller: Teller
    macros: Mapping[str, str]
    files: dict[str, Path]
    translates: bool = False
    _bodies: dict[str, tuple[Statement, ...]] = field(default_factory=dict)
    _places: dict[Path, SourceLine] = field(default_factory=dict)

    def link(self, statements: list[Statement]) -> list[Statement]:
        """The statements, with a body for each anchor whose file is known; loads are told where they lead nowhere."""
        loads = [it for it in statements if isinstance(it, Load)]
        for it in loads:
            path = self.sources.find(it.path, it.place)
            if path is None:
                self.teller.tell_whole(
                    it,
                    telling(
                        "its file is not there, so its rules are not; --anchor NAME=FILE gives it", is_missing=True
                    ),
                )
            else:
                self.files.setdefault(it.name.strip("/"), path)
                self._places.setdefault(path, it.place)
        linked = [self._linked(it, "", 0) for it in statements if not isinstance(it, Load)]
        for it in loads:
            if it.name.strip("/") in self.files and it.name.strip("/") not in self._bodies:
                self.teller.tell_whole(it, harmless("no anchor of this text has that name"))
        return linked

    def called(self) -> set[str]:
        """The names of the anchors that got their rules from a file."""
        return set(self._bodies)

    def _linked(self, statement: Statement, above: str, depth: int) -> Statement:
        if not isinstance(statement, Anchor | OldAnchor) or isinstance(statement, OldAnchor) and not self.translates:
            return statement
        name = statement.name.strip("/") if statement.name.startswith("/") else f"{above}/{statement.name}".strip("/")
        body = statement.body
        path = self.files.get(name)
        if body is None and path is not None and statement.name and depth < DEEPEST:
            if name not in self._bodies:
                self._bodies[name] = self._linked_body(tuple(self._loaded(path)), name, depth)
            return replace(statement, body=self._bodies[name])
        return statement if body is None else replace(statement, body=self._linked_body(body, name, depth))

    def _linked_body(self, body: tuple[Statement, ...], name: str, depth: int) -> tuple[Statement, ...]:
        return tuple(self._linked(it, name, depth + 1) for it in body)

    def _loaded(self, path: Path) -> list[Statement]:
        """The rules of an anchor's file, read with macros of its own. Settings in it are told: pf takes none of
        them."""
        with unquoted(path, self.sources, self._places.get(path, SourceLine(str(path), 1))):
            found = parse_file(path, dict(self.macros), self.sources).statements
        for it in found:
            if isinstance(it, Setting):
                self.teller.tell_whole(it, harmless("pf takes no settings from the file of an anchor"))
            if isinstance(it, Load):
                self.teller.tell_whole(
                    it, telling("an anchor's file loads no others here; --anchor NAME=FILE gives them", is_missing=True)
                )
        return [it for it in found if not isinstance(it, Setting | Load)]
