"""The files that a pf.conf names: where they are, and their text."""

from dataclasses import dataclass, field
from pathlib import Path

from pfplan.common.errors import Status, Trouble
from pfplan.common.inputs import check_readable, is_regular
from pfplan.pf.lexer import Budget, printable
from pfplan.pf.statements import SourceLine

MOST_BYTES = 64 << 20  # of one file
# What pipes gave.
_given: dict[Path, bytes] = {}


@dataclass
class NamedFiles:
    """Finds the files that a text names: an absolute name below `root`, a relative one beside the file that names it.

    With `root` nothing outside of it is read, but for what is beside the text and below. Without it an absolute name is
    that of this machine, which `found` tells; nothing of such a file is quoted, as somebody else may have written the
    text. Where no file has the absolute name, one of the same last name beside the text is taken, and `found` tells so.
    """

    root: Path | None = None
    found: list[str] = field(default_factory=list)
    budget: Budget = field(default_factory=Budget)
    strange: set[Path] = field(default_factory=set)
    _beside: Path | None = None

    def find(self, name: str, place: SourceLine) -> Path | None:
        """The file of that name, or None where there is none. Trouble with status 3 where it leads out of `root`, or
        there are too many."""
        self.budget.take("files", 1, place.file, place.line)
        path = Path(name)
        beside = Path(place.file).parent
        self._beside = self._beside or beside
        if not path.is_absolute():
            return self._confined(self._file(beside / path), name, place)
        if self.root is not None:
            return self._confined(self._file(self.root / path.relative_to("/")), name, place)
        if found := self._file(path):
            self.strange.add(found)
            self.found.append(
                "absolute names in the text are read from this machine; --root FOLDER confines them to a folder"
            )
            return found
        if near := self._file(beside / path.name):
            self.found.append(f"{name} is read from {near}")
            return near
        return None

    def _confined(self, found: Path | None, name: str, place: SourceLine) -> Path | None:
        """The file, where it is in `root` or below the text's own folder. A link that leads out of both is refused, as
        `..` is."""
        if found is None or self.root is None:
            return found
        whole = found.resolve()
        if (
            whole.is_relative_to(self.root.resolve())
            or self._beside is not None
            and whole.is_relative_to(self._beside.resolve())
        ):
            return found
        raise Trouble(
            f"{printable(place.file)}: line {place.line}: '{printable(name)}' leads out of --root {self.root}",
            Status.RULES,
        )

    def _file(self, path: Path) -> Path | None:
        try:
            return path if path.is_file() else None
        except (OSError, ValueError):
            return None


def read_text(path: Path) -> str:
    """The text of a file. Trouble with status 4 where it can't be read, 3 where it is too long. What a pipe gave is
    kept: it is read once."""
    check_readable(path)
    data = _given.get(path)
    if data is None:
        with open(path, "rb") as file:
            data = file.read(MOST_BYTES + 1)
        if not is_regular(path):
            _given[path] = data
    if len(data) > MOST_BYTES:
        raise Trouble(f"{path}: more than {MOST_BYTES} bytes", Status.RULES)
    return data.decode("utf-8", "surrogateescape")
