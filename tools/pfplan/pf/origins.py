"""Where the rules of a rules text stand in the pf.conf that it was made of."""

from collections.abc import Mapping
from dataclasses import dataclass, field
from pathlib import Path

from pfplan.pf.conversion import Ruleset
from pfplan.pf.lexer import printable
from pfplan.pf.statements import SourceLine


@dataclass(frozen=True, slots=True)
class Origins:
    """Where rules and limits stand, as `pf.conf:41`: rules by number, limits by name. The rules in `skipped` stand for
    `set skip`."""

    items: Mapping[int, str] = field(default_factory=dict)
    limits: Mapping[str, str] = field(default_factory=dict)
    skipped: frozenset[int] = frozenset()

    def of(self, rule: str) -> str:
        """The place of `@N`; nothing where it is not known."""
        return self.items.get(int(rule[1:]), "") if rule != "-" else ""


def origins_of(ruleset: Ruleset) -> Origins:
    """The places of a ruleset's rules and limits. A file is told by its last name, where no other file has that."""
    places = [*ruleset.origins, *ruleset.limits.values()]
    files = {it.file for it in places}
    last_names = [Path(it).name for it in files]
    is_short = len(set(last_names)) == len(files)

    def shown(place: SourceLine) -> str:
        return f"{printable(Path(place.file).name if is_short else place.file)}:{place.line}"

    items = {number: shown(it) for number, it in enumerate(ruleset.origins)}
    return Origins(items, {name: shown(it) for name, it in ruleset.limits.items()}, ruleset.skipped)
