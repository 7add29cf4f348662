"""What a run of a play is told beside its rules and its scenario.

Where the run is a process of its own, this stands beside the rules text RULES in the file RULES.play, as JSON.
"""

from __future__ import annotations

import json
from collections.abc import Mapping
from dataclasses import asdict, dataclass, field
from pathlib import Path

from pfplan.common.errors import Status, Trouble, reason_of
from pfplan.plays.expecting import MOST
from pfplan.plays.returning import words_of

ENDING = ".play"


@dataclass(frozen=True)
class PlayOptions:
    """`returning` are the words by which rules that block tell the sender something, by the numbers of the rules.
    `numbers` are other values of numbers of the scenario, by their names. `most` are the records that a play may be
    expected to have."""

    returning: Mapping[int, str]
    numbers: Mapping[str, int] = field(default_factory=dict)
    most: int = MOST

    def to_json(self) -> str:
        """The text of the file."""
        return json.dumps(asdict(self))


def options_from(text: str) -> PlayOptions:
    """The options of such a text. Trouble with status 1 where it is another one."""
    try:
        read = json.loads(text)
        returning = {int(number): str(word) for number, word in read["returning"].items()}
        numbers = {str(name): int(value) for name, value in read["numbers"].items()}
        return PlayOptions(returning, numbers, int(read["most"]))
    except (ValueError, TypeError, KeyError, AttributeError):
        raise Trouble(f"no options of a play: {text[:100]!r}", Status.REFUSED) from None


def options_beside(rules: Path, name: Path) -> PlayOptions:
    """The options in the file beside a rules text of this name, which stands in `rules`. Without one, those that the
    text itself says.

    Trouble with status 4 where a file can't be read, and as `options_from`.
    """
    beside = name.with_name(name.name + ENDING)
    try:
        if beside.exists():
            return options_from(beside.read_text("latin-1"))
        return PlayOptions(words_of(rules.read_bytes().decode("latin-1")))
    except Trouble as trouble:
        raise Trouble(f"{beside}: {trouble.message}", trouble.status) from None
    except OSError as error:
        raise Trouble(f"{error.filename or name}: can't be read: {reason_of(error)}", Status.FAILED) from None
