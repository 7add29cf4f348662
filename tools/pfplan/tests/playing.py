"""What tests of plays share: firewalls that answer as a test says, and plays of scenarios that are written in it."""

from collections.abc import Callable, Mapping, Sequence
from dataclasses import dataclass, field
from pathlib import Path

from pfplan.plays.counts import Tally
from pfplan.plays.model import Scenario
from pfplan.plays.reading import scenario_of
from pfplan.plays.returning import Answer
from pfplan.plays.staging import Play
from pfplan.traces.records import End

HEAD = {"seconds": 10, "server": "192.0.2.1:80"}
ONE = {"kind": "visits", "from": "198.51.100.7/32", "hosts": 1, "requests": 1, "stay": 1}


@dataclass
class Scripted:
    """A firewall of a function from a record and how often the same record came before to the text of a line;
    keeps what it was asked."""

    says: Callable[[str, int], str]
    asked: list[str] = field(default_factory=list)
    texts: list[str] = field(default_factory=list)
    calls: int = 0
    _before: dict[str, int] = field(default_factory=dict)

    def decide(self, texts: Sequence[str], second: str = "") -> list[str]:
        """The texts, behind their rows."""
        self.calls += 1
        lines = []
        for it in texts:
            moment, _, rest = f"{second}{it}".rstrip("\n").partition(",")
            text = (
                "held - states=0 nodes=0 entries=0"
                if rest.startswith("held")
                else self.says(rest, self._before.get(rest, 0))
            )
            self._before[rest] = self._before.get(rest, 0) + 1
            self.asked.append(f"{moment},{rest}")
            self.texts.append(text)
            lines.append(f"{len(self.asked)} {text}")
        return lines

    def end(self) -> End:
        """Nothing is held."""
        return End(len(self.asked), 0, 0, 0)

    def packets(self) -> list[str]:
        """What was asked of packets: the second, the way, the flags, and `!` where it did not go through."""
        found = []
        for record, text in zip(self.asked, self.texts):
            column = record.split(",")
            if column[1] == "held":
                continue
            bad = "" if text.split(" ")[0] in ("pass", "new", "state") else "!"
            found.append(f"{column[0]} {column[1]} {column[8] or column[3]}{bad}")
        return found


def scenario(groups: Mapping[str, Mapping[str, object]], **head: object) -> Scenario:
    """A scenario of some groups."""
    return scenario_of({**HEAD, **head, "group": groups}, Path("scenario.toml"))


def played(
    it: Scenario, firewall: Scripted, returning: Mapping[int, Answer] | None = None, is_plain: bool = False
) -> Tally:
    """What a play comes to."""
    game = Play(it, firewall, returning or {}, {}, is_plain)
    game.run(lambda second: None)
    return game.tally


def lets_in(record: str, before: int) -> str:
    """Everything passes."""
    return "pass @0"


def blocks(record: str, before: int) -> str:
    """Nothing does."""
    return "block @0"
