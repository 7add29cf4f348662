"""What tests of connections share that pf leads itself: packets of one, reports that are written by hand, and what
became of it."""

from collections.abc import Sequence

from pfplan.answers.sides import follow, side_of
from pfplan.answers.summaries import Summary, Wanted, summarize
from pfplan.commands.words import networks
from pfplan.tests.support import FolderCase

USERS = networks("198.51.100.0/24")
CLIENT, SERVER = "tcp,198.51.100.1,4000,192.0.2.1,80", "tcp,192.0.2.1,80,198.51.100.1,4000"


def there(second: int, flags: str, client: str = CLIENT) -> str:
    """A packet of the client."""
    return f"{second},in,em0,{client},{flags}"


def back(second: int, flags: str, server: str = SERVER) -> str:
    """A packet of the server."""
    return f"{second},out,em0,{server},{flags}"


class LedByPf(FolderCase):
    """Reads reports that are written by hand."""

    def outcome(self, rows: Sequence[tuple[str, str]], last: int = 100) -> dict[str, int]:
        """The outcomes of the user's connections; the trace goes on for a while behind these rows."""
        more = [(f"{last},in,em0,udp,203.0.113.9,1,192.0.2.1,53,", "pass -")]
        summary = self.summary([*rows, *more])
        assert summary.users is not None
        return {kind: count for kind, count in summary.users.outcomes.items() if count}

    def summary(self, rows: Sequence[tuple[str, str]]) -> Summary:
        """The summary of records with their answers; the counts by lines are the same."""
        trace, report = self.trace([it for it, _ in rows]), self.report([text for _, text in rows])
        found = summarize(report, Wanted(trace, USERS))
        side = side_of("report", iter(report.read_text("ascii").splitlines()), USERS)
        follow(trace, [side], USERS)
        assert found.users is not None
        self.assertEqual({it: side.connections.outcomes[it] for it in found.users.outcomes}, found.users.outcomes)
        return found
