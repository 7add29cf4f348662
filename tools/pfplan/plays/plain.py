"""The trace of a scenario in which nobody reacts: what would come if the firewall let everything in."""

from pathlib import Path

from pfplan.common.outputs import whole_file
from pfplan.common.progress import Progress
from pfplan.plays.expecting import MOST, check_expected
from pfplan.plays.firewalls import Open
from pfplan.plays.playing import seldom_collected
from pfplan.plays.reading import read_scenario
from pfplan.plays.staging import Play, traces_of


def write_plain(scenario: Path, out: Path | None) -> None:
    """Writes it; the same scenario gives the same bytes.

    Forged packets get no answer. Trouble as `read_scenario`, or where writing fails.
    """
    read = read_scenario(scenario)
    check_expected(read, MOST)
    progress = Progress("trace", read.seconds, "seconds")
    try:
        with whole_file(out) as file, traces_of(read) as traces, seldom_collected():
            Play(read, Open(file.buffer), {}, traces, is_plain=True).run(progress.at)
            file.buffer.flush()
    finally:
        progress.finish()
