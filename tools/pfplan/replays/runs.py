"""Runs of the program: `./pfsrc replay RULES TRACE`, and `./pfsrc show RULES`."""

import contextlib
import itertools
import os
import re
import subprocess
import tempfile
import threading
from collections.abc import Generator, Iterable, Iterator, Sequence
from dataclasses import dataclass
from pathlib import Path
from typing import IO

from pfplan.common.errors import Status, Trouble, reason_of
from pfplan.common.inputs import check_rules, check_trace
from pfplan.common.outputs import part_file
from pfplan.common.progress import Progress
from pfplan.common.repository import program
from pfplan.traces.insertions import NOTHING, Asking, Heard, HeldCounts, Insertions, asking
from pfplan.traces.records import BLOCK, blocks_of
from pfplan.traces.rows import Rows

# Bytes that a pipe to or from the program holds, where the system lets them.
_PIPE = 1 << 18
_ENDED = {1: Status.REFUSED, 3: Status.RULES, 70: Status.NOT_BUILT}


@dataclass(frozen=True)
class Replay:
    """One run: which rules, which trace, and the file that gets the report."""

    rules: Path
    trace: Path
    report: Path


def records_of(trace: Path) -> int:
    """How many records a trace has at most, by its line feeds: for progress alone."""
    count = -1
    with open(trace, "rb") as file:
        while block := file.read(1 << 20):
            count += block.count(b"\n")
    return max(count, 0)


def run_replay(
    replay: Replay, progress: Progress | None = None, asked: Asking = NOTHING, heard: Heard | None = None
) -> None:
    """Replays a trace; the report stands in its file once it is whole.

    `asked` is what is put into the trace, and `heard` gets its answers: neither is in the report.

    Trouble: status 1 or 3 with the program's own message and the file's name, 4 where reading or writing fails, 70
    where the program is not there. Then nothing is written. `progress` is told of the records that are done.
    """
    check_rules(replay.rules)
    check_trace(replay.trace)
    if asked.insertions:
        with part_file(replay.report) as file:
            row = 1
            for lines in stream_blocks(replay.rules, replay.trace, asked, heard):
                file.writelines(_renumbered(lines, row))
                row += len(lines)
                if progress:
                    progress.at(row)
        return
    with part_file(replay.report) as report, tempfile.TemporaryFile("w+", prefix="pfplan-") as errors:
        with _started(_words(replay.rules, replay.trace), report, errors) as process:
            _wait(process, Path(report.name), progress)
            _check_end(process.returncode, errors, replay.rules, replay.trace)


def replay_into(folder: Path, trace: Path, entries: Sequence[str], moments: int = 0) -> list[HeldCounts]:
    """Replays a trace under the file `rules` of a folder into its file `report`, shows how far it is, and answers how
    much is held at so many moments. `entries` come by records. Trouble as `run_replay`."""
    rules = folder / "rules"
    progress = Progress("replay", records_of(trace), "records")
    try:
        with asking(trace, moments, entries) as asked:
            heard = asked.heard(rules)
            run_replay(Replay(rules, trace, folder / "report"), progress, asked, heard)
    finally:
        progress.finish()
    return heard.held


def stream_blocks(
    rules: Path, trace: Path, asked: Asking = NOTHING, heard: Heard | None = None
) -> Generator[list[str], None, None]:
    """The lines of a report in blocks as the program writes them, without their line feeds; nothing is kept on disk.

    Of what `asked` puts into the trace the answers go to `heard`; the lines of the trace's own records keep the numbers
    that they have in the report, `asked.numbers`, and the last line tells the trace's own.

    Trouble as `run_replay`, after the lines that were written before it.
    """
    with _report(rules, trace, asked, heard) as lines:
        blocks = blocks_of(lines, f"the report of {rules}")
        yield from blocks if asked.numbers is None else _own_blocks(blocks, asked.numbers, heard)


def stream_texts(
    rules: Path, trace: Path, asked: Asking = NOTHING, heard: Heard | None = None
) -> Generator[str, None, None]:
    """A report as `stream_blocks`, in texts of whole lines with their line feeds."""
    with _report(rules, trace, asked, heard) as lines:
        row = 1
        # (a report has line feeds alone, so that bytes are read faster)
        report: IO[bytes] = lines.buffer  # type: ignore[attr-defined]
        while read := report.read(BLOCK):
            text = (read if read.endswith(b"\n") else read + report.readline()).decode("latin-1")
            count = text.count("\n") if asked.numbers else 0
            if asked.numbers and (
                asked.numbers.is_parted(row, count) or text.startswith("end ", text.rfind("\n", 0, -1) + 1)
            ):
                own = _own_lines(text.splitlines(), row, asked.numbers, heard)
                text = "".join(f"{it}\n" for it in own)
            row += count
            if text:
                yield text


@contextlib.contextmanager
def _report(rules: Path, trace: Path, asked: Asking, heard: Heard | None) -> Iterator[IO[str]]:
    """The report of a replay as the program writes it."""
    check_rules(rules)
    check_trace(trace)
    words = _words(rules, trace if asked.insertions is None else "-")
    with tempfile.TemporaryFile("w+", prefix="pfplan-") as errors, _started(
        words, subprocess.PIPE, errors, asked.insertions
    ) as process:
        assert process.stdout is not None
        with process.stdout as lines:
            yield lines
        _check_end(process.wait(), errors, rules, trace, asked.numbers)
        if heard:
            heard.finish()


def _own_blocks(blocks: Iterable[list[str]], numbers: Rows, heard: Heard | None) -> Iterator[list[str]]:
    """The lines of the trace's own records, and the last line with their count."""
    row = 1
    for lines in blocks:
        own = _own_lines(lines, row, numbers, heard)
        row += len(lines)
        if own:
            yield own


def _own_lines(lines: list[str], row: int, numbers: Rows, heard: Heard | None) -> list[str]:
    """Of lines of a report, the first of which is that of this row, those of the trace's own records, and the last line
    with their count."""
    own, others = numbers.parted(row, lines)
    if heard:
        heard.take(others)
    if own and (found := re.fullmatch(r"end rows=(\d+)( .*)", own[-1])):
        own[-1] = f"end rows={int(found[1]) - numbers.put_in}{found[2]}"
    return own


def _renumbered(lines: Sequence[str], first: int) -> Iterator[str]:
    """The lines of rows that follow, with the numbers that begin at `first`. The last line of a report has none."""
    for row, line in enumerate(lines, first):
        yield f"{line}\n" if line.startswith("end ") else f"{row} {line.partition(' ')[2]}\n"


def show_rules(rules: Path) -> list[str]:
    """The lines of the canonical text of a rules text, as `./pfsrc show` prints them. Trouble where it is refused."""
    check_rules(rules)
    with tempfile.TemporaryFile("w+", prefix="pfplan-") as errors, _started(
        [program(), "show", str(rules)], subprocess.PIPE, errors
    ) as process:
        text, _ = process.communicate()
        _check_end(process.returncode, errors, rules, rules)
    return text.splitlines()


def _wait(process: "subprocess.Popen[str]", report: Path, progress: Progress | None) -> None:
    """Waits for the end of a replay, and tells how far its report is."""
    if progress is None or not progress.shows:
        process.wait()
        return
    while True:
        try:
            process.wait(timeout=0.25)
            return
        except subprocess.TimeoutExpired:
            progress.at(_rows_of(report))


def _words(rules: Path, trace: Path | str) -> list[str]:
    return [program(), "replay", str(rules), str(trace)]


class _Feeder(threading.Thread):
    """Gives a program its standard input: a trace with what is put into it."""

    def __init__(self, insertions: Insertions, source: IO[str]) -> None:
        super().__init__(daemon=True)
        self._insertions = insertions
        self._source = source
        self.error: OSError | None = None

    def run(self) -> None:
        """Writes until all is written, or the program has ended, which says itself why."""
        try:
            with self._source:
                self._insertions.write(self._source.buffer)  # type: ignore[attr-defined]
        except BrokenPipeError:
            pass
        except OSError as error:
            self.error = error


@contextlib.contextmanager
def _started(
    words: list[str], output: IO[str] | int, errors: IO[str], insertions: Insertions | None = None
) -> Iterator["subprocess.Popen[str]"]:
    """The program, started, with the trace of `insertions` as its standard input; it is ended where the body leaves
    before it has."""
    source = subprocess.PIPE if insertions else subprocess.DEVNULL
    try:
        process = subprocess.Popen(
            words, stdin=source, stdout=output, stderr=errors, text=True, encoding="latin-1", pipesize=_PIPE
        )
    except OSError as error:
        raise Trouble(
            f"{words[0]}: can't be run: {reason_of(error)} (PFSRC names the program)", Status.NOT_BUILT
        ) from None
    feeder = _Feeder(insertions, process.stdin) if insertions and process.stdin else None
    if feeder:
        feeder.start()
    try:
        yield process
    finally:
        if process.poll() is None:
            process.terminate()
        process.wait()
        if feeder:
            feeder.join()
    if feeder and feeder.error:
        raise Trouble(
            f"{insertions.trace if insertions else ''}: can't be replayed: {reason_of(feeder.error)}", Status.FAILED
        )


def _check_end(status: int, errors: IO[str], rules: Path, trace: Path, numbers: Rows | None = None) -> None:
    """Trouble where the program did not end well: its own line, with the file's name for the word before its colon.

    `numbers` are those of the rows of a trace into which records were put.
    """
    if status == 0:
        return
    errors.seek(0)
    said = (errors.read(4096).splitlines() or [f"ended with status {status} and said nothing"])[-1]
    found = re.fullmatch(r"trace: row (\d+): (.*)", said)
    if numbers and found and int(found[1]):
        row = numbers.own(int(found[1]))
        if row is None:
            raise Trouble(
                f"{program()}: refuses a record that was put into {trace}: {found[2]} (rules {rules})", Status.FAILED
            )
        said = f"trace: row {row}: {found[2]}"
    for word, path in (("rules", rules), ("trace", trace)):
        if said.startswith(f"{word}: "):
            raise Trouble(f"{path}: {said.removeprefix(word + ': ')}", _ENDED.get(status, Status.FAILED))
    raise Trouble(f"{program()}: {said} (rules {rules}, trace {trace})", _ENDED.get(status, Status.FAILED))


def _rows_of(report: Path) -> int:
    """The number in the last whole line of a report that is being written."""
    number = _last_line(report).partition(" ")[0]
    return int(number) if number.isdigit() else 0


def _last_line(report: Path) -> str:
    with open(report, "rb") as file:
        file.seek(0, os.SEEK_END)
        file.seek(max(0, file.tell() - 200))
        lines = file.read().decode("latin-1").split("\n")
    return lines[-2] if len(lines) > 1 else ""


@contextlib.contextmanager
def replayed(rules: Path, trace: Path, asked: Asking = NOTHING, heard: Heard | None = None) -> Iterator[Iterator[str]]:
    """The lines of a report as they come, as `stream_blocks`. The program is ended where the body leaves before it
    has."""
    with contextlib.closing(stream_blocks(rules, trace, asked, heard)) as blocks:
        yield itertools.chain.from_iterable(blocks)
