"""The command `watch`: new limits beside the traffic of this minute, without touching the firewall."""

import argparse
import contextlib
import json
import os
import sys
import tempfile
from collections.abc import Iterator, Sequence
from dataclasses import replace
from pathlib import Path
from typing import TextIO

from pfplan.answers.connections import LATE
from pfplan.answers.doubts import of_missing
from pfplan.answers.live_counts import Side
from pfplan.answers.summaries import Summary
from pfplan.answers.watching import Signals, Watch, Watched
from pfplan.commands.given_rules import ruleset_given
from pfplan.commands.interfaces import seen_on
from pfplan.commands.parser import Parser
from pfplan.commands.run import OURS
from pfplan.commands.rule_words import add_rule_words, options_of
from pfplan.commands.words import add_capture_words, add_users, file, folder, number
from pfplan.common.errors import Status, Trouble
from pfplan.common.figures import share_text
from pfplan.common.inputs import HEADER
from pfplan.common.networks import Network
from pfplan.common.outputs import check_folder, make_folder, part_file, whole_folder
from pfplan.common.repository import check_program
from pfplan.pages.doubt_texts import doubt_lines
from pfplan.pages.frames import PAGE
from pfplan.pages.report_page import Subject, write_answer
from pfplan.pages.rule_notes import way_lines
from pfplan.pages.screens import Screen, forgotten_text
from pfplan.pf.conversion import Ruleset, machine_of, write_ruleset
from pfplan.pf.routes import routes_of
from pfplan.replays.live import Capture
from pfplan.replays.runs import show_rules
from pfplan.traces.accounts import Frames, frames_of
from pfplan.traces.captures import Seen, by_networks, check_account
from pfplan.traces.ways import Taken, Ways

DESCRIPTION = """Runs limits beside the traffic of this minute, and does not touch the firewall:

  tcpdump -U -w - -i em0 | pfplan watch new.conf --if em0 \\
      --inside 192.0.2.0/24 --users 198.51.100.0/24

The capture comes on standard input. (OpenBSD's tcpdump has no -U, and gives blocks of packets.) On a terminal a screen
is drawn again each second, elsewhere a line a second is printed: records a second, states held of the limit, what each
limit would refuse, the sources that would be in overload tables, and the users that would be refused. Several rulesets
are answered side by side. An interrupt or --seconds ends it, or the end of the capture. The clock is the capture's:
while no packet comes, nothing expires. Memory grows with what is held, not with time. Of the users' connections at most
100,000 open ones are followed: of more, those that have been quiet the longest are forgotten, which is told."""
TRACE = "the capture that was watched"


def add_arguments(parser: Parser) -> None:
    """The words of the command."""
    parser.description = DESCRIPTION
    parser.add_argument(
        "rules_from",
        type=file,
        nargs="+",
        metavar="PF.CONF",
        help="a pf.conf, what pfctl -nvf prints, or a rules text; several are answered side by side",
    )
    add_capture_words(parser)
    add_users(parser, "the networks of the users: says who of them would be served")
    parser.add_argument(
        "--seconds", type=number(1, 4294967295), metavar="N", default=0, help="ends it after so many seconds"
    )
    parser.add_argument(
        "--into",
        type=folder,
        metavar="FOLDER",
        help="where to put what pfplan run makes: trace, report, summary, page; of several rulesets each in a folder "
        "below",
    )
    parser.add_argument(
        "--top", type=number(1, 1000), metavar="N", default=5, help="how many sources the summary names (5)"
    )
    parser.add_argument(
        "--json", action="store_true", help="for machines: a line of JSON each second, and at the end the summaries"
    )
    add_rule_words(parser)


def run(arguments: argparse.Namespace) -> int:
    """Runs the command."""
    if sys.stdin.isatty():
        raise Trouble("a capture is wanted on standard input: tcpdump -U -w - -i em0 | pfplan watch ..")
    machine = machine_of(arguments.ifconfig)
    options = replace(options_of(arguments), by_records=True)
    made = [ruleset_given(it, options) for it in arguments.rules_from]
    names = _folders(arguments.rules_from)
    if arguments.into:
        check_folder(arguments.into, ["trace.csv", *(os.path.join(name, it) for name in names for it in OURS)])
    for name in ("pfsrc", "pfstrace"):
        check_program(name)
    seen = seen_on(arguments.seen, (), made, machine)
    with contextlib.ExitStack() as stack:
        top = stack.enter_context(whole_folder(arguments.into) if arguments.into else _for_now())
        with contextlib.ExitStack() as running:
            signals = running.enter_context(Signals())
            watched = [
                _started(running, *it, arguments.users, is_kept=bool(arguments.into))
                for it in zip(arguments.rules_from, made, [top / it for it in names], strict=True)
            ]
            capture = Capture([word for it in seen for word in it.words()])
            running.callback(capture.stop)
            trace = running.enter_context(_trace(top)) if arguments.into else None
            ways = _ways(watched, seen)
            screen = Screen(sys.stdout, as_json=arguments.json)
            watch = Watch(capture, watched, screen.show, trace, arguments.seconds, ways)
            watch.run(signals)
            account, trouble = capture.account()
        taken = ways.taken() if ways else None
        summaries = [_summary(it, arguments, account, taken) for it in watched]
        if arguments.into:
            _write_answers(watched, summaries, [arguments.into / it for it in names])
    if not watch.is_unseen:
        _tell(arguments, watched, names, summaries)
    has_networks = any(it.has_networks for it in seen)
    account += [*by_networks(account, seen), *(taken.notes() if taken else [])]
    return _end(watch, account, trouble, has_inside=has_networks)


def _write_answers(watched: Sequence[Watched], summaries: Sequence[Summary], places: Sequence[Path]) -> None:
    """Writes the page and the summary of each ruleset, which will stand in these folders."""
    for it, summary, place in zip(watched, summaries, places, strict=True):
        write_answer(it.folder, summary, Subject(str(it.path), TRACE, it.ruleset.leftovers, it.ruleset.notes), place)


def _ways(watched: Sequence[Watched], seen: Sequence[Seen]) -> Ways | None:
    """What takes the records that stand for a packet's way, where all rulesets have routes."""
    found = [routes_of(it.rules) for it in watched]
    return Ways(found[0], {it.name for it in seen if it.name}) if all(found) else None


@contextlib.contextmanager
def _for_now() -> Iterator[Path]:
    """A folder that goes at the end."""
    with tempfile.TemporaryDirectory(prefix="pfplan-") as folder:
        yield Path(folder)


@contextlib.contextmanager
def _trace(folder: Path) -> Iterator[TextIO]:
    """The file of the trace, with its header."""
    with part_file(folder / "trace.csv") as out:
        out.write(f"{HEADER}\n")
        yield out


def _folders(paths: Sequence[Path]) -> list[str]:
    """The folder of each ruleset: of one the folder itself, which has no name, of several one below it for each, by the
    name of its file."""
    if len(paths) == 1:
        return [""]
    names: list[str] = []
    for path in paths:
        name = stem = path.stem
        while name in (*names, "trace.csv"):
            name = f"{stem}-{names.count(stem) + len(names)}"
        names.append(name)
    return names


def _started(
    stack: contextlib.ExitStack, path: Path, ruleset: Ruleset, folder: Path, users: Sequence[Network], *, is_kept: bool
) -> Watched:
    """A ruleset whose program waits for records."""
    make_folder(folder)
    write_ruleset(folder, ruleset)
    shown = show_rules(folder / "rules")
    side = Side(path.name, folder / "rules", shown, users)
    stack.callback(side.replaying.stop)
    report = stack.enter_context(part_file(folder / "report")) if is_kept else None
    return Watched(path, ruleset, folder, shown, side, report)


def _summary(
    watched: Watched, arguments: argparse.Namespace, account: Sequence[str], taken: Taken | None
) -> Summary:
    """What `run` would say of the same packets."""
    frames = _noted(frames_of(account), watched.forgotten)
    summary = watched.summary(arguments.users, frames, arguments.top, taken)
    summary.doubts = of_missing(watched.ruleset.leftovers) + summary.doubts
    return summary


def _end(watch: Watch, account: Sequence[str], trouble: Trouble | None, *, has_inside: bool) -> int:
    """Tells what became of the frames, and what was wrong."""
    for line in account:
        print(line, file=sys.stderr)
    if trouble:
        raise trouble
    check_account(account, Path("standard input"), has_inside=has_inside)
    if watch.is_unseen:
        raise Trouble("standard output: can't be written: Broken pipe", Status.FAILED)
    return Status.DONE


def _noted(frames: Frames | None, forgotten: int) -> Frames | None:
    """What became of the frames, with a note where connections were forgotten."""
    return replace(frames, notes=(*frames.notes, forgotten_text(forgotten))) if frames and forgotten else frames


def _tell(
    arguments: argparse.Namespace, watched: Sequence[Watched], names: Sequence[str], summaries: Sequence[Summary]
) -> None:
    """The answer in a line for each ruleset, and where the page is; why it is in doubt stands first."""
    for it, below, summary in zip(watched, names, summaries, strict=True):
        if arguments.json:
            page = str(arguments.into / below / PAGE) if arguments.into else None
            print(json.dumps({"rules": it.path.name, "page": page, "summary": summary.to_json()}))
            continue
        name = f"{it.path.name}: " if len(watched) > 1 else ""
        for line in doubt_lines(summary.doubts):
            print(f"{name}{line}")
        outcomes = it.side.outcomes()
        connections = sum(outcomes.values()) - outcomes[LATE] if outcomes else 0
        if outcomes and connections:
            served = outcomes["served"]
            share = share_text(served, connections)
            print(f"{name}{share} of the users' connections were served: {served:,} of {connections:,}")
        for line in (*([forgotten_text(it.forgotten)] if it.forgotten else []), *way_lines(summary)):
            print(f"{name}{line}")
        doubts = sum(left.changes_answer for left in it.ruleset.leftovers)
        if doubts:
            print(
                f"{name}left out of {it.path}: {doubts} that can change this answer"
                + (f" ({arguments.into / below / 'left-out.txt'})" if arguments.into else "")
            )
        if arguments.into:
            print(arguments.into / below / PAGE)
