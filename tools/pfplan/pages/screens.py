"""What `watch` shows: on a terminal a screen that is drawn again each second, elsewhere a line a second for each
ruleset."""

import json
import os
import shutil
from collections import Counter
from collections.abc import Iterator, Sequence
from typing import TextIO

from pfplan.answers.connections import KINDS
from pfplan.answers.live_counts import MOST_OPEN
from pfplan.answers.watching import Shown, View
from pfplan.common.figures import SINCE_1970, counted, moment_text, share_text
from pfplan.common.visible import visible
from pfplan.traces.records import WORDS

# ANSI: to the upper left corner; the rest of the line, and of the screen, is cleared (ECMA-48, CUP, EL, ED)
HOME, END_OF_LINE, END_OF_SCREEN = "\x1b[H", "\x1b[K", "\x1b[J"
CLEAR = "\x1b[2J"


def when(moment: int | None) -> str:
    """A moment of the capture."""
    if moment is None:
        return "no record yet"
    return moment_text(moment) if moment >= SINCE_1970 else f"moment {moment}"


def head_of(shown: Shown) -> str:
    """What comes, in a line."""
    state = (
        "at the end"
        if shown.is_last
        else f"no record for {counted(shown.quiet, 'second')}"
        if shown.quiet > 1
        else f"{shown.rate:,.0f} a second"
    )
    return f"{counted(shown.seconds, 'second')}; {when(shown.moment)}; {counted(shown.records, 'record')}, {state}"


def states_text(view: View) -> str:
    """States held, of the limit."""
    most = view.limits.get("states", 0)
    return f"{view.held.states:,} of {most:,} states ({share_text(view.held.states, most)})"


def held_text(view: View) -> str:
    """All that is held."""
    entries = counted(view.held.entries, "table entry", "table entries")
    return f"{states_text(view)}, {counted(view.held.nodes, 'source node')}, {entries}"


def refused_text(view: View) -> str:
    """What limits refused, and packets whose cookie made no state, in all and since the last screen, by the word."""
    counts = [
        f"{word} {view.words[word]:,}{new_text(view.new_words.get(word, 0))}"
        for word in WORDS
        if word.startswith("drop:") and view.words.get(word)
    ]
    return ", ".join(counts) or "none"


def new_text(count: int) -> str:
    """How many of them are new."""
    return f" (+{count:,})" if count else ""


def screen_lines(shown: Shown) -> Iterator[str]:
    """The lines of the screen."""
    yield head_of(shown)
    for view in shown.views:
        yield ""
        yield visible(view.name)
        yield f"  held      {held_text(view)}"
        yield f"  refused   {refused_text(view)}"
        yield f"  blocked   {view.words.get('block', 0):,}{new_text(view.new_words.get('block', 0))}"
        if view.words.get("cookie"):
            yield f"  cookies   {view.words['cookie']:,}{new_text(view.new_words.get('cookie', 0))}"
        yield f"  killed    {counted(view.killed, 'state')} by {kills_text(view)}"
        yield f"  overload  {counted(view.added, 'source')} put into tables{named(view.last_added)}"
        if view.outcomes is not None:
            yield f"  users     {users_text(view)}"


def kills_text(view: View) -> str:
    """The limits on connections that were exceeded."""
    return (
        ", ".join(f"{word} {view.words[word]:,}" for word in WORDS if word.startswith("kill:") and view.words.get(word))
        or "no limit"
    )


def named(addresses: Sequence[str]) -> str:
    """The last sources, the newest first."""
    return f"; last {', '.join(map(visible, reversed(addresses)))}" if addresses else ""


def users_text(view: View) -> str:
    """What became of the users' connections so far, and who was refused most."""
    outcomes = view.outcomes or Counter()
    shown = [it for it in KINDS if outcomes[it] or it in ("served", "refused")]
    counts = ", ".join(f"{outcomes[it]:,} {it}" for it in shown)
    most = ", ".join(f"{visible(it.address)} {it.count:,}" for it in view.refused_users)
    text = f"{counted(sum(outcomes.values()), 'connection')}: {counts}" + (f"; refused most: {most}" if most else "")
    return text + (f"; {forgotten_text(view.forgotten)}" if view.forgotten else "")


def forgotten_text(count: int) -> str:
    """That connections were forgotten that were open."""
    return f"{counted(count, 'open connection')} forgotten, the quietest past {MOST_OPEN:,}"


def plain_lines(shown: Shown) -> Iterator[str]:
    """A line for each ruleset, for where there is no terminal."""
    for view in shown.views:
        name = f"{visible(view.name)}: " if len(shown.views) > 1 else ""
        users = f"; users: {users_text(view)}" if view.outcomes is not None else ""
        parts = (
            head_of(shown),
            states_text(view),
            f"refused {refused_text(view)}",
            f"blocked {view.words.get('block', 0):,}",
            f"killed {counted(view.killed, 'state')}",
            f"overload {counted(view.added, 'source')}{named(view.last_added)}",
        )
        yield f"{name}{'; '.join(parts)}{users}"


class Screen:
    """Where it is shown. OSError where the reader of a pipe has gone away."""

    def __init__(self, stream: TextIO, *, as_json: bool = False) -> None:
        """With `as_json` each second is a line of JSON, also on a terminal."""
        self._stream = stream
        self._as_json = as_json
        self._is_terminal = not as_json and stream.isatty() and os.environ.get("TERM", "") not in ("", "dumb")
        self._is_begun = False

    def show(self, shown: Shown) -> None:
        """Shows it in place of what was shown before, or below it where there is no terminal."""
        if self._as_json:
            self._stream.write(json.dumps(shown.to_json()) + "\n")
        elif self._is_terminal:
            self._draw(list(screen_lines(shown)))
        else:
            self._stream.write("".join(f"{it}\n" for it in plain_lines(shown)))
        self._stream.flush()

    def _draw(self, lines: Sequence[str]) -> None:
        size = shutil.get_terminal_size()
        fitting = [it[: size.columns - 1] for it in lines[: size.lines - 1]]
        begin = HOME if self._is_begun else CLEAR + HOME
        self._is_begun = True
        self._stream.write(begin + "".join(f"{it}{END_OF_LINE}\n" for it in fitting) + END_OF_SCREEN)
