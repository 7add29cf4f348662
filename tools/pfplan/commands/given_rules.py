"""Rules as they are given to a command, in one place for all: a rules text, or a pf.conf of which one is made."""

from __future__ import annotations

import contextlib
import sys
import tempfile
from collections.abc import Iterator, Sequence
from dataclasses import dataclass, replace
from pathlib import Path

from pfplan.answers.doubts import of_missing
from pfplan.common.errors import Status, Trouble
from pfplan.common.inputs import check_rules, name_of, regular
from pfplan.pf.conversion import RuleOptions, Ruleset, convert_named, write_rules
from pfplan.pf.lexer import printable
from pfplan.pf.named_files import read_text
from pfplan.pf.profiles import says_profile
from pfplan.pf.routes import routes_of
from pfplan.replays.runs import show_rules
from pfplan.traces.entries import entries_of_rules
from pfplan.traces.ways import ways_in

NO_WORDS = RuleOptions()


@dataclass(frozen=True)
class GivenRules:
    """A rules text in the file `path`, of the file `name` that was given. `records` give its tables entries before the
    first packet. `made` is what was made of a pf.conf."""

    name: Path
    path: Path
    records: Sequence[str]
    made: Ruleset | None = None

    def doubts(self) -> list[str]:
        """What the rules need that nobody gave."""
        return of_missing(self.made.leftovers) if self.made else []

    def tables(self) -> dict[str, bool]:
        """Of what was made of a pf.conf the tables, and whether each is `const` there."""
        return self.made.tables if self.made else {}


@contextlib.contextmanager
def rules_given(path: Path, options: RuleOptions = NO_WORDS, *, has_report: bool = False) -> Iterator[GivenRules]:
    """The rules text of a file. One that pfsrc takes stays as it is, unless words of the command line say something of
    it, where there is a report of it, or it says whose pf it asks for (`says_profile`). Of any other one is made, as of
    a pf.conf, and standard error says what is left out.

    Trouble as `regular`, and with status 3 where the text is neither a rules text nor a pf.conf.
    """
    with contextlib.ExitStack() as stack:
        kept = stack.enter_context(regular(path))
        check_rules(kept)
        if options == NO_WORDS and (has_report or says_profile(read_text(kept))) and _is_taken(kept):
            yield GivenRules(path, kept, entries_of_rules(kept, path))
            return
        made = convert_named(kept, path, replace(options, by_records=True))
        place = Path(stack.enter_context(tempfile.TemporaryDirectory(prefix="pfplan-")), "rules")
        write_rules(place, made)
        if made.leftovers or made.notes:
            tell_left_out(path, made)
        try:
            yield GivenRules(path, place, made.records, made)
        except Trouble as trouble:
            raise Trouble(trouble.message.replace(str(place), name_of(path)), trouble.status) from None


def ruleset_given(path: Path, options: RuleOptions) -> Ruleset:
    """What is made of a file that is a pf.conf or a rules text. Trouble as `rules_given`."""
    with regular(path) as kept:
        return convert_named(kept, path, options)


@contextlib.contextmanager
def ways_given(trace: Path, rules: Sequence[Path]) -> Iterator[tuple[Path, list[str]]]:
    """A trace under some rules texts that all have routes, so that each packet counts once, and why the answer may be
    in doubt; or the trace as it is. Standard error says what is left out."""
    found = [routes_of(show_rules(it)) for it in rules]
    with ways_in(trace, found[0] if all(found) else None) as (path, taken):
        for line in taken.notes() if taken else ():
            print(line, file=sys.stderr)
        yield path, taken.doubts() if taken else []


def tell_left_out(path: Path, ruleset: Ruleset) -> None:
    """Says on standard error what was left out of a file, and how much there is of it."""
    *lines, count = ruleset.shown()
    for it in (*lines, f"{printable(name_of(path))}: {count}"):
        print(it, file=sys.stderr)


def _is_taken(path: Path) -> bool:
    """Whether pfsrc takes a text as it is."""
    try:
        show_rules(path)
    except Trouble as trouble:
        if trouble.status != Status.RULES:
            raise
        return False
    return True
