"""What a running pf said of the packets of its log, beside what pfsrc says of them."""

import itertools
import json
import re
import tempfile
from collections import Counter
from collections.abc import Iterator, Mapping, Sequence
from dataclasses import asdict, dataclass, field, replace
from pathlib import Path
from typing import Any

from pfplan.answers.doubts import of_tags
from pfplan.answers.explaining import Circumstances, line_for
from pfplan.answers.hiding import Hider
from pfplan.answers.judging import Judge, Judged, Verdict
from pfplan.answers.legs import Legs
from pfplan.common.inputs import HEADER
from pfplan.common.limits import LIMITING
from pfplan.common.progress import Progress
from pfplan.pf.conversion import Ruleset
from pfplan.pf.numbers_of_pf import PfRule
from pfplan.pf.profiles import Profile, profile_of
from pfplan.pf.reading_canonical_text import items_of, settings_of
from pfplan.pf.routes import Routes
from pfplan.replays.runs import Replay, run_replay, show_rules
from pfplan.traces.entries import records_at
from pfplan.traces.pf_answers import LIMITS, Merged, PfAnswer, read_pf_answer
from pfplan.traces.records import ONWARD, Answer, End, Record, Traces, line_blocks, read_answer, read_record

_KEEPS = re.compile(r"\b(keep|synproxy) state\b")
# What the packets of a connection have in common: the protocol, and both ends.
Ends = tuple[str, frozenset[tuple[str, str]]]


@dataclass(frozen=True)
class Difference:
    """A packet on which the two differ: both sides, pf's rule and pfsrc's as texts, what was held, and the line that
    explains it."""

    row: int
    record: Record
    pf: PfAnswer
    pfsrc: Answer
    kind: str
    held: End | None = None
    rule_of_pf: str = ""
    rule_of_pfsrc: str = ""
    explained_by: str = ""


@dataclass
class Agreement:
    """What came of all packets: how many had which verdict, kind and words, and each that differs.

    `merged` says how many rows the log had, and `profile` whose pf the rules text asks for. `without_log` and
    `without_all` are rules of the text that keep states: a log lacks their packets, or those behind the first.
    `guessed` is where pf's numbers stop to be sure; by `misfits` packets pf names a rule that does something else here.
    It `lacks_tags` where rules ask packets out for what is not known without routes.
    """

    merged: Merged
    first_moment: int = 0
    last_moment: int = 0
    judged: Counter[Judged] = field(default_factory=Counter)
    differences: list[Difference] = field(default_factory=list)
    without_log: list[int] = field(default_factory=list)
    without_all: list[int] = field(default_factory=list)
    guessed: str = ""
    doubts: int = 0
    misfits: int = 0
    profile: Profile = Profile.OPENBSD
    lacks_tags: bool = False

    def count(self, verdict: Verdict) -> int:
        """How many packets have a verdict."""
        return sum(count for it, count in self.judged.items() if it.verdict is verdict)

    @property
    def compared(self) -> int:
        """How many packets can be compared."""
        return self.count(Verdict.AGREES) + self.count(Verdict.DIFFERS)

    def kinds(self, verdict: Verdict) -> dict[str, dict[tuple[str, str], int]]:
        """For each kind of a verdict, how many packets had which words of pf and of pfsrc; the most first."""
        found: dict[str, dict[tuple[str, str], int]] = {}
        for it, count in self.judged.most_common():
            if it.verdict is verdict:
                pairs = found.setdefault(it.kind, {})
                pairs[it.pf, it.pfsrc] = pairs.get((it.pf, it.pfsrc), 0) + count
        return dict(sorted(found.items(), key=lambda it: -sum(it[1].values())))

    def refusals(self) -> dict[tuple[str, str], int]:
        """How many packets one of the two refused by a limit, by the words of both."""
        pairs: Counter[tuple[str, str]] = Counter()
        for it, count in self.judged.items():
            if it.pf in LIMITS or it.pfsrc in LIMITING:
                pairs[it.pf, it.pfsrc] += count
        return dict(pairs.most_common())

    def to_json(self, hider: Hider) -> dict[str, Any]:
        """The counts for machines."""
        judged = [
            {"verdict": it.verdict.value, "kind": it.kind, "pf": it.pf, "pfsrc": it.pfsrc, "packets": count}
            for it, count in self.judged.most_common()
        ]
        written: list[dict[str, Any]] = json.loads(hider.text(json.dumps([asdict(it) for it in self.differences])))
        for it in written:
            it["explained_by"] = it["explained_by"].replace("`", "")
        return {
            "profile": self.profile.value,
            "rows": self.merged.rows,
            "packets": self.merged.packets,
            "moments": [self.first_moment, self.last_moment],
            "agree": self.count(Verdict.AGREES),
            "differ": self.count(Verdict.DIFFERS),
            "apart": self.count(Verdict.APART),
            "judged": judged,
            "differences": written,
            "rules_without_log": self.without_log,
            "rules_without_all": self.without_all,
        }


class Comparing:
    """Reads trace, answers of pf and report side by side."""

    def __init__(self, folder: Path, judge: Judge, routes: Routes) -> None:
        self._legs = Legs(routes)
        self._trace, self._told, self._report = (folder / it for it in ("trace.csv", "told.csv", "report"))
        self._judge = judge
        self._known: dict[tuple[str, str], Judged] = {}
        self.counts: Counter[tuple[str, str]] = Counter()
        self.found: list[Difference] = []
        self.kills: dict[str, int] = {}
        self.misfits = 0
        self.moments: list[int] = []

    def run(self, progress: Progress) -> Counter[Judged]:
        """How many packets were judged how."""
        told = _told_rows(self._told)
        row, said = next(told, (0, ""))
        lines = itertools.chain.from_iterable(Traces(self._trace).blocks())
        texts = itertools.chain.from_iterable(line_blocks(self._report))
        line = ""
        for number, (line, text) in enumerate(zip(lines, texts, strict=False), 1):
            own: list[str] = []
            while row == number:
                own.append(said)
                row, said = next(told, (0, ""))
            self._take(number, line, own, text.partition(" ")[2])
            if number % 4096 == 0:
                progress.at(number)
        if line:
            self.moments.append(int(line.partition(",")[0]))
        found: Counter[Judged] = Counter()
        for key, count in self.counts.items():
            found[self._known[key]] += count
            self.misfits += count if key[0] and self._judge.is_misfit(_pf_of(key[0])) else 0
        return found

    def _take(self, number: int, line: str, said: Sequence[str], text: str) -> None:
        """Judges one packet: on each interface of which pf's log tells."""
        if len(said) < 2:
            self._judge_there(number, line, "".join(said), _own_leg(line, text))
            return
        for own, leg, is_onward in zip(said, text.split(ONWARD), (False, True)):
            self._judge_there(number, line, own, leg, is_onward=is_onward)

    def _record(self, line: str, *, is_onward: bool) -> Record:
        """The record of a packet, as it is on its way out."""
        record = read_record(line)
        if not is_onward:
            return record
        way, name = self._legs.second((record.direction, record.interface), record.target)
        return replace(record, direction=way, interface=name)

    def _judge_there(self, number: int, line: str, said: str, text: str, *, is_onward: bool = False) -> None:
        """Judges it on one interface. Most have answers that were judged before."""
        key = (said, text)
        self.counts[key] += 1
        judged = self._known.get(key)
        if judged is None:
            judged = self._known[key] = self._judge.judge(_pf_of(said) if said else None, _answer_of(number, text))
        if not self.moments:
            self.moments.append(int(line.partition(",")[0]))
        if text.startswith("kill:"):
            self.kills.setdefault(text.split(" ")[1], number)
        if judged.verdict is Verdict.DIFFERS:
            record = self._record(line, is_onward=is_onward)
            self.found.append(Difference(number, record, _pf_of(said), _answer_of(number, text), judged.kind))


def _told_rows(path: Path) -> Iterator[tuple[int, str]]:
    """For each row of a file of answers the number of its packet, and the rest."""
    for lines in line_blocks(path):
        for line in lines:
            number, _, rest = line.partition(",")
            if number.isdigit():
                yield int(number), rest


def _own_leg(line: str, text: str) -> str:
    """What was said on the interface that a row of the log is of: of a packet out behind what was said where it came
    in."""
    first, _, second = text.partition(ONWARD)
    return second or first if line.split(",", 2)[1] == "out" else first


def _pf_of(said: str) -> PfAnswer:
    return read_pf_answer(f"0,{said}")


def _answer_of(row: int, text: str) -> Answer:
    answer = read_answer(f"{row} {text}")
    assert isinstance(answer, Answer)
    return answer


def held_before(
    rules: Path, trace: Path, rows: Sequence[int], entries: Sequence[str] = ()
) -> tuple[dict[int, End], set[int]]:
    """What is held right before each of some rows, all purges of its second done; and those whose connection has its
    beginning in the trace.

    It is asked by records `held` that are put in front of these rows, in a replay of the trace up to the last of them.
    """
    if not rows:
        return {}, set()
    with tempfile.TemporaryDirectory(prefix="pfplan-") as folder:
        asked, report = Path(folder, "trace"), Path(folder, "report")
        begun = _write_asking(trace, rows, asked, entries)
        run_replay(Replay(rules, asked, report))
        held = [it for lines in line_blocks(report) for it in lines if it.partition(" ")[2].startswith("held ")]
    ends = (read_answer("end rows=0 " + it.split(" ", 3)[3]) for it in held)
    return {row: it for row, it in zip(rows, ends, strict=True) if isinstance(it, End)}, begun


def _write_asking(trace: Path, rows: Sequence[int], asked: Path, entries: Sequence[str]) -> set[int]:
    """Writes the beginning of a trace with a record `held` before each of some rows. Answers those whose connection
    began before them."""
    asked_rows = set(rows)
    wanted = {row: _ends(read_record(line)) for row, line in _first_lines(trace, rows[-1]) if row in asked_rows}
    connections = set(wanted.values())
    begins: dict[Ends, int] = {}
    with open(asked, "w", encoding="latin-1", newline="\n") as out:
        out.write(f"{HEADER}\n")
        for row, line in _first_lines(trace, rows[-1]):
            if row == 1:
                out.writelines(f"{it}\n" for it in records_at(entries, int(line.partition(",")[0])))
            if row in wanted:
                out.write(f"{line.partition(',')[0]},held,,,,,,,\n")
            out.write(f"{line}\n")
            record = read_record(line)
            if _is_first(record) and _ends(record) in connections:
                begins.setdefault(_ends(record), row)
    return {row for row, ends in wanted.items() if begins.get(ends, row) < row}


def _first_lines(trace: Path, rows: int) -> Iterator[tuple[int, str]]:
    """The first lines of a trace, each with its row."""
    return enumerate(itertools.islice(itertools.chain.from_iterable(Traces(trace).blocks()), rows), 1)


def _is_first(record: Record) -> bool:
    return record.protocol != "tcp" or "S" in record.flags and "A" not in record.flags


def _ends(record: Record) -> Ends:
    """What the packets of a connection have in common."""
    return record.protocol, frozenset(((record.source, record.source_port), (record.target, record.target_port)))


def agreement_of(folder: Path, ruleset: Ruleset, merged: Merged) -> Agreement:
    """Both sides of every packet, and more of each that differs."""
    judge = Judge(ruleset.pf_rules)
    comparing = Comparing(folder, judge, ruleset.routes)
    progress = Progress("compare", merged.packets, "packets")
    try:
        judged = comparing.run(progress)
    finally:
        progress.finish()
    shown = show_rules(folder / "rules")
    telling = _Telling(judge, shown, comparing.kills, ruleset.records)
    differences = telling.all(folder, comparing.found)
    keeps = [it for it in ruleset.pf_rules if any(_KEEPS.search(telling.items[item]) for item in it.items)]
    without_log = sorted({item for it in keeps if not it.logs for item in it.items})
    without_all = sorted({item for it in keeps if it.logs and not it.logs_all for item in it.items})
    guessed = f"{ruleset.guessed.file}:{ruleset.guessed.line}" if ruleset.guessed else ""
    doubts = sum(it.changes_answer for it in ruleset.leftovers)
    first, last = comparing.moments[0], comparing.moments[-1]
    return Agreement(
        merged, first, last, judged, differences, without_log, without_all, guessed, doubts, comparing.misfits,
        profile_of(shown), bool(of_tags(telling.items, ruleset.routes)),
    )  # fmt: skip


class _Telling:
    """What is told of a difference beside the two answers."""

    def __init__(self, judge: Judge, shown: Sequence[str], kills: Mapping[str, int], entries: Sequence[str]) -> None:
        """`shown` is the canonical text."""
        self.items = items_of(shown)
        self._judge = judge
        self._kills = kills
        self._limit = settings_of(shown)["states"]
        self._profile = profile_of(shown)
        self._entries = entries

    def all(self, folder: Path, found: Sequence[Difference]) -> list[Difference]:
        """Each difference with all that is known of it."""
        rows = list(dict.fromkeys(it.row for it in found))
        held, begun = held_before(folder / "rules", folder / "trace.csv", rows, self._entries)
        return [self._whole(it, held[it.row], it.row in begun) for it in found]

    def _whole(self, found: Difference, held: End, has_beginning: bool) -> Difference:
        kills = self._kills.values() if found.pf.reason == "memory" else [self._kills.get(found.pfsrc.rule, found.row)]
        has_kills = any(it < found.row for it in kills)
        known = Circumstances(held.states, self._limit, has_beginning, has_kills, self._profile)
        line = line_for(
            Judged(Verdict.DIFFERS, found.kind, found.pf.word(), found.pfsrc.word),
            found.pf,
            found.record,
            found.pfsrc,
            known,
        )
        theirs = (
            "; ".join(dict.fromkeys(self._text(it) for it in self._judge.rules_of(found.pf)))
            if found.pf.rule is not None
            else ""
        )
        ours = self.items[int(found.pfsrc.rule[1:])] if found.pfsrc.rule != "-" else ""
        return replace(found, held=held, rule_of_pf=theirs, rule_of_pfsrc=ours, explained_by=line)

    def _text(self, rule: PfRule) -> str:
        """pf's rule, as the rules text has it."""
        return self.items[rule.items[0]] if rule.items else f"line {rule.place.line}"
