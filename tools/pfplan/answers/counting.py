"""Counts what a report and its trace hold, block by block; Summary of summaries.py says what is counted."""

from collections import Counter
from collections.abc import Iterable, Iterator, Mapping, Sequence
from dataclasses import dataclass
from functools import lru_cache
from itertools import chain, compress, groupby
from pathlib import Path
from typing import NoReturn

from pfplan.answers.connections import Connections, Holding
from pfplan.answers.cookies import Cookies
from pfplan.answers.following import columns_of, follow_block
from pfplan.answers.legs import Legs, Reply, reply_of
from pfplan.answers.sources import Sources
from pfplan.answers.stepping import Steps
from pfplan.common.errors import Status, Trouble
from pfplan.common.limits import DROPS, LIMITING
from pfplan.common.networks import Network
from pfplan.pf.reading_canonical_text import Flushes
from pfplan.traces.records import ORDERS, End, Traces, read_answer
from pfplan.traces.rows import Rows
from pfplan.traces.ways import Ways

# Limits of a block whose last place is looked for one by one.
FEW = 8
# Texts of a report's lines that are remembered.
KNOWN = 50_000
DROPPED = frozenset(DROPS)
# Names of interfaces that are kept of a trace.
INTERFACES = 1000


@dataclass(slots=True)
class Limit:
    """A limit that was met: by which rows, and with a trace at which moments and in how many seconds. `on_way_out` of
    the records were refused on the second interface."""

    word: str
    records: int = 0
    first_row: int = 0
    last_row: int = 0
    first_moment: int | None = None
    last_moment: int | None = None
    seconds: int = 0
    killed: int = 0
    on_way_out: int = 0


@lru_cache(maxsize=4)
def _row_begins(first: int, count: int) -> tuple[str, ...]:
    """How the lines of rows begin: their number and a space. Reports that are read side by side ask for the same."""
    return tuple([f"{it} " for it in range(first, first + count)])


class Answers:
    """Counts the lines of a report: each word by rule, limits with their rows, kills and what overload did. Of a record
    that was asked on `both` interfaces of its way, what each answered counts.

    `numbers` are those of the rows in the report where records were put into the trace; the counts are by the trace's
    own rows.
    """

    def __init__(self, name: Path | str, items: int | None, numbers: Rows | None = None) -> None:
        self.rows = 0
        self.both = 0
        self._numbers = numbers or Rows(())
        self.by_rule: dict[str, Counter[str]] = {}
        self.limits: dict[str, Limit] = {}
        self.overloads: Counter[str] = Counter()
        self.removed = 0  # states that records of an administrator took out
        self.end: End | None = None
        self._name = name
        self._items = items
        # what a text behind the row's number says
        self._known: dict[str, Reply] = {}

    def take(self, lines: Sequence[str]) -> list[str]:
        """Counts the lines of a block, and answers the texts behind the rows' numbers, without that of the last
        line."""
        if self.end is not None and lines:
            self._refuse(self.rows + 2, "a line after the last")
        if len(self._known) > KNOWN:
            self._known.clear()
        texts = self._texts(lines)
        first = self.rows + 1
        self.rows += len(texts)
        counts = Counter(texts)
        for text in counts:
            if text not in self._known:
                self._know(text, first + texts.index(text))
        for text, count in counts.items():
            self._count(self._known[text], count)
        self._count_limits(texts, counts, first)
        if len(lines) > len(texts):
            self._take_end(lines[len(texts)])
            if len(lines) > len(texts) + 1:
                self._refuse(self.rows + 2, "a line after the last")
        return texts

    def reply_of(self, text: str) -> Reply:
        """What a text of `take` says."""
        return self._known[text]

    def limit_in(self, text: str) -> str:
        """The word of a text of `take` that names a limit; nothing where none does. Behind it nothing is asked."""
        return next((it for it in self._known[text].words if it in self.limits), "")

    def finish(self, is_partial: bool) -> None:
        """The report is over. Trouble where it has no last line, unless `is_partial`."""
        if self.end is None and not is_partial:
            why = (
                "no end line: the report is cut, or a fault stopped it (--partial takes it)"
                if self.rows
                else "the report is empty"
            )
            self._refuse(self.rows, why)

    def _texts(self, lines: Sequence[str]) -> list[str]:
        """What stands behind the numbers of the rows; the numbers have to be those that follow."""
        count = len(lines) - (1 if lines and lines[-1].startswith("end ") else 0)
        begins = self._begins(count)
        if begins and all(map(str.startswith, lines, begins)):
            width = len(begins[0])
            if len(begins[-1]) == width:
                return [it[width:] for it in lines[:count]]
            return [it[len(begin) :] for it, begin in zip(lines, begins)]
        return self._slow_texts(lines)

    def _begins(self, count: int) -> tuple[str, ...]:
        """How the lines of the next rows begin in the report."""
        parts = self._numbers.parts(self.rows + 1, count)
        return (
            _row_begins(*parts[0]) if len(parts) == 1 else tuple(chain.from_iterable(_row_begins(*it) for it in parts))
        )

    def _slow_texts(self, lines: Sequence[str]) -> list[str]:
        """As `_texts`, of lines that are not plainly those of the rows that follow: says what is wrong with them."""
        count = len(lines)
        parts = [it.partition(" ") for it in lines]
        numbers = [it[0] for it in parts]
        if "end" in numbers:
            count = numbers.index("end")
        if numbers[:count] != [it[:-1] for it in self._begins(count)]:
            self._refuse_first(lines)
        return [it[2] for it in parts[:count]]

    def _refuse_first(self, lines: Sequence[str]) -> NoReturn:
        for line, begin in zip(lines, self._begins(len(lines)), strict=True):
            row = int(begin)
            try:
                found = read_answer(line)
            except ValueError as error:
                self._refuse(row, str(error))
            if isinstance(found, End):
                break
            if found.row != row or not line.startswith(begin):
                self._refuse(row, f"row {row} is wanted")
        self._refuse(self.rows + len(lines), "no line of a report")

    def _know(self, text: str, row: int) -> None:
        try:
            answer = read_answer(f"0 {text}")
        except ValueError as error:
            self._refuse(row, str(error))
        assert not isinstance(answer, End)
        for it in answer.legs:
            if self._items is not None and it.rule != "-" and int(it.rule[1:]) >= self._items:
                self._refuse(row, f"the rules have no {it.rule}")
        self._known[text] = reply_of(answer)

    def _count(self, reply: Reply, count: int) -> None:
        self._count_leg(reply, count)
        if reply.onward is not None:
            self.both += count
            self._count_leg(reply.onward, count)
            if reply.onward.word in LIMITING:
                self.limits[reply.onward.word].on_way_out += count

    def _count_leg(self, reply: Reply, count: int) -> None:
        self.by_rule.setdefault(reply.word, Counter())[reply.rule] += count
        if reply.is_order:
            self.removed += reply.killed * count
        if reply.word not in LIMITING:
            return
        limit = self.limits.setdefault(reply.word, Limit(reply.word))
        limit.records += count
        if reply.word.startswith("kill:"):
            self.overloads[reply.overload] += count
            limit.killed += reply.killed * count

    def _count_limits(self, texts: Sequence[str], counts: Iterable[str], first: int) -> None:
        met = {it: word for it in counts if (word := self.limit_in(it))}
        if not met:
            return
        # the last place of each: from the end for a few, by one walk for many
        if len(met) < FEW:
            backwards = texts[::-1]
            last = {it: len(texts) - 1 - backwards.index(it) for it in met}
        else:
            places = dict(zip(texts, range(len(texts)), strict=True))
            last = {it: places[it] for it in met}
        for text, word in met.items():
            limit = self.limits[word]
            limit.last_row = max(limit.last_row, first + last[text])
            if not limit.first_row or limit.first_row >= first:
                row = first + texts.index(text)
                limit.first_row = min(limit.first_row or row, row)

    def _take_end(self, line: str) -> None:
        try:
            end = read_answer(line)
        except ValueError as error:
            self._refuse(self.rows + 1, str(error))
        assert isinstance(end, End)
        if end.rows != self.rows:
            self._refuse(self.rows + 1, f"the last line tells {end.rows} rows, and there are {self.rows}")
        self.end = end

    def _refuse(self, line: int, why: str) -> NoReturn:
        raise Trouble(f"{self._name}: line {line}: {why}", Status.REFUSED)


class Moments:
    """Counts the records of a trace beside the answers that they got: by the step of their moment, by source and by
    interface."""

    def __init__(
        self,
        trace: Traces,
        answers: Answers,
        users: Sequence[Network],
        steps: Steps,
        flushes: Flushes | None = None,
        holding: Holding | None = None,
    ) -> None:
        self.first: int | None = None
        self.last = 0
        self.steps = steps
        self.refused, self.killed, self.made, self.seen = Sources(), Sources(), Sources(), Sources()
        self.interfaces: set[str] = set()
        self.onward: set[str] = set()  # of those on which packets were asked by their routes
        self.twice = 0  # records of packets that by their routes came in on another interface of the trace
        self.connections = Connections(users, steps.hear, flushes=flushes, holding=holding)
        self._trace = trace
        self._back: list[str] = []
        self._lines = self._ahead()
        self._answers = answers
        self._has_users = bool(users)
        self._row = 0
        self._seconds: dict[str, int] = {}
        self._cookies = Cookies()
        self._legs = Legs(flushes.routes) if flushes else Legs()

    def take(self, texts: Sequence[str]) -> None:
        """Counts as many records as there are answers. Trouble where the trace has fewer, or is none."""
        while texts:
            lines = next(self._lines, None)
            if lines is None:
                self._refuse("the report has more rows than the trace has records")
            if len(lines) > len(texts):
                self._back = lines[len(texts) :]
                lines = lines[: len(texts)]
            self._count(lines, texts[: len(lines)])
            texts = texts[len(lines) :]

    def finish(self, is_whole: bool) -> None:
        """The report is over. Trouble where it is whole and the trace has more records."""
        if is_whole and next(self._lines, None) is not None:
            raise Trouble(
                f"{self._trace.name}: row {self._row + 1}: the trace has more records than the report has rows",
                Status.REFUSED,
            )
        self.connections.finish()

    def _ahead(self) -> Iterator[list[str]]:
        for lines in self._trace.blocks():
            yield lines
            while self._back:
                lines, self._back = self._back, []
                yield lines

    def _count(self, lines: Sequence[str], texts: Sequence[str]) -> None:
        columns = whole = self._columns(lines)
        if not ORDERS.isdisjoint(columns[1]):
            columns = _blanked(whole)
        self._count_moments(columns[0], texts)
        replies = {it: self._answers.reply_of(it) for it in set(texts)}
        self._count_sources(columns[4], texts, replies)
        self._count_proxied(columns, texts, replies)
        self._see(columns[2])
        self._see_onward(columns, texts, replies)
        if self._legs.routes and len(self.interfaces) > 1:
            self.twice += len(lines) - len(Ways(self._legs.routes, self.interfaces).kept(lines))
        self.connections.last = self.last
        if self._has_users:
            follow_block(self.connections, self._row, whole, texts, replies)
        self._row += len(lines)

    def _columns(self, lines: Sequence[str]) -> list[list[str]]:
        """The nine columns of the lines."""
        columns = columns_of(lines)
        if columns is None:
            self._row += next(i for i, it in enumerate(lines, 1) if it.count(",") != 8)
            self._refuse("not nine columns")
        return columns

    def _see(self, names: Iterable[str]) -> None:
        if len(self.interfaces) < INTERFACES:
            self.interfaces.update(names)
            self.interfaces.discard("")

    def _see_onward(
        self, columns: Sequence[Sequence[str]], texts: Sequence[str], replies: Mapping[str, Reply]
    ) -> None:
        """The interfaces of packets that their records don't name."""
        both = {text for text, it in replies.items() if it.onward is not None}
        if not both or not self._legs.routes:
            return
        asked = list(map(both.__contains__, texts))
        ins = [is_asked and way == "in" for is_asked, way in zip(asked, columns[1])]
        outs = [is_asked and way == "out" for is_asked, way in zip(asked, columns[1])]
        self.onward.update(map(self._legs.routes.to, {*compress(columns[6], ins), *compress(columns[4], outs)}))

    def _count_moments(self, times: Sequence[str], texts: Sequence[str]) -> None:
        at = 0
        for time, group in groupby(times):
            count = len(list(group))
            if not (time.isascii() and time.isdigit()):
                self._row += at + 1
                self._refuse("the moment is no number")
            moment = int(time)
            if self.first is None:
                self.first = moment
            elif moment < self.last:
                self._row += at + 1
                self._refuse("the moment falls")
            self.last = moment
            self._count_second(moment, Counter(texts[at : at + count]) if count > 1 else Counter((texts[at],)))
            at += count

    def _count_second(self, moment: int, counts: "Counter[str]") -> None:
        step = self.steps.at(moment)
        for text, count in counts.items():
            for word in self._answers.reply_of(text).words:
                step.words[word] += count
            limit = self._answers.limits.get(self._answers.limit_in(text))
            if limit is None:
                continue
            step.killed += self._answers.reply_of(text).all_killed * count
            if limit.first_moment is None:
                limit.first_moment = moment
            if limit.last_moment != moment:
                limit.seconds += 1
                limit.last_moment = moment

    def _count_sources(self, sources: Sequence[str], texts: Sequence[str], replies: Mapping[str, Reply]) -> None:
        self.seen.add(sources)
        drops = {text for text, it in replies.items() if not DROPPED.isdisjoint(it.words)}
        if drops:
            self.refused.add(compress(sources, map(drops.__contains__, texts)))
        for times in (1, 2):
            made = {text for text, it in replies.items() if it.words.count("new") >= times}
            if made:
                self.made.add(compress(sources, map(made.__contains__, texts)))
        kills = {text for text, it in replies.items() if it.is_kill}
        for source, text in compress(zip(sources, texts, strict=True), map(kills.__contains__, texts)) if kills else ():
            self.killed.add_one(source, replies[text].all_killed)

    def _count_proxied(
        self, columns: Sequence[Sequence[str]], texts: Sequence[str], replies: Mapping[str, Reply]
    ) -> None:
        """Counts the states that were made where pf answered a SYN itself, or a packet brought its SYN cookie."""
        taken = {text for text, it in replies.items() if it.word in ("proxy", "cookie")}
        for at in compress(range(len(texts)), map(taken.__contains__, texts)) if taken else ():
            moment = int(columns[0][at])
            ends = tuple([columns[it][at] for it in range(3, 8)])
            way, _ = self._legs.first((columns[1][at], columns[2][at]), columns[4][at])
            if self._cookies.makes(replies[texts[at]].word, moment, way, ends, columns[8][at]):
                self.made.add_one(columns[4][at], 1)
                self.steps.at(moment).proxied += 1

    def _refuse(self, why: str) -> NoReturn:
        raise Trouble(f"{self._trace.name}: row {self._row}: {why}", Status.REFUSED)


def _blanked(columns: Sequence[list[str]]) -> list[list[str]]:
    """The columns without the tables, entries and networks of an administrator's records, which are no interface and no
    source."""
    blanked = list(columns)
    for number in (2, 4):
        blanked[number] = ["" if way in ORDERS else it for way, it in zip(columns[1], columns[number])]
    return blanked


def count(blocks: Iterable[list[str]], answers: Answers, moments: Moments | None, is_partial: bool) -> None:
    """Counts a report, and its trace beside it. Trouble where one of them is none, or they are not of one replay."""
    for lines in blocks:
        texts = answers.take(lines)
        if moments:
            moments.take(texts)
    answers.finish(is_partial)
    if moments:
        moments.finish(answers.end is not None)
