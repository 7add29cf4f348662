"""Translation of pf before OpenBSD 4.7 in front of the filter rules: what old_translations.py plans, as items."""

from collections.abc import Callable, Sequence
from dataclasses import dataclass, replace

from pfplan.pf.left_out import EITHER_WAY, OLD_ANCHOR, OTHER_STATES, PASSES_MORE, Teller, telling
from pfplan.pf.old_translations import (
    DIRECTIONS,
    MARKS,
    Knowledge,
    Plan,
    Step,
    as_today,
    called_places,
    has_more,
    leaves_some,
    old_rules,
    planned,
)
from pfplan.pf.statements import OldAnchor, OldTranslation, Rule, SourceLine, Statement
from pfplan.pf.walking import walk
from pfplan.pf.writing_marks import TagNames
from pfplan.pf.writing_translations import Planned, Written

MOST_STEPS = 1_000  # rules that are compared by twos
_OLD_HEAD = telling("old syntax; the anchor asks what rules in it ask otherwise", OTHER_STATES)
Items = dict[Step, Planned]


@dataclass(frozen=True)
class OldOrder:
    """Writes the older translation of one text. `plan` answers the items of a rule of today, and tells what is left out
    of them; `put` writes one, with tags of pfplan's own."""

    teller: Teller
    tags: TagNames
    plan: Callable[[Rule], list[Planned]]
    put: Callable[[Planned, str], None]

    def write(self, statements: Sequence[Statement], known: Knowledge) -> dict[tuple[str, SourceLine], bool]:
        """Writes all of it. Answers each rule, by its sort and place, and whether an anchor calls it."""
        for it in statements:
            if isinstance(it, OldAnchor) and (it.body is None or has_more(it)):
                self.teller.tell_whole(it, OLD_ANCHOR if it.body is None else _OLD_HEAD)
        steps: list[Step] = []
        items: Items = {}
        every = list(old_rules(statements))
        for old in every:
            for item in self.plan(as_today(old)):
                for written in _each_way(item, old):
                    step = Step(old, written, written.direction)
                    steps.append(step)
                    items[step] = replace(item, written=written)
        if len(steps) > MOST_STEPS:
            self._tell_too_many(every)
        else:
            made = planned(steps, known, [*walk(list(statements)), *every])
            self._write(made, items, {it: leaves_some(it, statements) for it in DIRECTIONS})
        called = called_places(statements)
        return {(it.sort, it.place): (it.sort, it.place) in called for it in every}

    def _tell_too_many(self, every: Sequence[OldTranslation]) -> None:
        """Tells all of it as left out, where its rules are too many to compare."""
        for it in every:
            why = f"the older translation stands for more than {MOST_STEPS:,} rules, whose order is not compared"
            self.teller.tell_whole(as_today(it), telling(why, PASSES_MORE if it.passes else OTHER_STATES))

    def _write(self, plan: Plan, items: Items, needs_base: dict[str, bool]) -> None:
        lost = self._tell_doubts(plan)
        for step in plan.steps:
            if step in lost:
                continue
            item = items[replace(step, place=0)]
            own = self.tags.own(MARKS[step.direction]) if step.place in plan.giving | plan.asking else ""
            asked = f"! tagged {own}" if step.place in plan.asking else ""
            if needs_base[step.direction] and step.written.clause and not step.ends:
                self.put(_base_of(item), asked)
            self.put(item, f"tag {own} {asked}".strip() if step.place in plan.giving else asked)

    def _tell_doubts(self, plan: Plan) -> set[Step]:
        """Tells where a later rule may be asked in vain, and answers those that are left out for it."""
        lost: set[Step] = set()
        for one, other in plan.doubts:
            old = other.statement
            line = one.statement.place.line
            if other.ends:
                why = f"line {line} is asked first, and no tag can tell here what that matched"
                self.teller.tell_whole(as_today(old), telling(why, PASSES_MORE))
                lost.add(other)
            else:
                why = f"line {line} is asked first; here this is asked of what that matched, as no tag can tell it"
                self.teller.tell(old.place, old.sort, telling(why, EITHER_WAY), old)
        for one, other in plan.passed_over:
            line = one.statement.place.line
            why = f"line {line} ends the search for {one.statement.sort} alone, and here that for this one, too"
            self.teller.tell(other.statement.place, other.statement.sort, telling(why, EITHER_WAY), other.statement)
        return lost


def _each_way(item: Planned, old: OldTranslation) -> list[Written]:
    """What is written of an older translation for each direction that it is of: two for `no binat`. What stands for
    packets in of a `binat` that can't be written is not known."""
    way = item.written.direction or item.rule.filter.direction or ("out" if old.pool is not None else "")
    return [replace(item.written, direction=it) for it in ([way] if way else DIRECTIONS)]


def _base_of(item: Planned) -> Planned:
    """The rule in front of an older translation that makes the state where no filter rule decides."""
    asked = item.rule.filter
    parts = tuple(it for it in asked.parts if it.kind == "tagged")
    rule = replace(item.rule, action="pass", filter=replace(asked, flags="any", parts=parts))
    return replace(item, rule=rule, written=replace(item.written, clause=""), clause="keep state")
