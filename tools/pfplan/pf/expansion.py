"""Statements to the lines of a rules text: lists expanded as pfctl does, and what can't be carried told.

Combinations come in this order: interfaces, protocols, source hosts, source ports, destination hosts, destination
ports.
"""

import itertools
import re
from collections.abc import Iterator
from dataclasses import dataclass, field, replace

from pfplan.pf.combinations import Combination, combined
from pfplan.pf.left_out import (
    COUNTS,
    LACK_NOTE,
    OLD_TRANSLATIONS,
    OTHER_STATES,
    PASSES_MORE,
    TRANSLATIONS,
    TRANSLATION_NOTE,
    Reason,
    Teller,
    counts_states,
    harmless,
    is_carried_match,
    reason_of_match,
    reason_of_other,
    reason_of_part,
    tags_of,
    telling,
)
from pfplan.pf.lexer import printable
from pfplan.pf.linking_anchors import DEEPEST
from pfplan.pf.numbers_of_pf import Key, Numbered, Numbers
from pfplan.pf.old_translations import Knowledge, as_today, old_rules, shown_today
from pfplan.pf.profiles import Profile
from pfplan.pf.reading_filters import MOST_TAG_BYTES
from pfplan.pf.services import shown_protocol
from pfplan.pf.statements import (
    Anchor,
    Antispoof,
    Filter,
    Host,
    HostKind,
    Interface,
    OldAnchor,
    OldTranslation,
    Other,
    Part,
    Rule,
    Setting,
    Side,
    SourceLine,
    State,
    Statement,
    Table,
)
from pfplan.pf.walking import any_counts, walk
from pfplan.pf.writing_lists import NO_CHOICE, Choice, Chooser, Gap, Options, places_in_pf
from pfplan.pf.writing_marks import TagNames, received_on
from pfplan.pf.writing_old_order import OldOrder
from pfplan.pf.writing_settings import Settings
from pfplan.pf.writing_states import beyond_pfsrc, carried_state, check_state, refuse
from pfplan.pf.writing_tables import TableMaker
from pfplan.pf.writing_translations import Planned, Translator, Written

MOST_ITEMS = 10_000  # rules and anchors of a rules text of pfsrc
MOST_COMBINATIONS = 100_000  # of one rule, some of which may be left out
_NO_STATE = telling("in older pf a packet that is translated makes a state by this rule, too", OTHER_STATES)


@dataclass
class Scope:
    """Where statements stand: the anchors around them, the names that anchors have there, and tables of that anchor
    alone.

    A copy has the rules of a body that stand before it already; its tables are theirs. `ruleset` is pf's.
    """

    depth: int = 0
    path: str = ""
    anchors: dict[str, Anchor] = field(default_factory=dict)
    tables: dict[str, str] = field(default_factory=dict)
    is_copy: bool = False
    ruleset: Numbered = field(default_factory=Numbered)


@dataclass
class Expander:
    """Expands the statements of a text. With `translates` the rules that come of it translate addresses."""

    chooser: Chooser
    tables: TableMaker
    settings: Settings
    teller: Teller
    numbers: Numbers
    overloaded: frozenset[str] = frozenset()
    translates: bool = False
    lines: list[str] = field(default_factory=list)
    labels: dict[int, str] = field(default_factory=dict)
    origins: list[SourceLine] = field(default_factory=list)
    skipped: set[int] = field(default_factory=set)
    _defaults: State | None = None
    _lines_of_tables: dict[int, str] = field(default_factory=dict)
    _opened: dict[int, dict[str, str]] = field(default_factory=dict)
    _tags: TagNames = field(init=False)
    _translator: Translator = field(init=False)
    _called: dict[tuple[str, SourceLine], bool] = field(default_factory=dict)

    def __post_init__(self) -> None:
        self._tags = TagNames(self.teller)
        self._translator = Translator(self.chooser.machine, self.teller, self.tables.entries)

    def expand(self, statements: list[Statement]) -> None:
        """Expands all statements of a text, into `lines`, `labels` and `origins`."""
        self.numbers.look(walk(statements))
        if self.settings.profile is Profile.OPENBSD:
            every = [*walk(statements), *(as_today(it) for it in old_rules(statements) if self.translates)]
            self.teller.tags = tags_of(every, self.translates)
            self._tags.look(every)
        self._skip([it for it in statements if isinstance(it, Setting) and it.name == "skip"])
        self._body(statements, Scope())
        self._tags.note_missing()

    def _skip(self, settings: list[Setting]) -> None:
        """Rules in front of all others for `set skip`: pf passes what is on these interfaces, and makes no state.
        `none` alone undoes it."""
        skipped: dict[str, Setting] = {}
        for it in settings:
            if it.interfaces == ("none",):
                skipped.clear()
                continue
            for name in it.interfaces:
                skipped.update((found, it) for found in self.chooser.skipped(name, it))
        for name, it in skipped.items():
            self.skipped.add(len(self.origins))
            self._item(it.place, f"pass quick on {name} all no state", None)

    def _body(self, statements: list[Statement], scope: Scope) -> None:
        if not scope.is_copy:
            self._tables([it for it in statements if isinstance(it, Table)], scope)
        waits = self.translates and scope.depth == 0
        for it in statements:
            if waits and isinstance(it, Rule | Anchor | Antispoof | OldTranslation | OldAnchor):
                order = OldOrder(self.teller, self._tags, lambda rule: self._planned(rule, scope, {}), self._write)
                self._called = order.write(statements, Knowledge(self.chooser.tables.made))
                waits = False
            self._statement(it, scope)

    def _own_tables(self, body: tuple[Statement, ...], path: str) -> dict[str, str]:
        """A table that is defined in an anchor is that anchor's own: it gets a name that no other has."""
        names = dict.fromkeys(it.name for it in body if isinstance(it, Table))
        return {it: self.chooser.tables.reserve(f"{path}.{it}") for it in names}

    def _statement(self, statement: Statement, scope: Scope) -> None:
        if isinstance(statement, Rule):
            self._rule(statement, scope)
        elif isinstance(statement, Anchor):
            self._anchor(statement, scope)
        elif isinstance(statement, Table) and id(statement) in self._lines_of_tables:
            self.lines.append(self._lines_of_tables[id(statement)])
        elif isinstance(statement, Antispoof):
            self._antispoof(statement, scope)
        elif isinstance(statement, Other):
            self._other(statement, scope)
        elif isinstance(statement, Setting) and scope.depth:
            raise refuse(statement.place, f"'set {statement.name}': no setting stands in an anchor")
        elif isinstance(statement, Setting):
            self._defaults = self.settings.defaults(statement) or self._defaults
            self.lines.extend(self.settings.lines(statement))

    def _other(self, statement: Other, scope: Scope) -> None:
        """Tells a statement that a rules text does not have. The older translation of the main text stands in front of
        the filter rules."""
        is_old = isinstance(statement, OldTranslation | OldAnchor)
        if is_old and self.translates and (scope.depth == 0 or self._is_called(statement)):
            return
        today = shown_today(statement) if isinstance(statement, OldTranslation) else ""
        self.teller.tell_whole(statement, reason_of_other(statement, today))
        if statement.kind in OLD_TRANSLATIONS:
            self.teller.note(LACK_NOTE if self.translates else TRANSLATION_NOTE)

    def _is_called(self, statement: Other) -> bool:
        """Whether an anchor of the older translation calls this rule, which stands in a file with filter rules."""
        return isinstance(statement, OldTranslation) and self._called.get((statement.sort, statement.place), False)

    def _tables(self, defined: list[Table], scope: Scope) -> None:
        """Makes the lines of tables before the rules are expanded, which may stand in front of them. The last of a name
        stands.

        A table that rules put sources into is no `const` one: pf's kernel adds them all the same, as far as known, and
        pfsrc would refuse it.
        """
        last = {it.name: it for it in defined}
        for it in defined:
            if last[it.name] is not it:
                self.teller.tell_whole(
                    it, telling(f"<{it.name}> is defined again at line {last[it.name].place.line}, and that stands")
                )
                continue
            name = scope.tables.get(it.name, self.chooser.tables.plain(it.name))
            if "const" in it.parts and it.name in self.overloaded:
                why = "a rule puts sources into it by overload, and whether pf takes them is not sure"
                self.teller.tell(it.place, f"const of <{it.name}>", telling(why, PASSES_MORE))
                parts = tuple(part for part in it.parts if part != "const")
                line = self.tables.line(replace(it, parts=parts), name)
            else:
                line = self.tables.line(it, name)
            if scope.depth:
                self.chooser.tables.moved.append(line)
            else:
                self._lines_of_tables[id(it)] = line

    def _antispoof(self, statement: Antispoof, scope: Scope) -> None:
        """The rules that pfctl makes of it: no packet of the interface's networks from elsewhere, and none from its own
        addresses."""
        for host in statement.interfaces:
            network = replace(host, text=f"{host.text}:network")
            asked = Filter("in", statement.log, statement.quick, family=statement.family, parts=statement.parts)
            elsewhere = replace(asked, interfaces=(Interface(host.text, negated=True),), source=Side((network,)))
            self._rule(Rule(statement.place, statement.text, "block", "drop", elsewhere), scope)
            if host.text not in self.chooser.machine.loopbacks():
                own = replace(asked, source=Side((host,)))
                self._rule(Rule(statement.place, statement.text, "block", "drop", own), scope)

    def _rule(self, rule: Rule, scope: Scope) -> None:
        numbers = self.numbers.rule(scope.ruleset, rule, rule.filter)
        if not self.translates and any(it.kind in TRANSLATIONS for it in rule.filter.parts):
            self.teller.note(TRANSLATION_NOTE)
        if rule.action == "match" and self._is_match_left_out(rule):
            return
        if self._called and rule.action == "pass" and rule.filter.state and rule.filter.state.word == "no":
            self.teller.tell(rule.place, "no state", _NO_STATE, rule)
        for it in self._planned(rule, scope, numbers):
            self._write(it)

    def _planned(self, rule: Rule, scope: Scope, numbers: dict[Key, int]) -> list[Planned]:
        """The items that come of a rule; what is left out of them is told."""
        state = self._state_of(rule)
        if self._goes_whole(rule, beyond_pfsrc(state)):
            return []
        combinations = self._combinations(rule, rule.filter, scope, counts_states(state))
        written = self._written(rule, combinations, scope, counts_states(state))
        if not written:
            return []
        self._tell_parts(rule)
        if rule.action == "match" and rule.filter.state is not None:
            self.teller.tell(rule.place, f"{rule.filter.state.word} state", COUNTS, rule)
        clause = carried_state(state, rule.place, self.settings, self._renamed(scope))
        places = [(it, numbers.get(it.made.key)) for it in written]
        return [Planned(rule, it, clause, None if at is None else at + it.number) for it, at in places]

    def _written(self, rule: Rule, combinations: list[Combination], scope: Scope, counts: bool) -> list[Written]:
        """The combinations, with what the rule translates."""
        if not self.translates or not any(it.kind in TRANSLATIONS for it in rule.filter.parts):
            return [Written(it) for it in combinations]
        return self._translator.written(rule, combinations, self._renamed(scope), counts)

    def _write(self, it: Planned, mark: str = "") -> None:
        """Writes an item; `mark` is what it gives and asks for of pfplan's own tags."""
        rule, made = it.rule, it.written.made
        flags = f"flags {rule.filter.flags}" if rule.filter.flags else ""
        self._label(rule.filter, made)
        own = self._marks(rule, made)
        marks = _joined(mark, own) if mark.startswith("tag ") else _joined(own, mark)
        head = self._head(rule, it.written.direction)
        parts = (flags, marks, it.written.clause, it.clause)
        line = _joined(*head, made.interface, made.family, made.protocol, made.hosts(), *parts)
        self._item(rule.place, line, it.number)

    def _is_match_left_out(self, rule: Rule) -> bool:
        """Tells a match rule that does nothing that a rules text has, or more than that; those that give a tag or
        translate are carried. pfctl takes none with `quick`."""
        if rule.filter.quick:
            raise refuse(rule.place, "quick: a match rule decides nothing")
        if self.settings.profile is Profile.OPENBSD and is_carried_match(rule, self.translates):
            return False
        self.teller.tell_whole(rule, reason_of_match(rule))
        return True

    def _state_of(self, rule: Rule) -> State | None:
        """The state clause of a rule: none of a match rule, and that of `set state-defaults` of a pass rule that has
        none."""
        if rule.action == "match":
            return None
        check_state(rule)
        return self._defaults if rule.action == "pass" and rule.filter.state is None else rule.filter.state

    def _head(self, rule: Rule, direction: str) -> list[str]:
        """What stands in front of the interface; a direction that is given is that of the item."""
        asked, answer = rule.filter, rule.answer
        direction = direction or asked.direction or ("out" if asked.part("binat-to") else "")
        if rule.action == "block" and not answer and self.settings.block_policy != "drop":
            answer = self.settings.block_policy
        return [rule.action, answer, direction, asked.log, "quick" if asked.quick else ""]

    def _marks(self, rule: Rule, made: Combination) -> str:
        """The tag that a rule gives, that which it asks for, and where the packet came in."""
        if self.settings.profile is Profile.OWN:
            return ""
        tag, tagged = rule.filter.part("tag"), rule.filter.part("tagged")
        sign = "! " if tagged and tagged.negated else ""
        return _joined(
            f"tag {self._tags.given(self._tag(tag.value, rule, made))}" if tag else "",
            f"{sign}tagged {self._tags.asked(self._tag(tagged.value, rule, made))}" if tagged else "",
            made.received,
        )

    def _tag(self, text: str, rule: Rule, made: Combination) -> str:
        """A tag, with what its macros stand for, which are those of labels (pf.conf(5), "tag")."""
        name = self._with_macros(text, made)
        if len(name.encode("utf-8", "surrogateescape")) > MOST_TAG_BYTES:
            raise refuse(rule.place, f"tag {printable(name)}: a tag has 1 to {MOST_TAG_BYTES} bytes")
        return name

    def _renamed(self, scope: Scope) -> dict[str, str]:
        return {**self.chooser.tables.renamed, **scope.tables}

    def _item(self, place: SourceLine, line: str, number: int | None) -> None:
        if len(self.origins) == MOST_ITEMS:
            raise refuse(
                place, f"the text stands for more than {MOST_ITEMS} rules and anchors, which pfsrc does not take"
            )
        self.numbers.item(number, len(self.origins))
        self.origins.append(place)
        self.lines.append(line)

    def _goes_whole(self, statement: Rule | Anchor, more: Reason | None = None) -> bool:
        """Tells a rule or an anchor that a part makes one that can't be carried."""
        reasons = [more] if more is not None else []
        reasons += [reason for _, reason in self._reasons(statement) if reason.goes]
        if reasons and isinstance(statement, Rule) and self._is_tag_for_nothing(statement):
            reason = reason_of_match(statement)
            self.teller.tell_whole(statement, reason if reason.changes else harmless("no rule asks for its tag"))
        elif reasons:
            self.teller.tell_whole(statement, next((it for it in reasons if it.changes), reasons[0]))
        return bool(reasons)

    def _is_tag_for_nothing(self, rule: Rule) -> bool:
        """Whether no answer depends on the tag that a match rule gives."""
        return rule.action == "match" and not self.teller.tags.way_without(rule)

    def _reasons(self, statement: Rule | Anchor) -> Iterator[tuple[Part, Reason]]:
        """The parts that are not carried, and why."""
        for it in statement.filter.parts:
            reason = reason_of_part(it, statement, self.settings.profile, self.translates)
            if reason is not None:
                yield it, reason

    def _tell_parts(self, statement: Rule | Anchor) -> None:
        for it, reason in self._reasons(statement):
            if it.kind == "tag" and reason.changes and not self.teller.tags.way_without(statement):
                reason = harmless("no rule asks for the tag")
            self.teller.tell(statement.place, it.text, reason, statement)

    def _label(self, asked: Filter, made: Combination) -> None:
        """Keeps the label of the item that comes next, with what its macros stand for (pf.conf(5), "label")."""
        text = next((it.text for it in asked.parts if it.kind == "label"), "")
        if not text:
            return
        label = printable(text.removeprefix("label ").strip('"'))
        self.labels[len(self.origins)] = self._with_macros(label, made)

    def _with_macros(self, text: str, made: Combination) -> str:
        """A label or a tag of the item that comes next, with what its macros stand for."""
        words = {
            "if": made.interface.removeprefix("on ").removeprefix("! ") or "any",
            "srcaddr": made.source,
            "dstaddr": made.destination,
            "srcport": re.sub(r"^port =? ?", "", made.source_port),
            "dstport": re.sub(r"^port =? ?", "", made.destination_port),
            "proto": made.protocol.removeprefix("proto ") or "ip",
            "nr": str(len(self.origins)),
        }
        return re.sub(r"\$(srcaddr|dstaddr|srcport|dstport|proto|if|nr)", lambda it: words[it[1]], text)

    def _combinations(self, statement: Rule | Anchor, asked: Filter, scope: Scope, counts: bool) -> list[Combination]:
        """All combinations that are of one family. What can't be carried of a list is told, as is the statement if
        nothing is left."""
        asked = self._with_tables(asked, scope)
        self._note_negations(statement, asked)
        choices = self.chooser
        axes: list[Options] = [
            choices.interfaces(asked, statement, counts),
            [Choice(f"proto {shown_protocol(it)}") for it in asked.protocols] or NO_CHOICE,
            choices.hosts(asked.source.hosts, asked.family, counts),
            choices.ports(asked.source.ports, counts),
            choices.hosts(asked.destination.hosts, asked.family, counts),
            choices.ports(asked.destination.ports, counts),
            received_on(asked.part("received-on"), statement, choices.machine, self.teller, counts),
        ]
        size = 1
        for axis in axes:
            size *= len(axis)
        if size > MOST_COMBINATIONS:
            raise refuse(statement.place, f"its lists stand for {size} rules; pfsrc takes {MOST_ITEMS} in all")
        self.tables.sources.budget.take("rules", size, statement.place.file, statement.place.line)
        found: list[Combination] = []
        gaps: dict[Gap, None] = {}
        # pfctl takes no list behind received-on
        keys = itertools.product(*map(places_in_pf, axes))
        for chosen, (*key, _) in zip(itertools.product(*axes), keys, strict=True):
            missing = [it for it in chosen if isinstance(it, Gap)]
            gaps.update(dict.fromkeys(missing))
            if not missing and (made := combined(asked, [it for it in chosen if isinstance(it, Choice)])):
                found.append(replace(made, key=tuple(key)))
        self._tell_gaps(statement, list(gaps), bool(found))
        return found

    def _tell_gaps(self, statement: Statement, gaps: list[Gap], is_carried: bool) -> None:
        if is_carried:
            for it in gaps:
                self.teller.tell(statement.place, f"{it.part} of: {statement.text}", it.reason, statement)
        elif gaps:
            self.teller.tell_whole(statement, next((it.reason for it in gaps if it.reason.changes), gaps[0].reason))
        else:
            raise refuse(statement.place, "no combination of its parts is of one family, and of one interface")

    def _with_tables(self, asked: Filter, scope: Scope) -> Filter:
        """The filter, with the names that tables have in the rules text."""
        names = self._renamed(scope)

        def renamed(side: Side) -> Side:
            return replace(
                side,
                hosts=tuple(
                    replace(it, text=names.get(it.text, it.text)) if it.kind is HostKind.TABLE else it
                    for it in side.hosts
                ),
            )

        return replace(asked, source=renamed(asked.source), destination=renamed(asked.destination))

    def _note_negations(self, statement: Statement, asked: Filter) -> None:
        """A list with two negated items asks for nothing, as each item is a rule of its own: that is said."""
        lists: list[tuple[Host, ...] | tuple[Interface, ...]] = [
            asked.source.hosts,
            asked.destination.hosts,
            asked.interfaces,
        ]
        if any(len(it) > 1 and any(item.negated for item in it) for it in lists):
            where = f"{printable(statement.place.file)}: line {statement.place.line}"
            self.teller.note(
                f"{where}: a list with a negated item: each item is a rule of its own, as in pf, so one rule matches "
                "what another leaves out"
            )

    def _anchor(self, anchor: Anchor, scope: Scope) -> None:
        numbers = self.numbers.rule(scope.ruleset, anchor, anchor.filter)
        if self._goes_whole(anchor):
            return
        if anchor.body is None:
            self.teller.tell_whole(
                anchor,
                telling("its rules are loaded by others while pf runs; --anchor NAME=FILE gives them", is_missing=True),
            )
            return
        if scope.depth == DEEPEST:
            self.teller.tell_whole(anchor, telling(f"it stands inside {DEEPEST} others, and pfsrc takes no more"))
            return
        if anchor.filter.state is not None:
            raise refuse(anchor.place, f"{anchor.filter.state.word} state: an anchor keeps none")
        self._check_name(anchor, scope)
        counts = any_counts(anchor.body)
        heads = self._combinations(anchor, anchor.filter, scope, counts)
        if counts and len(heads) > 1:
            why = f"its head has a list and stands for {len(heads)} anchors, whose rules would count states apart"
            self.teller.tell_whole(anchor, telling(why))
            return
        if counts and id(anchor.body) in self._opened:
            self.teller.tell_whole(
                anchor, telling("it has the same rules as another anchor, and they would count states apart")
            )
            return
        if heads:
            self._tell_parts(anchor)
        for head in heads:
            self._open(anchor, head, scope, numbers.get(head.key))

    def _check_name(self, anchor: Anchor, scope: Scope) -> None:
        """Trouble where an anchor with rules has the name of another with rules: pfctl takes a name once."""
        name = re.sub(r"[^A-Za-z0-9_.-]", "_", anchor.name)[:63]
        other = scope.anchors.get(name)
        if anchor.name and other is not None and other.name == anchor.name and other.body is not anchor.body:
            raise refuse(
                anchor.place,
                f'anchor "{printable(anchor.name)}": line {other.place.line} has an anchor of that name with other '
                "rules",
            )

    def _note_name(self, anchor: Anchor, name: str, *, is_lost: bool) -> None:
        if is_lost:
            why = "a rules text has a name once; its rules are the same"
            self.teller.tell(anchor.place, f'the name "{name}" of another anchor', harmless(why))
        elif name != anchor.name:
            self.teller.note(f'anchor "{anchor.name}" is called "{name}"')

    def _open(self, anchor: Anchor, head: Combination, scope: Scope, number: int | None) -> None:
        name = re.sub(r"[^A-Za-z0-9_.-]", "_", anchor.name)[:63]
        shown = f'"{name}"' if name and name not in scope.anchors else ""
        self._note_name(anchor, name, is_lost=bool(name) and not shown)
        scope.anchors[name] = anchor
        asked = anchor.filter
        flags = f"flags {asked.flags}" if asked.flags else ""
        quick = "quick" if asked.quick else ""
        line = _joined(
            "anchor",
            shown,
            asked.direction,
            quick,
            head.interface,
            head.family,
            head.protocol,
            head.hosts(),
            flags,
            "{",
        )
        self._item(anchor.place, line, number)
        path = f"{scope.path}.{name or 'anchor'}".strip(".")
        body = anchor.body or ()
        is_copy = scope.is_copy or id(body) in self._opened
        if id(body) not in self._opened:
            self._opened[id(body)] = self._own_tables(body, path)
        ruleset = self.numbers.anchor(scope.ruleset, anchor, number)
        self._body(
            list(body), Scope(scope.depth + 1, path, tables=self._opened[id(body)], is_copy=is_copy, ruleset=ruleset)
        )
        self.lines.append("}")


def _joined(*words: str) -> str:
    return " ".join(it for it in words if it)
