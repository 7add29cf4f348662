"""Tags, and the interface on which a packet came in, as a rules text of pfsrc writes them (pf.conf(5), PARAMETERS,
"tag", "tagged", "received-on")."""

import re
from collections.abc import Iterable
from dataclasses import dataclass, field

from pfplan.pf.interfaces import Machine
from pfplan.pf.left_out import Teller, beyond, harmless, telling
from pfplan.pf.reading_filters import MOST_TAG_BYTES
from pfplan.pf.statements import OldTranslation, Part, Rule, Statement
from pfplan.pf.writing_lists import NAME, NO_CHOICE, Choice, Gap, Options, split_choices


@dataclass
class TagNames:
    """The names that tags have in the rules text: those that pfsrc does not take get others."""

    teller: Teller
    _names: dict[str, str] = field(default_factory=dict)
    _taken: set[str] = field(default_factory=set)
    _given: set[str] = field(default_factory=set)
    _asked: dict[str, None] = field(default_factory=dict)
    _own: dict[str, str] = field(default_factory=dict)

    def look(self, statements: Iterable[Statement]) -> None:
        """Sees all statements, those of anchors too, before one of their tags gets another name."""
        for statement in statements:
            for it in statement.filter.parts if isinstance(statement, Rule | OldTranslation) else ():
                if it.kind in ("tag", "tagged") and NAME.fullmatch(it.value):
                    self._names[it.value] = it.value
                    self._taken.add(it.value)

    def given(self, tag: str) -> str:
        """The name in the rules text of a tag that a rule gives."""
        self._given.add(tag)
        return self._name(tag)

    def asked(self, tag: str) -> str:
        """The name of a tag that a rule asks for."""
        self._asked[tag] = None
        return self._name(tag)

    def own(self, wish: str) -> str:
        """The name of a tag that is pfplan's own, as near to the wish as may be; the same each time."""
        if wish not in self._own:
            self._own[wish] = self._reserve(wish)
        return self._own[wish]

    def note_missing(self) -> None:
        """Says which tags are asked for that no rule of the text gives. Those that are left out are told by
        themselves."""
        for it in self._asked:
            if it not in self._given and not self.teller.tags.is_given(it):
                self.teller.note(
                    f'no rule of this text gives the tag "{it}", which rules ask for: only rules that others load may'
                )

    def _name(self, tag: str) -> str:
        if tag not in self._names:
            self._names[tag] = self._reserve(re.sub(r"[^A-Za-z0-9_.-]", "_", tag)[:MOST_TAG_BYTES])
            if self._names[tag] != tag:
                self.teller.note(f'tag "{tag}" is called "{self._names[tag]}"')
        return self._names[tag]

    def _reserve(self, stem: str) -> str:
        """A name that no other tag has, as near to the stem as may be."""
        name, number = stem, 1
        while name in self._taken:
            number += 1
            name = f"{stem[: MOST_TAG_BYTES - 1 - len(str(number))]}_{number}"
        self._taken.add(name)
        return name


def received_on(part: Part | None, statement: Statement, machine: Machine, teller: Teller, counts: bool) -> Options:
    """The choices of `received-on`: none, or one for each interface of a group. With `counts` the rule may be one
    alone."""
    if part is None:
        return NO_CHOICE
    members = _members(part, machine)
    if members is None:
        return [_unknown(part, statement, machine, teller)]
    if not members:
        return NO_CHOICE if part.negated else [Gap(part.text, harmless("there is no such interface"))]
    if not part.negated:
        return split_choices([Choice(f"received-on {it}") for it in members], part.text, counts)
    if len(members) > 1:
        return [Gap(part.text, beyond("it asks for packets that came in on none of several interfaces"))]
    return [Choice(f"! received-on {members[0]}")]


def _members(part: Part, machine: Machine) -> list[str] | None:
    """The interfaces that it names: one, those of a group, or of `any` all but loopbacks; None where these are not
    known."""
    if part.value == "any":
        return machine.others(machine.loopbacks())
    return [part.value] if part.value in machine.interfaces else machine.members(part.value)


def _unknown(part: Part, statement: Statement, machine: Machine, teller: Teller) -> Choice | Gap:
    """What becomes of a name of which no interfaces are known: it is that of one, or of a group, which is told."""
    name = part.value
    if name == "any":
        why = "it asks for all interfaces but loopback ones; --ifconfig says which there are"
        return Gap(part.text, beyond(why, is_missing=True))
    if not NAME.fullmatch(name) or len(name) > 15 or name == "rdomain":
        return Gap(part.text, beyond("a trace can't have an interface of that name"))
    if name not in machine.interfaces and not name[-1].isdigit():
        help_ = f"give --interface {name}=IF{'' if machine.interfaces else ' or --ifconfig'}"
        if part.negated:
            return Gap(part.text, beyond(f"it asks for all interfaces outside of a group; {help_}", is_missing=True))
        reason = telling(f"only packets from an interface of that very name match; {help_}", is_missing=True)
        teller.tell(statement.place, f"that {name} is a group", reason, statement)
    return Choice(f"{'! ' if part.negated else ''}received-on {name}")
