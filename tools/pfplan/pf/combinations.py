"""The rules that one rule with lists stands for, as texts."""

from dataclasses import dataclass

from pfplan.pf.numbers_of_pf import Key
from pfplan.pf.statements import Filter
from pfplan.pf.writing_lists import Choice


@dataclass(frozen=True)
class Combination:
    """One of the rules that a rule with lists stands for, as texts. `key` says which items of pf's lists it has, and
    `of` the family of its addresses, also where the rule does not have to say it."""

    interface: str
    family: str
    protocol: str
    source: str
    source_port: str
    destination: str
    destination_port: str
    received: str = ""
    key: Key = ()
    of: str = ""

    def hosts(self) -> str:
        """`all`, or both sides."""
        if (self.source, self.source_port, self.destination, self.destination_port) == ("any", "", "any", ""):
            return "all"
        return " ".join(
            it for it in ("from", self.source, self.source_port, "to", self.destination, self.destination_port) if it
        )


def combined(asked: Filter, chosen: list[Choice]) -> Combination | None:
    """The combination, or None where two of its hosts are of different families, or a zone is not its interface."""
    interface, protocol, source, source_port, destination, destination_port, received = chosen
    family = asked.family
    on = interface.text
    for host in (source, destination):
        if host.family and family and host.family != family:
            return None
        family = family or host.family
        if host.zone and on and on.split()[-1] != host.zone:
            return None
        if host.zone and not on:
            on = f"on {host.zone}"
    said = family if asked.family or source.is_said or destination.is_said else ""
    return Combination(
        on, said, protocol.text, source.text, source_port.text, destination.text, destination_port.text, received.text,
        of=family,
    )  # fmt: skip
