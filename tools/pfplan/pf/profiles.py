"""Whose pf a rules text asks for: the line `set profile`, and whether a text is to have it."""

import enum
import re
from collections.abc import Sequence


class Profile(enum.Enum):
    """What answers a rules text: pf as OpenBSD has it, or the machine of pfsrc's own. The values are the words of
    `--profile`."""

    OPENBSD = "openbsd-7.4"
    OWN = "papers"

    def lines(self) -> list[str]:
        """The line of a rules text that asks for it; that of pfsrc's own has none."""
        return [f"set profile {self.value}"] if self is Profile.OPENBSD else []

    def told(self) -> str:
        """The sentence by which an answer says what it went by."""
        if self is Profile.OPENBSD:
            return f"pfsrc answers by the profile {self.value}: as pf of OpenBSD 7.4, as far as known."
        return "pfsrc answers as a machine of its own, which differs more from pf: the rules have no line set profile."


NEEDS_PROFILE = f"both interfaces of a packet are asked by the profile {Profile.OPENBSD.value} alone (--profile)"

# what stands in no rules text but one that `./pfsrc show` printed: all limits, and all timeouts, in its order
_CANONICAL = re.compile(
    r"set limit \{ states \d+, src-nodes \d+, tables \d+, table-entries \d+ \}\n"
    r"set timeout \{ tcp\.first \d+, [^{}\n]*, adaptive\.start \d+, adaptive\.end \d+ \}\n(set profile )?"
)
_LINE = re.compile(r"^\s*set\s+profile\s", re.MULTILINE)


def profile_of(shown: Sequence[str]) -> Profile:
    """The profile of a canonical text, as `./pfsrc show` prints it."""
    return Profile.OPENBSD if Profile.OPENBSD.lines()[0] in shown else Profile.OWN


def says_profile(text: str) -> bool:
    """Whether a text says whose pf it asks for: by the line, or since it is a canonical one, with or without it."""
    return _LINE.search(text) is not None or _CANONICAL.match(text) is not None


def is_without_profile(text: str) -> bool:
    """Whether a text is a canonical one without the line: it goes on to mean what it says."""
    found = _CANONICAL.match(text)
    return found is not None and found[1] is None
