"""What the rules of a rules text that block tell the sender (pf.conf(5), PARAMETERS, "block")."""

from __future__ import annotations

import re
from collections.abc import Mapping
from dataclasses import dataclass


@dataclass(frozen=True, slots=True)
class Answer:
    """Whether a sender of TCP hears that a packet was refused, by a RST or an ICMP error, and one of UDP, by an
    ICMP error."""

    resets: bool = False
    tells: bool = False


DROP = Answer()
# by the word behind `block`
ANSWERS: Mapping[str, Answer] = {
    "return": Answer(True, True),
    "return-rst": Answer(True, False),
    "return-icmp": Answer(True, True),
    "return-icmp6": Answer(True, True),
}
_ITEM = re.compile(r"\s*(pass|block|anchor)(?:[ \t\r]+([a-z0-9-]+))?(?:[ \t\r]|$)")


def words_of(text: str) -> dict[int, str]:
    """The words of the rules that tell the sender something, by their numbers.

    The text is one that `./pfsrc` accepts.
    """
    found: dict[int, str] = {}
    number = 0
    for line in re.sub(r"\\\n", " ", "\n".join(_without_comment(it) for it in text.split("\n"))).split("\n"):
        item = _ITEM.match(line)
        if item is None:
            continue
        if item[1] == "block" and item[2] in ANSWERS:
            found[number] = item[2]
        number += 1
    return found


def answers_of(words: Mapping[int, str]) -> dict[int, Answer]:
    """What each of these rules tells."""
    return {number: ANSWERS[word] for number, word in words.items()}


def _without_comment(line: str) -> str:
    """A line up to its comment: a `#` outside of quotes. A backslash in a comment joins nothing."""
    return re.match(r'(?:[^"#]|"[^"]*"|"[^"]*$)*', line)[0]  # type: ignore[index]
