"""Drawn rules that ask for tags and for the interface where a packet came in, rules and `match` rules that give tags, and anchors around some.

They are put into rules that were drawn without them. The same generator of numbers draws the same.
"""
import random
import re
from typing import List

TAGS = ["A", "A", "B", "web.1-x"]
INTERFACES = ["em0", "em0", "em1", "em2"]
HOSTS = ["all", "inet", "inet6", "proto tcp", "proto udp", "on em0", "on em1", "on ! em0", "from 198.51.100.0/31", "to 192.0.2.1", "from <bad>", "proto tcp to any port 80"]
WAYS = ["", "in", "in", "out"]
HEADS = ["", "in", "out", "quick", "in quick", "on em0", "out on em1", "proto tcp"]
STATE = re.compile(r" (?:keep|synproxy|no) state.*")
MARK = re.compile(r" (?:! )?(?:tag|tagged|received-on) \S+")
# Which of eight rulesets side by side have marks: two of them have routes, and the second has none.
MARKED = (3, 5, 7)


def sign(draw: random.Random) -> str:
    return "! " if draw.random() < 0.3 else ""


def drawn_marks(draw: random.Random, gives: float, asks: float) -> str:
    """What a rule has behind its flags: each part once, in any order."""
    parts = [f"tag {draw.choice(TAGS)}"] if draw.random() < gives else []
    parts += [f"{sign(draw)}tagged {draw.choice(TAGS)}"] if draw.random() < asks else []
    parts += [f"{sign(draw)}received-on {draw.choice(INTERFACES)}"] if draw.random() < asks / 2 else []
    draw.shuffle(parts)
    return "".join(f" {it}" for it in parts)


def drawn_match(draw: random.Random) -> str:
    """A `match` rule; some give no tag."""
    way = draw.choice(WAYS)
    flags = draw.choice(["", "", " flags S/SA", " flags any"])
    return f"match {way} {draw.choice(HOSTS)}".replace("  ", " ") + flags + drawn_marks(draw, 0.9, 0.4)


def drawn_decision(draw: random.Random) -> str:
    """A rule that asks for what the rules before it gave."""
    state = draw.choice(["", "", " no state", " keep state (max 3)"])
    action = draw.choice(["pass", "pass", "block"])
    rule = " ".join(it for it in (action, draw.choice(["", "in", "out", "out"]), draw.choice(["", "", "quick"]), draw.choice(HOSTS)) if it)
    return rule + (drawn_marks(draw, 0.3, 0.9) or " tagged A") + (state if action == "pass" else "")


def marked(draw: random.Random, line: str) -> str:
    """A rule with marks in front of its state, and maybe `quick`."""
    state = STATE.search(line)
    at = state.start() if state else len(line)
    marks = drawn_marks(draw, 0.3, 0.2)
    if marks and " quick" not in line and draw.random() < 0.2:
        return re.sub(r"^(pass|block)((?: in\b| out\b)?)", r"\1\2 quick", line[:at], count=1) + marks + line[at:]
    return line[:at] + marks + line[at:]


def with_marks(draw: random.Random, rules: str) -> str:
    """The rules with marks, `match` rules and rules that ask for tags among them, and some of them in anchors inside one another."""
    lines: List[str] = []
    settings: List[str] = []
    for line in rules.splitlines():
        is_rule = line.startswith(("pass", "block"))
        lines += [drawn_match(draw)] if is_rule and draw.random() < 0.4 else []
        (lines if is_rule else settings).append(marked(draw, line) if is_rule else line)
    for _ in range(draw.randint(1, 3)):
        lines.insert(draw.randint(0, len(lines)), drawn_match(draw))
        lines.insert(draw.randint(len(lines) // 2, len(lines)), drawn_decision(draw))
    return "\n".join([*settings, *in_anchors(draw, lines, 0)]) + "\n"


def in_anchors(draw: random.Random, lines: List[str], depth: int) -> List[str]:
    """The lines, of which some that stand side by side are in an anchor."""
    if depth == 3 or len(lines) < 2 or draw.random() < 0.3:
        return lines
    first, last = sorted(draw.sample(range(len(lines) + 1), 2))
    head = " ".join(["anchor", draw.choice(HEADS), "{"]).replace("  ", " ")
    return [*lines[:first], head, *in_anchors(draw, lines[first:last], depth + 1), "}", *lines[last:]]


def without_marks(rules: str) -> str:
    """The rules without what they give and ask."""
    return MARK.sub("", rules)
