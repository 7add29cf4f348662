"""How it is told how sure an answer is: as a text, and as parts of a page."""

from __future__ import annotations

from collections.abc import Iterator, Sequence

from pfplan.answers.margins import Margin, Margins
from pfplan.answers.measures import Measure
from pfplan.common.figures import counted, share_text
from pfplan.common.limits import LIMITING
from pfplan.common.visible import visible
from pfplan.pages.doubt_texts import doubt_parts
from pfplan.pages.frames import answer, bullets, document, section, soft, table
from pfplan.pages.markup import Child, Markup, tag
from pfplan.pages.size_texts import want_text


def served_text(measure: Measure) -> str:
    """How many users' connections were served: `298, 99.3 %`."""
    return f"{measure.served:,}, {share_text(measure.served, measure.counted)}"


def verdict(found: Margins) -> str:
    """How sure the answer is, in a sentence."""
    moved = counted(len(found.margins), "change")
    if not found.turning:
        return f"No answer turns over under {moved} of the rules' numbers."
    return (
        f"Some answer turns over under {len(found.turning)} of {moved} of the rules' numbers: it is too close to call "
        "there."
    )


def as_is(found: Margins) -> str:
    """The answer of the rules as they are."""
    met = [f"{word} {count:,} times" for word, count in found.base.words.items() if word in LIMITING]
    limits = f"limits met: {', '.join(met)}" if met else "no limit met"
    if not found.users:
        return f"as it is: {limits}"
    return (
        f"as it is: {served_text(found.base)} of {found.base.counted:,} connections served (wanted: at least "
        f"{want_text(found.want)}); {limits}"
    )


def text_of(found: Margins) -> str:
    """The margins for people. A change under which an answer turns over is marked by a `!`."""
    head = visible(found.trace) + (f"; users {found.users}" if found.users else "")
    lines = [head, visible(as_is(found)), "", verdict(found), ""]
    whats = [f"{it.title}, {it.step}" for it in found.margins]
    width = max((len(it) for it in whats), default=0)
    for what, it in zip(whats, found.margins):
        came = what_came(it, bool(found.users))
        lines.append(f"{'! ' if it.turns else '  '}{what.ljust(width)}  {it.values.ljust(22)}  {came}".rstrip())
    return "\n".join(lines) + "\n"


def what_came(margin: Margin, has_users: bool) -> str:
    """What a change came to, in a line."""
    if margin.measure.refused:
        return f"the rules are refused: {visible(margin.measure.refused)}"
    served = [f"served {served_text(margin.measure)}"] if has_users else []
    return "; ".join([*served, *margin.turns])


def page_of(found: Margins) -> str:
    """The margins as a page."""
    title = f"How sure is it, under {found.trace}?"
    head: list[Child] = [
        tag("h1", title),
        *doubt_parts(found.doubts),
        soft(as_is(found)),
        answer(verdict(found), not found.turning and not found.doubts, bullets(turning_lines(found))),
    ]
    foot = tag(
        "footer", "Made by pfplan, which is tested and not proved; the replays are those of the proved program pfsrc."
    )
    return document(title, [*head, section("All changes", table_of(found)), foot])


def turning_lines(found: Margins) -> Iterator[str]:
    """The changes under which an answer turns over."""
    for it in found.turning:
        yield f"{it.title}, {it.step} ({it.values}): {', '.join(it.turns)}"


def table_of(found: Margins) -> Markup:
    """The table of all changes; those under which an answer turns over stand out."""
    rows: list[Sequence[Child]] = []
    for it in found.margins:
        served = served_text(it.measure) if found.users and not it.measure.refused else "-"
        came = f"the rules are refused: {it.measure.refused}" if it.measure.refused else "; ".join(it.turns)
        rows.append([it.title, it.step, it.values, served, came])
    bold = frozenset(at for at, it in enumerate(found.margins) if it.turns)
    return table(["what", "moved", "values", "served", "turns over"], rows, "tsstt", bold)
