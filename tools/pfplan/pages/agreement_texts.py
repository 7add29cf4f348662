"""How it is told where pf and pfsrc agree: as a text that can be sent to others, and as a page."""

from __future__ import annotations

from collections.abc import Iterator, Sequence

from pfplan.answers.agreements import Agreement, Difference
from pfplan.answers.hiding import Hider
from pfplan.answers.judging import Verdict
from pfplan.common.figures import counted, share_text
from pfplan.common.visible import visible
from pfplan.pages.differences import explanation
from pfplan.pages.frames import answer, bullets, code, document, paragraph, section, soft, table
from pfplan.pages.markup import Child, Markup, tag
from pfplan.pages.record_texts import record_text, why
from pfplan.traces.pf_answers import PfAnswer

HEADS = {Verdict.AGREES: "agree", Verdict.DIFFERS: "differ", Verdict.APART: "not compared"}
# Rules of one kind that are named.
MOST_RULES = 20


def headline(found: Agreement) -> str:
    """The answer in a sentence."""
    if not found.compared:
        return "No packet of the log can be compared."
    agree, compared = found.count(Verdict.AGREES), found.compared
    share = share_text(agree, compared)
    return f"pf and pfsrc agree on {share} of the packets that can be compared: {agree:,} of {compared:,}."


def span(found: Agreement) -> str:
    """How much was compared."""
    again = found.merged.rows - found.merged.packets - found.merged.onward
    more = f", {counted(again, 'row')} of packets that are logged again" if again else ""
    more += f", {found.merged.onward:,} of them on their way out too" if found.merged.onward else ""
    seconds = counted(found.last_moment - found.first_moment, "second")
    return f"{counted(found.merged.packets, 'packet')} of a log over {seconds}{more}"


LACKS_PACKETS = (
    "keep states and have no log: the log lacks their packets, so states, sources and overload tables here lack them "
    "too"
)
LACKS_LATER = (
    "have log without all: the log has the first packet of a state alone, so states here end sooner, and no handshake "
    "completes"
)
MISFITS = (
    "pf passed or blocked by a rule that does the other in this text: pf had another text, or pfctl reordered it; what "
    "pfctl -nvf prints on the firewall has pf's numbers"
)
LACKS_TAGS = (
    "rules ask packets out for tags, or for the interface where they came in: without routes that is not known of them "
    "(--routes)"
)


def notes(found: Agreement) -> Iterator[str]:
    """What bounds the comparison: what the log can't have, and what the rules text has not."""
    for rules, what in ((found.without_log, LACKS_PACKETS), (found.without_all, LACKS_LATER)):
        if rules:
            named = " ".join(f"@{it}" for it in rules[:MOST_RULES]) + (" .." if len(rules) > MOST_RULES else "")
            yield f"{counted(len(rules), 'rule')} ({named}) {what}"
    if found.misfits:
        yield f"by {counted(found.misfits, 'packet')} {MISFITS}"
    if found.doubts:
        yield f"{counted(found.doubts, 'thing')} left out of the pf.conf can change an answer"
    if found.lacks_tags:
        yield LACKS_TAGS
    if found.guessed:
        why_not = "the addresses of a name there are not known, and each makes a rule"
        yield f"pf's numbers are sure up to {found.guessed}: {why_not}"


def pf_text(pf: PfAnswer) -> str:
    """What pf said: `block by rule 3 of anchor web (called by rule 7), reason match`."""
    rule = "no rule" if pf.rule is None else f"rule {pf.rule}"
    if pf.subrule is not None:
        rule = f"rule {pf.subrule} of anchor {pf.anchor or '-'} (called by {rule})"
    reason = f", reason {pf.reason}" if pf.reason else ""
    return f"{pf.action} by {rule}{reason}" + (", rewritten" if pf.rewritten == "yes" else "")


def pfsrc_text(found: Difference) -> str:
    """What pfsrc said, and why."""
    answer_ = found.pfsrc
    because = why(answer_.word)
    return f"{answer_.word} {answer_.rule}" + (f": {because}" if because else "")


def held_text(found: Difference) -> str:
    """What pfsrc held right before the packet."""
    held = found.held
    if held is None:
        return "not known"
    entries = counted(held.entries, "table entry", "table entries")
    return f"{counted(held.states, 'state')}, {counted(held.nodes, 'source node')}, {entries}"


def explained_text(found: Difference) -> str:
    """The line of docs/DIFFERENCES.md, or that there is none."""
    return explanation(found.explained_by) if found.explained_by else "no line of docs/DIFFERENCES.md: please send this"


def points(found: Difference) -> list[tuple[str, str]]:
    """What is told of a difference, each under its head."""
    texts = [
        ("packet", record_text(found.record)),
        ("pf", pf_text(found.pf)),
        ("its rule", found.rule_of_pf),
        ("pfsrc", pfsrc_text(found)),
        ("its rule", found.rule_of_pfsrc),
    ]
    return [it for it in (*texts, ("held", held_text(found)), ("explained by", explained_text(found))) if it[1]]


def text_of(found: Agreement, top: int) -> str:
    """The whole text, with the first differences, up to so many."""
    return "".join(f"{it}\n" for it in _lines(found, top))


def _lines(found: Agreement, top: int) -> Iterator[str]:
    yield headline(found)
    yield span(found)
    yield found.profile.told()
    for verdict, head in HEADS.items():
        kinds = found.kinds(verdict)
        yield ""
        yield f"{head}: {counted(found.count(verdict), 'packet')}"
        for kind, pairs in kinds.items():
            yield f"  {sum(pairs.values()):>10,}  {kind}"
            yield from (f"  {count:>16,}  pf {pf}, pfsrc {ours}" for (pf, ours), count in pairs.items())
    yield from _part(
        "refused by a limit, by one of the two",
        (f"  {count:>10,}  pf {pf}, pfsrc {ours}" for (pf, ours), count in found.refusals().items()),
    )
    yield from _part("to know", (f"  {visible(it)}" for it in notes(found)))
    for number, it in enumerate(found.differences[:top], 1):
        yield ""
        yield f"difference {number}, packet {it.row}: {it.kind}"
        yield from (f"  {head:<13} {visible(text)}" for head, text in points(it))
    if len(found.differences) > top:
        yield ""
        yield f"and {len(found.differences) - top:,} differences more, which agree.json has"


def _part(title: str, lines: Iterator[str]) -> Iterator[str]:
    shown = list(lines)
    if shown:
        yield from ("", title, *shown)


def page_of(found: Agreement, hider: Hider, differences: str, top: int) -> str:
    """The page, with the first differences, up to so many."""
    title = "pf and pfsrc on the packets of a log"
    is_good = found.count(Verdict.DIFFERS) == 0 if found.compared else None
    counts = [f"{head}: {counted(found.count(verdict), 'packet')}" for verdict, head in HEADS.items()]
    heads = [tag("h1", title), soft(span(found)), soft(found.profile.told())]
    parts: list[Child] = [*heads, answer(headline(found), is_good, bullets(counts)), *_tables(found)]
    if found.differences[:top]:
        parts.append(
            section(
                "The first differences",
                *(_difference(number, it, hider) for number, it in enumerate(found.differences[:top], 1)),
            )
        )
    to_know = [hider.text(it) for it in notes(found)]
    if to_know:
        parts.append(section("To know", bullets(to_know)))
    parts.append(
        section(
            "More",
            paragraph(
                "Where and how an answer can differ from a running pf's: ",
                tag("a", "docs/DIFFERENCES.md", href=differences),
                " of pfsrc.",
            ),
        )
    )
    parts.append(
        tag("footer", "Made by pfplan, which is tested and not proved. The replay is that of the proved program pfsrc.")
    )
    return document(title, parts)


def _tables(found: Agreement) -> Iterator[Child]:
    """What was found, by kind, and what a limit refused."""
    for verdict, head in HEADS.items():
        rows = [row for kind, pairs in found.kinds(verdict).items() for row in _rows(kind, pairs)]
        if rows:
            yield section(f"{head.capitalize()}, by kind", table(["kind", "pf", "pfsrc", "packets"], rows, "tssn"))
    refusals: list[Sequence[Child]] = [[pf, ours, f"{count:,}"] for (pf, ours), count in found.refusals().items()]
    if refusals:
        yield section("Refused by a limit, by one of the two", table(["pf", "pfsrc", "packets"], refusals, "ssn"))


def _rows(kind: str, pairs: dict[tuple[str, str], int]) -> Iterator[Sequence[Child]]:
    for (pf, ours), count in pairs.items():
        yield [kind, pf, ours, f"{count:,}"]


def _difference(number: int, found: Difference, hider: Hider) -> Markup:
    rows: list[Sequence[Child]] = [
        [head, code(hider.text(text)) if head == "its rule" else hider.text(text)] for head, text in points(found)
    ]
    return tag("div", tag("h3", f"{number}. Packet {found.row}: {found.kind}"), table(["", ""], rows, "st"))
