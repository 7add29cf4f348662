"""Logs of pflog(4) that tests write of reports: what a pf that says the same as pfsrc would have logged."""

import itertools
import re
from collections.abc import Sequence
from pathlib import Path

from pfplan.pf.conversion import RuleOptions, convert
from pfplan.pf.numbers_of_pf import PfRule
from pfplan.replays.runs import Replay, run_replay
from pfplan.tests.packets import NONE, Logged
from pfplan.traces.pf_answers import LIMITS
from pfplan.traces.records import Answer, Record, read_answer, records

# OpenBSD's PFRES_NAMES (sys/net/pfvar.h).
REASONS = (
    "match", "bad-offset", "fragment", "short", "normalize", "memory", "bad-timestamp", "congestion", "ip-option",
    "proto-cksum", "state-mismatch",
    "state-insert", "state-limit", "src-limit", "synproxy", "translate", "no-route",
)  # fmt: skip
PASS, BLOCK, MATCH = 0, 1, 12
_REASON_OF = {word: REASONS.index(reason) for reason, words in LIMITS.items() for word in words}
_REASON_OF["proxy"] = REASONS.index("synproxy")

Packets = list[tuple[Record, Logged]]


def with_log(text: str, log: str = "log (all)") -> str:
    """A text in which each rule logs."""
    return re.sub(
        r"^(\s*(?:pass|block(?: drop| return)?)(?: in| out)?)\b(?! log)", rf"\1 {log}", text, flags=re.MULTILINE
    )


def reported(folder: Path, conf: Path, trace: Path) -> tuple[list[tuple[Record, Answer]], dict[int, PfRule]]:
    """The records of a trace with what pfsrc answers under the rules of a pf.conf, and pf's rule of each item."""
    ruleset = convert(conf, RuleOptions())
    rules, report = folder / "made-rules", folder / "made-report"
    rules.write_text(ruleset.text, "utf-8")
    run_replay(Replay(rules, trace, report))
    answers = [it for it in map(read_answer, report.read_text("utf-8").splitlines()) if isinstance(it, Answer)]
    return list(zip(records(trace), answers, strict=True)), {item: it for it in ruleset.pf_rules for item in it.items}


def logged_of(answer: Answer, rules: dict[int, PfRule]) -> Logged:
    """What pf logs of a packet of which it says the same."""
    rule = rules[int(answer.rule[1:])] if answer.rule != "-" else None
    number = NONE if rule is None else rule.number.number if rule.number.caller is None else rule.number.caller
    anchor, subrule = (
        (rule.number.logged_name(), rule.number.number) if rule and rule.number.caller is not None else ("", NONE)
    )
    return Logged(BLOCK if answer.word == "block" else PASS, number, anchor, subrule, _REASON_OF.get(answer.word, 0))


def is_logged(answer: Answer, rules: dict[int, PfRule]) -> bool:
    """Whether pf has a packet in its log, of which it says the same: of a state without `all` the first alone."""
    rule = rules[int(answer.rule[1:])] if answer.rule != "-" else None
    is_of_state = answer.word == "state" or answer.word.startswith("kill:")
    return rule is not None and (rule.logs_all if is_of_state else rule.logs)


def log_of(reported_: Sequence[tuple[Record, Answer]], rules: dict[int, PfRule], *, whole: bool = True) -> Packets:
    """The log; `whole` has all packets in it, else those alone that the rules log."""
    return [(record, logged_of(it, rules)) for record, it in reported_ if whole or is_logged(it, rules)]


def repeated(packets: Packets, match: Logged) -> Packets:
    """The log in which a `match` rule logs each packet too, in front of the rule that decides."""
    return list(itertools.chain.from_iterable(((record, match), (record, told)) for record, told in packets))
