"""Which line of docs/DIFFERENCES.md explains that pf and pfsrc differ on a packet, if one does."""

from dataclasses import dataclass

from pfplan.answers.judging import OTHER_RULE, Fate, Judged, fate_of_pf, fate_of_pfsrc
from pfplan.pf.profiles import Profile
from pfplan.traces.pf_answers import PfAnswer
from pfplan.traces.records import Answer, Record

# How lines of the document begin: the first words of their first column.
BEGINNING = "one configuration for the whole trace"
ELSEWHERE = "`af-to`, `route-to`, `divert-to`"
EXPIRED = "an expired state that was not purged matches"
FRAGMENT = "a fragment is a record or absent"
HANDSHAKE = "a SYN and an ACK of the client complete a handshake"
HEADERS = "an IPv6 packet is judged by what follows"
KILLED = "a killed state is gone at once"
LOGGED = "a packet that a limit refuses has one line"
MEMORY = "`set limit` is exact"
NODES = "source nodes leave in slices"
NUMBERS = "rules are numbered in the order of the text"
REUSE = "a SYN for a state that both sides have closed"
SCRUB = "ICMP types, `tos`, `allow-opts`, `scrub`"
SLICES = "each second a slice examines"
SYNPROXY = "`synproxy` and `set syncookies` without the profile, `modulate`"
TAKEN_KEY = "another state has a key of the new one"
TRANSLATION = "`nat-to` takes the least port"
WINDOWS = "no sequence numbers or windows"
ALL = (
    BEGINNING, ELSEWHERE, EXPIRED, FRAGMENT, HANDSHAKE, HEADERS, KILLED, LOGGED, MEMORY, NODES, NUMBERS, REUSE, SCRUB,
    SLICES, SYNPROXY, TAKEN_KEY, TRANSLATION, WINDOWS,
)  # fmt: skip
# The line for each reason of a drop that is no limit's.
_DROPS = {
    "state-mismatch": WINDOWS, "fragment": FRAGMENT, "normalize": SCRUB, "bad-timestamp": WINDOWS, "ip-option": SCRUB,
    "no-route": ELSEWHERE,
}  # fmt: skip
# The share of `set limit states` from which a table is taken as nearly full: pf's may be full then.
NEARLY = 3 / 4


@dataclass(frozen=True)
class Circumstances:
    """What is known of a packet on which the two differ: states held of the limit, whether the trace has the beginning
    of its connection, whether states were killed before it, and whose pf the rules text asks for."""

    states: int
    limit: int
    has_beginning: bool
    has_kills: bool
    profile: Profile = Profile.OPENBSD


def line_for(judged: Judged, pf: PfAnswer, record: Record, pfsrc: Answer, known: Circumstances) -> str:
    """How the line that explains it begins; nothing where none does."""
    theirs, ours = fate_of_pf(pf), fate_of_pfsrc(pfsrc.word)
    if theirs is Fate.DROPS:
        return HEADERS if pf.reason == "ip-option" and ":" in record.source else _DROPS.get(pf.reason, "")
    if Fate.PROXIES in (theirs, ours) and Fate.PASSES in (theirs, ours):
        return SYNPROXY
    if pf.rewritten == "yes":
        return TRANSLATION
    if theirs is Fate.LIMITS:
        return _refused_there(pf, known) if ours is not Fate.LIMITS else ""
    is_own = known.profile is Profile.OWN
    if ours is Fate.LIMITS and pfsrc.word.startswith("kill:"):
        return HANDSHAKE if is_own else WINDOWS
    if ours is Fate.LIMITS:
        return LOGGED if theirs is Fate.PASSES else ""
    return _other_answer(judged, theirs, record, pfsrc, known)


def _refused_there(pf: PfAnswer, known: Circumstances) -> str:
    """Why pf may refuse what passes here: what has expired or was killed stays there for a while, and has its keys."""
    if pf.reason in ("translate", "state-insert"):
        return TRANSLATION if pf.reason == "translate" else TAKEN_KEY
    if pf.reason == "memory" and known.states < NEARLY * known.limit:
        return MEMORY
    if known.has_kills:
        return KILLED
    return NODES if pf.reason == "src-limit" else SLICES


def _other_answer(judged: Judged, theirs: Fate, record: Record, pfsrc: Answer, known: Circumstances) -> str:
    """Why pf may pass or block otherwise, or by another rule, where no limit refuses."""
    is_syn = record.protocol == "tcp" and "S" in record.flags and "A" not in record.flags
    if pfsrc.word == "state":
        is_reused = is_syn and known.profile is Profile.OWN
        return REUSE if is_reused else WINDOWS if theirs is Fate.BLOCKS else NUMBERS
    if theirs is Fate.PASSES and not is_syn and pfsrc.word != "state":
        return EXPIRED if known.has_beginning else BEGINNING
    return NUMBERS if judged.kind == OTHER_RULE else ""
