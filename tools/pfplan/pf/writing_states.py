"""The state clause of a rule, as a rules text of pfsrc writes it (pf.conf(5), STATEFUL TRACKING OPTIONS)."""

from dataclasses import replace

from pfplan.common.errors import Status, Trouble
from pfplan.pf.left_out import OTHER_STATES, Reason, beyond, harmless, telling
from pfplan.pf.lexer import printable
from pfplan.pf.profiles import Profile
from pfplan.pf.reading_filters import MOST_SECONDS, MOST_STATES, TIMEOUTS_FOR_NOTHING
from pfplan.pf.statements import Rule, SourceLine, State, StateOption
from pfplan.pf.writing_settings import Settings

MOST_HANDSHAKES = 4294967
_BY_RULE = ("max-src-nodes", "max-src-conn", "max-src-conn-rate")
_CONNECTIONS = ("max-src-conn", "max-src-conn-rate")
_PAIR = ("adaptive.start", "adaptive.end")
_NEVER = (StateOption(_PAIR[0], str(MOST_STATES - 1)), StateOption(_PAIR[1], str(MOST_STATES)))
_LEAST_PAIRED = 10  # pfctl gives a rule with a `max` from here on an adaptive pair of its own
_BY_ALL = telling(
    "pf scales the timeouts of this rule with max by the states of all rules; here they are not scaled, so its states "
    "leave later than pf's while more than adaptive.start of all are held",
    OTHER_STATES,
)
_KIND_OF_STATE = {
    "modulate": harmless("only sequence numbers change, which a trace does not have"),
    "synproxy": telling("pf answers SYN packets itself, and asks the server once a client has answered", OTHER_STATES),
}


def refuse(place: SourceLine, message: str) -> Trouble:
    """A refusal of a statement that pfctl refuses too."""
    return Trouble(f"{printable(place.file)}: line {place.line}: {message}", Status.RULES)


def check_state(rule: Rule) -> None:
    """Trouble where pfctl and pfsrc refuse the state clause: on a block rule, `overload` alone, connections counted by
    all rules."""
    state = rule.filter.state
    if state is None or state.word == "no":
        return
    if rule.action == "block":
        raise refuse(rule.place, f"{state.word} state: a block rule keeps none")
    options = {it.name: it.value for it in state.options}
    limit = next((it for it in _CONNECTIONS if it in options), "")
    if "overload" in options and not limit:
        raise refuse(rule.place, "overload: wants max-src-conn or max-src-conn-rate beside it")
    if options.get("source-track") == "global" and limit:
        raise refuse(rule.place, f"source-track global: {limit} is counted by rule")


def beyond_pfsrc(state: State | None) -> Reason | None:
    """Why a rule can't be carried with its rate, or None."""
    rate = next((it.value for it in state.options if it.name == "max-src-conn-rate"), "1/1") if state else "1/1"
    count, seconds = map(int, rate.split("/"))
    if count > MOST_HANDSHAKES or seconds > MOST_SECONDS:
        return beyond(f"a rate of pfsrc has at most {MOST_HANDSHAKES} handshakes and {MOST_SECONDS} seconds")
    return None


def carried_state(state: State | None, place: SourceLine, settings: Settings, overload: dict[str, str]) -> str:
    """The clause, or nothing where there is none. Options that pfsrc does not have are told. `overload` renames
    tables."""
    teller = settings.teller
    if state is None:
        return ""
    if state.word == "no":
        return "no state"
    is_own = settings.profile is Profile.OWN
    word = "synproxy" if state.word == "synproxy" and not is_own else "keep"
    if state.word not in ("keep", word):
        teller.tell(place, f"{state.word} state", _KIND_OF_STATE[state.word])
    options = _turned_off(state.options) if is_own else _scaled(state.options, place, settings)
    names = {it.name: it.value for it in options}
    kept: list[str] = []
    for option in options:
        reason = _reason_of_option(option, names)
        if reason is not None:
            teller.tell(place, option.shown(), reason)
        else:
            kept.append(StateOption(option.name, option.value, overload.get(option.table, option.table)).shown())
    return f"{word} state ({', '.join(kept)})" if kept else f"{word} state"


def _reason_of_option(option: StateOption, names: dict[str, str]) -> Reason | None:
    """Why an option is left out, or None where it is carried."""
    name = option.name
    if name == "pflow" or name in TIMEOUTS_FOR_NOTHING:
        return harmless("no packet is passed or blocked by it")
    if name == "if-bound":
        return telling("its states are bound to an interface", OTHER_STATES)
    if name == "interval":
        return telling("the interval of the purge is one for all rules", OTHER_STATES)
    if name == "src.track" and _is_global(names):
        return telling("source nodes that rules share are kept as long as set timeout src.track says", OTHER_STATES)
    if name in _PAIR and not _is_pair(names):
        return telling("adaptive.start and adaptive.end want one another, both from 1 on", OTHER_STATES)
    return None


def _turned_off(options: tuple[StateOption, ...]) -> tuple[StateOption, ...]:
    """A start that is not below the end turns the scaling of a rule off, as pf takes it: so does a pair that no count
    of states reaches."""
    start, end = _pair_of({it.name: it.value for it in options})
    if not 1 <= end <= start:
        return options
    never = {it.name: it.value for it in _NEVER}
    return tuple(replace(it, value=never.get(it.name, it.value)) for it in options)


def _scaled(options: tuple[StateOption, ...], place: SourceLine, settings: Settings) -> tuple[StateOption, ...]:
    """The options with the adaptive pair by which pf scales the rule's timeouts. A value that is not given is 0 there,
    and either cancels the pair that `max` brings.

    A start that is not below the end turns the scaling off: so does a pair that no count of states reaches. Without a
    start the pair of all rules counts: so it does without a pair here, but for a rule with `max`, whose pair would
    count. Such a rule is not scaled here, which is told.
    """
    names = {it.name: it.value for it in options}
    start, end = _pair_of(names)
    given = [it for it in options if it.name in _PAIR]
    if not given or 1 <= start < end:
        return options
    pair = _NEVER if start or int(names.get("max", 0)) >= _LEAST_PAIRED else ()
    if pair and not start and settings.are_scaled:
        for it in given:
            settings.teller.tell(place, it.shown(), _BY_ALL)
    at = options.index(given[0])
    return (*options[:at], *pair, *(it for it in options[at:] if it not in given))


def _is_global(names: dict[str, str]) -> bool:
    """Whether a rule shares its source nodes with other rules."""
    if names.get("source-track") in ("rule", "global"):
        return names["source-track"] == "global"
    return ("source-track" in names or "max-src-states" in names) and not any(it in names for it in _BY_RULE)


def _pair_of(names: dict[str, str]) -> tuple[int, int]:
    start, end = (int(names.get(it, 0)) for it in _PAIR)
    return start, end


def _is_pair(names: dict[str, str]) -> bool:
    return min(_pair_of(names)) >= 1
