"""The settings of a text, as a rules text of pfsrc writes them (pf.conf(5), OPTIONS)."""

from collections.abc import Iterable
from dataclasses import dataclass, field

from pfplan.common.errors import Status, Trouble
from pfplan.common.networks import Network
from pfplan.pf.left_out import OTHER_STATES, Reason, Teller, harmless, telling
from pfplan.pf.lexer import printable
from pfplan.pf.profiles import NEEDS_PROFILE, Profile
from pfplan.pf.reading_filters import TIMEOUTS_FOR_NOTHING
from pfplan.pf.reading_statements import LIMITS
from pfplan.pf.statements import Setting, State, StateOption

# the timeouts that pfctl sets for a name, in seconds
_OPTIMIZATIONS = {
    "aggressive": "tcp.first 30, tcp.opening 5, tcp.established 18000, tcp.closing 60, tcp.finwait 30, tcp.closed 30",
    "conservative": "tcp.first 3600, tcp.opening 900, tcp.established 432000, tcp.closing 3600, tcp.finwait 600, "
    "tcp.closed 180",
    "satellite": "tcp.first 180, tcp.opening 35, tcp.established 86400, tcp.closing 905, tcp.finwait 50, tcp.closed 95",
    "normal": "tcp.first 120, tcp.opening 30, tcp.established 86400, tcp.closing 900, tcp.finwait 45, tcp.closed 90",
}
_SAME = {"high-latency": "satellite", "default": "normal"}
_ADAPTIVE = {"adaptive.start": 60000, "adaptive.end": 120000}  # what the one is in pf where the other alone is set
BOUND = telling("states are bound to interfaces", OTHER_STATES)
_NO_PACKET = harmless("no packet is passed or blocked by it")
_REASONS = {
    "fail-policy": harmless("the answer is block either way"),
    "syncookies": telling("pf answers SYN packets itself, and makes no state for those that are forged", OTHER_STATES),
    "reassemble": harmless("a trace has no fragments"),
}
_DEFAULTS_FOR_NOTHING = ("pflow", *TIMEOUTS_FOR_NOTHING)
MOST_TABLES, MOST_ENTRIES = 1000, 200000  # what pf and pfsrc have where nothing is set


@dataclass
class Settings:
    """Writes settings, and keeps the limits and the routes that they set, and the block policy of the rules behind.
    Profile and routes are written by who makes the text."""

    teller: Teller
    profile: Profile = Profile.OPENBSD
    limits: dict[str, int] = field(default_factory=lambda: {"tables": MOST_TABLES, "table-entries": MOST_ENTRIES})
    block_policy: str = "drop"
    routes: dict[Network, str] = field(default_factory=dict)
    _adaptive: dict[str, int] = field(default_factory=dict)
    _is_adaptive_fit: bool = True

    def look(self, settings: Iterable[Setting]) -> None:
        """Looks through all settings of a text, before any is written: what their adaptive timeouts are in the end."""
        for it in settings:
            if it.name == "timeout":
                self._adaptive.update((name, value) for name, value in it.pairs if name in _ADAPTIVE)
        if self._adaptive:
            whole = {**_ADAPTIVE, **self._adaptive}
            start, end = whole["adaptive.start"], whole["adaptive.end"]
            self._is_adaptive_fit = start < end or start == end == 0

    @property
    def are_scaled(self) -> bool:
        """Whether many states shorten timeouts, by the adaptive timeouts of all rules."""
        return self._is_adaptive_fit and self._adaptive.get("adaptive.end") != 0

    def last_lines(self) -> list[str]:
        """The adaptive timeouts that the text leaves at their default, or that turn scaling off, as pf takes a start
        that is not below the end."""
        if not self._is_adaptive_fit:
            return ["set timeout { adaptive.start 0, adaptive.end 0 }"]
        if len(self._adaptive) != 1:
            return []
        return [f"set timeout {{ {name} {value} }}" for name, value in _ADAPTIVE.items() if name not in self._adaptive]

    def lines(self, setting: Setting) -> list[str]:
        """The line of a setting, or nothing where it is told."""
        if setting.name == "block-policy":
            self.block_policy = setting.value
            return []
        if setting.name == "route":
            self._take_routes(setting)
            return []
        if setting.name == "limit":
            return self._limits(setting)
        if setting.name == "timeout":
            return self._timeouts(setting)
        if setting.name == "optimization":
            return [f"set timeout {{ {_OPTIMIZATIONS[_SAME.get(setting.value, setting.value)]} }}"]
        if setting.name == "syncookies" and self.profile is Profile.OPENBSD:
            return [f"set syncookies {setting.value}"]
        if setting.name not in ("profile", "state-defaults", "skip"):
            self.teller.tell_whole(setting, self._reason(setting))
        return []

    def _take_routes(self, setting: Setting) -> None:
        """Notes routes. Trouble with status 3 where the profile has none."""
        if self.profile is not Profile.OPENBSD:
            place = f"{printable(setting.place.file)}: line {setting.place.line}"
            raise Trouble(f"{place}: set route: {NEEDS_PROFILE}", Status.RULES)
        self.routes.update(setting.routes)

    def _reason(self, setting: Setting) -> Reason:
        if setting.name == "state-policy":
            is_bound = setting.value == "if-bound"
            return BOUND if is_bound else harmless("states are not bound to interfaces")
        if setting.name == "syncookies" and setting.value == "never":
            return harmless("pfsrc gives no cookies without it")
        return _REASONS.get(setting.name, _NO_PACKET)

    def _limits(self, setting: Setting) -> list[str]:
        kept: dict[str, int] = {}
        for name, value in setting.pairs:
            if name in LIMITS:
                kept[name] = value
            else:
                self.teller.tell(setting.place, f"set limit {name}", harmless("it limits nothing that is replayed"))
        self.limits.update(kept)
        return _set_line("limit", kept)

    def _timeouts(self, setting: Setting) -> list[str]:
        return _set_line(
            "timeout", {name: value for name, value in setting.pairs if self._is_adaptive_fit or name not in _ADAPTIVE}
        )

    def defaults(self, setting: Setting) -> State | None:
        """The state clause that `set state-defaults` gives to the rules behind it that have none. What is not carried
        is told."""
        if setting.name != "state-defaults":
            return None
        kept: list[StateOption] = []
        for it in setting.options:
            if it.name == "if-bound":
                self.teller.tell(setting.place, f"set state-defaults {it.shown()}", BOUND)
            elif it.name in _DEFAULTS_FOR_NOTHING:
                self.teller.tell(setting.place, f"set state-defaults {it.shown()}", _NO_PACKET)
            else:
                kept.append(it)
        return State("keep", tuple(kept)) if kept else None


def _set_line(what: str, pairs: dict[str, int]) -> list[str]:
    return [f"set {what} {{ {', '.join(f'{name} {value}' for name, value in pairs.items())} }}"] if pairs else []
