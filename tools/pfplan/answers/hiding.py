"""Texts without addresses: each address has a name of its own, by the order in which it comes first."""

import ipaddress
import re

_IPV4 = r"(?<![\w.])\d{1,3}(?:\.\d{1,3}){3}(?![\w.]*\.\d)"
_IPV6 = r"(?<![\w:.])(?=[0-9A-Fa-f.]*:[0-9A-Fa-f.]*:)[0-9A-Fa-f:.]*[0-9A-Fa-f:](?![\w:])"
_ADDRESS = re.compile(f"{_IPV6}|{_IPV4}")


class Hider:
    """Puts `a1`, `a2` .. in place of addresses, the same for the same address; or leaves them where they may be
    shown."""

    def __init__(self, *, shows: bool) -> None:
        self._shows = shows
        self._names: dict[str, str] = {}

    def text(self, text: str) -> str:
        """The text, as it may be shown to others."""
        return text if self._shows else _ADDRESS.sub(self._name, text)

    def _name(self, found: re.Match[str]) -> str:
        try:
            address = str(ipaddress.ip_address(found[0]))
        except ValueError:
            return found[0]
        return self._names.setdefault(address, f"a{len(self._names) + 1}")
