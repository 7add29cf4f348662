"""SYN cookies: when pf answers by them, and which are out."""
from __future__ import annotations

from dataclasses import dataclass, field
from typing import Optional, Set

from reader.configurations import Configuration
from reader.values import Key

SECRET_SECONDS = 15


@dataclass
class Guard:
    """Whether `adaptive` is on, the cookies out under the secret in use and under the other, and the second at which the secret turns."""

    said: Configuration
    is_on: bool = False
    used: Set[Key] = field(default_factory=set)
    other: Set[Key] = field(default_factory=set)
    turns_at: Optional[int] = None

    def share(self, percent: int) -> int:
        """A share of the limit on states."""
        return self.said.limits["states"] * percent // 100

    def gives(self, key: Key, half_open: int, now: int) -> bool:
        """Whether a SYN gets a cookie, which is out then, in place of an earlier one of its key."""
        cookies = self.said.cookies
        if cookies.mode == "never":
            return False
        if cookies.mode == "adaptive" and not self.is_on:
            if half_open <= self.share(cookies.start):
                return False
            self.is_on, self.turns_at = True, None
            self.use_other_secret()
        if self.turns_at is None:
            self.turns_at = now + SECRET_SECONDS
        self.take(key)
        self.used.add(key)
        return True

    def take(self, key: Key) -> bool:
        """Takes the cookie of a key; whether one was out."""
        was_out = key in self.used or key in self.other
        self.used.discard(key)
        self.other.discard(key)
        return was_out

    def use_other_secret(self) -> None:
        """What was out under the other secret is forgotten, and it is the one in use."""
        self.used, self.other = set(), self.used

    def pass_second(self, second: int, half_open: int) -> None:
        """Turns the secret if it is time: first `adaptive` goes off where few are half open or have a cookie out."""
        if self.turns_at != second:
            return
        cookies, out = self.said.cookies, len(self.used) + len(self.other)
        if half_open + out < self.share(cookies.end):
            self.is_on = False
        if out == 0 and not self.is_on and cookies.mode == "adaptive":
            self.turns_at = None
            return
        self.use_other_secret()
        self.turns_at = second + SECRET_SECONDS
