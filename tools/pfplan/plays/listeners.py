"""What listens at a server: how many connections it holds half open, and the SYN packets that it leaves unanswered."""


class Listener:
    """The backlog of a server (RFC 4987, 2): at most `bound` connections are half open at it."""

    __slots__ = ("_bound", "_half", "most", "unanswered")

    def __init__(self, bound: int) -> None:
        self._bound = bound
        self._half = 0
        self.most = 0
        self.unanswered = 0

    def take(self) -> bool:
        """A SYN has come: whether there is room for its connection. If not, it gets no answer."""
        if self._half == self._bound:
            self.unanswered += 1
            return False
        self._half += 1
        self.most = max(self.most, self._half)
        return True

    def leave(self) -> None:
        """A connection is half open no longer: its ACK has come, or its SYN|ACK was repeated in vain."""
        self._half -= 1
