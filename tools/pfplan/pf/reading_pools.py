"""The addresses behind `nat-to`, `rdr-to`, `binat-to`, `af-to`, the routes, and `->` of pf before OpenBSD 4.7
(pf.conf(5), POOL OPTIONS, TRANSLATION)."""

from collections.abc import Callable

from pfplan.pf.cursor import Cursor
from pfplan.pf.statements import Host, HostKind, Pool

STATIC_PORT = "static-port"
STICKY = "sticky-address"
SOURCE_HASH = "source-hash"
POOL_WORDS = ("bitmask", "random", "round-robin", STATIC_PORT, STICKY, "least-states")


class PoolReader:
    """Reads pools. `table_name` reads the name of a table, and the `>` behind it; none of `keywords` is the key of
    `source-hash`."""

    def __init__(self, cursor: Cursor, table_name: Callable[[], str], keywords: frozenset[str]) -> None:
        self.at = cursor
        self._table_name = table_name
        self._keywords = keywords

    def translation(self, kind: str) -> Pool:
        """What stands behind `nat-to` and its like; of `af-to` the addresses of the source alone."""
        if kind != "af-to":
            return self.pool(has_port=True)
        self.at.want_word("inet", "inet6")
        source = self.pool() if self.at.take_word("from") else Pool()
        if source.hosts and self.at.take_word("to"):
            self.pool()
        return source

    def pool(self, *, has_port: bool = False) -> Pool:
        """One address or a list of them, and how pf chooses among them."""
        hosts = self.at.listed(self._host)
        words, port = self._words()
        if has_port and not port and self.at.take_word("port"):
            port = self._port()
            more, _ = self._words()
            words = (*words, *more)
        return Pool(hosts, words, port)

    def _words(self) -> tuple[tuple[str, ...], str]:
        """The words of a pool, and the ports that stand behind one of them."""
        words: list[str] = []
        port = ""
        while True:
            if self.at.take_word(SOURCE_HASH):
                words.append(SOURCE_HASH)
                if self.at.is_name() and not self.at.is_word(*self._keywords):
                    self.at.take()  # the key: 0x and 32 digits, or a string (pf.conf(5), "source-hash")
                continue
            word = self.at.take_word(*POOL_WORDS)
            if not word:
                return tuple(words), port
            words.append(word)
            if self.at.take_word("port"):
                port = self._port()

    def _port(self) -> str:
        """`P`, `P:Q` or `P:*`, whatever stands there for the ports."""
        text = self.at.want_name("a port")
        if self.at.take_mark("*"):
            return f"{text}*"
        if text.endswith(":") and self.at.is_name() and not self.at.is_word(*self._keywords):
            text += self.at.take().text
        return text

    def _host(self) -> Host:
        host = self._address()
        if self.at.take_word("weight"):
            self.at.want_name("a weight")
        return host

    def _address(self) -> Host:
        if self.at.take_mark("<"):
            return Host(HostKind.TABLE, self._table_name())
        if self.at.is_mark("("):
            mark = self.at.mark()
            self.at.skip_parentheses()
            return Host(HostKind.DYNAMIC, self.at.text_since(mark)[1:-1], length=self._length())
        name = self.at.want_name("an address")
        if self.at.take_mark("@"):
            self.at.want_name("an interface")
        if self.at.take_mark("-"):
            last = self.at.want_name("the last address of the range")
            self._length()
            return Host(HostKind.RANGE, name, last)
        return Host(HostKind.NAME, name, length=self._length())

    def _length(self) -> int | None:
        if not self.at.take_mark("/"):
            return None
        return self.at.want_number(0, 128, "the length of a prefix")
