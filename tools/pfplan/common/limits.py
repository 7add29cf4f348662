"""Names of limits: as a rules text states them, and as the words of a report name them."""

# what `set limit` states
OF_ALL = ("states", "src-nodes", "tables", "table-entries")
# what a rule states
OF_RULES = ("max", "max-src-nodes", "max-src-states", "max-src-conn", "max-src-conn-rate")
# the ports that `nat-to` takes where a rule names none (pf.conf(5), TRANSLATION)
NAT_PORTS = (50001, 65535)
# the words of a packet for which `nat-to` found no port whose key is free, and of one whose state has a key of another
# state: the ports of an address are a limit, which is met before all others; keys are asked behind them
NO_PORT, NO_KEY = "drop:translate", "drop:state-insert"
# the words of packets that a limit refuses, and those of handshakes past one, in the order in which they are told
DROPS = (
    NO_PORT, "drop:max", "drop:max-src-nodes", "drop:src-nodes", "drop:max-src-states", "drop:states", NO_KEY,
)  # fmt: skip
KILLS = ("kill:max-src-conn", "kill:max-src-conn-rate", "kill:max-src-conn+max-src-conn-rate")
LIMITING = frozenset((*DROPS, *KILLS))
# the word of a packet whose SYN cookie is good, and whose rule makes no state: no limit refuses it
DROPPED_COOKIE = "drop:cookie"
# the limit of `set limit` that a word is about, where it is about one
BY_WORD = {"drop:states": "states", "drop:src-nodes": "src-nodes"}
# what an administrator does about a refusal that no number of a limit moves, and which way the answer may err
ADVICE = {
    NO_PORT: (
        "each connection to one remote address and port takes a port of nat-to, until its state is gone: more ports "
        "(port 1024:65535), another address for a part of the sources, or shorter timeouts help; pf takes a port at "
        "random and here it is the least one, so as many are free; of a pool of several addresses pf uses all, and "
        "here its first is used, so pf refuses later"
    ),
    NO_KEY: (
        "another state has the same ends on one side of the translation: by static-port two hosts behind one address "
        "with the same port, or by rdr-to two addresses of one server; without static-port nat-to takes another port"
    ),
}
