"""Routes: what netstat -rn prints, read; those that change no answer left out; and the lines of a rules text."""

import ipaddress
import random
import unittest
from pathlib import Path

from pfplan.common.errors import Status, Trouble
from pfplan.common.networks import Network
from pfplan.pf.conversion import RuleOptions, convert_text, machine_of
from pfplan.pf.interfaces import Machine
from pfplan.pf.profiles import Profile
from pfplan.pf.reading_routes import RoutesRead, read_routes, routes_given
from pfplan.pf.routes import LOCAL, Routes, routes_of
from pfplan.tests.support import FolderCase, pfplan

TEXTS = Path(__file__).resolve().parent / "routes"
HEAD = "Destination        Gateway            Flags   Refs      Use   Mtu  Prio Iface"


def read(name: str) -> RoutesRead:
    """The routes of a text of this folder, with what ifconfig prints there where it is kept too."""
    beside = TEXTS / f"{name}.ifconfig"
    return routes_given(TEXTS / name, machine_of(beside if beside.exists() else None))


def table(*lines: str, section: str = "Internet") -> str:
    """A text of one section."""
    return "".join(f"{it}\n" for it in ("Routing tables", "", f"{section}:", HEAD, *lines))


def drawn(draw: random.Random, count: int) -> dict[Network, str]:
    """Routes whose prefixes cover one another."""
    found: dict[Network, str] = {}
    for _ in range(count):
        if draw.random() < 0.5:
            found[ipaddress.ip_network((draw.getrandbits(8) << 24, draw.randint(0, 12)), strict=False)] = draw.choice(
                ["em0", "em1", "vlan10", LOCAL]
            )
        else:
            value = (0x20010DB8 << 96) | draw.getrandbits(8) << 88
            found[ipaddress.ip_network((value, draw.choice([0, 32, 36, 40, 128])), strict=False)] = draw.choice(
                ["em0", "em1", LOCAL]
            )
    return found


def printed(network: Network) -> str:
    """A prefix as netstat prints it: without its last zero parts."""
    if network.prefixlen == 0:
        return "default"
    if network.version == 6:
        return str(network).removesuffix("/128")
    parts = str(network.network_address).split(".")
    if network.prefixlen == 32:
        return ".".join(parts)
    kept = max(1, -(-network.prefixlen // 8))
    return ".".join(parts[:kept]) + f"/{network.prefixlen}"


class Reading(unittest.TestCase):
    """Tables of whole machines."""

    def test_host(self) -> None:
        """All by one interface: its own addresses stay, and neighbours say nothing new."""
        found = read("host").routes
        self.assertEqual([found.to(it) for it in ("198.51.100.1", "192.0.2.91", "192.0.2.80")], ["em0", "em0", LOCAL])
        self.assertEqual([found.to(it) for it in ("2001:db8:0:2::9", "2001:db8:0:2::80", "::1")], ["em0", LOCAL, LOCAL])
        self.assertNotIn(ipaddress.ip_network("192.0.2.0/24"), found.by_network)

    def test_router(self) -> None:
        """Both families, labels, short prefixes, priorities, broadcast, reject, blackhole; flows of IPsec are none."""
        found = read("router").routes
        rows = (
            ("198.18.0.1", "em0"), ("10.7.0.1", "em2"), ("172.31.0.1", "em2"), ("192.168.1.20", "em1"),
            ("192.168.1.21", "em1"), ("192.168.1.1", LOCAL), ("192.168.1.255", LOCAL), ("10.99.1.1", LOCAL),
            ("198.51.100.7", "em0"), ("192.168.7.7", "em0"), ("224.0.0.5", LOCAL), ("255.255.255.255", LOCAL),
            ("2001:db8:1:1::20", "em1"), ("2001:db8:1:2::1", LOCAL), ("2001:db8:1:1::1", LOCAL), ("2600::1", "em0"),
            ("fe80::1", LOCAL), ("ff02::1", LOCAL), ("no address", LOCAL),
        )  # fmt: skip
        for address, name in rows:
            self.assertEqual(found.to(address), name, address)
        self.assertTrue(found.is_local("203.0.113.5"))

    def test_pppoe_and_vlan(self) -> None:
        """A point-to-point uplink; networks of tagged interfaces, and one behind another router there."""
        found = read("pppoe").routes
        rows = ("192.0.2.1", "198.51.100.254", "203.0.113.77", "192.168.0.9")
        self.assertEqual([found.to(it) for it in rows], ["pppoe0", "pppoe0", LOCAL, "vether0"])
        found = read("vlan").routes
        self.assertEqual([found.to(it) for it in ("10.1.2.3", "10.2.9.1", "10.3.0.1")], ["vlan10", "vlan20", "vlan100"])
        self.assertNotIn(ipaddress.ip_network("10.2.9.0/24"), found.by_network)

    def test_carp(self) -> None:
        """pf is asked on the interface that a carp(4) is on; without ifconfig that is told."""
        found = read("carp")
        self.assertEqual([found.routes.to(it) for it in ("192.168.9.9", "192.168.1.9")], ["em1", "em1"])
        self.assertEqual([found.routes.to(it) for it in ("192.168.1.1", "192.168.1.255")], [LOCAL, LOCAL])
        self.assertFalse([it for it in found.notes if "carp" in it.removeprefix(str(TEXTS / "carp"))])
        alone = routes_given(TEXTS / "carp", Machine())
        self.assertEqual(alone.routes.to("192.168.9.9"), "carp9")
        self.assertIn("pf is asked on the interface that carp9 is on: --ifconfig FILE tells which", alone.notes[-1])

    def test_told(self) -> None:
        """How many there are, and what is left out."""
        told = [it.removeprefix(f"{TEXTS / 'router'}: ") for it in read("router").notes]
        self.assertEqual(
            told,
            [
                "34 routes; the rules text has 22, among them those to the firewall's own addresses",
                "left out: 9 that say nothing new, as the route that covers them has the same interface",
                "left out: 3 of multicast: its packets are taken as for the firewall itself",
                "left out: 2 of one link alone, as fe80::%em0/64: their packets are taken as for the firewall itself",
            ],
        )

    def test_several_ways(self) -> None:
        """The lowest priority, and of several ways the first; routes that are not up."""
        found = read_routes(
            table(
                "10/8   192.0.2.1  UGSP  0 0 - 8 em1",
                "10/8   192.0.2.2  UGSP  0 0 - 8 em2",
                "11/8   192.0.2.1  UGS   0 0 - 48 em1",
                "11/8   192.0.2.2  UGS   0 0 - 8 em2",
                "12/8   192.0.2.2  GS    0 0 - 8 em2",
            ),
            "routes",
            Machine(),
        )
        self.assertEqual([found.routes.to(it) for it in ("10.1.1.1", "11.1.1.1", "12.1.1.1")], ["em1", "em2", LOCAL])
        self.assertIn("routes: of 1 with several ways of the same priority the first is taken", found.notes)
        self.assertIn("routes: left out: 1 not up", found.notes)

    def test_other_columns(self) -> None:
        """Another system names the last column otherwise, and has no priorities."""
        text = "Internet:\nDestination Gateway Flags Netif Expire\ndefault 192.0.2.1 UGS em0\n10.0.0.0/8 link#2 U em1\n"
        found = read_routes(text, "routes", Machine()).routes
        self.assertEqual([found.to(it) for it in ("1.1.1.1", "10.1.1.1")], ["em0", "em1"])

    def test_bad_input(self) -> None:
        """The file, the line, and what is wrong."""
        rows = (
            ("", "routes: no routes in it: it is not what netstat -rn prints"),
            ("em0: flags=8843<UP> mtu 1500\n", "routes: no routes in it: it is not what netstat -rn prints"),
            ("Internet:\n", "routes: no routes in it: it is not what netstat -rn prints"),
            ("Internet:\n10/8 em0\n", "routes: line 2: '10/8 em0': wanted the columns Destination, Gateway"),
            ("Internet:\nDestination Gateway\n10/8 em0\n", "routes: line 3: '10/8 em0': wanted the columns"),
            (table("10/8 192.0.2.1 UGS 0"), "routes: line 5: '10/8 192.0.2.1 UGS 0': a route has a destination"),
            (table("10/40 a UGS 0 0 - 8 em0"), "'10/40' is no destination of the section Internet"),
            (table("10/ a UGS 0 0 - 8 em0"), "'10/' is no destination of the section Internet"),
            (table("10/٣ a UGS 0 0 - 8 em0"), "is no destination of the section Internet"),
            (table("2001:db8::/32 a UGS 0 0 - 8 em0"), "'2001:db8::/32' is no destination of the section Internet"),
            (table("10/8 a UGS 0 0 - 8 em0", section="Internet6"), "is no destination of the section Internet6"),
            (table("10/8 a U*S 0 0 - 8 em0"), "'U*S' are no flags of a route"),
            (table("10/8 a UGS 0 0 - x em0"), "'x' is no priority of a route"),
            (table("10/8 a UGS 0 0 - 8 em0/1"), "'em0/1' is no name of an interface"),
        )
        for text, said in rows:
            with self.assertRaises(Trouble) as caught:
                read_routes(text, "routes", Machine())
            self.assertIn(said, caught.exception.message)
            self.assertEqual(caught.exception.status, Status.RULES)


class Drawn(unittest.TestCase):
    """What holds of any routes."""

    def test_needed_ones_say_the_same(self) -> None:
        """Without those that say nothing new each address has the way that it had; none of the others can go."""
        for seed in range(60):
            draw = random.Random(seed)
            found = Routes(drawn(draw, draw.randint(0, 30)))
            kept = found.needed()
            addresses = [str(it.network_address) for it in found.by_network] + [
                str(it.broadcast_address) for it in found.by_network
            ]
            for it in (*addresses, "1.2.3.4", "2001:db8:ff00::1", "::1"):
                self.assertEqual(kept.to(it), found.to(it), f"seed {seed}: {it}")
            self.assertEqual(kept.needed(), kept)

    def test_round_trips(self) -> None:
        """What is written is read again: lines of a rules text, one list of them, and what netstat would print."""
        for seed in range(60):
            found = Routes(drawn(random.Random(seed), 12))
            self.assertEqual(routes_of(found.lines()), found)
            inner = ", ".join(it.removeprefix("set route ") for it in found.lines())
            self.assertEqual(routes_of([f"set route {{ {inner} }}"]), found)
            text = "set profile openbsd-7.4\n" + "".join(f"{it}\n" for it in found.lines()) + "pass\n"
            self.assertEqual(convert_text(text, "rules", RuleOptions()).routes, found)
            lines = {
                section: [f"{printed(it)} link#1 U 0 0 - 8 {name}" for it, name in found.by_network.items() if
                          it.version == version]
                for section, version in (("Internet", 4), ("Internet6", 6))
            }  # fmt: skip
            printed_text = "".join(table(*of, section=name) for name, of in lines.items())
            again = read_routes(printed_text, "routes", Machine()).routes
            for it in (*(str(it.broadcast_address) for it in found.by_network), "3.4.5.6", "2001:db8:ff00::1"):
                if not ipaddress.ip_address(it).is_multicast and it != "255.255.255.255":
                    self.assertEqual(again.to(it), found.to(it), f"seed {seed}: {it}")


class InRules(FolderCase):
    """Routes in a rules text."""

    def test_written(self) -> None:
        """Behind the profile, with the firewall's own addresses by ifconfig; the notes are told."""
        rules = self.write("pf.conf", "pass\n")
        done = pfplan("rules", rules, "--routes", TEXTS / "carp", "--ifconfig", TEXTS / "carp.ifconfig")
        self.assertEqual(done.status, 0, done.err)
        lines = done.out.splitlines()
        self.assertEqual(lines[:2], ["set profile openbsd-7.4", "set route 0.0.0.0/0 em0"])
        self.assertIn("set route 203.0.113.255 lo0", lines)
        self.assertIn("carp: 9 routes; the rules text has 13", done.err)

    def test_in_the_text(self) -> None:
        """A rules text that has some keeps them, a later one of a prefix in place of the one before; --routes replaces
        them."""
        text = "set profile openbsd-7.4\nset route { 10.0.0.0/8 em1, 0/0 em0 }\nset route 10/8 em2\npass\n"
        found = convert_text(text, "rules", RuleOptions())
        self.assertEqual(found.text.splitlines()[1:3], ["set route 0.0.0.0/0 em0", "set route 10.0.0.0/8 em2"])
        found = convert_text(text, "rules", RuleOptions(routes=TEXTS / "vlan"))
        self.assertEqual(found.routes.to("10.2.0.9"), "vlan20")
        self.assertIn("the routes of the text are replaced by those of --routes", found.notes)

    def test_profile(self) -> None:
        """Without the profile they are refused, whoever gives them."""
        said = "both interfaces of a packet are asked by the profile openbsd-7.4 alone (--profile)"
        for text, options in (
            ("pass\n", RuleOptions(routes=TEXTS / "vlan", profile=Profile.OWN)),
            ("set route 0.0.0.0/0 em0\npass\n", RuleOptions(profile=Profile.OWN)),
        ):
            with self.assertRaises(Trouble) as caught:
                convert_text(text, "rules", options)
            self.assertIn(said, caught.exception.message)
            self.assertEqual(caught.exception.status, Status.RULES)

    def test_syntax(self) -> None:
        """A route is a prefix and an interface."""
        for text, said in (
            ("set route em0 em1\n", "wanted a prefix"),
            ("set route 10.0.0.0/8\n", "wanted an interface"),
            ("set route 10.0.0.0/8 any\n", "'any' is no name of an interface"),
        ):
            with self.assertRaises(Trouble) as caught:
                convert_text(text, "rules", RuleOptions())
            self.assertIn(said, caught.exception.message)


if __name__ == "__main__":
    unittest.main()
