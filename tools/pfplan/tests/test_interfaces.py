"""What ifconfig prints, read; and the names of services and protocols."""

import ipaddress
import unittest

from pfplan.pf.interfaces import Location, Machine, prefix_of, read_ifconfig, shown
from pfplan.pf.services import PROTOCOLS, SERVICES, port_of, protocol_of, shown_protocol
from pfplan.tests.test_constructs import TEXTS


def machine() -> Machine:
    """The firewall of the cases."""
    return Machine(read_ifconfig((TEXTS / "ifconfig").read_text("utf-8")))


def networks(*texts: str) -> list[Location]:
    """Locations without a zone."""
    return [Location(ipaddress.ip_network(it)) for it in texts]


class Interfaces(unittest.TestCase):
    """Interfaces, groups and addresses."""

    def test_read(self) -> None:
        """Names, loopbacks, groups; lines of a tunnel's ends are no addresses."""
        found = machine()
        self.assertEqual(list(found.interfaces), ["lo0", "em0", "em1", "gif0"])
        self.assertEqual(found.loopbacks(), ["lo0"])
        self.assertEqual(found.members("egress"), ["em0"])
        self.assertIsNone(found.members("wg"))
        self.assertEqual([str(it.address) for it in found.interfaces["gif0"].addresses], ["10.9.9.1"])

    def test_locations(self) -> None:
        """Addresses by name and modifier; link-local ones have a zone, and are in no network."""
        found = machine()
        self.assertEqual(found.locations("em1"), networks("192.168.1.1"))
        self.assertEqual(found.locations("em0:network"), networks("203.0.113.0/24", "2001:db8::/64"))
        self.assertEqual(found.locations("egress:0"), networks("203.0.113.5", "2001:db8::5"))
        self.assertEqual(found.locations("em0:broadcast"), networks("203.0.113.255"))
        self.assertEqual(found.locations("gif0:peer"), networks("10.9.9.2"))
        self.assertEqual((found.locations("em0") or [])[-1], Location(ipaddress.ip_network("fe80::1"), "em0"))
        self.assertIsNone(found.locations("em9"))
        self.assertIsNone(found.locations("em0:frob"))

    def test_given(self) -> None:
        """What the command line says of a name stands before ifconfig; `:0` is the first of each family."""
        found = Machine(given={"em0": [ipaddress.ip_interface(it) for it in ("192.0.2.1", "192.0.2.2", "2001:db8::1")]})
        self.assertEqual(found.locations("em0:0"), networks("192.0.2.1", "2001:db8::1"))
        self.assertIsNone(found.locations("em0:network"))

    def test_given_with_a_length(self) -> None:
        """An address with a length stands for the address alone; its network is that of `:network`."""
        found = Machine(
            given={
                "em0": [ipaddress.ip_interface("192.0.2.1/24")],
                "em1:network": [ipaddress.ip_interface("10.0.0.0/8")],
            }
        )
        self.assertEqual(found.locations("em0"), networks("192.0.2.1"))
        self.assertEqual(found.locations("em0:network"), networks("192.0.2.0/24"))
        self.assertEqual(found.locations("em1:network"), networks("10.0.0.0/8"))
        self.assertIsNone(found.locations("em1"))

    def test_inside(self) -> None:
        """What is behind the firewall: networks of inner interfaces, and the outer ones' own addresses."""
        self.assertEqual(
            [str(it) for it in machine().inside()],
            ["203.0.113.5/32", "2001:db8::5/128", "192.168.1.0/24", "10.9.9.1/32"],
        )

    def test_other_masks(self) -> None:
        """Masks in other spellings are read, and a line that is none is passed over."""
        text = (
            "em0: flags=8843<UP> mtu 1500\n\tinet 10.0.0.1/8\n\tinet 10.1.0.1 netmask 255.255.0.0\n\tinet "
            "10.2.0.1\n\tinet frob netmask 0x0\n"
        )
        found = [str(it.network) for it in read_ifconfig(text)["em0"].addresses]
        self.assertEqual(found, ["10.0.0.0/8", "10.1.0.0/16", "10.2.0.1/32"])

    def test_prefixes(self) -> None:
        """Short addresses want a length; an IPv6 address is shown without dots."""
        self.assertEqual(str(prefix_of("172.16", 12)), "172.16.0.0/12")
        self.assertEqual(str(prefix_of("10.1.2.3", 8)), "10.0.0.0/8")
        for text, length in (
            ("10", None),
            ("10.1", None),
            ("10.0.0.1", 33),
            ("fe80::1%em0", None),
            ("010.0.0.1", None),
            ("host", 8),
        ):
            self.assertIsNone(prefix_of(text, length))
        self.assertEqual(shown(ipaddress.ip_network("::ffff:192.0.2.1")), "::ffff:c000:201")
        self.assertEqual(shown(ipaddress.ip_network("2001:DB8::/32")), "2001:db8::/32")


class Services(unittest.TestCase):
    """Names of ports and protocols."""

    def test_ports(self) -> None:
        """Names, digits, and what is neither."""
        self.assertEqual([port_of(it) for it in ("ssh", "www", "0", "65535", "bootps")], [22, 80, 0, 65535, 67])
        self.assertEqual([port_of(it) for it in ("65536", "-1", "frob", "", "99999999999", "٣")], [None] * 6)
        self.assertGreaterEqual(len(SERVICES), 300)
        self.assertTrue(all(0 < it <= 65535 for it in SERVICES.values()))

    def test_protocols(self) -> None:
        """Names, digits, and how a rules text writes them."""
        self.assertEqual(
            [protocol_of(it) for it in ("tcp", "ipv6-icmp", "255", "256", "tpc")], [6, 58, 255, None, None]
        )
        self.assertEqual([shown_protocol(it) for it in (6, 58, 89)], ["tcp", "icmp6", "89"])
        self.assertTrue(all(0 <= it <= 255 for it in PROTOCOLS.values()))

    def test_protocols_that_are_easily_mistaken(self) -> None:
        """As OpenBSD's protocols(5) and the registry of numbers have them; a word of pf.conf, as `any`, is none."""
        rows = (
            ("ipip", 94),
            ("ipencap", 4),
            ("etherip", 97),
            ("encap", 98),
            ("carp", 112),
            ("shim6", 140),
            ("pfsync", 240),
            ("any", None),
            ("private", None),
        )
        for name, number in rows:
            self.assertEqual(protocol_of(name), number, name)


if __name__ == "__main__":
    unittest.main()
