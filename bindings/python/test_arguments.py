"""Tests of the arguments that ipnet_proved takes, of its errors, and of the message if the library is missing."""
import copy
import ipaddress
import os
import pickle
import subprocess
import sys
import tempfile
import unittest

import ipnet_proved
from ipnet_proved import BadLine, NotANetwork

NETWORK = ipaddress.ip_network("10.0.0.0/24")
NETWORK6 = ipaddress.ip_network("fd00::/32")
# Python 3.8 has no addresses with a zone
ZONED = [] if sys.version_info < (3, 9) else [ipaddress.ip_address("fe80::1%eth0"),
                                              ipaddress.ip_interface("fe80::1%eth0/64")]


def forms(text):
    """The text in each type of texts."""
    data = text.encode()
    return [text, data, bytearray(data), memoryview(data), memoryview(bytearray(data))]


class Forms(unittest.TestCase):
    """Every call takes every form of a network and of a list."""

    def test_one_network(self):
        for form in [*forms("10.0.0.7/24"), ipaddress.ip_interface("10.0.0.7/24")]:
            with self.subTest(form=form):
                self.assertEqual(ipnet_proved.parse(form), ipaddress.ip_interface("10.0.0.7/24"))
                self.assertEqual(ipnet_proved.canonical_text(form), "10.0.0.7/24")
                self.assertTrue(ipnet_proved.is_covered(NETWORK, form))
                self.assertFalse(ipnet_proved.is_covered("10.0.1.0/24", form))

    def test_one_address(self):
        for text, full in (("10.0.0.7", "10.0.0.7/32"), ("fd00::1", "fd00::1/128")):
            for form in [*forms(text), ipaddress.ip_address(text), ipaddress.ip_interface(text),
                         ipaddress.ip_network(text)]:
                with self.subTest(form=form):
                    self.assertEqual(ipnet_proved.parse(form), ipaddress.ip_interface(full))
                    self.assertEqual(ipnet_proved.canonical_text(form), full)
                    self.assertTrue(ipnet_proved.is_covered([NETWORK, NETWORK6], form))
                    self.assertEqual(ipnet_proved.aggregate(form), [ipaddress.ip_network(full)])

    def test_lists(self):
        lists = [
            *forms("10.0.0.0/25\n10.0.0.128/25\nfd00::/32\n"), *forms("10.0.0.0/25\n\n10.0.0.128/25\nfd00::/32"),
            ["10.0.0.0/25", b"10.0.0.128/25", NETWORK6], (each for each in ("10.0.0.9/24", NETWORK6)),
            {NETWORK: 1, NETWORK6: 2}, frozenset([NETWORK, NETWORK6]),
        ]
        for form in lists:
            with self.subTest(form=form):
                self.assertEqual(ipnet_proved.aggregate(form), [NETWORK, NETWORK6])

    def test_a_network_is_a_list_of_one(self):
        for form in (*forms("10.0.0.0/24"), NETWORK, ipaddress.ip_interface("10.0.0.7/24")):
            with self.subTest(form=form):
                self.assertEqual(ipnet_proved.aggregate(form), [NETWORK])
                self.assertEqual(ipnet_proved.union(form, NETWORK6), [NETWORK, NETWORK6])
                self.assertEqual(ipnet_proved.intersection(NETWORK6, form), [])
                self.assertEqual(ipnet_proved.difference(form, form), [])
                self.assertTrue(ipnet_proved.same_addresses(form, form))

    def test_addresses_between_networks(self):
        mixed = "10.0.0.0\n10.0.0.1/32\n\nfd00::\n::ffff:10.0.0.1\nfd00::1/128\n10.0.0.2/31\n"
        wanted = ["10.0.0.0/30", "::ffff:10.0.0.1/128", "fd00::/127"]
        for form in (mixed, mixed.encode(), mixed.split()):
            self.assertEqual(ipnet_proved.aggregate_text(form).split(), wanted)
            self.assertEqual(ipnet_proved.union_text("", form).split(), wanted)
            self.assertTrue(ipnet_proved.same_addresses(form, "\n".join(wanted)))
        self.assertEqual(ipnet_proved.aggregate_text("010.0.0.1", legacy=True), "10.0.0.1/32\n")

    def test_every_object_of_ipaddress(self):
        for text in ("0.0.0.0/0", "255.255.255.255", "1.2.3.4/31", "::", "::/0", "ffff::ffff", "::ffff:1.2.3.4/97"):
            interface = ipaddress.ip_interface(text)
            for form in (interface, interface.network):
                self.assertEqual(ipnet_proved.aggregate([form]), [interface.network])
                self.assertEqual(ipnet_proved.aggregate(form), [interface.network])
            self.assertEqual(ipnet_proved.parse(interface), interface)


class Errors(unittest.TestCase):
    """What is refused, and how the exception says so."""

    CAUSES = {
        "300.0.0.1/24": "the IPv4 address is not valid",
        "300.0.0.1": "the IPv4 address is not valid",
        "10.0.0/24": "the IPv4 address is not valid",
        "1::2::3/64": "the IPv6 address is not valid",
        "/24": "the IPv4 address is not valid",
        "10.0.0.0/": "the prefix length is missing",
        "10.0.0.0/x": "the prefix length is not a number",
        "10.0.0.0/-1": "the prefix length is not a number",
        "10.0.0.0/255.0.0.0": "the prefix length is not a number",
        "10.0.0.0/33": "the prefix length is above 32",
        "10.0.0.0/" + "9" * 5000: "the prefix length is above 32",
        "fd00::/129": "the prefix length is above 128",
        "10.0.0.0/08": "the prefix length has leading zeros",
        "10.0.0.0/24\r": "it has white space",
        " 10.0.0.0/24": "it has white space",
        "10.0.0.0 /24": "it has white space",
        "any": "all addresses: write 0.0.0.0/0 and ::/0",
        "localhost": "a host name: write its addresses",
        "www.example.org/24": "a host name: write its addresses",
        "fe80::1%eth0/64": "a zone is not part of a network",
        "fe80::1%eth0": "a zone is not part of a network",
    }

    def test_causes(self):
        for text, cause in self.CAUSES.items():
            for form in forms(text):
                with self.subTest(text=text[:40], form=type(form)):
                    self.one_refused(form, text, cause)
                    self.list_refused(["10.0.0.0", form], text, cause)
                    self.list_refused("10.0.0.0\n" + text, text, cause)

    def one_refused(self, form, text, cause):
        for call in (ipnet_proved.parse, ipnet_proved.canonical_text, lambda given: ipnet_proved.is_covered("", given)):
            with self.assertRaises(NotANetwork) as caught:
                call(form)
            self.assertEqual((caught.exception.text, caught.exception.cause), (text, cause))
            self.assertIn(repr(text)[:40], str(caught.exception))
            self.assertLess(len(str(caught.exception)), 200)

    def list_refused(self, form, text, cause):
        for call, other in ((ipnet_proved.aggregate, False), (lambda given: ipnet_proved.union("", given), True),
                            (lambda given: ipnet_proved.difference(given, ""), False),
                            (lambda given: ipnet_proved.same_addresses([], given), True),
                            (lambda given: ipnet_proved.is_covered(given, "::"), False)):
            with self.assertRaises(BadLine) as caught:
                call(form)
            fault = caught.exception
            self.assertEqual((fault.line, fault.text, fault.cause, fault.other), (2, text, cause, other))

    def test_words(self):
        with self.assertRaises(BadLine) as caught:
            ipnet_proved.union(["10.0.0.0/24"], ["10.0.0.0/8", "", "10.0.0.0/24"])
        self.assertEqual(str(caught.exception), "line 2 of the other list: '': it is empty")
        with self.assertRaises(BadLine) as caught:
            ipnet_proved.aggregate(["10.0.0.0/24\n10.0.1.0/24"])
        self.assertEqual(str(caught.exception), "line 1: '10.0.0.0/24\\n10.0.1.0/24': it has several lines")

    def test_no_utf8(self):
        with self.assertRaises(NotANetwork) as caught:
            ipnet_proved.aggregate(b"10.0.0.0/24\nx\xff\n")
        self.assertEqual(str(caught.exception), r"'x\\xff': it is not UTF-8")
        with self.assertRaises(NotANetwork):
            ipnet_proved.union("", b"\xff")
        with self.assertRaises(NotANetwork):
            ipnet_proved.parse(b"\xff")

    def test_zones(self):
        for form in ZONED:
            for call in (ipnet_proved.parse, ipnet_proved.canonical_text, ipnet_proved.aggregate,
                         lambda given: ipnet_proved.is_covered("fe80::/10", given),
                         lambda given: ipnet_proved.union("", given)):
                with self.assertRaises(NotANetwork):
                    call(form)
            with self.assertRaises(BadLine) as caught:
                ipnet_proved.aggregate(["10.0.0.0", form])
            self.assertEqual((caught.exception.line, caught.exception.text), (2, str(form)))

    def test_other_types(self):
        for form in (None, 1, True, 1.5, object()):
            for call in (ipnet_proved.aggregate, ipnet_proved.aggregate_text, ipnet_proved.parse,
                         ipnet_proved.canonical_text, lambda given: ipnet_proved.is_covered("", given),
                         lambda given: ipnet_proved.aggregate(["10.0.0.0/24", given]),
                         lambda given: ipnet_proved.union("", [given]),
                         lambda given: ipnet_proved.same_addresses(given, "")):
                with self.subTest(form=form), self.assertRaises(TypeError):
                    call(form)
        with self.assertRaisesRegex(TypeError, "item 2: .* not None"):
            ipnet_proved.aggregate(["10.0.0.0/24", None])

    def test_copies(self):
        for fault in (BadLine(3, "x", "no"), BadLine(3, "x", "no", other=True), NotANetwork("x", "no")):
            for other in (pickle.loads(pickle.dumps(fault)), copy.copy(fault), copy.deepcopy(fault)):
                self.assertEqual((type(other), other.args, vars(other), str(other)),
                                 (type(fault), fault.args, vars(fault), str(fault)))


class Library(unittest.TestCase):
    def test_version(self):
        self.assertEqual(".".join(map(str, ipnet_proved.library_version())), ipnet_proved.__version__)

    def test_missing(self):
        with tempfile.TemporaryDirectory() as folder:
            ran = self.imported(folder)
            self.assertIn(f"ImportError: libipnet.so is not in {folder}: run bindings/build", ran)
            with open(os.path.join(folder, "libipnet.so"), "w", encoding="ascii") as file:
                file.write("no library")
            self.assertIn("Run bindings/build", self.imported(folder))

    def imported(self, folder):
        """What Python prints if the library is looked for in the folder."""
        here = os.path.dirname(os.path.dirname(os.path.abspath(ipnet_proved.__file__)))
        return subprocess.run([sys.executable, "-c", "import ipnet_proved"], cwd=here, stderr=subprocess.PIPE,
                              env={**os.environ, "IPNET_LIB": folder}, text=True, check=False).stderr


if __name__ == "__main__":
    unittest.main()
