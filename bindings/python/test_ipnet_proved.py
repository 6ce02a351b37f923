"""Tests of ipnet_proved: its doctests, the rows of bindings/rows.txt, and random lists compared with ipaddress."""
import ast
import doctest
import inspect
import ipaddress
import os
import random
import re
import unittest
from concurrent.futures import ThreadPoolExecutor

import ipnet_proved
from ipnet_proved import BadLine, NotANetwork

ROWS = os.path.join(os.path.dirname(os.path.abspath(__file__)), "..", "rows.txt")
TRIALS = int(os.environ.get("IPNET_TRIALS", "300"))
FIELD = r'("(?:[^"\\]|\\.)*")'
ROW = re.compile(rf"(\w+) \| {FIELD} \| {FIELD} \| (\w+) \|(?: (.*))?")
BAD_BYTES = {"WRONG_LENGTH", "UNKNOWN_FAMILY", "PREFIX_TOO_LONG"}
BARE_ADDRESS = b"10.1.1.0"  # not a network for the library; the package adds its length


def load_tests(loader, tests, pattern):
    for module in (ipnet_proved, ipnet_proved._networks):
        tests.addTests(doctest.DocTestSuite(module))
    # doctest does not find the methods of a class in the package that another module defines
    for name in ipnet_proved.__all__:
        made = getattr(ipnet_proved, name)
        if inspect.isclass(made):
            found = doctest.DocTestFinder().find(made, name, module=False, globs=dict(vars(ipnet_proved)))
            tests.addTests(doctest.DocTestCase(test) for test in found if test.examples)
    return tests


def rows():
    """Function, two arguments, status, answer; texts as bytes."""
    with open(ROWS, encoding="ascii") as file:
        for line in file:
            line = line.rstrip("\n")
            if line and not line.startswith("#"):
                function, first, second, status, answer = ROW.fullmatch(line).groups()
                yield (function, ast.literal_eval("b" + first), ast.literal_eval("b" + second), status,
                       answer and (ast.literal_eval("b" + answer) if answer.startswith('"') else int(answer)))


def interface(data):
    """The network with this byte form, as an object of ipaddress."""
    kind = ipaddress.IPv6Interface if data[0] else ipaddress.IPv4Interface
    return kind((data[1:-1], data[-1]))


def called(function, first, second):
    """Runs the row's call, and returns its result in the form of the row's answer."""
    if function.startswith("aggregate_text"):
        return ipnet_proved.aggregate_text(first, legacy=function.endswith("legacy")).encode()
    if function in ("union_text", "intersection_text", "difference_text"):
        return getattr(ipnet_proved, function)(first, second).encode()
    if function == "same_addresses":
        return int(ipnet_proved.same_addresses(first, second))
    if function == "is_covered":
        return int(ipnet_proved.is_covered(first, interface(second)))
    if function.startswith("parse"):
        network = ipnet_proved.parse(first, legacy=function.endswith("legacy"))
        return bytes([network.version == 6]) + network.packed + bytes([network.network.prefixlen])
    return ipnet_proved.canonical_text(interface(first)).encode()


class Rows(unittest.TestCase):
    def test_rows(self):
        tried = 0
        for function, first, second, status, answer in rows():
            if status in BAD_BYTES or first == BARE_ADDRESS:
                continue  # no object of ipaddress has such bytes
            tried += 1
            with self.subTest(function=function, first=first, second=second):
                if status == "OK":
                    self.assertEqual(called(function, first, second), answer)
                elif status.startswith("BAD_LINE"):
                    with self.assertRaises(BadLine) as caught:
                        called(function, first, second)
                    self.assertEqual((caught.exception.line, caught.exception.other),
                                     (answer, status == "BAD_LINE_IN_OTHER"))
                else:
                    with self.assertRaises(NotANetwork):
                        called(function, first, second)
        self.assertGreater(tried, 70)


def random_network(rng, version):
    """An interface with host bits. It comes from few numbers, so that networks nest, join and repeat."""
    if version == 4:
        number = 0x0A000000 | rng.getrandbits(12) << rng.randrange(13)
        return ipaddress.IPv4Interface((number & 0xFFFFFFFF, rng.randint(4, 32)))
    number = 0xFD << 120 | rng.getrandbits(12) << rng.randrange(100)
    return ipaddress.IPv6Interface((number, rng.randint(4, 128)))


def random_list(rng):
    return [random_network(rng, rng.choice((4, 4, 6))) for _ in range(rng.randrange(40))]


def collapsed(interfaces):
    """The aggregate, computed by ipaddress."""
    return collapsed_networks([each.network for each in interfaces])


def collapsed_networks(networks):
    families = ([network for network in networks if network.version == version] for version in (4, 6))
    return [network for family in families for network in ipaddress.collapse_addresses(family)]


def without(networks, others):
    """The difference of the two lists, computed by ipaddress."""
    for other in others:
        networks = [rest for network in networks for rest in left(network, other)]
    return networks


def left(network, other):
    if network.version != other.version or not network.overlaps(other):
        return [network]
    if network.subnet_of(other):
        return []
    return network.address_exclude(other)


class Random(unittest.TestCase):
    def setUp(self):
        self.rng = random.Random(1)

    def test_aggregate(self):
        for _ in range(TRIALS):
            networks = random_list(self.rng)
            self.assertEqual(ipnet_proved.aggregate(networks), collapsed(networks), networks)

    def test_sets(self):
        kept = []
        for _ in range(TRIALS):
            networks, others = random_list(self.rng), random_list(self.rng)
            blocks, other_blocks = collapsed(networks), collapsed(others)
            rest = without(blocks, other_blocks)
            shared = without(blocks, rest)
            self.assertEqual(ipnet_proved.union(networks, others), collapsed_networks([*blocks, *other_blocks]))
            self.assertEqual(ipnet_proved.intersection(networks, others), collapsed_networks(shared))
            self.assertEqual(ipnet_proved.difference(networks, others), collapsed_networks(rest))
            kept.append((bool(rest), bool(shared)))
        self.assertEqual(set(kept), {(False, False), (False, True), (True, False), (True, True)})

    def test_same_addresses(self):
        answers = []
        for _ in range(TRIALS):
            networks = random_list(self.rng)
            others = collapsed(networks) if self.rng.random() < 0.5 else random_list(self.rng)
            wanted = collapsed(networks) == collapsed([ipaddress.ip_interface(each) for each in others])
            answers.append(ipnet_proved.same_addresses(networks, others))
            self.assertEqual(answers[-1], wanted, (networks, others))
        self.assertEqual(set(answers), {True, False})

    def test_is_covered(self):
        answers = []
        for _ in range(TRIALS):
            networks = random_list(self.rng)
            network = random_network(self.rng, self.rng.choice((4, 6))).network
            wanted = any(network.version == block.version and network.subnet_of(block)
                         for block in collapsed(networks))
            answers.append(ipnet_proved.is_covered(networks, network))
            self.assertEqual(answers[-1], wanted, (networks, network))
        self.assertEqual(set(answers), {True, False})

    def test_texts(self):
        for _ in range(TRIALS):
            network = random_network(self.rng, self.rng.choice((4, 6)))
            self.assertEqual(ipnet_proved.parse(str(network)), network)
            self.assertEqual(ipnet_proved.canonical_text(network), str(network))
            self.assertEqual(ipnet_proved.canonical_text(network.exploded), str(network))

    def test_threads(self):
        lists = [random_list(self.rng) for _ in range(40)]
        with ThreadPoolExecutor(8) as threads:
            self.assertEqual(list(threads.map(ipnet_proved.aggregate, lists)), [collapsed(each) for each in lists])


class Arguments(unittest.TestCase):
    def test_kinds_of_networks(self):
        kinds = ["10.0.0.7/24", ipaddress.ip_interface("10.0.0.7/24"), ipaddress.ip_network("10.0.0.0/24")]
        for kind in kinds:
            self.assertEqual(ipnet_proved.aggregate([kind]), [ipaddress.ip_network("10.0.0.0/24")])
            self.assertTrue(ipnet_proved.is_covered(kinds, kind))
        address = ipaddress.ip_address("fd00::1")
        self.assertEqual(ipnet_proved.aggregate([address]), [ipaddress.ip_network("fd00::1/128")])
        self.assertTrue(ipnet_proved.is_covered([address], address))

    def test_items_are_counted_as_lines(self):
        for bad in ["", "x", "10.0.0.0/24\n10.0.1.0/24", "\n"]:
            with self.assertRaises(BadLine) as caught:
                ipnet_proved.aggregate(["10.0.0.0/24", bad])
            self.assertEqual(caught.exception.line, 2)

    def test_no_text(self):
        for text in ["\ud800", b"\xff"]:
            with self.assertRaises(NotANetwork):
                ipnet_proved.aggregate_text(text)

    def test_an_answer_longer_than_its_text(self):
        self.assertEqual(ipnet_proved.aggregate_text("::ffff:0:0/96"), "::ffff:0.0.0.0/96\n")
        whole, last = ipaddress.ip_network("::/0"), ipaddress.ip_network("ffff:" * 7 + "ffff/128")
        self.assertEqual(ipnet_proved.difference([whole], [last]), sorted(whole.address_exclude(last)))


if __name__ == "__main__":
    unittest.main()
