"""Tests of IpSet: sets of Python numbers as a plain model, bad lines, pickling, and what is refused."""
import copy
import ipaddress
import pickle
import random
import struct
import unittest

import ipnet_proved
from ipnet_proved import IpSet, NotANetwork, NotASet

# the first address of sixteen in a row, in each family and at its ends
PLACES = (ipaddress.IPv4Address("0.0.0.0"), ipaddress.IPv4Address("255.255.255.240"),
          ipaddress.IPv6Address("::"), ipaddress.IPv6Address("ffff:ffff:ffff:ffff:ffff:ffff:ffff:fff0"))
CELLS = [first + number for first in PLACES for number in range(16)]


def drawn(draw):
    """A random list of networks in the cells, and the cells that it covers."""
    lines, covered = [], set()
    for _ in range(draw.randrange(7)):
        cell, bits = draw.choice(CELLS), draw.randrange(4)
        network = ipaddress.ip_network((int(cell) & -1 << bits, cell.max_prefixlen - bits)) \
            if cell.version == 4 else ipaddress.IPv6Network((int(cell) & -1 << bits, 128 - bits))
        lines.append(str(network))
        covered.update(other for other in CELLS if other.version == network.version and other in network)
    return lines, covered


class Sets(unittest.TestCase):
    def check(self, made, covered):
        self.assertEqual({cell for cell in CELLS if cell in made}, covered)
        self.assertEqual(IpSet.from_bytes(made.to_bytes()), made)
        self.assertEqual(IpSet(made.to_text()), made)
        for version, width in ((4, 4), (6, 16)):
            cells = [cell for cell in CELLS if cell.version == version]
            answers = made.contains_packed(b"".join(cell.packed for cell in cells), width)
            self.assertEqual([cell for cell, answer in zip(cells, answers) if answer],
                             [cell for cell in cells if cell in covered])

    def test_operations(self):
        draw = random.Random(4)
        for _ in range(400):
            (first, cells), (second, others) = drawn(draw), drawn(draw)
            one, two = IpSet(first), IpSet("\n".join(second))
            self.check(one, cells)
            self.check(one | two, cells | others)
            self.check(one & two, cells & others)
            self.check(one - two, cells - others)
            self.check(one ^ two, cells ^ others)
            self.assertEqual(~~one, one)
            self.assertEqual(~(one | two), ~one & ~two)
            self.assertEqual((one <= two, one < two, one >= two, one == two),
                             (cells <= others, cells < others, cells >= others, cells == others))
            self.assertEqual(hash(one) == hash(two), cells == others)
            self.assertEqual(one.isdisjoint(two), cells.isdisjoint(others))
            for version, part in ((4, one.ipv4), (6, one.ipv6)):
                self.check(part, {cell for cell in cells if cell.version == version})
            self.assertEqual(one.ipv4_count + one.ipv6_count, len(cells))
            self.assertEqual(bool(one), bool(cells))
            self.assertEqual(sum(network.num_addresses for network in one), len(cells))
            self.assertEqual(sum(int(last) - int(start) + 1 for start, last in one.ranges()), len(cells))

    def test_whole(self):
        every = ~IpSet()
        self.assertEqual((every.ipv4_count, every.ipv6_count), (2 ** 32, 2 ** 128))
        self.assertEqual(list(every), [ipaddress.ip_network("0.0.0.0/0"), ipaddress.ip_network("::/0")])
        self.assertEqual(every.ranges()[0], (ipaddress.ip_address("0.0.0.0"), ipaddress.ip_address("255.255.255.255")))

    def test_one_by_one(self):
        """Networks and ranges are made when they are asked for, also of a set with very many."""
        odd = IpSet.from_list("".join(f"10.{number >> 8}.{number & 255}.1-10.{number >> 8}.{number & 255}.254\n"
                                      for number in range(20_000)) + "fd00::1-fd00::ffff\n")
        networks, ranges = iter(odd), odd.iter_ranges()
        self.assertEqual([next(networks) for _ in range(3)],
                         [ipaddress.ip_network(text) for text in ("10.0.0.1/32", "10.0.0.2/31", "10.0.0.4/30")])
        self.assertEqual(next(ranges), (ipaddress.ip_address("10.0.0.1"), ipaddress.ip_address("10.0.0.254")))
        self.assertEqual((next(ranges), *list(ranges)[-1:]), (odd.ranges()[1], odd.ranges()[-1]))
        self.assertEqual(list(odd)[3:], list(networks))
        self.assertEqual(list(odd), [ipaddress.ip_network(line) for line in odd.to_text().splitlines()])
        self.assertRaises(StopIteration, next, IpSet().iter_ranges())
        self.assertRaises(StopIteration, next, iter(IpSet()))

    def test_ranges(self):
        draw = random.Random(9)
        for count in (0, 1, 3, 40):
            networks = [ipaddress.ip_network((draw.getrandbits(128 - 9) << 9 | draw.getrandbits(9), 128))
                        if draw.randrange(2) else
                        ipaddress.ip_network(((10 << 24) + (draw.randrange(64) << 2), draw.choice((30, 32))))
                        for _ in range(count)]
            networks += [ipaddress.ip_network((address, 128)) for address in range(2 ** 128 - 1, 2 ** 128 - 1 - count, -2)]
            wanted = []
            for network in sorted(networks, key=lambda network: (network.version, network)):
                first, last = network[0], network[-1]
                if wanted and wanted[-1][0].version == first.version and int(first) <= int(wanted[-1][1]) + 1:
                    wanted[-1] = (wanted[-1][0], max(last, wanted[-1][1]))
                else:
                    wanted.append((first, last))
            self.assertEqual(IpSet(networks).ranges(), wanted)
            self.assertEqual(bool(IpSet(networks)), count > 0)

    def test_forms(self):
        made = IpSet(["10.0.0.0/24", ipaddress.ip_network("fd00::/32"), ipaddress.ip_address("8.8.8.8")])
        for inside in ("10.0.0.7", b"10.0.0.0/25", bytearray(b"fd00::1"), memoryview(b"8.8.8.8"),
                       ipaddress.ip_interface("10.0.0.9/24"), ipaddress.ip_address("fd00::")):
            self.assertIn(inside, made)
        for outside in ("10.0.1.0", "10.0.0.0/23", "::ffff:10.0.0.7", ipaddress.ip_network("::/0"),
                        ipaddress.ip_interface("10.0.0.9/23"), ipaddress.ip_interface("fd00::1/31")):
            self.assertNotIn(outside, made)
        for wrong in ("10.0.0.0/33", "x", "", "fe80::1%eth0"):
            with self.assertRaises(NotANetwork):
                wrong in made
        with self.assertRaises(TypeError):
            7 in made
        with self.assertRaises(TypeError):
            made | ["10.0.0.0/8"]
        with self.assertRaisesRegex(TypeError, "isdisjoint needs an IpSet, and not 'x'"):
            made.isdisjoint("x")
        with self.assertRaises(ipnet_proved.BadLine) as caught:
            IpSet(["10.0.0.0/8", "10.0.0.0/33"])
        self.assertEqual((caught.exception.line, caught.exception.text), (2, "10.0.0.0/33"))
        self.assertEqual(repr(made), "IpSet(['8.8.8.8/32', '10.0.0.0/24', 'fd00::/32'])")

    def test_lists(self):
        people = b"\xef\xbb\xbf# ours\n10.0.0.0-10.0.0.5\t# six\r\n\n fd00::/32 ; more\n10.0.0.6"
        for text in (people, people.decode(), bytearray(people), memoryview(people)):
            self.assertEqual(IpSet.from_list(text), IpSet(["10.0.0.0/30", "10.0.0.4/31", "10.0.0.6", "fd00::/32"]))
        self.assertEqual(IpSet.from_list(""), IpSet())
        for text, line, part in (("10.0.0.1\nx # y", 2, "x # y"), ("\n10.0.0.9-10.0.0.1\n", 2, "10.0.0.9-10.0.0.1"),
                                 ("10.0.0.1;10.0.0.2", 1, "10.0.0.1;10.0.0.2"), (b"10.0.0.1\n\xff", 2, "\\xff")):
            with self.assertRaises(ipnet_proved.BadLine) as caught:
                IpSet.from_list(text)
            self.assertEqual((caught.exception.line, caught.exception.text), (line, part))

    ENTRY_CAUSES = {
        "10.0.0.1\u201310.0.0.9": "a dash other than -: write - between the first and the last address",
        "fd00::1 \u2014 fd00::9": "a dash other than -: write - between the first and the last address",
        "10.0.0.1\u221210.0.0.9": "a dash other than -: write - between the first and the last address",
        "10.0.0.1 -": "the range has no last address",
        "- 10.0.0.0/8": "a - before the entry: leave it out",
        "10.0.0.0/255.0.0.0 web server": "text after the entry: write # before it",
        "10.0.0.1 - 10.0.0.9 office": "text after the entry: write # before it",
        "10.0.0.0/8 - office": "text after the entry: write # before it",
        "10.0.0.0/8 10.1.0.0/16": "it has white space",
        "10.0.0.1 - 10.0.0.300": "not a range of addresses, FIRST-LAST",
        "10.0.0.9-10.0.0.1": "not a range of addresses, FIRST-LAST",
        "All": "all addresses: write 0.0.0.0/0 and ::/0",
        "my-host": "a host name: write its addresses",
        "www.example.org:443": "a host name: write its addresses",
        "and/or": "the IPv4 address is not valid",
    }

    def test_causes_of_lines(self):
        for text, cause in self.ENTRY_CAUSES.items():
            with self.subTest(text=text), self.assertRaises(ipnet_proved.BadLine) as caught:
                IpSet.from_list(text + "  # ours")
            self.assertEqual((text, caught.exception.cause), (text, cause))

    def test_bad_lines(self):
        """The bad lines of long lists beside each line by itself; a byte order mark is good only at the start."""
        draw = random.Random(17)
        lines = ["10.0.0.1", "fd00::/32  # ours", "", "# x", "10.0.0.1-10.0.0.9", "x", "10.0.0.0/33", "\ufeff10.0.0.1",
                 "10.0.0.9-10.0.0.1", " y ", "010.0.0.1", "z" * 40_000]
        for count, share in ((0, 0), (1, 1), (50, 0.5), (6_000, 0.5), (6_000, 0.001), (3_000, 1)):
            for legacy in (False, True):
                chosen = [draw.choice(lines[5:11] if draw.random() < share else lines[:5]) for _ in range(count)]
                chosen[count // 2:count // 2] = lines[-1:] * (count > 50)
                wanted = []
                for number, line in enumerate(chosen, 1):
                    try:
                        IpSet.from_list(("\n" if number > 1 else "") + line, legacy=legacy)
                    except ipnet_proved.BadLine as error:
                        wanted.append((number, error.text, error.cause))
                for text in ("\n".join(chosen), "\n".join([*chosen, ""]).encode()):
                    found = list(IpSet.bad_lines(text, legacy))
                    self.assertEqual([(error.line, error.text, error.cause) for error in found], wanted)
                    if wanted:
                        with self.assertRaises(ipnet_proved.BadLine) as caught:
                            IpSet.from_list(text, legacy)
                        self.assertEqual(caught.exception.args, found[0].args)
        self.assertEqual(next(IpSet.bad_lines("x\n" * 1_000_000)).line, 1)

    def test_legacy(self):
        self.assertEqual(IpSet("010.0.0.0/30", legacy=True), IpSet("10.0.0.0/30"))
        self.assertEqual(IpSet(["10.0.00.1", "fd00::1"], legacy=True), IpSet(["10.0.0.1", "fd00::1"]))
        self.assertEqual(IpSet.from_list("010.0.0.1-10.0.0.02", legacy=True), IpSet(["10.0.0.1", "10.0.0.2"]))
        for made in (lambda: IpSet("010.0.0.0/30"), lambda: IpSet.from_list("010.0.0.1"),
                     lambda: IpSet("x", legacy=True), lambda: IpSet.from_list("x", legacy=True)):
            with self.assertRaises(ipnet_proved.BadLine):
                made()

    def test_covers(self):
        draw = random.Random(8)
        for _ in range(100):
            (first, cells), (asked, _) = drawn(draw), drawn(draw)
            made, networks = IpSet(first), [ipaddress.ip_network(text) for text in asked]
            covered = [all(cell in cells for cell in CELLS if cell.version == network.version and cell in network)
                       for network in networks]
            self.assertEqual(made.covers_all(asked), covered)
            self.assertEqual(made.covers_all("\n".join(asked)), covered)
            self.assertEqual([network in made for network in networks], covered)
        self.assertEqual(IpSet("10.0.0.0/8").covers_all(ipaddress.ip_network("10.0.0.0/7")), [False])
        self.assertEqual(IpSet("10.0.0.0/8").covers_packed(b"", 18), b"")
        for octets, width in ((b"123", 6), (b"123456", 18), (b"1234", 4), (b"", 0)):
            with self.assertRaises(ValueError):
                IpSet().covers_packed(octets, width)
        for wrong in ("10.0.0.0/33", "x"):
            with self.assertRaises(NotANetwork):
                IpSet().covers_all(["10.0.0.0", wrong])

    def test_counts(self):
        draw = random.Random(6)
        for _ in range(100):
            networks = [ipaddress.IPv6Network((draw.getrandbits(length) << 128 - length, length))
                        for length in (draw.randrange(1, 129) for _ in range(4))]
            networks += [ipaddress.IPv4Network((draw.getrandbits(length) << 32 - length, length))
                         for length in (draw.randrange(1, 33) for _ in range(4))]
            families = [ipaddress.collapse_addresses([n for n in networks if n.version == f]) for f in (4, 6)]
            made = IpSet(networks)
            self.assertEqual([made.ipv4_count, made.ipv6_count],
                             [sum(n.num_addresses for n in family) for family in families])

    def test_copies(self):
        made = IpSet(["10.0.0.0/24", "fd00::/32"])
        for other in (pickle.loads(pickle.dumps(made)), copy.copy(made), copy.deepcopy(made)):
            self.assertEqual((other, hash(other)), (made, hash(made)))
        self.assertEqual({made: 1}[IpSet("10.0.0.0/25\n10.0.0.128/25\nfd00::/32")], 1)

    def test_images(self):
        image = IpSet("10.0.0.0/30").to_bytes()
        self.assertEqual(image, b"ipnetset" + struct.pack("<QQQ", 1, 2, 0) + bytes([0, 0, 0, 10, 4, 0, 0, 10]))
        for wrong in (b"", image[:-1], image + b"\0", image[:32] + image[36:] + image[32:36], b"x" + image[1:]):
            with self.assertRaises(NotASet):
                IpSet.from_bytes(wrong)
        with self.assertRaises(NotASet):
            pickle.loads(pickle.dumps(IpSet("10.0.0.0/30")).replace(b"ipnetset", b"ipnetsex"))

    def test_packed(self):
        made = IpSet("10.0.0.0/30")
        self.assertEqual(made.contains_packed(b"", 4), b"")
        for octets, width in ((b"123", 4), (b"1234", 16), (b"1234", 2), (b"", 0)):
            with self.assertRaises(ValueError):
                made.contains_packed(octets, width)


if __name__ == "__main__":
    unittest.main()
