"""Tests of OriginTable: the sentences of RFC 6811 as a plain model, columns of all forms, pickling, and what is
refused."""
import array
import ipaddress
import pickle
import random
import unittest

from ipnet_proved import BadRow, NotANetwork, NotOrigins, OriginTable, Validity

try:
    import numpy
except ImportError:
    numpy = None
try:
    import pandas
except ImportError:
    pandas = None

ASNS = (0, 1, 64496, 64497, 4294967295)
VALID, INVALID, NOT_FOUND = Validity.VALID, Validity.INVALID, Validity.NOT_FOUND

# routes by 192.0.2.0/24 with 26 of AS 64496, 192.0.2.0/24 with 24 of AS 0, 198.51.100.0/24 with 24 of AS 0, and
# 2001:db8::/32 with 48 of AS 64497 (RFC 6811, section 2; RFC 6483, section 4; RFC 7607)
PAYLOADS = [("192.0.2.0/24", 26, 64496), ("192.0.2.0/24", None, 0), ("198.51.100.0/24", 24, 0),
            ("2001:db8::/32", 48, 64497)]
ROWS = [
    ("the network of the payload", "192.0.2.0/24", 64496, VALID),
    ("the greatest length", "192.0.2.64/26", 64496, VALID),
    ("longer than the greatest length", "192.0.2.64/27", 64496, INVALID),
    ("another AS", "192.0.2.64/26", 64497, INVALID),
    ("no single origin", "192.0.2.0/24", None, INVALID),
    ("AS 0", "192.0.2.0/24", 0, INVALID),
    ("a payload of AS 0 only", "198.51.100.0/24", 0, INVALID),
    ("around the payload", "192.0.0.0/16", 64496, NOT_FOUND),
    ("IPv6", "2001:db8:1::/48", 64497, VALID),
    ("IPv6, too long", "2001:db8:1::/49", 64497, INVALID),
    ("the mapped addresses of a payload", "::ffff:192.0.2.0/120", 64496, NOT_FOUND),
    ("host bits", "192.0.2.65/26", 64496, VALID),
    ("one address", "192.0.2.65", 64496, INVALID),
]
BAD_PAYLOADS = [
    (("192.0.2.0/24", 23, 1), "the greatest length 23 is less than the prefix length 24"),
    (("192.0.2.0/24", 33, 1), "the greatest length 33 is above 32"),
    (("2001:db8::/32", 129, 1), "the greatest length 129 is above 128"),
    (("192.0.2.0/33", 33, 1), "the prefix length is above 32"),
    (("192.0.2.0/024", 24, 1), "the prefix length has leading zeros"),
    (("192.0.2/24", 24, 1), "the IPv4 address is not valid"),
    ((None, 24, 1), "the network is missing"),
]


def covers(payload, route):
    """Whether the payload covers the route: its prefix is not longer, and its bits are the first of the route's."""
    network = payload[0]
    return network.version == route.version and network.prefixlen <= route.prefixlen and \
        int(network.network_address) >> network.max_prefixlen - network.prefixlen == \
        int(route.network_address) >> network.max_prefixlen - network.prefixlen


def model(payloads, route, asn):
    """The validity of the route."""
    around = [payload for payload in payloads if covers(payload, route)]
    if any(route.prefixlen <= most and of == asn and asn for _, most, of in around):
        return VALID
    return INVALID if around else NOT_FOUND


def drawn_network(draw):
    """A random network of either family, near the others."""
    if draw.randrange(3):
        length = draw.randint(20, 32)
        return ipaddress.IPv4Network(((10 << 24 | draw.randrange(1 << 12)) & -1 << 32 - length, length))
    length = draw.randint(116, 128)
    return ipaddress.IPv6Network(((0xfd << 120 | draw.randrange(1 << 12)) & -1 << 128 - length, length))


def drawn_payload(draw):
    network = drawn_network(draw)
    return network, draw.randint(network.prefixlen, min(network.prefixlen + 3, network.max_prefixlen)), draw.choice(ASNS)


class Origins(unittest.TestCase):
    def test_rows(self):
        table = OriginTable(PAYLOADS)
        for label, network, asn, wanted in ROWS:
            with self.subTest(label):
                self.assertIs(table.validity(network, asn), wanted)
        networks, asns = [row[1] for row in ROWS], [row[2] for row in ROWS]
        self.assertEqual(table.validity_all(networks, asns), [row[3] for row in ROWS])

    def test_against_the_sentences(self):
        draw = random.Random(6811)
        for count in (0, 1, 2, 5, 20, 100):
            for _ in range(10):
                payloads = [drawn_payload(draw) for _ in range(count)]
                payloads += payloads[:1]
                table = OriginTable(payloads)
                draw.shuffle(payloads)
                self.assertEqual(table, OriginTable(payloads))
                self.assertEqual(len(table), len(payloads))
                routes = [drawn_network(draw) for _ in range(200)]
                asns = [draw.choice((*ASNS, None)) for _ in routes]
                wanted = [model(payloads, *route) for route in zip(routes, asns)]
                self.assertEqual(table.validity_all(routes, asns), wanted)
                self.assertEqual(table.validity_all([str(route) for route in routes], asns), wanted)
                self.assertEqual(table.validity(routes[0], asns[0]), wanted[0])

    def test_images(self):
        table = OriginTable(PAYLOADS)
        image = table.to_bytes()
        self.assertEqual((image[:8], len(image)), (b"ipnetvrp", 24 + 32 * len(PAYLOADS)))
        for again in (pickle.loads(pickle.dumps(table)), OriginTable.from_bytes(bytearray(image))):
            self.assertEqual((again, hash(again), again.to_bytes()), (table, hash(table), image))
        self.assertNotEqual(table, OriginTable())
        self.assertNotEqual(table, image)
        self.assertEqual(repr(table), "<OriginTable of 4 payloads>")
        for at in range(len(image)):
            with self.assertRaises(NotOrigins):
                OriginTable.from_bytes(image[:at])
        for wrong in (b"", b"x" + image[1:], image + b"\0", image[:24] + b"\5" + image[25:]):
            with self.assertRaises(NotOrigins):
                OriginTable.from_bytes(wrong)

    def test_refused_payloads(self):
        for payload, cause in BAD_PAYLOADS:
            with self.subTest(cause), self.assertRaises(BadRow) as caught:
                OriginTable([("10.0.0.0/8", 8, 1), payload])
            self.assertEqual((caught.exception.row, caught.exception.cause), (1, cause))
        for wrong in ([("10.0.0.0/8", 256, 1)], [("10.0.0.0/8", 8, 1 << 32)], [("10.0.0.0/8", 8, -1)]):
            with self.assertRaises(OverflowError):
                OriginTable(wrong)
        for wrong in ([("10.0.0.0/8", 8, None)], [("10.0.0.0/8", 8, "64496")], [(7, 8, 1)]):
            with self.assertRaises(TypeError):
                OriginTable(wrong)
        with self.assertRaises(ValueError):
            OriginTable.from_columns(["10.0.0.0/8"], [8, 8], [1])

    def test_refused_routes(self):
        table = OriginTable(PAYLOADS)
        given = ["192.0.2.0/24", None, "192.0.2.0/33", "x/24", "192.0.2.0/26"]
        with self.assertRaises(BadRow) as caught:
            table.validity_all(given, [64496] * 5)
        error = caught.exception
        self.assertEqual((error.row, error.text, error.cause, error.others),
                         (2, "192.0.2.0/33", "the prefix length is above 32", 1))
        answers = table.validity_all(given, [64496] * 5, invalid="missing")
        self.assertEqual((answers, answers.invalid), ([VALID, None, None, None, VALID], 2))
        with self.assertRaises(ValueError):
            table.validity_all(given, [64496] * 5, invalid="skip")
        with self.assertRaises(ValueError):
            table.validity_all(["192.0.2.0/24"], [])
        with self.assertRaises(TypeError):
            table.validity_all(7, [])
        with self.assertRaises(NotANetwork):
            table.validity("192.0.2.0/33", 1)
        with self.assertRaises(OverflowError):
            table.validity("192.0.2.0/24", 1 << 32)

    def test_buffers(self):
        table = OriginTable(PAYLOADS)
        numbers = array.array("I", [0xC0000200, 0xC0000240, 0x0A000000])
        answers = table.validity_all(numbers, array.array("I", [64496, 64496, 64496]), lengths=bytes([24, 27, 8]))
        self.assertEqual(answers, bytes([1, 2, 0]))
        lines = table.validity_all("192.0.2.0/24\n198.51.100.0/24\n", [64496, 0])
        self.assertEqual(lines, bytes([1, 2]))
        with self.assertRaises(BadRow):
            table.validity_all(numbers, [64496] * 3, lengths=[24, 33, 8])
        made = OriginTable.from_columns(array.array("I", [0xC0000201]), [26], [64496], lengths=[24])
        self.assertEqual(made, OriginTable([("192.0.2.0/24", 26, 64496)]))
        self.assertEqual(OriginTable().validity_all([], []), [])

    @unittest.skipIf(numpy is None, "NumPy is not installed")
    def test_arrays(self):
        table = OriginTable(PAYLOADS)
        numbers = numpy.array([0xC0000200, 0xC0000240, 0x0A000000], dtype="uint32")
        answers = table.validity_all(numbers, numpy.array([64496] * 3), lengths=numpy.array([24, 27, 8]))
        self.assertEqual((answers.dtype, answers.tolist()), (numpy.dtype("uint8"), [1, 2, 0]))
        texts = numpy.array(["192.0.2.0/24", None, "x"], dtype=object)
        answers = table.validity_all(texts, [64496] * 3, invalid="missing")
        self.assertEqual((answers.tolist(), answers.invalid), ([1, None, None], 1))
        made = OriginTable.from_columns(numpy.array(["192.0.2.0/24"]), numpy.array([26]), numpy.array([64496]))
        self.assertEqual(made, OriginTable([("192.0.2.0/24", 26, 64496)]))

    @unittest.skipIf(pandas is None, "pandas is not installed")
    def test_series(self):
        table = OriginTable(PAYLOADS)
        frame = pandas.DataFrame({"network": ["192.0.2.0/24", None, "192.0.2.0/27"], "asn": [64496, 1, 64496]},
                                 index=[5, 6, 7])
        answers = table.validity_all(frame.network, frame.asn)
        self.assertEqual((str(answers.dtype), list(answers.index), answers.name), ("UInt8", [5, 6, 7], "network"))
        self.assertEqual([None if answer is pandas.NA else answer for answer in answers], [1, None, 2])


if __name__ == "__main__":
    unittest.main()
