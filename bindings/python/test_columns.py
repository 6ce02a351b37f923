"""Tests of columns: IPNET_ROWS rows of each kind beside a plain model over ipaddress, also in arrays that have to be
copied. The tests of NumPy and pandas are skipped if these are not installed."""
import array
import bisect
import ctypes
import doctest
import ipaddress
import itertools
import mmap
import os
import random
import tempfile
import unittest

from ipnet_proved import Addresses, ArrowText, IpSet, RouteTable, parse_all, text_all, truncate_all

try:
    import numpy
    import pandas
except ImportError:
    numpy = pandas = None

needs_numpy = unittest.skipIf(numpy is None, "NumPy and pandas are not installed")
COUNT = int(os.environ.get("IPNET_ROWS", "10000"))


def load_tests(loader, tests, pattern):
    for name in ("_bulk", "_rows"):
        tests.addTests(doctest.DocTestSuite("ipnet_proved." + name))
    return tests


class Model:
    """Sets and tables of ipaddress and dictionaries. A row is an address of ipaddress, or None if it is missing."""

    def __init__(self, draw):
        networks = [self.network(draw) for _ in range(3000)]
        self.routes = {network: draw.randrange(1 << 32) for network in networks[:2000]}
        self.routes[ipaddress.ip_network("10.0.0.0/8")] = 2 ** 32 - 1
        self.routes[ipaddress.ip_network("fd00::/8")] = 0
        self.set, self.table = IpSet(networks), RouteTable(self.routes)
        self.bounds = {4: [], 6: []}
        for network in networks:
            self.bounds[network.version].append((int(network[0]), int(network[-1])))
        self.ends = {}
        for version, ranges in self.bounds.items():
            ranges.sort()
            self.ends[version] = list(itertools.accumulate((last for _, last in ranges), max))
        self.by_length = {}
        for network, value in self.routes.items():
            self.by_length.setdefault((network.version, network.prefixlen), {})[int(network[0])] = (network, value)
        self.lengths = sorted(self.by_length, reverse=True)

    @staticmethod
    def network(draw):
        if draw.random() < 0.7:
            length = draw.choice((8, 12, 16, 20, 24, 24, 28, 32))
            number = draw.getrandbits(32) if draw.random() < 0.8 else 10 << 24 | draw.getrandbits(24)
            return ipaddress.IPv4Network((number >> 32 - length << 32 - length, length))
        length = draw.choice((32, 48, 64, 96, 120, 128))
        number = 0xfd << 120 | draw.getrandbits(12) << 108 | draw.getrandbits(12)
        return ipaddress.IPv6Network((number >> 128 - length << 128 - length, length))

    def contains(self, row):
        if row is None:
            return None
        number, ranges = int(row), self.bounds[row.version]
        place = bisect.bisect_right(ranges, (number, 1 << 128))
        return place > 0 and self.ends[row.version][place - 1] >= number

    def route(self, row):
        """The longest network that contains the address, and its value; None if there is none."""
        for version, length in self.lengths:
            if row is not None and row.version == version:
                shift = row.max_prefixlen - length
                found = self.by_length[version, length].get(int(row) >> shift << shift)
                if found:
                    return found
        return None

    def address(self, draw):
        """An address, often in a network of the model or beside its ends."""
        if draw.random() < 0.5:
            network = draw.choice(list_of(self.routes))
            number = draw.choice((int(network[0]), int(network[-1]))) + draw.randrange(-1, 2)
            return type(network[0])(number % (1 << network.max_prefixlen))
        if draw.random() < 0.6:
            return ipaddress.IPv4Address(draw.getrandbits(32))
        return ipaddress.IPv6Address(draw.choice((draw.getrandbits(128), 0xffff << 32 | draw.getrandbits(32),
                                                  0xfd << 120 | draw.getrandbits(100), draw.getrandbits(20))))


def list_of(routes, kept=[]):
    if not kept or kept[0] is not routes:
        kept[:] = [routes, list(routes)]
    return kept[1]


def unmapped(row):
    """The row as mapped=True reads it."""
    return getattr(row, "ipv4_mapped", None) or row


def truncated(row, ipv4=24, ipv6=48):
    if row is None:
        return None
    shift = row.max_prefixlen - (ipv4 if row.version == 4 else ipv6)
    return type(row)(int(row) >> shift << shift)


def text_of(row):
    """The canonical text. Newer versions of ipaddress print IPv4-mapped addresses as RFC 5952 does, older ones not."""
    mapped = getattr(row, "ipv4_mapped", None)
    return None if row is None else f"::ffff:{mapped}" if mapped else str(row)


def plain(answers):
    """The results as a list with None for missing rows, whatever their form."""
    if isinstance(answers, bytes):
        return [(False, True, None)[answer] for answer in answers]
    if type(answers).__module__.startswith("pandas"):
        return [None if value is pandas.NA else value for value in answers.tolist()]
    return answers.tolist() if hasattr(answers, "tolist") else list(answers)


class Columns(unittest.TestCase):
    """Each kind of column beside the model."""

    @classmethod
    def setUpClass(cls):
        draw = random.Random(40)
        cls.model = Model(draw)
        cls.rows = [cls.model.address(draw) for _ in range(COUNT)]
        cls.numbers = [row if row.version == 4 else ipaddress.IPv4Address(draw.getrandbits(32)) for row in cls.rows]
        cls.ipv6 = [row if row.version == 6 else ipaddress.IPv6Address(int(row) | draw.choice((0, 0xffff << 32)))
                    for row in cls.rows]
        cls.gaps = [None if draw.random() < 0.1 else row for row in cls.rows]
        cls.gap_numbers = [None if draw.random() < 0.1 else row for row in cls.numbers]
        routes = cls.model.table.routes()
        assert dict(routes) == cls.model.routes and len(routes) == len(cls.model.routes)
        cls.places = {network: place for place, (network, _) in enumerate(routes)}
        cls.kept = {}

    def wanted(self, name, rows, ask):
        """The model's answers, kept by name."""
        if name not in self.kept:
            self.kept[name] = [ask(row) for row in rows]
        return self.kept[name]

    def check(self, column, rows, kind, mapped=False):
        """All questions to the column; `kind` names the rows."""
        kind = f"{kind} {mapped}"
        rows = [unmapped(row) for row in rows] if mapped else rows
        inside = self.wanted("in " + kind, rows, self.model.contains)
        found = self.wanted("at " + kind, rows, self.model.route)
        model, options = self.model, {"mapped": mapped} if mapped else {}
        self.assertEqual(plain(model.set.contains_all(column, **options)), inside)
        values = [None if route is None else route[1] for route in found]
        self.assertEqual(plain(model.table.match_all(column, **options)), values)
        or_seven = [None if row is None else 7 if value is None else value for row, value in zip(rows, values)]
        self.assertEqual(plain(model.table.match_all(column, default=7, **options)), or_seven)
        self.assertEqual(plain(model.table.route_all(column, **options)),
                         [None if route is None else self.places[route[0]] for route in found])
        families, octets = parse_all(column, **options)
        self.assertEqual(bytes(families), bytes(0 if row is None else row.version for row in rows))
        self.assertEqual(bytes(octets), b"".join(bytes(16) if row is None else row.packed.ljust(16, b"\0")
                                                 for row in rows))

    def check_texts(self, column, rows, kind):
        """The questions to a column of texts, with and without IPv4-mapped rows as IPv4."""
        self.check(column, rows, kind)
        self.check(column, rows, kind, mapped=True)
        self.assertEqual(plain(truncate_all(column)),
                         self.wanted("short " + kind, rows, lambda row: text_of(truncated(row))))
        self.assertEqual(plain(text_all(column)), self.wanted("text " + kind, rows, text_of))

    def check_numbers(self, column, rows, kind):
        self.check(column, rows, kind)
        self.assertEqual(plain(truncate_all(column, 19)),
                         [None if row is None else int(truncated(row, 19)) for row in rows])
        self.assertEqual(plain(text_all(column))[:1000], [text_of(row) for row in rows[:1000]])

    def test_buffers_of_numbers(self):
        numbers = array.array("I", map(int, self.numbers))
        for column in (numbers, memoryview(numbers), memoryview(bytearray(numbers)).cast("I"),
                       array.array("q", numbers), array.array("Q", numbers), (ctypes.c_uint32 * COUNT)(*numbers)):
            self.check_numbers(column, self.numbers, "numbers")
        small = array.array("i", (number >> 1 for number in numbers))
        halves = [ipaddress.IPv4Address(number) for number in small]
        self.check(small, halves, "halves")
        self.check(memoryview(numbers)[::3], self.numbers[::3], "third")
        self.check(memoryview(numbers)[::-1], self.numbers[::-1], "back")

    def test_buffers_of_octets(self):
        octets = b"".join(row.packed for row in self.ipv6)
        column = memoryview(octets).cast("B", (COUNT, 16))
        self.check(column, self.ipv6, "ipv6")
        self.check(column, self.ipv6, "ipv6", mapped=True)
        self.check(Addresses(b"\6" * COUNT, octets), self.ipv6, "ipv6")
        families, short = truncate_all(column, 24, 52)
        self.assertEqual(families, b"\6" * COUNT)
        self.assertEqual(short, b"".join(truncated(row, 24, 52).packed for row in self.ipv6))

    def test_lines(self):
        text = "".join(f"{row}\n" for row in self.rows)
        with tempfile.TemporaryFile() as file:
            file.write(text.encode())
            file.flush()
            with mmap.mmap(file.fileno(), 0, access=mmap.ACCESS_READ) as mapped:
                data = text.encode()
                for column in (text, text[:-1], data, bytearray(data), memoryview(data), mapped):
                    self.check(column, self.rows, "rows")
        self.check_texts(text.encode(), self.rows, "rows")

    def test_lists(self):
        texts = [None if row is None else str(row) for row in self.gaps]
        self.check_texts([str(row) for row in self.rows], self.rows, "rows")
        self.check_texts([str(row).encode() for row in self.rows], self.rows, "rows")
        self.check_texts(texts, self.gaps, "gaps")
        self.check(tuple(texts), self.gaps, "gaps")
        self.check(iter_again(texts), self.gaps, "gaps")
        self.check([text and text.encode() for text in texts], self.gaps, "gaps")
        self.check(self.gaps, self.gaps, "gaps")
        mixed = [form(row) for row, form in zip(self.gaps, itertools.cycle(FORMS))]
        self.check_texts(mixed, self.gaps, "gaps")

    def test_arrow(self):
        for code in "iqIQ":
            for start, validity in ((0, False), (0, True), (13, True), (8, True)):
                column = arrow(self.gaps if validity else self.rows, code, start, validity)
                self.check(column, self.gaps if validity else self.rows, "gaps" if validity else "rows")
        data, offsets, bits = arrow_buffers(self.gaps, "i", 0)
        answers = self.model.set.contains_arrow(data, offsets, bits)
        self.assertEqual(plain(answers), self.kept["in gaps False"])
        self.assertEqual(plain(self.model.table.match_arrow(memoryview(data), offsets, bytearray(bits))),
                         [None if row is None else (self.model.route(row) or (0, None))[1] for row in self.gaps])
        self.check(ArrowText(data, bytes(offsets), bits, width=4), self.gaps, "gaps")

    @needs_numpy
    def test_arrays_of_numbers(self):
        numbers = numpy.array([int(row) for row in self.numbers], dtype="uint32")
        wide = numpy.zeros((COUNT, 3), dtype="uint32")
        wide[:, 1] = numbers
        for column in (numbers, numbers.astype(">u4"), wide[:, 1], numbers.astype("int64"), numbers.astype(">i8"),
                       numbers.astype("uint64"), numbers.astype("float64")):
            self.check_numbers(column, self.numbers, "numbers")
        self.check(numbers[::-1], self.numbers[::-1], "back")
        read_only = numbers.copy()
        read_only.flags.writeable = False
        self.check(read_only, self.numbers, "numbers")

    @needs_numpy
    def test_arrays_with_gaps(self):
        numbers = numpy.array([0 if row is None else int(row) for row in self.gap_numbers], dtype="uint32")
        mask = numpy.array([row is None for row in self.gap_numbers])
        floats = numpy.where(mask, numpy.nan, numbers)
        negative = numpy.where(mask, -1, numbers.astype("int64"))
        for column in (numpy.ma.MaskedArray(numbers, mask), floats, numpy.ma.MaskedArray(negative, mask),
                       pandas.Series(numbers).astype("UInt32").mask(mask), pandas.Series(floats),
                       pandas.Series(negative, dtype="Int64").mask(mask), pandas.Series(floats).astype("Float64")):
            self.check_numbers(column, self.gap_numbers, "gap numbers")

    @needs_numpy
    def test_arrays_of_octets(self):
        octets = numpy.frombuffer(b"".join(row.packed for row in self.ipv6), dtype="uint8").reshape(-1, 16)
        wide = numpy.zeros((COUNT, 20), dtype="uint8")
        wide[:, 2:18] = octets
        for column in (octets, wide[:, 2:18], numpy.asfortranarray(octets)):
            self.check(column, self.ipv6, "ipv6")
            self.check(column, self.ipv6, "ipv6", mapped=True)
        mask = numpy.zeros((COUNT, 16), dtype=bool)
        mask[::7, 3] = True
        self.check(numpy.ma.MaskedArray(octets, mask), [None if place % 7 == 0 else row
                                                        for place, row in enumerate(self.ipv6)], "ipv6 masked")
        self.assertEqual(parse_all(octets).octets.shape, (COUNT, 16))
        self.assertEqual(truncate_all(octets).families.shape, (COUNT,))

    @needs_numpy
    def test_arrays_of_texts(self):
        texts = [str(row) for row in self.rows]
        for column in (numpy.array(texts, dtype="S"), numpy.array(texts, dtype="S60"), numpy.array(texts),
                       numpy.array(texts, dtype=object), numpy.array(list(zip(texts, texts)), dtype="S")[:, 1]):
            self.check_texts(column, self.rows, "rows")
        self.check(numpy.array(texts, dtype="S")[::-2], self.rows[::-2], "second")

    @needs_numpy
    def test_series(self):
        texts = [None if row is None else str(row) for row in self.gaps]
        index = pandas.Index(range(3, 3 + COUNT), name="place")
        for dtype in ("object", "string", "category"):
            column = pandas.Series(texts, index=index, dtype=dtype, name="client")
            self.check_texts(column, self.gaps, "gaps")
            answers = (self.model.set.contains_all(column), self.model.table.match_all(column), text_all(column))
            self.assertEqual([str(answer.dtype) for answer in answers], ["boolean", "UInt32", "string"])
            for answer in answers:
                self.assertTrue(answer.index.equals(index))
                self.assertEqual(answer.name, "client")
        self.check(pandas.Series(texts).replace({None: numpy.nan}), self.gaps, "gaps")
        self.check(pandas.Series(self.gaps, dtype=object), self.gaps, "gaps")


def arrow_buffers(rows, code, start):
    """The buffers of a column in Arrow's layout, with other rows before the row `start`. A missing row has a text."""
    texts = [b"999"] * start + [b"10.9.9.9" if row is None else str(row).encode() for row in rows]
    offsets = array.array(code, [0, *itertools.accumulate(map(len, texts))])
    bits = bytearray((len(texts) + 7) // 8)
    for place, row in enumerate(rows, start):
        bits[place // 8] |= (row is not None) << place % 8
    return b"".join(texts), offsets, bytes(bits)


def arrow(rows, code, start, with_validity):
    data, offsets, bits = arrow_buffers(rows, code, start)
    return ArrowText(data, offsets, bits if with_validity else None, start=start)


class iter_again:
    """An iterable that is not a sequence."""

    def __init__(self, items):
        self._items = items

    def __iter__(self):
        return iter(self._items)


# the forms of a row in a list
FORMS = (
    lambda row: row,
    lambda row: row and str(row),
    lambda row: float("nan") if row is None else str(row).encode(),
    lambda row: row and bytearray(str(row).encode()),
    lambda row: row and str(row).upper(),
    lambda row: row and (row.exploded if row.version == 6 else str(row)),
)


if __name__ == "__main__":
    unittest.main()
