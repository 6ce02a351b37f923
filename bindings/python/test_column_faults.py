"""Tests of columns: rows that are not addresses, what is refused, empty columns, lent memory, threads and the forms of
results."""
import array
import ctypes
import ipaddress
import itertools
import pickle
import random
import sys
import unittest
from concurrent.futures import ThreadPoolExecutor

from test_columns import Model, arrow, needs_numpy, numpy, pandas, plain

from ipnet_proved import Addresses, ArrowText, BadRow, IpSet, RouteTable, parse_all, text_all, truncate_all
from ipnet_proved._rows import _Buffer

NO_ADDRESSES = ("", "10.0.0.01", "10.0.0.256", "10.0.0", "10.0.0.1 ", " ::1", "::1%eth0", "10.0.0.0/32", "::/128",
                "1::2::3", "x", "10.0.0.1\r", "١.2.3.4", "\ud800", "10.0.0.1\n", "\n", "10.0.0.1\n10.0.0.2", "\0",
                "10.0.0.1\0")


def view_of(form, size, data, kept=[]):
    """A view of the bytes as items of `size` bytes with this format, which need not fit each other."""
    kept.append((form, ctypes.create_string_buffer(bytes(data), len(bytes(data)))))
    buffer = _Buffer(place=ctypes.addressof(kept[-1][1]), length=len(kept[-1][1]), itemsize=size, readonly=1, ndim=1,
                     format=form)
    make = ctypes.pythonapi.PyMemoryView_FromBuffer
    make.restype = ctypes.py_object
    return make(ctypes.byref(buffer))


class Invalid(unittest.TestCase):
    """Rows that are not addresses are refused or counted, and never in a result."""

    def columns(self, items):
        """The rows in each kind of column that can have them."""
        yield items
        lines = [item for item in items]
        if all(isinstance(item, str) and "\n" not in item for item in lines):
            yield "\n".join(lines).encode("utf-8", "surrogatepass") + b"\n"
        data = [item.encode("utf-8", "surrogatepass") for item in items]
        yield data
        yield ArrowText(b"".join(data), array.array("i", [0, *itertools.accumulate(map(len, data))]))
        if numpy is not None:
            yield numpy.array(items, dtype=object)
            yield pandas.Series(items, dtype=object)

    def test_every_form(self):
        small, table = IpSet(["0.0.0.0/0", "::/0"]), RouteTable({"0.0.0.0/0": 1, "::/0": 2})
        for bad in NO_ADDRESSES:
            items = ["10.0.0.1", bad, "::1", bad]
            for column in self.columns(items):
                with self.subTest(bad=bad, kind=type(column)):
                    for call in (small.contains_all, table.match_all, table.route_all, parse_all, text_all,
                                 truncate_all):
                        with self.assertRaises(BadRow) as caught:
                            call(column)
                        self.assertEqual((caught.exception.row, caught.exception.others), (1, 1))
                        self.assertNotEqual(caught.exception.cause, "the prefix length is missing")
                    answer = small.contains_all(column, invalid="missing")
                    self.assertEqual(plain(answer), [True, None, True, None])
                    self.assertEqual(getattr(answer, "attrs", vars(answer))["invalid"], 2)
                    self.assertEqual(plain(table.match_all(column, invalid="missing", default=9)), [1, None, 2, None])
                    self.assertEqual(bytes(parse_all(column, invalid="missing").families), b"\4\0\6\0")
                    self.assertEqual(plain(truncate_all(column, 8, invalid="missing")), ["10.0.0.0", None, "::", None])

    def test_words(self):
        for text, words in (("10.0.0.0/8", "row 1: '10.0.0.0/8': an address has no prefix length"),
                            ("", "row 1: '': it is empty"), ("x\n", r"row 1: 'x\n': it has several lines"),
                            (" ::1", "row 1: ' ::1': it has white space"),
                            ("::1%eth0", "row 1: '::1%eth0': a zone is not part of an address"),
                            ("10.0.0.256", "row 1: '10.0.0.256': the IPv4 address is not valid"),
                            ("1::2::3", "row 1: '1::2::3': the IPv6 address is not valid"),
                            (b"\xff", r"row 1: '\\xff': it is not UTF-8")):
            with self.assertRaises(BadRow) as caught:
                IpSet().contains_all(["::", text])
            self.assertEqual(str(caught.exception), words)
        fault = BadRow(7, "x", "no", 2)
        again = pickle.loads(pickle.dumps(fault))
        self.assertEqual((type(again), again.args), (BadRow, fault.args))
        self.assertEqual((vars(again), str(again)), (vars(fault), str(fault)))

    @unittest.skipIf(sys.version_info < (3, 9), "no addresses with a zone")
    def test_objects_with_a_zone(self):
        column = [ipaddress.ip_address("fe80::1"), ipaddress.ip_address("fe80::1%eth0")]
        with self.assertRaises(BadRow) as caught:
            IpSet("fe80::/10").contains_all(column)
        self.assertEqual(caught.exception.args, (1, "fe80::1%eth0", "a zone is not part of an address", 0))
        self.assertEqual(IpSet("fe80::/10").contains_all(column, invalid="missing"), [True, None])

    def test_a_line_longer_than_a_block(self):
        column = "::1\n" + "x" * 1_000_000 + "\n::\n"
        with self.assertRaises(BadRow) as caught:
            IpSet().contains_all(column)
        self.assertEqual((caught.exception.row, caught.exception.others), (1, 0))
        self.assertLess(len(str(caught.exception)), 200)
        self.assertEqual(IpSet("::1").contains_all(column, invalid="missing"), b"\1\2\0")

    def test_other_families(self):
        rows = Addresses(b"\4\7\6\0", bytes(64))
        self.assertEqual(IpSet("::/0").contains_all(rows), b"\0\2\1\2")
        self.assertEqual(RouteTable({"::/0": 1}).match_all(rows, default=3), [3, None, 1, None])

    def test_families_and_octets_that_are_not_bytes(self):
        """Families of 8 bytes would have the zeros of a row as the families of the next ones."""
        truths = memoryview(b"\1\1").cast("?")
        wrong = [(array.array("q", [4, 6]), bytes(32)), (b"\4\6", array.array("q", [0] * 4)), (truths, bytes(32)),
                 (b"\4\6", memoryview(bytes(32)).cast("?"))]
        if numpy is not None:
            wrong += [(numpy.array([4, 6]), numpy.zeros((2, 16), "uint8")), (b"\4\6", numpy.zeros((2, 4), "uint32"))]
        for families, octets in wrong:
            with self.subTest(families=families, octets=octets), self.assertRaises(TypeError):
                Addresses(families, octets)
        for families, octets in ((b"\4", b""), (b"\4\6", bytes(31)), (b"\4\6", bytes(33)),
                                 (memoryview(b"\4\6\4\6").cast("B", (2, 2)), bytes(32))):
            with self.subTest(families=families, octets=octets), self.assertRaises(ValueError):
                Addresses(families, octets)
        rows = Addresses(array.array("b", [4, 6]), (ctypes.c_uint8 * 32)(10))
        self.assertEqual(IpSet("10.0.0.0/8").contains_all(rows), b"\1\0")

    def test_formats_that_do_not_fit_the_items(self):
        """In the formats `=` and `<` the code l has 4 bytes, and else 8."""
        numbers = array.array("I", [10 << 24, 11 << 24])
        wide = array.array("Q", numbers)
        for form, size in ((b"=l", 8), (b"<l", 8), (b"<L", 8), (b"l", 4), (b"=q", 4), (b"i", 8), (b"B", 4)):
            view = view_of(form, size, wide)
            with self.subTest(form=form, size=size):
                with self.assertRaises(TypeError):
                    IpSet().contains_all(view)
                with self.assertRaises(TypeError):
                    ArrowText(b"", view)
        for form, size in ((b"=l", 4), (b"<l", 4), (b"=L", 4), (b"<i", 4), (b"@I", 4), (b"=q", 8), (b"@l", 8),
                           (b"L", 8)):
            with self.subTest(form=form, size=size):
                column = view_of(form, size, numbers if size == 4 else wide)
                self.assertEqual(IpSet("10.0.0.0/8").contains_all(column), b"\1\0")
                offsets = view_of(form, size, array.array("i" if size == 4 else "q", [0, 3]))
                self.assertEqual(IpSet("::1").contains_all(ArrowText(b"::1", offsets)), b"\1")

    def test_first_of_many_pieces(self):
        """The rows are read in pieces of 65,536, and lines in blocks of bytes."""
        texts = ["10.0.0.1"] * 200_000
        for place in (70_000, 199_999, 65_535, 65_536, 140_000):
            texts[place] = "x"
        for column in (texts, "\n".join(texts), arrow(["10.0.0.1"] * 5 + texts[5:], "i", 0, False)):
            with self.assertRaises(BadRow) as caught:
                IpSet().contains_all(column)
            self.assertEqual((caught.exception.row, caught.exception.text, caught.exception.others), (65_535, "x", 4))
            answer = IpSet("10.0.0.0/8").contains_all(column, invalid="missing")
            self.assertEqual((answer.invalid, sum(value is None for value in plain(answer))), (5, 5))
            self.assertEqual({place for place, value in enumerate(plain(answer)) if value is None},
                             {place for place, text in enumerate(texts) if text == "x"})

    def test_numbers_that_do_not_fit(self):
        columns = [array.array("i", [1, -1, -2]), array.array("q", [1, 1 << 32, -1]),
                   array.array("Q", [1, 1 << 32, 1 << 63])]
        if numpy is not None:
            columns += [numpy.array(values, dtype=kind) for values, kind in (
                ([1, -1, -2], "int32"), ([1, 1 << 32, -1], ">i8"), ([1, 1 << 40, 1 << 63], "uint64"),
                ([1, 0.5, -1], "float64"), ([1, float("inf"), 1e10], "float64"))]
            columns += [pandas.Series([1, -1, -2]), pandas.Series([1, -1, -2], dtype="Int32")]
        for column in columns:
            for invalid in ("raise", "missing"):
                with self.subTest(column=column), self.assertRaises(BadRow) as caught:
                    IpSet().contains_all(column, invalid=invalid)
                self.assertEqual((caught.exception.row, caught.exception.others), (1, 1))
                self.assertIn("a number is from 0 to 4294967295", str(caught.exception))
                self.assertNotEqual(caught.exception.text, "None")

    def test_other_kinds(self):
        columns = [7, None, object(), memoryview(b"1234").cast("B", (2, 2)), array.array("d", [1.0]),
                   array.array("H", [1]), [1], ["::", 1], [ipaddress.ip_network("10.0.0.0/32")],
                   [ipaddress.ip_interface("10.0.0.1/8")], (ctypes.c_uint32.__ctype_be__ * 2)(1, 2)]
        if numpy is not None:
            columns += [numpy.array(column) for column in (True, 1.5, [[1, 2]])]
            columns += [numpy.zeros(3, kind) for kind in ("uint8", "int8", "uint16", "bool", "float32", "complex128",
                                                          "M8[s]")]
            columns += [numpy.zeros((3, 16), "int8"), numpy.zeros((3, 15), "uint8"), numpy.zeros((2, 3, 16), "uint8"),
                        numpy.uint32(7), pandas.Series([True]), pandas.Series([True], dtype="boolean"),
                        pandas.to_datetime(pandas.Series(["2020-01-01"]))]
        for column in columns:
            with self.subTest(column=column), self.assertRaises(TypeError):
                IpSet().contains_all(column)
        for options in ({"invalid": "ignore"}, {"invalid": None}):
            with self.assertRaises(ValueError):
                IpSet().contains_all(["::"], **options)
        for lengths in ((33, 0), (0, 129), (-1, 0), (0, -1)):
            with self.assertRaises(ValueError):
                truncate_all(["::"], *lengths)
        for default in (-1, 1 << 32):
            with self.assertRaises(OverflowError):
                RouteTable().match_all(["::"], default=default)

    def test_arrow_buffers(self):
        whole = ArrowText(b"::1::2", array.array("i", [0, 3, 6]))
        self.assertEqual(IpSet("::1").contains_all(whole), b"\1\0")
        for offsets in ([0, 4, 3], [0, -1, 3], [0, 3, 7], [7, 8, 9], [3, 0, 3]):
            for code in "iq":
                for validity in (None, b"\0", b"\3"):
                    column = ArrowText(b"::1::2", array.array(code, offsets), validity)
                    with self.subTest(offsets=offsets), self.assertRaisesRegex(ValueError, "row [01]: its offsets"):
                        IpSet().contains_all(column, invalid="missing")
        for arguments in ({"start": 3}, {"count": 3}, {"start": 1, "count": 2}, {"start": -1}, {"count": -1},
                          {"width": 8}, {"width": 5}, {"validity": b""}):
            with self.subTest(arguments=arguments), self.assertRaises(ValueError):
                ArrowText(b"::1::2", array.array("i", [0, 3, 6]), **arguments)
        with self.assertRaises(ValueError):
            ArrowText(b"::1", bytes(8))
        for offsets in ((ctypes.c_uint32.__ctype_be__ * 2)(0, 0), array.array("f", [0, 0]), array.array("d", [0, 0])):
            with self.assertRaises(TypeError):
                ArrowText(b"", offsets)
        wrong = [memoryview(b"\1\0").cast("?"), array.array("H", [1]), array.array("I", [1])]
        if numpy is not None:
            wrong.append(numpy.array([True, False]))
        for validity in wrong:
            with self.subTest(validity=validity), self.assertRaises(TypeError):
                ArrowText(b"::1::2", array.array("i", [0, 3, 6]), validity)
        for validity in (b"\1", memoryview(b"\1").cast("c"), array.array("b", [1])):
            column = ArrowText(b"::1::1", array.array("i", [0, 3, 6]), validity)
            self.assertEqual(IpSet("::1").contains_all(column), b"\1\2")
        for empty in (ArrowText(None, b"", width=4), ArrowText(b"", array.array("i")),
                      ArrowText(b"", array.array("q", [0]))):
            self.assertEqual(IpSet().contains_all(empty), b"")


class Forms(unittest.TestCase):
    """Empty columns, lent memory, threads, and what needs NumPy."""

    def test_no_rows(self):
        columns = [[], (), "", b"", array.array("I"), Addresses(b"", b""), memoryview(b""), iter(())]
        if numpy is not None:
            columns += [numpy.zeros(0, kind) for kind in ("uint32", "int64", "float64", "S5", "object")]
            columns += [pandas.Series([], dtype=kind) for kind in ("object", "UInt32")]
            columns.append(numpy.zeros((0, 16), "uint8"))
        table = RouteTable({"::/0": 1})
        for column in columns:
            with self.subTest(column=column):
                self.assertEqual(len(IpSet("::/0").contains_all(column)), 0)
                self.assertEqual(len(table.match_all(column)), 0)
                self.assertEqual(len(table.route_all(column, default=3)), 0)
                self.assertEqual(len(parse_all(column)), 0)
                self.assertEqual(len(text_all(column)), 0)
                self.assertEqual(len(plain(truncate_all(column))[0] if isinstance(column, Addresses)
                                     else truncate_all(column)), 0)

    def test_mapped(self):
        made, rows = IpSet("10.0.0.0/8"), ["::ffff:10.0.0.1", "::10.0.0.1", "10.0.0.1", "::ffff:0:10.0.0.1"]
        self.assertEqual(made.contains_all(rows), [False, False, True, False])
        self.assertEqual(made.contains_all(rows, mapped=True), [True, False, True, False])
        self.assertEqual(text_all(rows, mapped=True)[0], "10.0.0.1")
        parsed = parse_all(rows)
        self.assertEqual(made.contains_all(parsed, mapped=True), bytes([1, 0, 1, 0]))
        self.assertEqual(parsed.families, b"\6\6\4\6")

    def test_out(self):
        made, rows = IpSet("10.0.0.0/8"), ["10.0.0.1", "x", None, "::"]
        for out in [bytearray(4), memoryview(bytearray(6))[1:5], (ctypes.c_uint8 * 4)(), *([] if numpy is None else [
                numpy.empty(4, "uint8")])]:
            self.assertIs(made.contains_all(rows, invalid="missing", out=out), out)
            self.assertEqual(bytes(out), bytes([1, 2, 2, 0]))
        self.assertEqual(bytes(made.contains_all(array.array("I", [10 << 24, 0]), out=bytearray(2))), b"\1\0")
        wrong = [bytearray(3), bytes(4), memoryview(bytearray(8))[::2], array.array("I", [0])]
        if numpy is not None:
            wrong += [numpy.zeros(4, bool), numpy.zeros(8, "uint8")[::2]]
        for out in wrong:
            with self.subTest(out=out), self.assertRaises(ValueError):
                made.contains_all(rows, invalid="missing", out=out)

    def test_unused_values(self):
        """A table may have any values, also those that come first to mind for a missing route."""
        for values in ((2 ** 32 - 1, 2 ** 32 - 2, 0), (0, 1, 2), (0xfffffffe, 0xffffffff, 0xfffffffd)):
            table = RouteTable(zip(("10.0.0.0/8", "10.1.0.0/16", "ffff::/16"), values))
            rows = ["10.0.0.1", "10.1.0.1", "ffff::", "11.0.0.1", "::"]
            self.assertEqual(table.match_all(rows), [*values, None, None])
            self.assertEqual(table.match_all(rows, default=values[0]), [*values, values[0], values[0]])
            self.assertEqual(table.route_all(rows), [0, 1, 2, None, None])
        self.assertEqual(RouteTable().match_all(["::", "0.0.0.0"]), [None, None])

    def test_threads(self):
        draw = random.Random(2)
        model = Model(draw)
        columns = [[str(model.address(draw)) for _ in range(2000)] for _ in range(16)]

        def ask(column):
            return plain(model.set.contains_all(column)), model.table.match_all(column)

        wanted = [ask(column) for column in columns]
        with ThreadPoolExecutor(8) as threads:
            for _ in range(5):
                self.assertEqual(list(threads.map(ask, columns)), wanted)

    def test_copies(self):
        rows = parse_all(["10.0.0.1", None, "x"], invalid="missing")
        again = pickle.loads(pickle.dumps(rows))
        self.assertEqual((again.families, again.octets, again.invalid, again.count), (b"\4\0\0", rows.octets, 1, 3))
        for column in (["x", "::"], "x\n::"):
            answer = IpSet("::").contains_all(column, invalid="missing")
            again = pickle.loads(pickle.dumps(answer))
            self.assertEqual((again, again.invalid, plain(again)), (answer, 1, [None, True]))
        with self.assertRaises(ValueError):
            Addresses(b"\4", b"")

    @needs_numpy
    def test_masked_objects(self):
        """A masked object may be of any type, and the array of the caller keeps it."""
        items = numpy.empty(5, dtype=object)
        items[:] = ["10.0.0.1", 7, object, "x", "::"]
        column = numpy.ma.MaskedArray(items, [0, 1, 1, 1, 0])
        for call in (IpSet("10.0.0.0/8").contains_all, RouteTable({"10.0.0.0/8": 1}).match_all, text_all):
            self.assertEqual([answer is None for answer in plain(call(column))][1:4], [True] * 3)
        self.assertEqual(plain(IpSet("10.0.0.0/8").contains_all(column)), [True, None, None, None, False])
        self.assertEqual(list(items[1:4]), [7, object, "x"])
        column = numpy.ma.MaskedArray(items, [0, 0, 1, 1, 0])
        with self.assertRaisesRegex(TypeError, "row 1: an address is a text"):
            IpSet().contains_all(column)

    @needs_numpy
    def test_forms_of_numpy(self):
        numbers, table = numpy.array([10 << 24, 11 << 24], "uint32"), RouteTable({"10.0.0.0/8": 5})
        for column, options, kind in ((numbers, {}, numpy.ndarray), (numpy.ma.MaskedArray(numbers), {}, numpy.ndarray),
                                      (numpy.ma.MaskedArray(numbers, [1, 0]), {}, numpy.ma.MaskedArray),
                                      (numbers, {"invalid": "missing"}, numpy.ma.MaskedArray)):
            answer = IpSet("10.0.0.0/8").contains_all(column, **options)
            self.assertIs(type(answer), kind)
            self.assertEqual((answer.dtype, answer.shape), (bool, (2,)))
            self.assertIs(type(table.match_all(column, default=1, **options)), kind)
            self.assertEqual(table.match_all(column, default=1, **options).dtype, "uint32")
        self.assertIs(type(table.match_all(numbers)), numpy.ma.MaskedArray)
        answer = text_all(numpy.array(["x", "::", None], dtype=object), invalid="missing")
        self.assertEqual((answer.tolist(), answer.invalid), ([None, "::", None], 1))
        answer = IpSet("10.0.0.0/8").contains_all(pandas.Series(["x", None]), invalid="missing")
        self.assertEqual((answer.attrs, answer.isna().tolist()), ({"invalid": 1}, [True, True]))


if __name__ == "__main__":
    unittest.main()
