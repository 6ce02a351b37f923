"""Questions about all rows of a column at once."""
import array
import ctypes
from typing import Any, Callable, Iterable, Iterator, List, NamedTuple, Optional, Sequence, Tuple

from . import _frames as frames
from . import _library as library
from ._columns import Addresses, Column, Items, Lines, buffer_column
from ._frames import Form
from ._networks import as_bytes
from ._rows import (LARGEST, WIDTH, BadRow, Piece, checked, lent, lent_rows, numbers_of, truncate, unmap, with_rows)

RAISE, MISSING = "raise", "missing"
# the answer for a missing row
GAP = 2
SAID = (False, True, None)

Change = Callable[[Piece], None]

_contains_u32 = library.question("ipnet_set_contains_u32")
_contains_rows = library.question("ipnet_set_contains_rows")
_longest_match_u32 = library.question("ipnet_table_longest_match_u32")
_longest_match_rows = library.question("ipnet_table_longest_match_rows")
_print = library.question("ipnet_print")


class Answers(List[Any]):
    """The results for a list, None for a missing row. `invalid` is the number of rows that were not addresses."""

    invalid = 0


class AnswerBytes(bytes):
    """The results for a buffer, 1, 0, or 2 for a missing row. `invalid` is the number of rows that were not
    addresses."""

    invalid = 0


class Options(NamedTuple):
    """How rows are read: what is done with rows that are not addresses, and whether IPv4-mapped rows are IPv4."""

    invalid: str = RAISE
    mapped: bool = False


def column_of(column: Any) -> Column:
    """The column in one of the forms that the package reads. Raises TypeError if it has none of them."""
    if isinstance(column, Column):
        return column
    if frames.is_series(column):
        return frames.series_column(column)
    if frames.is_array(column):
        return frames.array_column(column)
    if isinstance(column, str):
        return Lines(memoryview(as_bytes(column)))
    if isinstance(column, (list, tuple)):
        items: Sequence[Any] = column
        return Items(lambda start, end: items[start:end], len(items))
    try:
        view = memoryview(column)
    except TypeError:
        if not isinstance(column, Iterable):
            raise TypeError(f"a column is an array, a buffer, a text of lines or an iterable of addresses, and not "
                            f"{column!r}") from None
        return column_of(list(column))
    return buffer_column(view)


class Reading:
    """A column that is read once, piece by piece. `bad` counts the rows so far that are not addresses."""

    def __init__(self, given: Any, options: Options) -> None:
        if options.invalid not in (RAISE, MISSING):
            raise ValueError(f"invalid is {RAISE!r} or {MISSING!r}, and not {options.invalid!r}")
        self.column, self.bad = column_of(given), 0
        self._given, self._options = given, options

    def __iter__(self) -> Iterator[Piece]:
        """The rows. After the last one raises BadRow if a row is not an address and is refused."""
        first: Tuple[int, str, str] = (0, "", "")
        for piece in self.column.pieces():
            if self._options.mapped:
                unmap(piece)
            if piece.bad and not self.bad:
                first = (piece.start + piece.bad[0], *piece.text(piece.bad[0]))
            self.bad += len(piece.bad)
            yield piece
        if self.bad and (self.column.is_strict or self._options.invalid == RAISE):
            raise BadRow(*first, self.bad - 1)

    def form(self) -> Form:
        """The form of the result. A caller who does not refuse bad rows gets their number."""
        return Form(self.column.form, self._given, self.bad if self._options.invalid == MISSING else None)


def gaps_of(piece: Piece) -> Iterator[int]:
    """The rows of the piece without an address."""
    for places in (piece.missing, piece.bad):
        for place in places:
            yield piece.start + place


def contained(image: bytes, given: Any, options: Options, out: Any = None) -> Any:
    """Whether the set of the image contains each row, in the form of the column; or `out`, which has the answers."""
    rows = Reading(given, options)
    answers = memoryview(bytearray(rows.column.count) if out is None else _writable(out, rows.column.count))
    for piece in rows:
        room = lent(answers, piece.start, piece.size)
        if piece.numbers is not None:
            checked(_contains_u32(image, len(image), piece.numbers, piece.size, room, piece.size))
            for row in gaps_of(piece):
                answers[row] = GAP
        else:
            checked(_contains_rows(image, len(image), *lent_rows(piece), room, piece.size))
    return _said(answers.obj, rows.form()) if out is None else out


def _writable(out: Any, count: int) -> memoryview:
    """The memory that the caller lends for the answers, one byte for each row."""
    view = memoryview(out)
    if view.readonly or not view.c_contiguous or view.nbytes != count or view.itemsize != 1 or view.format == "?":
        raise ValueError(f"out is writable memory of {count} bytes, one after the other, and not of bool, which has no "
                         "value for a missing row")
    return view.cast("B")


def _said(answers: Any, form: Form) -> Any:
    """The answers in the form of the column."""
    if form.has_arrays:
        return frames.booleans(answers, form)
    made: Any = AnswerBytes(answers) if form.name == "bytes" else Answers(map(SAID.__getitem__, answers))
    made.invalid = form.invalid or 0
    return made


def matched(image: bytes, given: Any, options: Options, absent: int, default: Optional[int]) -> Any:
    """The value of the longest match for each row, in the form of the column. No route has the value `absent`."""
    if default is not None and not 0 <= default <= LARGEST:
        raise OverflowError(f"the default is a number from 0 to {LARGEST}, and not {default}")
    rows, missing = Reading(given, options), absent if default is None else default
    values, gaps = bytearray(4 * rows.column.count), Gaps(rows.column.count)
    for piece in rows:
        room = lent(values, 4 * piece.start, 4 * piece.size)
        if piece.numbers is not None:
            checked(_longest_match_u32(image, len(image), piece.numbers, piece.size, missing, room, piece.size))
        else:
            checked(_longest_match_rows(image, len(image), *lent_rows(piece), missing, room, piece.size))
        gaps.add(piece)
    return _numbers(values, gaps, absent if default is None else None, rows.form())


class Gaps:
    """The rows without an address: `marks` has a byte for each row, 1 for such a row; None if there is none."""

    def __init__(self, count: int) -> None:
        self._count = count
        self.marks: Optional[bytearray] = None

    def add(self, piece: Piece) -> None:
        """Marks the rows of the piece without an address."""
        for row in gaps_of(piece):
            if self.marks is None:
                self.marks = bytearray(self._count)
            self.marks[row] = 1


def _numbers(values: bytearray, gaps: Gaps, absent: Optional[int], form: Form) -> Any:
    """The numbers in the form of the column. The rows of the gaps, and those with the number `absent`, are missing."""
    if form.has_arrays:
        return frames.numbers(values, gaps.marks, absent, form)
    found = Answers(array.array("I", bytes(values)))
    found.invalid = form.invalid or 0
    if absent is not None:
        found[:] = [None if value == absent else value for value in found]
    if gaps.marks is not None:
        found[:] = [None if gap else value for value, gap in zip(found, gaps.marks)]
    return found


def parse_all(column: Any, *, invalid: str = RAISE, mapped: bool = False) -> Addresses:
    """The family of each row, 4, 6, or 0 for a missing row, and 16 octets for each row: two arrays of NumPy if the
    column is of NumPy or pandas, else bytes. The result is a column too.

    >>> families, octets = parse_all("10.0.0.1\\n::ffff:10.0.0.1\\n", mapped=True)
    >>> families, octets[:5]
    (b'\\x04\\x04', b'\\n\\x00\\x00\\x01\\x00')
    """
    return _parsed(Reading(column, Options(invalid, mapped)), None)


def _parsed(rows: Reading, change: Optional[Change]) -> Addresses:
    """The families and octets of the rows, which the function may change before, in the form of the column."""
    families, octets = bytearray(rows.column.count), bytearray(WIDTH * rows.column.count)
    for piece in map(with_rows, rows):
        if change is not None:
            change(piece)
        families[piece.start:piece.start + piece.size] = piece.families
        octets[WIDTH * piece.start:WIDTH * (piece.start + piece.size)] = piece.octets
    if rows.form().has_arrays:
        return Addresses(*frames.arrays(families, octets), rows.bad)
    return Addresses(bytes(families), bytes(octets), rows.bad)


def text_all(column: Any, *, invalid: str = RAISE, mapped: bool = False) -> Any:
    """The canonical text of each row, IPv6 as in RFC 5952; None for a missing row. An array of NumPy gives an array of
    objects, a Series of pandas one of strings, and each other column a list.

    >>> import array
    >>> text_all(array.array("I", [0x0A000001]))
    ['10.0.0.1']
    >>> text_all(["10.0.0.1", None, "FD00:0::1"])
    ['10.0.0.1', None, 'fd00::1']
    """
    return _texts(Reading(column, Options(invalid, mapped)), None)


def _texts(rows: Reading, change: Optional[Change]) -> Any:
    """The text of each row, which the function may change before, in the form of the column."""
    lines = Answers()
    for piece in map(with_rows, rows):
        if change is not None:
            change(piece)
        lines.extend(texts_of(piece))
    lines.invalid = rows.bad
    return frames.texts(lines, rows.form()) if rows.form().has_arrays else lines


def texts_of(piece: Piece) -> Iterator[Optional[str]]:
    """The canonical text of each row of the piece; None for a row without an address."""
    buffer, count = ctypes.create_string_buffer(library.MAX_TEXT), ctypes.c_size_t(0)
    for place, family in enumerate(piece.families):
        octets = bytes(piece.octets[WIDTH * place:WIDTH * place + WIDTH])
        if family == 4:
            yield "%d.%d.%d.%d" % tuple(octets[:4])
        elif family == 6:
            checked(_print(b"\1" + octets + b"\x80", library.MAX_BYTES, buffer, len(buffer), ctypes.byref(count)))
            yield buffer.value[:count.value - len("/128")].decode("ascii")
        else:
            yield None


def truncate_all(column: Any, ipv4: int = 24, ipv6: int = 48, *, invalid: str = RAISE, mapped: bool = False) -> Any:
    """The first address of the network of each row that has the prefix length `ipv4` or `ipv6`, to group rows by. A
    column of numbers gives numbers, one of octets gives the result of parse_all, and each other column gives texts.

    >>> truncate_all(["10.1.2.3", "2001:db8:1:2::3", None])
    ['10.1.2.0', '2001:db8:1::', None]
    >>> import array
    >>> truncate_all(array.array("I", [0x0A010203]), ipv4=8)
    [167772160]
    """
    if not 0 <= ipv4 <= 32 or not 0 <= ipv6 <= 128:
        raise ValueError(f"a prefix length is from 0 to 32 or 128, and not {ipv4} or {ipv6}")
    rows = Reading(column, Options(invalid, mapped))

    def change(piece: Piece) -> None:
        truncate(piece, ipv4, ipv6)

    if rows.column.kind == "numbers":
        return _changed_numbers(rows, change)
    return _parsed(rows, change) if rows.column.kind == "octets" else _texts(rows, change)


def _changed_numbers(rows: Reading, change: Change) -> Any:
    """The numbers of a column of numbers after the change, in the form of the column."""
    values, gaps = bytearray(4 * rows.column.count), Gaps(rows.column.count)
    for piece in map(with_rows, rows):
        change(piece)
        values[4 * piece.start:4 * (piece.start + piece.size)] = numbers_of(piece)
        gaps.add(piece)
    return _numbers(values, gaps, None, rows.form())
