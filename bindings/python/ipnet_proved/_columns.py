"""Columns of addresses without NumPy: buffers of numbers, of octets and of lines, Arrow's buffers, and lists of texts
and objects. Each is read in pieces, so that a long column takes little memory beside the result."""
import array
import struct
from ipaddress import IPv4Address, IPv4Interface, IPv6Address, IPv6Interface
from typing import Any, Callable, Dict, Iterator, List, Optional, Sequence, Tuple

from ._networks import TEXTS, as_bytes, shown
from ._rows import LARGEST, PIECE, WIDTH, Lent, Piece, cause_of_row, parsed_lines, parsed_offsets, zeros_in

# the bytes of lines that are read at a time
BLOCK = 1 << 18
# the codes of whole numbers in the formats of buffers, and of bytes
WHOLE, SINGLE = frozenset("iIlLqQ"), frozenset("bBc")
# the code with a sign of numbers with this number of bytes
SIGNED = {4: "i", 8: "q"}
NOT_A_NUMBER = f"a number is from 0 to {LARGEST}"


class Column:
    """Rows to ask about. `count` is their number, `kind` says what they are, and `form` how results are returned; if
    `is_strict`, bad rows are always refused."""

    count = 0
    kind = "texts"
    form = "list"
    is_strict = False

    def pieces(self) -> Iterator[Piece]:
        """The rows in order, at most some ten thousand at a time."""
        raise NotImplementedError

    def _parts(self) -> Iterator[Tuple[int, int]]:
        """The first row of each piece, and the row after its last one."""
        for start in range(0, self.count, PIECE):
            yield start, min(start + PIECE, self.count)


def numbers_piece(start: int, numbers: bytes, missing: Sequence[int], bad: Sequence[int],
                  value: Callable[[int], Any]) -> Piece:
    """A piece of IPv4 addresses as numbers."""
    return Piece(start, len(numbers) // 4, numbers, bytearray(), bytearray(), missing, bad,
                 lambda place: (str(value(place)), NOT_A_NUMBER))


def rows_piece(start: int, rows: Tuple[bytearray, bytearray], missing: Sequence[int],
               text: Callable[[int], bytes]) -> Piece:
    """A piece of parsed texts."""
    families, octets = rows

    def text_and_cause(place: int) -> Tuple[str, str]:
        return shown(text(place)), cause_of_row(text(place))

    return Piece(start, len(families), None, families, octets, missing, zeros_in(families, missing), text_and_cause)


class Numbers(Column):
    """A buffer of IPv4 addresses as numbers. Each number has to fit into 32 bits without a sign."""

    kind, form = "numbers", "bytes"
    is_strict = True

    def __init__(self, view: memoryview, has_sign: bool) -> None:
        code = SIGNED[view.itemsize]
        self._view, self._code = view, code if has_sign else code.upper()
        self.count = len(view)

    def pieces(self) -> Iterator[Piece]:
        for start, end in self._parts():
            numbers = self._view[start:end].tobytes()
            if self._code == "I":
                yield numbers_piece(start, numbers, (), (), lambda place: None)
            else:
                yield self._checked(start, array.array(self._code, numbers))

    def _checked(self, start: int, values: "array.array[int]") -> Piece:
        bad: List[int] = []
        if min(values) < 0 or max(values) > LARGEST:
            bad = [place for place, value in enumerate(values) if not 0 <= value <= LARGEST]
        kept = array.array("I", (value if 0 <= value <= LARGEST else 0 for value in values) if bad else values)
        return numbers_piece(start, kept.tobytes(), (), bad, lambda place: values[place])


class Octets(Column):
    """A buffer of IPv6 addresses, 16 bytes each."""

    kind, form = "octets", "bytes"

    def __init__(self, view: memoryview, count: int) -> None:
        self._view, self.count = view, count

    def pieces(self) -> Iterator[Piece]:
        for start, end in self._parts():
            octets = bytearray(self._view[start:end].tobytes())
            yield rows_piece(start, (bytearray(b"\6" * (end - start)), octets), (), lambda place: b"")


class Addresses(Column):
    """Addresses as parse_all returns them: `families` has a byte for each row, 4, 6, or 0 for a missing row, `octets`
    has 16 bytes for each row, and `invalid` is the number of the rows that were not addresses. The octets of an IPv4
    address are the first four. It is also a column, so a text that is asked about several times is read once. Both are
    buffers of bytes: other items raise TypeError, and other lengths ValueError.

    >>> rows = parse_all(["10.0.0.1", None, "::1"])
    >>> rows.families, rows.octets[:4], len(rows.octets)
    (b'\\x04\\x00\\x06', b'\\n\\x00\\x00\\x01', 48)
    >>> IpSet("10.0.0.0/8").contains_all(rows)
    b'\\x01\\x02\\x00'
    """

    kind, form = "octets", "bytes"

    def __init__(self, families: Any, octets: Any, invalid: int = 0) -> None:
        self.families, self.octets, self.invalid = families, octets, invalid
        self.count = len(families)
        lengths = view_of_bytes("families", families).nbytes, view_of_bytes("octets", octets).nbytes
        if lengths != (self.count, WIDTH * self.count):
            raise ValueError(f"{self.count} families need {self.count} bytes and {WIDTH * self.count} octets, and not "
                             f"{lengths[0]} and {lengths[1]}")

    def __iter__(self) -> Iterator[Any]:
        return iter((self.families, self.octets))

    def __len__(self) -> int:
        return self.count

    def pieces(self) -> Iterator[Piece]:
        kinds, octets = octets_of_buffer(self.families), octets_of_buffer(self.octets)
        for start, end in self._parts():
            families = bytearray(kinds[start:end])
            missing = [place for place, family in enumerate(families) if family not in (4, 6)] \
                if families.count(4) + families.count(6) != len(families) else []
            for place in missing:
                families[place] = 0
            rows = families, bytearray(octets[WIDTH * start:WIDTH * end])
            yield rows_piece(start, rows, missing, lambda place: b"")


class Lines(Column):
    """A buffer of lines, one address each; the last may end without a newline."""

    form = "bytes"

    def __init__(self, view: memoryview) -> None:
        self._view = octets_of_buffer(view)
        self.count = sum(block.count(b"\n") for block in blocks_of_lines(self._view, BLOCK))

    def pieces(self) -> Iterator[Piece]:
        start = 0
        for block in blocks_of_lines(self._view, BLOCK):
            piece = _lines_piece(start, block)
            start += piece.size
            yield piece


def blocks_of_lines(view: memoryview, most: int) -> Iterator[bytes]:
    """The bytes in pieces of whole lines, each of which ends with a newline. A piece has at most `most` bytes, or one
    longer line and what follows it."""
    at, size = 0, most
    while at < len(view):
        block = bytes(view[at:at + size])
        if at + size < len(view):
            block = block[:block.rfind(b"\n") + 1]
            if not block:
                size *= 2
                continue
        at, size = at + len(block), most
        yield block if block.endswith(b"\n") else block + b"\n"


def _lines_piece(start: int, block: bytes) -> Piece:
    """A piece of whole lines."""
    rows = parsed_lines(block, block.count(b"\n"))
    assert rows is not None
    return rows_piece(start, rows, (), lambda place: block.split(b"\n")[place])


class Items(Column):
    """A sequence of texts and objects of ipaddress. `read` returns the items from one place to another."""

    def __init__(self, read: Callable[[int, int], Sequence[Any]], count: int) -> None:
        self._read, self.count = read, count

    def pieces(self) -> Iterator[Piece]:
        for start, end in self._parts():
            items = self._read(start, end)
            yield self._plain(start, items) or self._mixed(start, items)

    def _plain(self, start: int, items: Sequence[Any]) -> Optional[Piece]:
        """The piece of items that are all str or all bytes, and have no newline; else None."""
        try:
            data = b"\n".join([*items, b""]) if isinstance(items[0], bytes) else as_bytes("\n".join([*items, ""]))
        except TypeError:
            return None
        rows = parsed_lines(data, len(items))
        return None if rows is None else rows_piece(start, rows, (), lambda place: as_bytes(items[place]))

    def _mixed(self, start: int, items: Sequence[Any]) -> Piece:
        lines: List[bytes] = []
        missing: List[int] = []
        packed: Dict[int, bytes] = {}
        for place, item in enumerate(items):
            line = b""
            if isinstance(item, TEXTS):
                line = as_bytes(item)
            elif is_missing(item):
                missing.append(place)
            else:
                octets = _octets_of(item, start + place)
                if octets:
                    packed[place] = octets
            lines.append(b"" if b"\n" in line else line)
        rows = parsed_lines(b"\n".join([*lines, b""]), len(items))
        assert rows is not None
        families, octets_of_all = rows
        for place, octets in packed.items():
            families[place] = 4 if len(octets) == 4 else 6
            octets_of_all[WIDTH * place:WIDTH * place + len(octets)] = octets
        return rows_piece(start, rows, missing, lambda place: _text_of(items[place]))


def _text_of(item: Any) -> bytes:
    """The text of an item that is not an address."""
    return as_bytes(item) if isinstance(item, TEXTS) else str(item).encode()


def _octets_of(item: Any, row: int) -> Optional[bytes]:
    """The octets of an address object; None if it has a zone. Raises TypeError if the item is something else."""
    if not isinstance(item, (IPv4Address, IPv6Address)) or isinstance(item, (IPv4Interface, IPv6Interface)):
        raise TypeError(f"row {row}: an address is a text or an address object of ipaddress, and not {item!r}")
    return None if getattr(item, "scope_id", None) is not None else item.packed


def is_missing(item: Any) -> bool:
    """Whether an item is a missing row: None, a float that is not a number, or NA and NaT of pandas."""
    if item is None or isinstance(item, float) and item != item:
        return True
    kind = type(item)
    return kind.__name__ in ("NAType", "NaTType") and kind.__module__.startswith("pandas.")


class ArrowText(Column):
    """A column of texts in Arrow's layout: `data` has the texts, one after the other; `offsets` has the place in `data`
    at which the text of each row begins, and then the end of the last one; `validity` has a bit for each row, 0 if it
    is missing, eight rows in a byte.

    `width` is the bytes of an offset, 4 (utf8, binary) or 8 (large_utf8, large_binary); it is not needed if the buffer
    has items of that size. The column begins at the row `start` of the buffers and has `count` rows; without a count it
    has all that there are offsets for.

    >>> import array
    >>> column = ArrowText(b"10.0.0.1::1", array.array("i", [0, 8, 11]))
    >>> IpSet("::/64").contains_all(column)
    b'\\x00\\x01'
    """

    form = "bytes"

    def __init__(self, data: Any, offsets: Any, validity: Any = None, *, width: Optional[int] = None, start: int = 0,
                 count: Optional[int] = None) -> None:
        view = memoryview(offsets)
        if code_of(view) not in WHOLE | SINGLE:
            raise TypeError(f"offsets are whole numbers in the machine's order, and not of the format {view.format!r}")
        self._width = width or view.itemsize
        if self._width not in (4, 8) or view.itemsize not in (1, self._width):
            raise ValueError("the offsets have 4 or 8 bytes; `width` says how many")
        self._offsets = octets_of_buffer(view)
        most = max(view.nbytes // self._width - 1, 0)
        self._start, self.count = start, most - start if count is None else count
        if start < 0 or self.count < 0 or start + self.count > most:
            raise ValueError(f"offsets for {most} rows have no {self.count} rows from row {start} on")
        self._data = Lent(octets_of_buffer(b"" if data is None else data))
        self._validity = None if validity is None else octets_of_buffer(view_of_bytes("validity", validity))
        if self._validity is not None and 8 * len(self._validity) < start + self.count:
            raise ValueError(f"there are {8 * len(self._validity)} bits of validity for {start + self.count} rows")

    def pieces(self) -> Iterator[Piece]:
        for start, end in self._parts():
            first = self._start + start
            offsets = bytes(self._offsets[first * self._width:(self._start + end + 1) * self._width])
            rows = parsed_offsets(self._data, offsets, end - start)
            if rows is None:
                raise ValueError(self._fault(start, end))
            missing = self._missing(first, end - start)
            for place in missing:
                rows[0][place] = 0
                rows[1][WIDTH * place:WIDTH * place + WIDTH] = bytes(WIDTH)
            yield rows_piece(start, rows, missing, self._text(start))

    def _ends(self, row: int) -> Tuple[int, int]:
        """The offsets between which the text of a row is."""
        at = (self._start + row) * self._width
        begin, end = self._offsets[at:at + self._width], self._offsets[at + self._width:at + 2 * self._width]
        return int.from_bytes(begin, "little"), int.from_bytes(end, "little")

    def _fault(self, start: int, stop: int) -> str:
        """What is wrong with the offsets of the first row of which they are wrong."""
        for row in range(start, stop):
            begin, end = self._ends(row)
            if not begin <= end <= len(self._data.view):
                return f"row {row}: its offsets {begin} and {end} do not ascend, or lie outside of the data"
        raise AssertionError("the offsets are right")

    def _text(self, start: int) -> Callable[[int], bytes]:
        def text(place: int) -> bytes:
            begin, end = self._ends(start + place)
            return bytes(self._data.view[begin:end])

        return text

    def _missing(self, first: int, count: int) -> Sequence[int]:
        """The places of the rows whose bit is 0."""
        if self._validity is None:
            return ()
        bits = int.from_bytes(self._validity[first // 8:(first + count + 7) // 8], "little") >> first % 8
        gaps = ~bits & (1 << count) - 1
        return [place for place, bit in enumerate(reversed(format(gaps, "b"))) if bit == "1"] if gaps else ()


def code_of(view: memoryview) -> str:
    """The code of a buffer's items if they are bytes or whole numbers in the machine's order, of the size that its
    format says; else the empty text."""
    code = view.format[1:] if view.format[:1] in ("@", "=", "<") else view.format
    return code if code in WHOLE | SINGLE and struct.calcsize(view.format) == view.itemsize else ""


def view_of_bytes(name: str, data: Any) -> memoryview:
    """The view of a buffer whose items are bytes. Raises TypeError if they are something else, as truth values are."""
    view = memoryview(data)
    if code_of(view) not in SINGLE:
        raise TypeError(f"{name}: a buffer of bytes is needed, and not one of the format {view.format!r}")
    return view


def octets_of_buffer(data: Any) -> memoryview:
    """The bytes of a buffer, one after the other; a copy if they are not so in memory."""
    view = memoryview(data)
    try:
        return view.cast("B")
    except (TypeError, ValueError):
        return memoryview(view.tobytes())


def buffer_column(view: memoryview) -> Column:
    """The column of a buffer. Raises TypeError if its items are nothing that is an address."""
    code = code_of(view)
    if view.ndim == 1 and code in SINGLE:
        return Lines(view)
    if view.ndim == 1 and code in WHOLE:
        return Numbers(view, code.islower())
    if view.ndim == 2 and view.shape is not None and view.shape[1] == WIDTH and code == "B":
        return Octets(view, view.shape[0])
    raise TypeError(f"a buffer of {view.ndim} dimensions of the format {view.format!r} is not a column of addresses, "
                    "which has lines, numbers of 4 bytes in the machine's order, or rows of 16 bytes")
