"""Rows of columns: a family and 16 octets for each, the calls of the library that read them, and the error BadRow."""
import ctypes
import sys
from typing import Any, Callable, Collection, List, NamedTuple, Optional, Sequence, Tuple

from . import _library as library
from ._networks import cause_of, quoted

# the rows that are read at a time
PIECE = 1 << 16
LARGEST = 2 ** 32 - 1
WIDTH = 16

_rows_from_lines = library.question("ipnet_rows_from_lines")
_rows_from_offsets = library.question("ipnet_rows_from_offsets")
_unmap_rows = library.question("ipnet_unmap_rows")
_truncate_rows = library.question("ipnet_truncate_rows")


class BadRow(ValueError):
    """A row of a column is not an address. `row` is its place, counted from 0, `text` is the row, `cause` says why it
    is not an address, and `others` is the number of all other rows of the column that are not addresses.

    >>> str(BadRow(3, "10.0.0.256", "the IPv4 address is not valid", 2))
    "row 3: '10.0.0.256': the IPv4 address is not valid (and 2 other rows)"
    """

    def __init__(self, row: int, text: str, cause: str, others: int = 0) -> None:
        super().__init__(row, text, cause, others)
        self.row = row
        self.text = text
        self.cause = cause
        self.others = others

    def __str__(self) -> str:
        words = f"row {self.row}: {quoted(self.text)}: {self.cause}"
        if self.others:
            words += f" (and {self.others} other row{'s' if self.others > 1 else ''})"
        return words


class Piece(NamedTuple):
    """Some rows of a column, one after the other, from the row `start` on.

    Either `numbers` has IPv4 addresses, 4 bytes each in the machine's order; or `families` has a byte for each row, 4,
    6, or 0 for a row without an address, and `octets` has 16 bytes for each row. `missing` and `bad` are the places in
    the piece, ascending, of the missing rows and of those that are not addresses; `text` returns the text of a row and
    the cause for which it is not an address."""

    start: int
    size: int
    numbers: Optional[bytes]
    families: bytearray
    octets: bytearray
    missing: Collection[int]
    bad: Sequence[int]
    text: Callable[[int], Tuple[str, str]]


def cause_of_row(data: bytes) -> str:
    """Why a text is not an address."""
    if b"/" in data and b"\n" not in data:
        return "an address has no prefix length"
    return cause_of(data, False).replace("part of a network", "part of an address")


def checked(status: int) -> None:
    """Raises an exception for each status except OK. The package calls the library only with lengths that fit."""
    if status == library.OUT_OF_MEMORY:
        raise MemoryError("libipnet: out of memory")
    if status != library.OK:
        raise RuntimeError(f"libipnet: status {status}")


def lent(memory: Any, start: int, count: int) -> Any:
    """`count` bytes of the writable memory from the byte `start` on, as the library takes them."""
    return (ctypes.c_char * count).from_buffer(memory, start)


def lent_rows(piece: Piece) -> Tuple[Any, int, Any, int]:
    """The families and the octets of the piece with their lengths, as the library takes them."""
    length = WIDTH * piece.size
    return lent(piece.families, 0, piece.size), piece.size, lent(piece.octets, 0, length), length


class _Buffer(ctypes.Structure):
    """The struct Py_buffer."""
    _fields_ = [("place", ctypes.c_void_p), ("owner", ctypes.py_object), ("length", ctypes.c_ssize_t),
                ("itemsize", ctypes.c_ssize_t), ("readonly", ctypes.c_int), ("ndim", ctypes.c_int),
                ("format", ctypes.c_char_p), ("shape", ctypes.c_void_p), ("strides", ctypes.c_void_p),
                ("suboffsets", ctypes.c_void_p), ("internal", ctypes.c_void_p)]


class Lent:
    """Bytes that the library reads in place, also if they may not be written: ctypes lends only writable memory."""

    def __init__(self, view: memoryview) -> None:
        self.view = view
        self._buffer = _Buffer()
        ctypes.pythonapi.PyObject_GetBuffer(ctypes.py_object(view), ctypes.byref(self._buffer), 0)
        self.place = ctypes.c_char_p(self._buffer.place)

    def __del__(self) -> None:
        ctypes.pythonapi.PyBuffer_Release(ctypes.byref(self._buffer))


def zeros_in(families: bytearray, missing: Collection[int]) -> List[int]:
    """The places of the rows without an address that are not missing."""
    if families.count(0) == len(missing):
        return []
    gaps = set(missing)
    return [place for place, family in enumerate(families) if family == 0 and place not in gaps]


def parsed_lines(text: bytes, count: int) -> Optional[Tuple[bytearray, bytearray]]:
    """The families and octets of `count` lines, each with a newline; None if the text has another number of lines."""
    families, octets, bad = bytearray(count), bytearray(WIDTH * count), ctypes.c_size_t(0)
    status = _rows_from_lines(text, len(text), lent(families, 0, count), count, lent(octets, 0, WIDTH * count),
                              WIDTH * count, ctypes.byref(bad))
    if status == library.WRONG_LENGTH:
        return None
    checked(status)
    return families, octets


def parsed_offsets(data: Lent, offsets: bytes, count: int) -> Optional[Tuple[bytearray, bytearray]]:
    """The families and octets of `count` texts, which begin and end at these offsets; None if the offsets do not
    ascend, or lie outside of the data."""
    families, octets, bad = bytearray(count), bytearray(WIDTH * count), ctypes.c_size_t(0)
    status = _rows_from_offsets(data.place, len(data.view), offsets, len(offsets), lent(families, 0, count), count,
                                lent(octets, 0, WIDTH * count), WIDTH * count, ctypes.byref(bad))
    if status == library.BAD_OFFSETS:
        return None
    checked(status)
    return families, octets


def unmap(piece: Piece) -> None:
    """Makes IPv4 rows of the IPv4-mapped rows of IPv6."""
    if piece.numbers is None:
        checked(_unmap_rows(*lent_rows(piece)))


def truncate(piece: Piece, ipv4: int, ipv6: int) -> None:
    """Makes each address of the piece the first of its network of the prefix length of its family."""
    checked(_truncate_rows(ipv4, ipv6, *lent_rows(piece)))


def swapped(numbers: bytes) -> bytearray:
    """Numbers of 4 bytes with their bytes in the opposite order."""
    turned = bytearray(len(numbers))
    for byte in range(4):
        turned[byte::4] = numbers[3 - byte::4]
    return turned


def with_rows(piece: Piece) -> Piece:
    """The piece with families and octets."""
    if piece.numbers is None:
        return piece
    families, octets = bytearray(b"\4" * piece.size), bytearray(WIDTH * piece.size)
    network_order = swapped(piece.numbers) if sys.byteorder == "little" else piece.numbers
    for byte in range(4):
        octets[byte::WIDTH] = network_order[byte::4]
    for gaps in (piece.missing, piece.bad):
        for place in gaps:
            families[place] = 0
            octets[WIDTH * place:WIDTH * place + WIDTH] = bytes(WIDTH)
    return piece._replace(numbers=None, families=families, octets=octets)


def numbers_of(piece: Piece) -> bytes:
    """The IPv4 addresses of a piece with families and octets, 4 bytes each in the machine's order."""
    numbers = bytearray(4 * piece.size)
    for byte in range(4):
        numbers[byte::4] = piece.octets[byte::WIDTH]
    return bytes(swapped(bytes(numbers)) if sys.byteorder == "little" else numbers)
