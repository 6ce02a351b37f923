"""Tables of validated ROA payloads, kept as images, and the validity of the origins of routes (RFC 6811)."""
import array
import ctypes
import enum
from typing import Any, Iterable, Optional, Tuple, Union

from . import _frames as frames
from . import _library as library
from ._bulk import MISSING, RAISE, AnswerBytes, Answers
from ._frames import Form
from ._network_rows import WIDTHS, NetworkRows, network_rows, numbers
from ._networks import OneNetwork, bytes_of
from ._rows import LARGEST, WIDTH, BadRow, checked, lent

# the answer for a row that is not a network
NO_ROUTE = 3
# the bytes of the header of an image, and of a payload
HEADER, PAYLOAD = 24, 32
# the greatest number that fits into a byte
LARGEST_BYTE = 255

_from_rows = library.question("ipnet_origins_from_rows")
_count = library.question("ipnet_origins_count")
_validity = library.question("ipnet_origins_validity")

Payloads = Iterable[Tuple[OneNetwork, Optional[int], int]]


class NotOrigins(ValueError):
    """The bytes are not the image of a table of payloads.

    >>> OriginTable.from_bytes(b"")
    Traceback (most recent call last):
        ...
    ipnet_proved.NotOrigins: the bytes are not the image of a table of payloads
    """

    def __init__(self, message: str = "the bytes are not the image of a table of payloads") -> None:
        super().__init__(message)


class Validity(enum.IntEnum):
    """The validity of the origin of a route (RFC 6811, section 2).

    >>> OriginTable().validity("192.0.2.0/24", 64496)
    <Validity.NOT_FOUND: 0>
    """

    NOT_FOUND = 0
    VALID = 1
    INVALID = 2


SAID = (*Validity, None)


class OriginTable:
    """A table of validated ROA payloads: a network, the greatest prefix length that may be announced, and the number of
    the AS that may announce it. A greatest length that is None is the prefix length. Payloads may overlap and repeat, and
    host bits do not count.

    Raises BadRow if a network or a greatest length is not valid, and OverflowError if a number does not fit.

    >>> table = OriginTable([("192.0.2.0/24", 26, 64496), ("2001:db8::/32", None, 64496)])
    >>> table.validity("192.0.2.64/26", 64496), len(table)
    (<Validity.VALID: 1>, 2)
    """

    __slots__ = ("_image",)
    _image: bytes

    def __init__(self, payloads: Payloads = ()) -> None:
        rows = list(payloads)
        self._image = image_of(network_rows([network for network, _, _ in rows], None),
                               [most for _, most, _ in rows], [asn for _, _, asn in rows])

    @classmethod
    def _of(cls, image: bytes) -> "OriginTable":
        """The table of an image that the library has written."""
        made = object.__new__(cls)
        made._image = image
        return made

    @classmethod
    def from_columns(cls, networks: Any, max_lens: Any, asns: Any, *, lengths: Any = None) -> "OriginTable":
        """The table of payloads in columns: lists, buffers, arrays of NumPy or Series of pandas. If there are `lengths`,
        `networks` is a column of addresses as IpSet.contains_all takes them, and `lengths` has the prefix lengths.

        >>> import array
        >>> numbers = array.array("I", [0xC0000200])
        >>> table = OriginTable.from_columns(numbers, bytes([26]), [64496], lengths=bytes([24]))
        >>> table == OriginTable([("192.0.2.0/24", 26, 64496)])
        True
        """
        return cls._of(image_of(network_rows(networks, lengths), max_lens, asns))

    @classmethod
    def from_bytes(cls, image: Union[bytes, bytearray, memoryview]) -> "OriginTable":
        """The table of an image, as to_bytes returns it. All payloads are tested; raises NotOrigins if the bytes are not
        an image.

        >>> len(OriginTable.from_bytes(OriginTable([("192.0.2.0/24", 26, 64496)]).to_bytes()))
        1
        """
        data = bytes(image)
        if _counted(data) is None:
            raise NotOrigins()
        return cls._of(data)

    def to_bytes(self) -> bytes:
        """The image of the table: 24 bytes, and 32 for each payload."""
        return self._image

    def __eq__(self, other: object) -> bool:
        """Whether the tables have equal images. Lists of the same payloads in any order have one image."""
        if not isinstance(other, OriginTable):
            return NotImplemented
        return self._image == other._image

    def __hash__(self) -> int:
        return hash(self._image)

    def __repr__(self) -> str:
        return f"<OriginTable of {len(self)} payloads>"

    def __reduce__(self) -> Tuple[object, ...]:
        return OriginTable.from_bytes, (self._image,)

    def __len__(self) -> int:
        """The number of payloads."""
        return (len(self._image) - HEADER) // PAYLOAD

    def validity(self, network: OneNetwork, asn: Optional[int]) -> Validity:
        """The validity of a route with this network and this AS number, or None if the route has no single origin. Host
        bits do not count. Raises NotANetwork if a text is not a network, and OverflowError if the number does not fit.

        Each call reads the whole table, so ask for many routes by validity_all.

        >>> table = OriginTable([("192.0.2.0/24", 26, 64496)])
        >>> table.validity("192.0.2.0/27", 64496), table.validity("192.0.2.0/24", None)
        (<Validity.INVALID: 2>, <Validity.INVALID: 2>)
        """
        data = bytes_of(network)
        octets = data[1:-1]
        rows = NetworkRows(bytearray([6 if data[0] else 4]), bytearray(octets.ljust(WIDTH, b"\0")),
                           bytearray(data[-1:]), (), Form("list", network, None))
        return Validity(answers_of(self._image, rows, [asn])[0])

    def validity_all(self, networks: Any, asns: Any, *, lengths: Any = None, invalid: str = RAISE) -> Any:
        """The validity of each route of a column. `networks` and `lengths` are as for from_columns; `asns` has the AS
        numbers of the origins, or None for a route without a single origin.

        A list gives a list of Validity, with None for a missing row; a buffer gives bytes, 3 for a missing row; an array
        of NumPy gives an array of uint8, masked at missing rows, and a Series of pandas one of UInt8. A row that is not
        a network raises BadRow, or is a missing row if `invalid` is "missing".

        >>> table = OriginTable([("192.0.2.0/24", 26, 64496)])
        >>> [answer.name for answer in table.validity_all(["192.0.2.0/25", "192.0.2.0/27"], [64496, 64496])]
        ['VALID', 'INVALID']
        """
        if invalid not in (RAISE, MISSING):
            raise ValueError(f"invalid is {RAISE!r} or {MISSING!r}, and not {invalid!r}")
        rows = network_rows(networks, lengths)
        answers = answers_of(self._image, rows, asns)
        gaps = set(rows.missing)
        bad = [row for row, answer in enumerate(answers) if answer == NO_ROUTE and row not in gaps] \
            if answers.count(NO_ROUTE) > len(gaps) else []
        if bad and invalid == RAISE:
            raise BadRow(bad[0], *rows.text_and_cause(bad[0]), len(bad) - 1)
        return _said(answers, rows.form._replace(invalid=len(bad) if invalid == MISSING else None))


def _counted(image: bytes) -> Optional[int]:
    """The number of payloads of the image; None if the bytes are not one."""
    count = ctypes.c_size_t(0)
    status = _count(image, len(image), ctypes.byref(count))
    if status == library.NOT_ORIGINS:
        return None
    checked(status)
    return count.value


def _said(answers: bytearray, form: Form) -> Any:
    """The answers in the form of the column."""
    if form.has_arrays:
        return frames.codes(answers, NO_ROUTE, form)
    made: Any = AnswerBytes(answers) if form.name == "bytes" else Answers(map(SAID.__getitem__, answers))
    made.invalid = form.invalid or 0
    return made


def _lent_columns(rows: NetworkRows) -> Tuple[Any, ...]:
    """The families, the octets and the lengths with their lengths, as the library takes them."""
    given = rows.families, rows.octets, rows.lengths
    return tuple(each for data in given for each in (lent(data, 0, len(data)), len(data)))


def answers_of(image: bytes, rows: NetworkRows, asns: Any) -> bytearray:
    """The answer for each row."""
    count = len(rows.families)
    origins = array.array("I", numbers("an AS number", asns, count, LARGEST, [0] * count))
    answers = bytearray(count)
    place, many = origins.buffer_info()
    checked(_validity(image, len(image), *_lent_columns(rows), place, many, lent(answers, 0, count), count))
    return answers


def image_of(rows: NetworkRows, max_lens: Any, asns: Any) -> bytes:
    """The image of the table of the payloads of the rows."""
    count = len(rows.families)
    most = bytearray(numbers("a greatest length", max_lens, count, LARGEST_BYTE, rows.lengths))
    origins = array.array("I", numbers("an AS number", asns, count, LARGEST, None))
    room, written = HEADER + PAYLOAD * count, ctypes.c_size_t(0)
    buffer = ctypes.create_string_buffer(room)
    place, many = origins.buffer_info()
    status = _from_rows(*_lent_columns(rows), lent(most, 0, count), count, place, many, buffer, room,
                        ctypes.byref(written))
    if status == library.BAD_ROW:
        raise BadRow(written.value, *_text_and_cause(rows, most, written.value))
    checked(status)
    return buffer.raw


def _text_and_cause(rows: NetworkRows, max_lens: bytearray, row: int) -> Tuple[str, str]:
    """The network of a row that is not a payload, and why it is not one."""
    text, cause = rows.text_and_cause(row)
    width = WIDTHS.get(rows.families[row])
    if width is None or rows.lengths[row] > width:
        return text, cause
    if max_lens[row] > width:
        return text, f"the greatest length {max_lens[row]} is above {width}"
    return text, f"the greatest length {max_lens[row]} is less than the prefix length {rows.lengths[row]}"
