"""Columns of networks: rows of addresses with a prefix length for each."""
from ipaddress import IPv4Address, IPv6Address
from typing import Any, Iterable, Iterator, List, NamedTuple, Optional, Sequence, Tuple

from . import _frames as frames
from ._bulk import Options, Reading
from ._columns import is_missing
from ._frames import Form
from ._networks import OBJECTS, TEXTS, as_bytes, cause_of, octets_of, shown
from ._rows import WIDTH, with_rows

WIDTHS = {4: 32, 6: 128}
LARGEST_LENGTH = 255


class NetworkRows(NamedTuple):
    """Networks as rows: a family for each, 0 if the row has no address; 16 octets; and a prefix length, which may be too
    long. `missing` are the rows without a network that are not bad, and `items` the texts of the rows, if they are
    texts."""

    families: bytearray
    octets: bytearray
    lengths: bytearray
    missing: Sequence[int]
    form: Form
    items: Optional[Sequence[Any]] = None

    def text_and_cause(self, row: int) -> Tuple[str, str]:
        """The text of a row that is not a network, and the cause."""
        if row in self.missing:
            return "", "the network is missing"
        if self.items is not None:
            text = self.items[row]
            data = as_bytes(text) if isinstance(text, TEXTS) else str(text).encode()
            return shown(data), cause_of(data, False)
        return (f"the prefix length {self.lengths[row]}",
                f"the prefix length is above {WIDTHS.get(self.families[row], 0)}")


def network_rows(given: Any, lengths: Any) -> NetworkRows:
    """The rows of a column of networks; or of a column of addresses, if there are lengths. Raises BadRow if a row of a
    column of addresses is not one."""
    return _networks(given) if lengths is None else _addresses(given, lengths)


def _addresses(given: Any, lengths: Any) -> NetworkRows:
    """The rows of a column of addresses with lengths."""
    reading = Reading(given, Options())
    rows = _read(reading, reading.column.count)
    many = bytearray(numbers("a prefix length", lengths, len(rows.families), LARGEST_LENGTH, None))
    return rows._replace(lengths=many, form=reading.form())


def _read(reading: Reading, count: int) -> NetworkRows:
    """The families and the octets of a column, and its missing rows."""
    families, octets, missing = bytearray(count), bytearray(WIDTH * count), []
    for piece in map(with_rows, reading):
        families[piece.start:piece.start + piece.size] = piece.families
        octets[WIDTH * piece.start:WIDTH * (piece.start + piece.size)] = piece.octets
        missing += [piece.start + place for place in piece.missing]
    return NetworkRows(families, octets, bytearray(count), missing, reading.form())


def _items(given: Any) -> Tuple[List[Any], str]:
    """The items of a column of networks, and the form of the results. Raises TypeError if it is none."""
    if frames.is_series(given):
        return given.tolist(), "pandas"
    if frames.is_array(given):
        return given.tolist(), "numpy"
    if isinstance(given, str):
        return given.splitlines(), "bytes"
    if isinstance(given, (bytes, bytearray, memoryview)):
        return bytes(given).splitlines(), "bytes"
    if not isinstance(given, Iterable):
        raise TypeError(f"a column of networks is an array, a text of lines or an iterable of networks, and not "
                        f"{given!r}")
    return list(given), "list"


def _networks(given: Any) -> NetworkRows:
    """The rows of a column of texts and objects."""
    items, form = _items(given)
    lengths = bytearray(len(items))
    addresses = list(_split(items, lengths))
    rows = _read(Reading(addresses, Options("missing")), len(items))
    return rows._replace(lengths=lengths, form=Form(form, given, None), items=items)


def _split(items: Sequence[Any], lengths: bytearray) -> Iterator[Any]:
    """The address of each network, and its prefix length in `lengths`. A text that is not a network stays whole, and is
    not an address."""
    for row, item in enumerate(items):
        if isinstance(item, TEXTS):
            text = item if isinstance(item, str) else bytes(item).decode("latin-1")
            address, slash, length = text.partition("/")
            if not slash:
                lengths[row] = 128 if ":" in text else 32
                yield text
            elif is_length(length):
                lengths[row] = int(length)
                yield address
            else:
                yield text
        elif isinstance(item, OBJECTS):
            octets, lengths[row] = octets_of(item)
            yield IPv4Address(octets) if len(octets) == 4 else IPv6Address(octets)
        elif is_missing(item):
            yield None
        else:
            raise TypeError(f"row {row}: a network is a text or an object of ipaddress, and not {item!r}")


def is_length(text: str) -> bool:
    """Whether the text is a number without leading zeros that fits into a byte."""
    return text.isascii() and text.isdigit() and (text[0] != "0" or text == "0") and len(text) <= 3 \
        and int(text) <= LARGEST_LENGTH


def numbers(name: str, given: Any, count: int, largest: int, default: Optional[Sequence[int]]) -> Sequence[int]:
    """The numbers of a column, one for each of `count` rows. None is the number of `default` in its row, if there is
    one. Raises ValueError if there are not as many, TypeError if one is not a number, and OverflowError if one is above
    `largest` or below 0."""
    items: List[Any] = given.tolist() if hasattr(given, "tolist") else list(given)
    if len(items) != count:
        raise ValueError(f"there are {len(items)} numbers for {count} rows: {name} for each")
    if default is not None and not all(isinstance(item, int) for item in items):
        items = [default[row] if is_missing(item) else item for row, item in enumerate(items)]
    if items and not 0 <= min(items) <= max(items) <= largest:
        raise OverflowError(f"{name} is a number from 0 to {largest}")
    return items
