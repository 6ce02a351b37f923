"""Tables of routes, kept as images: bytes that can be stored and sent."""
import array
import ctypes
import struct
import sys
from ipaddress import IPv4Network, IPv6Network
from itertools import compress, islice
from typing import Any, Iterable, Iterator, List, Mapping, Optional, Set, Tuple, TypeVar, Union

from . import _library as library
from ._bulk import RAISE, Options, matched
from ._columns import ArrowText
from ._networks import (Network, Networks, NotANetwork, OneNetwork, bytes_of, line_of_octets, network_of, refuse,
                        text_of, with_lengths)
from ._rows import LARGEST, PIECE, WIDTH, checked

try:
    from ._quick import longest_covering, longest_match
except ImportError:
    def longest_match(image: bytes, address: object) -> Any:
        """No answer: ctypes asks the library."""
        return NotImplemented

    def longest_covering(image: bytes, network: object) -> Any:
        """No answer: ctypes asks the library."""
        return NotImplemented

# the bytes of the longest byte form of a network
LONGEST = 18
WIDTHS = (4, 16)

_from_text = library.question("ipnet_table_from_text")
_check = library.question("ipnet_table_check")
_count = library.question("ipnet_table_count")
_networks = library.question("ipnet_table_networks")
_values = library.question("ipnet_table_values")
_with_values = library.question("ipnet_table_with_values")
_longest_match = library.question("ipnet_table_longest_match")
_longest_covering = library.question("ipnet_table_longest_covering")
_longest_match_all = library.question("ipnet_table_longest_match_all")

# a dictionary with one of these kinds of keys is a dictionary of networks: mypy compares the kinds of keys exactly
Key = TypeVar("Key", bound=OneNetwork)
Routes = Union[Mapping[Key, int], Iterable[Tuple[Key, int]]]
Value = TypeVar("Value")


def pairs_of(routes: Union[Mapping[Key, Value], Iterable[Tuple[Key, Value]]]) -> List[Tuple[Key, Value]]:
    """The pairs of a network and its value. Raises TypeError if an item is not a pair: a text is not.

    >>> pairs_of({"10.0.0.0/8": 1})
    [('10.0.0.0/8', 1)]
    """
    if isinstance(routes, Mapping):
        return list(routes.items())
    pairs = list(routes)
    if any(issubclass(kind, (str, bytes)) for kind in set(map(type, pairs))) or not set(map(len, pairs)) <= {2}:
        raise TypeError("a route is a pair of a network and its value")
    return pairs


class NotATable(ValueError):
    """The bytes are not the image of a table.

    >>> RouteTable.from_bytes(b"")
    Traceback (most recent call last):
        ...
    ipnet_proved.NotATable: the bytes are not the image of a table
    """

    def __init__(self, message: str = "the bytes are not the image of a table") -> None:
        super().__init__(message)


class RouteTable:
    """Networks with a number each, from 0 to 2 ** 32 - 1, which finds the longest network that contains an address.

    It is made of a dictionary or of pairs. Host bits do not count; if a network is given twice, the last number counts.
    Raises BadLine if a text is not a network, and OverflowError if a number does not fit.

    >>> table = RouteTable({"10.0.0.0/8": 1, "10.1.0.0/16": 2})
    >>> table["10.1.2.3"], table.get("11.0.0.1"), len(table)
    (2, None, 2)
    """

    __slots__ = ("_image", "_absent", "_numbered")
    _image: bytes
    _absent: int
    _numbered: bytes

    def __init__(self, routes: Routes[Key] = ()) -> None:
        pairs = pairs_of(routes)
        self._image = image_of(text_of([network for network, _ in pairs]), [value for _, value in pairs])

    @classmethod
    def _of(cls, image: bytes) -> "RouteTable":
        """The table of an image that the library has written."""
        made = object.__new__(cls)
        made._image = image
        return made

    @classmethod
    def from_bytes(cls, image: Union[bytes, bytearray, memoryview]) -> "RouteTable":
        """The table of an image, as to_bytes returns it. All routes are tested; raises NotATable if the bytes are not
        an image.

        >>> RouteTable.from_bytes(RouteTable({"10.0.0.0/8": 7}).to_bytes())["10.0.0.1"]
        7
        """
        data = bytes(image)
        if _check(data, len(data)) != library.OK:
            raise NotATable()
        return cls._of(data)

    def to_bytes(self) -> bytes:
        """The image of the table. Equal tables have equal images.

        >>> len(RouteTable({"10.0.0.0/8": 7}).to_bytes())
        48
        """
        return self._image

    def __eq__(self, other: object) -> bool:
        """Whether the tables have the same networks with the same numbers.

        >>> RouteTable({"10.0.0.0/8": 7}) == RouteTable([("10.0.0.0/8", 1), ("10.9.9.9/8", 7)])
        True
        """
        if not isinstance(other, RouteTable):
            return NotImplemented
        return self._image == other._image

    def __hash__(self) -> int:
        return hash(self._image)

    def __repr__(self) -> str:
        routes = [f"'{network}': {number}" for network, number in islice(self.iter_routes(), 5)]
        return f"RouteTable({{{', '.join(routes)}{', ...' if len(self) > 5 else ''}}})"

    def __reduce__(self) -> Tuple[object, ...]:
        return RouteTable.from_bytes, (self._image,)

    def __len__(self) -> int:
        """The number of routes."""
        count = ctypes.c_size_t(0)
        _count(self._image, len(self._image), ctypes.byref(count))
        return count.value

    def get(self, address: OneNetwork, default: Optional[int] = None) -> Optional[int]:
        """The number of the longest network that contains the address, or `default` if none does. Raises NotANetwork if
        it is not one address."""
        answer = longest_match(self._image, address)
        if answer is not NotImplemented:
            return default if answer is None else answer
        data = bytes_of(address)
        octets = data[1:-1]
        if data[-1] != 8 * len(octets):
            raise NotANetwork(str(address), "a network, and not one address")
        value = ctypes.c_uint32(0)
        if _longest_match(self._image, len(self._image), octets, len(octets), ctypes.byref(value)) == 1:
            return value.value
        return default

    def __getitem__(self, address: OneNetwork) -> int:
        """As get. Raises KeyError if no network contains the address."""
        value = self.get(address)
        if value is None:
            raise KeyError(address)
        return value

    def route(self, network: OneNetwork) -> Optional[Tuple[Network, int]]:
        """The longest network of the table that contains the whole network, and its number, or None if none does. An
        address is the network of its full length. Raises NotANetwork if a text is neither.

        >>> table = RouteTable({"10.0.0.0/8": 1, "10.1.0.0/16": 2})
        >>> table.route("10.1.2.3"), table.route("10.0.0.0/15"), table.route("10.0.0.0/7")
        ((IPv4Network('10.1.0.0/16'), 2), (IPv4Network('10.0.0.0/8'), 1), None)
        """
        answer = longest_covering(self._image, network)
        if answer is NotImplemented:
            answer = self._covering(bytes_of(network))
        return None if answer is None else (network_of(answer[0]), answer[1])

    def _covering(self, data: bytes) -> Optional[Tuple[bytes, int]]:
        """The byte form of the longest network that contains the network with this byte form, and its number."""
        covering, value = ctypes.create_string_buffer(LONGEST), ctypes.c_uint32(0)
        status = _longest_covering(self._image, len(self._image), data, len(data), covering, LONGEST,
                                   ctypes.byref(value))
        return (covering.raw[:len(data)], value.value) if status == 1 else None

    def _exact(self, network: OneNetwork) -> Optional[Tuple[bytes, int]]:
        """The byte form of this network, without host bits, and its number; None if the table does not have it."""
        data = bytes_of(network)
        found = self._covering(data)
        return found if found is not None and found[0][-1] == data[-1] else None

    def exact(self, network: OneNetwork, default: Optional[int] = None) -> Optional[int]:
        """The number of this network itself, or `default` if the table does not have it. Host bits do not count. Raises
        NotANetwork if a text is not a network.

        >>> table = RouteTable({"10.0.0.0/8": 1})
        >>> table.exact("10.0.0.0/8"), table.exact("10.0.0.0/9")
        (1, None)
        """
        found = self._exact(network)
        return default if found is None else found[1]

    def matches(self, network: OneNetwork) -> List[Tuple[Network, int]]:
        """All routes whose networks contain the whole network or the address, the longest first. Raises NotANetwork if
        a text is neither.

        >>> RouteTable({"0.0.0.0/0": 0, "10.0.0.0/8": 1, "10.1.0.0/16": 2}).matches("10.2.0.1")
        [(IPv4Network('10.0.0.0/8'), 1), (IPv4Network('0.0.0.0/0'), 0)]
        """
        routes: List[Tuple[Network, int]] = []
        found = self._covering(bytes_of(network))
        while found is not None:
            data, value = found
            routes.append((network_of(data), value))
            # another network contains this one if and only if it contains the network that is one bit shorter
            found = self._covering(data[:-1] + bytes([data[-1] - 1])) if data[-1] else None
        return routes

    def __contains__(self, address: OneNetwork) -> bool:
        """Whether a network of the table contains the address."""
        return self.get(address) is not None

    def match_all(self, column: Any, *, default: Optional[int] = None, invalid: str = RAISE,
                  mapped: bool = False) -> Any:
        """The number of the longest network that contains each address of a column, or `default` if none does, and
        nothing for a missing row. The columns, `invalid` and `mapped` are as for IpSet.contains_all.

        A list or a buffer gives a list, with None for a missing row. An array of NumPy gives an array of uint32, masked
        at missing rows, and at rows without a route if there is no default; a Series of pandas gives one of UInt32.
        Raises OverflowError if the default does not fit.

        >>> table = RouteTable({"10.0.0.0/8": 1, "10.1.0.0/16": 2})
        >>> table.match_all(["10.1.0.1", "11.0.0.1", None, "10.0.0.1"], default=0)
        [2, 0, None, 1]
        """
        return matched(self._image, column, Options(invalid, mapped), self._unused(), default)

    def match_arrow(self, data: Any, offsets: Any, validity: Any = None, *, default: Optional[int] = None,
                    invalid: str = RAISE, mapped: bool = False) -> Any:
        """As match_all, for the buffers of a column of texts in Arrow's layout, as IpSet.contains_arrow takes them."""
        return self.match_all(ArrowText(data, offsets, validity), default=default, invalid=invalid, mapped=mapped)

    def route_all(self, column: Any, *, default: Optional[int] = None, invalid: str = RAISE,
                  mapped: bool = False) -> Any:
        """As match_all, with the place in routes() of the longest network that contains the address, in place of its
        number. The first call makes a second image, with the places as values.

        >>> table = RouteTable({"10.0.0.0/8": 7, "10.1.0.0/16": 7})
        >>> [table.routes()[place] for place in table.route_all("10.1.0.1\\n10.2.0.1\\n")]
        [(IPv4Network('10.1.0.0/16'), 7), (IPv4Network('10.0.0.0/8'), 7)]
        """
        try:
            numbered = self._numbered
        except AttributeError:
            numbered = self._numbered = with_values(self._image, range(len(self)))
        return matched(numbered, column, Options(invalid, mapped), LARGEST, default)

    def routes(self) -> List[Tuple[Network, int]]:
        """The networks, each with its number, IPv4 first, ascending, a network before those that it contains."""
        return list(self.iter_routes())

    def iter_routes(self) -> Iterator[Tuple[Network, int]]:
        """The routes of routes(), each made when it is asked for.

        >>> next(RouteTable({"10.0.0.0/8": 7, "fd00::/8": 8}).iter_routes())
        (IPv4Network('10.0.0.0/8'), 7)
        """
        for start, count in self._parts():
            yield from routes_of(self._image, start, count)

    def _parts(self) -> Iterator[Tuple[int, int]]:
        """The first route of each part of the routes, and the number of its routes."""
        count = len(self)
        for start in range(0, count, PIECE):
            yield start, min(PIECE, count - start)

    def updated(self, insert: Routes[Key] = (), remove: Networks = ()) -> "RouteTable":
        """A table without the networks of the list `remove`, and then with the routes of `insert`, which replace routes
        of the same networks. This table stays as it is. Raises KeyError if a network of `remove` is not in the table,
        and else what RouteTable raises.

        >>> table = RouteTable({"10.0.0.0/8": 1, "10.1.0.0/16": 2})
        >>> table.updated({"10.0.0.0/8": 7, "fd00::/8": 8}, remove=["10.1.0.0/16"])
        RouteTable({'10.0.0.0/8': 7, 'fd00::/8': 8})
        """
        added = RouteTable(insert)
        gone: Set[bytes] = set()
        for line in filter(None, text_of(remove).split(b"\n")):
            found = self._exact(line)
            if found is None:
                raise KeyError(line.decode())
            gone.add(line_of_octets(found[0][1:-1], found[0][-1]))
        lines: List[bytes] = []
        values = array.array("I")
        for table in (self, added):
            for start, count in table._parts():
                lines.extend(lines_of(table._image, start, count))
                values.extend(values_of(table._image, start, count))
        if gone:
            is_kept = [line not in gone for line in lines[:len(self)]] + [True] * len(added)
            lines, values = list(compress(lines, is_kept)), array.array("I", compress(values, is_kept))
        return RouteTable._of(image_of(b"\n".join(lines), values))

    def _unused(self) -> int:
        """A number that no route has: the first whose four bytes are nowhere in the values."""
        try:
            return self._absent
        except AttributeError:
            values = values_of(self._image, 0, len(self)).tobytes()
            self._absent = next(number for number in range(LARGEST, -1, -1)
                                if number.to_bytes(4, sys.byteorder) not in values)
            return self._absent

    def get_packed(self, octets: Union[bytes, bytearray, memoryview], width: int,
                   missing: int = LARGEST) -> "array.array[int]":
        """The number of the longest network for each of many addresses, of which `octets` has `width` bytes each: 4 for
        IPv4, or 16 for IPv6; `missing` for an address that no network contains. Raises ValueError if `width` is another
        number, or the bytes are not a multiple of it.

        >>> list(RouteTable({"10.0.0.0/8": 1}).get_packed(bytes([10, 0, 0, 1, 11, 0, 0, 1]), 4, missing=0))
        [1, 0]
        """
        data = bytes(octets)
        if width not in WIDTHS or len(data) % width:
            raise ValueError(f"{len(data)} bytes are not addresses of {width} bytes; the width is 4 or 16")
        values = array.array("I", bytes(4 * (len(data) // width)))
        place, count = values.buffer_info()
        _longest_match_all(self._image, len(self._image), data, len(data), width, missing, place, count)
        return values


def values_of(image: bytes, start: int, count: int) -> "array.array[int]":
    """The values of `count` routes of an image from the index `start` on, in their order."""
    values = array.array("I", bytes(4 * count))
    place, many = values.buffer_info()
    checked(_values(image, len(image), start, place, many))
    return values


def rows_of(image: bytes, start: int, count: int) -> Tuple[int, bytes, bytes]:
    """The networks of `count` routes of an image from the index `start` on: the number of IPv4 networks, which are
    first; 16 octets for each; and the prefix lengths."""
    families, octets, lengths = map(ctypes.create_string_buffer, (count, WIDTH * count, count))
    checked(_networks(image, len(image), start, families, count, octets, WIDTH * count, lengths, count))
    return families.raw.count(4), octets.raw, lengths.raw


def routes_of(image: bytes, start: int, count: int) -> Iterator[Tuple[Network, int]]:
    """The routes of an image from the index `start` on, `count` of them."""
    ipv4, rows, lengths = rows_of(image, start, count)
    values = values_of(image, start, count)
    for (number,), length, value in zip(struct.iter_unpack(">I12x", rows[:WIDTH * ipv4]), lengths, values):
        yield IPv4Network((number, length)), value
    for (high, low), length, value in zip(struct.iter_unpack(">QQ", rows[WIDTH * ipv4:]), lengths[ipv4:],
                                          values[ipv4:]):
        yield IPv6Network((high << 64 | low, length)), value


def lines_of(image: bytes, start: int, count: int) -> Iterator[bytes]:
    """The networks of `count` routes of an image from the index `start` on, as texts."""
    ipv4, rows, lengths = rows_of(image, start, count)
    for place, length in enumerate(lengths):
        yield line_of_octets(rows[WIDTH * place:WIDTH * place + (4 if place < ipv4 else WIDTH)], length)


def with_values(image: bytes, values: Iterable[int]) -> bytes:
    """The image with these values, one for each route, in their order."""
    numbers = array.array("I", values)
    place, many = numbers.buffer_info()
    buffer, count = ctypes.create_string_buffer(len(image)), ctypes.c_size_t(0)
    checked(_with_values(image, len(image), place, many, buffer, len(image), ctypes.byref(count)))
    return buffer.raw


def image_of(text: bytes, numbers: Iterable[int]) -> bytes:
    """The image of the table of the networks of a text, one per line, with these numbers."""
    values = array.array("I", numbers)
    status, number, image = _written(text, values)
    if status == library.BAD_LINE:
        status, number, image = _written(with_lengths(text), values)
    if status != library.OK:
        refuse(status, number, [text], False)
    return image


def _written(text: bytes, values: "array.array[int]") -> Tuple[int, int, bytes]:
    """The status, the number and the image that the library writes for the networks and the values."""
    length, count = 44 + 24 * len(values), ctypes.c_size_t(0)
    place, many = values.buffer_info()
    while True:
        buffer = ctypes.create_string_buffer(length)
        status = _from_text(text, len(text), place, many, buffer, length, ctypes.byref(count))
        if status != library.BUFFER_TOO_SHORT:
            return status, count.value, ctypes.string_at(buffer, count.value) if status == library.OK else b""
        length = count.value
