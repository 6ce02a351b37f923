"""Sets of addresses, kept as images: bytes that can be stored, sent and compared."""
import ctypes
import struct
from ipaddress import IPv4Address, IPv6Address
from typing import Any, Callable, Iterator, List, Optional, Tuple, Union

from . import _library as library
from ._bulk import RAISE, Options, contained
from ._columns import ArrowText, blocks_of_lines
from ._networks import (Address, BadLine, Network, Networks, OneNetwork, Text, answered, as_bytes, bytes_of,
                        cause_of_entry, items_of, networks_of, shown, text_of)
from ._pictures import Pictured
from ._rows import WIDTH, checked

try:
    from ._quick import contains
except ImportError:
    def contains(image: bytes, network: object) -> Optional[bool]:
        """No answer: ctypes asks the library."""
        return None

# the length of the image of the empty set
EMPTY = 32
# the functions that read a list without and with leading zeros
LIST_READERS = "ipnet_set_from_list", "ipnet_set_from_list_legacy"
# the bytes of lines among which bad lines are looked for at a time
SMALL_BLOCK = 1 << 14
WIDTHS = (4, 16)
NETWORK_WIDTHS = (6, 18)

_contains = library.question("ipnet_set_contains")
_covers = library.question("ipnet_set_covers")
_contains_all = library.question("ipnet_set_contains_all")
_covers_all = library.question("ipnet_set_covers_all")
_counts = library.question("ipnet_set_counts")
_range_rows = library.question("ipnet_set_range_rows")
_is_subset = library.question("ipnet_set_is_subset")
_check = library.question("ipnet_set_check")


def bad_entry(number: int, line: bytes, legacy: bool) -> BadLine:
    """The exception for a line of a list of entries."""
    return BadLine(number, shown(line.strip()), cause_of_entry(line.strip(), legacy))


class NotASet(ValueError):
    """The bytes are not the image of a set.

    >>> IpSet.from_bytes(b"")
    Traceback (most recent call last):
        ...
    ipnet_proved.NotASet: the bytes are not the image of a set
    """

    def __init__(self, message: str = "the bytes are not the image of a set") -> None:
        super().__init__(message)


class IpSet(Pictured):
    """A set of IPv4 and IPv6 addresses. It never changes, so it can be the key of a dictionary.

    It is made of a list of networks, in each form that the functions of this package take; without one it is empty. If
    `legacy` is true, numbers may have leading zeros. Raises BadLine and NotANetwork as these do. Sets are equal if and
    only if they have the same addresses.

    >>> office = IpSet(["10.0.0.0/24", "fd00::/32"])
    >>> "10.0.0.7" in office, "10.0.0.0/23" in office
    (True, False)
    >>> office - IpSet("10.0.0.0/25") == IpSet(["fd00::/32", "10.0.0.128/25"])
    True
    >>> list(IpSet("10.0.0.0/31") | IpSet("10.0.0.2"))
    [IPv4Network('10.0.0.0/31'), IPv4Network('10.0.0.2/32')]
    """

    __slots__ = ("_image",)
    _image: bytes

    def __init__(self, networks: Networks = (), legacy: bool = False) -> None:
        data = text_of(networks)
        room = 32 + 16 * (data.count(b"\n") + 1)
        name = "ipnet_set_from_text_legacy" if legacy else "ipnet_set_from_text"
        self._image = answered(library.writer(name, room), [data], legacy=legacy)

    @classmethod
    def from_list(cls, text: Text, legacy: bool = False) -> "IpSet":
        """The set of a list as people keep it, read as the program netset reads its files. A line is a network, also
        with a netmask, an address, a range FIRST-LAST of addresses, or empty; it may have blanks around it, end with a
        carriage return, and have a comment after # or ;. If `legacy` is true, numbers may have leading zeros. Raises
        BadLine at the first line that is none of these.

        >>> IpSet.from_list("# ours\\n10.0.0.0-10.0.0.3   # four\\r\\n") == IpSet("10.0.0.0/30")
        True
        >>> IpSet.from_list("10.0.0.1\\n10.0.0.9-10.0.0.2")
        Traceback (most recent call last):
            ...
        ipnet_proved.BadLine: line 2: '10.0.0.9-10.0.0.2': not a range of addresses, FIRST-LAST
        >>> IpSet.from_list("010.0.0.1", legacy=True) == IpSet("10.0.0.1")
        True
        """
        data = as_bytes(text)
        status, number, image = library.writer(LIST_READERS[legacy], len(data) + EMPTY)(data)
        if status == library.BAD_LINE:
            raise bad_entry(number, data.split(b"\n")[number - 1], legacy)
        if status == library.OUT_OF_MEMORY:
            raise MemoryError("libipnet: out of memory")
        return cls._of(image)

    @staticmethod
    def bad_lines(text: Text, legacy: bool = False) -> Iterator[BadLine]:
        """All lines of a list that from_list refuses, one by one, each as the exception that says what is wrong.

        >>> for error in IpSet.bad_lines("10.0.0.1\\n10.0.0.0/33\\n\\nx\\n"):
        ...     print(error)
        line 2: '10.0.0.0/33': the prefix length is above 32
        line 4: 'x': a host name: write its addresses
        """
        number = 0
        for block in blocks_of_lines(memoryview(as_bytes(text)), SMALL_BLOCK):
            lines = block.split(b"\n")[:-1]
            # the library finds the first bad line, but reads all lines: so the lines after it are halved
            parts = [(0, len(lines))]
            while parts:
                start, end = parts.pop()
                # an empty line before, so that a byte order mark is skipped only at the start of the list
                before = b"\n" if number + start else b""
                data = before + b"\n".join(lines[start:end])
                status, place, _ = library.writer(LIST_READERS[legacy], len(data) + EMPTY)(data)
                if status == library.OUT_OF_MEMORY:
                    raise MemoryError("libipnet: out of memory")
                if status == library.BAD_LINE:
                    place += start - len(before)
                    yield bad_entry(number + place, lines[place - 1], legacy)
                    middle = (place + end) // 2
                    parts += [(middle, end), (place, middle)]
            number += len(lines)

    @classmethod
    def _of(cls, image: bytes) -> "IpSet":
        """The set of an image that the library has written."""
        made = object.__new__(cls)
        made._image = image
        return made

    @classmethod
    def from_bytes(cls, image: Union[bytes, bytearray, memoryview]) -> "IpSet":
        """The set of which the bytes are the image, as to_bytes returns it. All bytes are tested; raises NotASet if
        they are not the image of a set.

        >>> IpSet.from_bytes(IpSet("10.0.0.0/8").to_bytes()) == IpSet("10.0.0.0/8")
        True
        """
        data = bytes(image)
        if _check(data, len(data)) != library.OK:
            raise NotASet()
        return cls._of(data)

    def to_bytes(self) -> bytes:
        """The image of the set. Equal sets have equal images.

        >>> len(IpSet(["10.0.0.0/31", "10.0.0.2/31"]).to_bytes())
        40
        """
        return self._image

    def __reduce__(self) -> Tuple[Any, ...]:
        return IpSet.from_bytes, (self._image,)

    def __contains__(self, network: OneNetwork) -> bool:
        """Whether the set contains the address, or every address of the network. Raises NotANetwork if a text is
        neither."""
        answer = contains(self._image, network)
        if answer is not None:
            return answer
        # an interface is an address for `isinstance`, and a network here
        if ((type(network) is IPv4Address or type(network) is IPv6Address)
                and getattr(network, "scope_id", None) is None):
            octets = network.packed
            return _contains(self._image, len(self._image), octets, len(octets)) == 1
        wanted = bytes_of(network)
        return _covers(self._image, len(self._image), wanted, len(wanted)) == 1

    def contains_all(self, column: Any, *, invalid: str = RAISE, mapped: bool = False, out: Any = None) -> Any:
        """Whether the set contains each address of a column. docs/PYTHON.md lists the kinds of columns.

        A list, or another iterable, of texts and objects gives a list of True, False, and None for a missing row. A
        buffer gives bytes of 1, 0, and 2 for a missing row. An array of NumPy gives an array of bool, masked at missing
        rows, and a Series of pandas one of boolean. `out` may lend a byte for each row, and is returned; it is changed
        also if an exception is raised.

        A row that is not an address raises BadRow; if `invalid` is "missing", it is a missing row, and the result has
        the number of such rows as `invalid` (a Series in `attrs["invalid"]`). If `mapped` is true, IPv4-mapped rows
        as ::ffff:10.0.0.1 are IPv4 addresses; else they are IPv6 addresses as all others.

        >>> IpSet("10.0.0.0/31").contains_all(["10.0.0.1", ipaddress.ip_address("10.0.0.2"), None])
        [True, False, None]
        >>> IpSet("10.0.0.0/31").contains_all("10.0.0.1\\n10.0.0.2\\n")
        b'\\x01\\x00'
        >>> IpSet("10.0.0.0/31").contains_all(["10.0.0.1", "10.0.0.01"])
        Traceback (most recent call last):
            ...
        ipnet_proved.BadRow: row 1: '10.0.0.01': the IPv4 address is not valid
        """
        return contained(self._image, column, Options(invalid, mapped), out)

    def contains_arrow(self, data: Any, offsets: Any, validity: Any = None, *, invalid: str = RAISE,
                       mapped: bool = False, out: Any = None) -> Any:
        """As contains_all, for the buffers of a column of texts in Arrow's layout. For offsets in a buffer of bytes,
        and for a column that begins in the middle of its buffers, pass an ArrowText to contains_all.

        >>> import array
        >>> IpSet("10.0.0.0/31").contains_arrow(b"10.0.0.110.0.0.2", array.array("q", [0, 8, 16]), b"\\1")
        b'\\x01\\x02'
        """
        return self.contains_all(ArrowText(data, offsets, validity), invalid=invalid, mapped=mapped, out=out)

    def covers_all(self, networks: Networks) -> List[bool]:
        """Whether the set contains every address of each of the networks, in order. The list has each form that the
        functions of this package take: an iterable, a text with one network per line, or one network.

        >>> IpSet(["10.0.0.0/24", "fd00::/32"]).covers_all(["10.0.0.128/25", ipaddress.ip_network("fd00::/31"), "::1"])
        [True, False, False]
        >>> IpSet("10.0.0.0/24").covers_all("10.0.0.7\\n10.0.0.0/23\\n")
        [True, False]
        """
        rows = [bytes_of(network) for network in items_of(networks)]
        covered = [False] * len(rows)
        for width in (6, 18):
            places = [place for place, row in enumerate(rows) if len(row) == width]
            answers = self.covers_packed(b"".join(rows[place] for place in places), width)
            for place, answer in zip(places, answers):
                covered[place] = answer == 1
        return covered

    def covers_packed(self, networks: Union[bytes, bytearray, memoryview], width: int) -> bytes:
        """Whether the set contains every address of each of many networks, of which `networks` has `width` bytes each:
        a byte for the family, 0 or 1, 4 or 16 octets, and a byte for the prefix length, so 6 or 18 bytes. Returns one
        byte for each network: 1, 0, or a number above 1 if its bytes are not a network. Raises ValueError if `width` is
        another number, or the bytes are not a multiple of it.

        >>> IpSet("10.0.0.0/31").covers_packed(bytes([0, 10, 0, 0, 0, 31, 0, 10, 0, 0, 0, 30, 0, 10, 0, 0, 0, 33]), 6)
        b'\\x01\\x00\\x08'
        """
        data = bytes(networks)
        if width not in NETWORK_WIDTHS or len(data) % width:
            raise ValueError(f"{len(data)} bytes are not networks of {width} bytes; the width is 6 or 18")
        return self._bytes_from(_covers_all, data, width)

    def _bytes_from(self, call: Callable[..., int], data: bytes, width: int) -> bytes:
        """The answers of the call, one byte for each `width` bytes."""
        count = len(data) // width
        answers = ctypes.create_string_buffer(max(count, 1))
        call(self._image, len(self._image), data, len(data), width, answers, count)
        return ctypes.string_at(answers, count)

    def contains_packed(self, octets: Union[bytes, bytearray, memoryview], width: int) -> bytes:
        """Whether the set contains each of many addresses, of which `octets` has `width` bytes each: 4 for IPv4, or 16
        for IPv6. Returns one byte for each address, 1 or 0. Raises ValueError if `width` is another number, or the
        bytes are not a multiple of it.

        >>> IpSet("10.0.0.0/31").contains_packed(bytes([10, 0, 0, 1, 10, 0, 0, 2]), 4)
        b'\\x01\\x00'
        """
        data = bytes(octets)
        if width not in WIDTHS or len(data) % width:
            raise ValueError(f"{len(data)} bytes are not addresses of {width} bytes; the width is 4 or 16")
        return self._bytes_from(_contains_all, data, width)

    def _combined(self, name: str, other: object) -> "IpSet":
        if not isinstance(other, IpSet):
            return NotImplemented
        room = len(self._image) + len(other._image)
        status, _, image = library.writer(name, room)(self._image, other._image)
        if status == library.OUT_OF_MEMORY:
            raise MemoryError("libipnet: out of memory")
        return IpSet._of(image)

    def __or__(self, other: "IpSet") -> "IpSet":
        """The union."""
        return self._combined("ipnet_set_union", other)

    def __and__(self, other: "IpSet") -> "IpSet":
        """The intersection."""
        return self._combined("ipnet_set_intersection", other)

    def __sub__(self, other: "IpSet") -> "IpSet":
        """The addresses that are in this set and not in the other."""
        return self._combined("ipnet_set_difference", other)

    def __xor__(self, other: "IpSet") -> "IpSet":
        """The addresses that are in exactly one of the two sets."""
        return self._combined("ipnet_set_symmetric_difference", other)

    def __invert__(self) -> "IpSet":
        """All addresses, IPv4 and IPv6, that are not in the set.

        >>> ~IpSet() == IpSet(["0.0.0.0/0", "::/0"])
        True
        """
        status, _, image = library.writer("ipnet_set_complement", len(self._image) + 20)(self._image)
        if status == library.OUT_OF_MEMORY:
            raise MemoryError("libipnet: out of memory")
        return IpSet._of(image)

    def __le__(self, other: "IpSet") -> bool:
        """Whether the set is a subset of the other.

        >>> IpSet("10.0.0.0/9") <= IpSet("10.0.0.0/8") < ~IpSet()
        True
        """
        if not isinstance(other, IpSet):
            return NotImplemented
        answer = _is_subset(self._image, len(self._image), other._image, len(other._image))
        if answer == library.OUT_OF_MEMORY:
            raise MemoryError("libipnet: out of memory")
        return answer == 1

    def __lt__(self, other: "IpSet") -> bool:
        if not isinstance(other, IpSet):
            return NotImplemented
        return self._image != other._image and self <= other

    def __ge__(self, other: "IpSet") -> bool:
        if not isinstance(other, IpSet):
            return NotImplemented
        return other <= self

    def __gt__(self, other: "IpSet") -> bool:
        if not isinstance(other, IpSet):
            return NotImplemented
        return other < self

    def __eq__(self, other: object) -> bool:
        if not isinstance(other, IpSet):
            return NotImplemented
        return self._image == other._image

    def __hash__(self) -> int:
        return hash(self._image)

    def isdisjoint(self, other: "IpSet") -> bool:
        """Whether the two sets have no address in common.

        >>> IpSet("10.0.0.0/9").isdisjoint(IpSet("10.128.0.0/9")), IpSet("10.0.0.0/9").isdisjoint(IpSet("10.0.0.7"))
        (True, False)
        """
        if not isinstance(other, IpSet):
            raise TypeError(f"isdisjoint needs an IpSet, and not {other!r}")
        return not self & other

    @property
    def ipv4(self) -> "IpSet":
        """The IPv4 addresses of the set.

        >>> IpSet(["10.0.0.0/24", "fd00::/32"]).ipv4, IpSet(["10.0.0.0/24", "fd00::/32"]).ipv6
        (IpSet(['10.0.0.0/24']), IpSet(['fd00::/32']))
        """
        return self & ALL_IPV4

    @property
    def ipv6(self) -> "IpSet":
        """The IPv6 addresses of the set."""
        return self & ALL_IPV6

    def __bool__(self) -> bool:
        """Whether the set has an address."""
        return len(self._image) > EMPTY

    def ranges(self) -> List[Tuple[Address, Address]]:
        """The fewest ranges of the set, each by its first and its last address, IPv4 first, ascending.

        >>> IpSet(["10.0.0.0/31", "10.0.0.2"]).ranges()
        [(IPv4Address('10.0.0.0'), IPv4Address('10.0.0.2'))]
        """
        return list(self.iter_ranges())

    def iter_ranges(self) -> Iterator[Tuple[Address, Address]]:
        """The ranges of ranges(), each made when it is asked for.

        >>> next(IpSet("::/0").iter_ranges())
        (IPv6Address('::'), IPv6Address('ffff:ffff:ffff:ffff:ffff:ffff:ffff:ffff'))
        """
        # for an image of n bytes, n / 4 rows are always enough
        room, count = len(self._image) // 4, ctypes.c_size_t(0)
        families, octets = map(ctypes.create_string_buffer, (room, WIDTH * room))
        checked(_range_rows(self._image, len(self._image), families, room, octets, WIDTH * room, ctypes.byref(count)))
        ipv4, end = WIDTH * families.raw.count(4, 0, 2 * count.value), 2 * WIDTH * count.value
        rows = memoryview(octets)
        for low, high in struct.iter_unpack(">I12xI12x", rows[:ipv4]):
            yield IPv4Address(low), IPv4Address(high)
        for first, low, last, high in struct.iter_unpack(">QQQQ", rows[ipv4:end]):
            yield IPv6Address(first << 64 | low), IPv6Address(last << 64 | high)

    @property
    def ipv4_count(self) -> int:
        """The number of IPv4 addresses.

        >>> IpSet(["10.0.0.0/24", "::/0"]).ipv4_count, IpSet("::/0").ipv6_count == 2 ** 128
        (256, True)
        """
        return self._counts()[0]

    @property
    def ipv6_count(self) -> int:
        """The number of IPv6 addresses."""
        _, low, middle, high = self._counts()
        return low + (middle << 64) + (high << 128)

    def _counts(self) -> List[int]:
        """The number of IPv4 addresses, and three digits of the number of IPv6 addresses, the lowest first."""
        counts = (ctypes.c_uint64 * 4)()
        if _counts(self._image, len(self._image), counts, 4) == library.OUT_OF_MEMORY:
            raise MemoryError("libipnet: out of memory")
        return list(counts)

    def to_text(self) -> str:
        """The fewest networks of the set as text, one per line, IPv4 first, ascending.

        >>> IpSet(["10.0.0.0/31", "10.0.0.2"]).to_text()
        '10.0.0.0/31\\n10.0.0.2/32\\n'
        """
        return self._text().decode("ascii")

    def _text(self) -> bytes:
        status, _, text = library.writer("ipnet_set_to_text", 4 * len(self._image))(self._image)
        if status == library.OUT_OF_MEMORY:
            raise MemoryError("libipnet: out of memory")
        return text

    def __iter__(self) -> Iterator[Network]:
        """The fewest networks of the set, each made when it is asked for."""
        return networks_of(self._text())

    def __repr__(self) -> str:
        lines = self.to_text().splitlines()
        return f"IpSet([{', '.join(map(repr, lines[:5]))}{', ...' if len(lines) > 5 else ''}])"


ALL_IPV4, ALL_IPV6 = IpSet("0.0.0.0/0"), IpSet("::/0")
