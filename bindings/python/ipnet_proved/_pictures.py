"""Pictures of sets, plans in sets, and facts about networks."""
import ctypes
import json
from typing import Any, Dict, Iterable, List, Optional, Tuple

from . import _library as library
from ._networks import Network, OneNetwork, bytes_of, networks_of

# the numbers of the options, as in include/ipnet.h
THEMES = {"auto": 0, "light": 1, "dark": 2}
FREE = 4
WIDTHS = (4, 8, 16, 32, 64)
UTF8 = 1
JSON = 1
# most maps, bars and facts fit buffers of these lengths; for others, the library draws a second time
MAP_ROOM = 1 << 20
TEXT_ROOM = 1 << 13
# the byte of the family IPv6, for the network around all IPv6 addresses
IPV6 = b"\1"

_counts = library.question("ipnet_set_counts")


class NoPlace(ValueError):
    """A set has no room for the networks of a plan.

    >>> IpSet("10.0.0.0/24").plan([25, 25, 27])
    Traceback (most recent call last):
        ...
    ipnet_proved.NoPlace: the set has no room for these networks
    """

    def __init__(self, message: str = "the set has no room for these networks") -> None:
        super().__init__(message)


def _map_options(theme: str, free: bool) -> int:
    """The number of the options of a map."""
    if theme not in THEMES:
        raise ValueError(f"the theme {theme!r} is none of {', '.join(THEMES)}")
    return THEMES[theme] + FREE * bool(free)


def _bar_options(width: int, utf8: bool) -> int:
    """The number of the options of a bar."""
    if width not in WIDTHS:
        raise ValueError(f"the width {width!r} is none of {', '.join(map(str, WIDTHS))}")
    return width + UTF8 * bool(utf8)


def _drawn(name: str, images: Iterable[bytes], network: Optional[OneNetwork], ipv6: bool, options: int) -> str:
    """The picture that the function draws of the sets of the images."""
    if network is not None and ipv6:
        raise ValueError("network and ipv6 are given: choose one of them")
    frame = bytes_of(network) if network is not None else IPV6 if ipv6 else b""
    room = MAP_ROOM if name.endswith("map") else TEXT_ROOM
    status, _, text = library.writer(name, room)(*images, frame, options)
    if status == library.OUT_OF_MEMORY:
        raise MemoryError("libipnet: out of memory")
    if status == library.NO_ADDRESS:
        raise ValueError("no address to draw: name a network")
    return text.decode("utf-8")


class Pictured:
    """A set of addresses that can be drawn, and in which networks can be planned: IpSet."""

    __slots__ = ()
    _image: bytes

    def map(self, network: Optional[OneNetwork] = None, *, ipv6: bool = False, theme: str = "auto",
            free: bool = False) -> str:
        """A map of the set, as a document of SVG: the picture that `netset map` draws.

        It shows the network. Without one, it shows the smallest network around all IPv4 addresses of the set; if the
        set has none, or if `ipv6` is true, the smallest around all its IPv6 addresses. `theme` is "light", "dark", or
        "auto": dark if the reader prefers dark pages. If `free` is true, the free blocks are outlined. Raises
        ValueError if there is no address to draw.

        >>> IpSet("10.20.0.0/20").map("10.20.0.0/16", theme="light")[:5]
        '<svg '
        """
        return _drawn("ipnet_set_map", (self._image,), network, ipv6, _map_options(theme, free))

    def compare_map(self, other: "Pictured", network: Optional[OneNetwork] = None, *, ipv6: bool = False,
                    theme: str = "auto", free: bool = False) -> str:
        """Like map, for what changes if this set becomes the other. Without a network, the map shows the smallest
        network around the addresses of both sets. A change is never hidden, however small it is.

        >>> "only in the second" in IpSet("10.0.0.0/24").compare_map(IpSet("10.0.0.0/23"))
        True
        """
        images = self._image, _image_of(other)
        return _drawn("ipnet_set_comparison_map", images, network, ipv6, _map_options(theme, free))

    def bar(self, network: Optional[OneNetwork] = None, *, ipv6: bool = False, width: int = 32,
            utf8: bool = True) -> str:
        """A bar of the set, as `netset bar` draws it: at most 16 rows of text for a network, chosen as for map. A row
        has at most `width` marks: 4, 8, 16, 32 or 64. If `utf8` is false, the marks are ASCII.

        >>> print(IpSet("10.0.0.0/28").bar("10.0.0.0/27", width=16, utf8=False), end="")
        10.0.0.0/27, a mark is one /32
        10.0.0.0/28  |################| 100.0 %
        10.0.0.16/28 |................| 0.0 %
        used 16 of 32, 50.0 %
        free blocks: 1, 1 of /28
        largest free: 10.0.0.16/28
        """
        return _drawn("ipnet_set_bar", (self._image,), network, ipv6, _bar_options(width, utf8))

    def compare_bar(self, other: "Pictured", network: Optional[OneNetwork] = None, *, ipv6: bool = False,
                    width: int = 32, utf8: bool = True) -> str:
        """Like bar, for two sets. A mark is - if only this set has some of its addresses that the other lacks, + if
        only the other has, ! if both have, and = if both sets have the same of its addresses.

        >>> print(IpSet("10.0.0.0/31").compare_bar(IpSet("10.0.0.1"), "10.0.0.0/30").splitlines()[1])
        10.0.0.0/30 |-=··| -1 +0
        """
        images = self._image, _image_of(other)
        return _drawn("ipnet_set_comparison_bar", images, network, ipv6, _bar_options(width, utf8))

    def _repr_svg_(self) -> Optional[str]:
        """The map that a notebook shows; None if the set has no address."""
        has_ipv4, has_ipv6 = _families(self._image)
        return self.map() if has_ipv4 or has_ipv6 else None

    def plan(self, lengths: Iterable[int]) -> List[Network]:
        """Networks in the set, one for each of the prefix lengths and in their order. No two of them share an address,
        and whatever further networks could be placed in the set beside them can still be placed. Raises NoPlace if no
        such networks exist. A set with addresses of both families raises ValueError: plan in its `ipv4` or `ipv6`.

        >>> free = IpSet("10.0.0.0/24") - IpSet("10.0.0.0/28")
        >>> free.plan([26, 25])
        [IPv4Network('10.0.0.64/26'), IPv4Network('10.0.0.128/25')]
        """
        has_ipv4, has_ipv6 = _families(self._image)
        if has_ipv4 and has_ipv6:
            raise ValueError("the set has IPv4 and IPv6 addresses: plan in its ipv4 or its ipv6")
        family, most = (4, 32) if has_ipv4 else (6, 128)
        wanted = list(lengths)
        for length in wanted:
            if not 0 <= length <= most:
                raise ValueError(f"the prefix length {length} is not from 0 to {most}")
        call = library.writer("ipnet_set_plan", (library.MAX_TEXT + 1) * len(wanted))
        status, _, text = call(self._image, family, bytes(wanted))
        if status == library.OUT_OF_MEMORY:
            raise MemoryError("libipnet: out of memory")
        if status == library.NO_PLACE:
            raise NoPlace()
        return list(networks_of(text))


def _image_of(other: object) -> bytes:
    """The image of the other set."""
    if not isinstance(other, Pictured):
        raise TypeError(f"the other is an IpSet, and not {other!r}")
    return other._image


def _families(image: bytes) -> Tuple[bool, bool]:
    """Whether the set of the image has IPv4 addresses, and IPv6 addresses."""
    counts = (ctypes.c_uint64 * 4)()
    if _counts(image, len(image), counts, 4) == library.OUT_OF_MEMORY:
        raise MemoryError("libipnet: out of memory")
    return counts[0] > 0, any(counts[1:])


def info(network: OneNetwork) -> Dict[str, Any]:
    """Facts about a network, with the keys and values of `netset info --json`: its masks, its first and last host, how
    many addresses and hosts it has, its address as a number, its reverse zones, and the special-purpose blocks of
    IANA's registries that share an address with it. Numbers are texts. Raises NotANetwork if a text is not a network.

    >>> facts = info("10.0.0.9/24")
    >>> facts["first_host"], facts["hosts"], facts["reverse_zones"]
    ('10.0.0.1', '254', ['0.0.10.in-addr.arpa'])
    >>> facts["special_purposes"][0]["name"]
    'Private-Use'
    """
    status, _, text = library.writer("ipnet_info", TEXT_ROOM)(bytes_of(network), JSON)
    if status == library.OUT_OF_MEMORY:
        raise MemoryError("libipnet: out of memory")
    facts: Dict[str, Any] = json.loads(text)
    return facts
