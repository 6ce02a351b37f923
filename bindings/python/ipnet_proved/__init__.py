"""Aggregates, combines and compares lists of IP networks, with a library whose results are proved correct.

This package calls the shared library libipnet.so, which is written in Rattle (Rust with contracts). Each function of
the library is proved to satisfy its contract. docs/PYTHON.md in the repository lists all calls; this package is
tested, not proved. If it was installed by pip, it contains the library. Otherwise `bindings/build` builds the
library in bindings/out; to use a library in another folder, set the environment variable IPNET_LIB to that folder.

A network is a text, such as "10.1.1.0/24" or "10.1.1.7", or an object of the standard module ipaddress: a network, an
interface (an address with host bits and a prefix length), or an address. An address is a network of full length. A list
is a text with one network per line, an iterable of networks, or one network. Texts are str, or UTF-8 in bytes,
bytearray or memoryview. IPv6 addresses with a zone, as fe80::1%eth0, are refused. Sets and tables are also asked about
whole columns: lists, buffers, arrays of NumPy and Series of pandas (docs/PYTHON.md).

>>> aggregate_text("10.0.1.0/24\\n10.0.0.0/24\\n")
'10.0.0.0/23\\n'
>>> aggregate(["10.0.1.0/24", ipaddress.ip_network("10.0.0.0/24"), ipaddress.ip_address("fd00::1")])
[IPv4Network('10.0.0.0/23'), IPv6Network('fd00::1/128')]
>>> difference(["10.0.0.0/24"], ["10.0.0.0/26"])
[IPv4Network('10.0.0.64/26'), IPv4Network('10.0.0.128/25')]
>>> same_addresses("10.0.0.0/25\\n10.0.0.128/25", ["10.0.0.7/24"])
True
>>> is_covered(["10.0.0.0/25", "10.0.0.128/25"], "10.0.0.7")
True
>>> allowed = IpSet(["10.0.0.0/8"]) - IpSet("10.1.0.0/16")
>>> "10.2.0.1" in allowed, "10.1.0.1" in allowed
(True, False)
>>> allowed.contains_all(["10.2.0.1", None, "10.1.0.1"])
[True, None, False]
>>> aggregate_text("10.0.0.0/24\\n\\nx\\n")
Traceback (most recent call last):
    ...
ipnet_proved.BadLine: line 3: 'x': a host name: write its addresses
"""
import ipaddress
from typing import List

from . import _library as library
from ._bulk import parse_all, text_all, truncate_all
from ._columns import Addresses, ArrowText
from ._library import version as library_version
from ._networks import (BadLine, Interface, Network, Networks, NotANetwork, OneNetwork, answered, bytes_of,
                        interface_of, networks_of, text_of)
from ._origins import NotOrigins, OriginTable, Validity
from ._pictures import NoPlace, info
from ._rows import BadRow
from ._sets import IpSet, NotASet
from ._tables import NotATable, RouteTable
from ._values import ValueTable

__all__ = [
    "IpSet", "NotASet", "RouteTable", "NotATable", "ValueTable", "OriginTable", "NotOrigins", "Validity",
    "aggregate", "aggregate_text", "union", "union_text", "intersection", "intersection_text", "difference",
    "difference_text", "same_addresses", "is_covered", "parse", "canonical_text", "library_version", "BadLine",
    "NotANetwork", "Addresses", "ArrowText", "BadRow", "parse_all", "text_all", "truncate_all", "info", "NoPlace",
]

__version__ = "1.1.0"

BadLine.__module__ = NotANetwork.__module__ = NotASet.__module__ = IpSet.__module__ = __name__
RouteTable.__module__ = NotATable.__module__ = ValueTable.__module__ = __name__
OriginTable.__module__ = NotOrigins.__module__ = Validity.__module__ = __name__
Addresses.__module__ = ArrowText.__module__ = BadRow.__module__ = NoPlace.__module__ = __name__


def aggregate_text(networks: Networks, legacy: bool = False) -> str:
    """Aggregates a list: returns the shortest list of networks with exactly the same addresses, as text with one
    network per line. The networks have no host bits and no repeats, and are in ascending order, IPv4 first. If `legacy`
    is true, numbers may have leading zeros. Raises BadLine at the first line that is not a network, and NotANetwork if
    the list is not UTF-8.

    >>> aggregate_text("10.0.0.0/24\\n10.0.01.0/24\\n", legacy=True)
    '10.0.0.0/23\\n'
    >>> aggregate_text(ipaddress.ip_interface("10.0.0.7/24"))
    '10.0.0.0/24\\n'
    """
    data = text_of(networks)
    call = library.writer("ipnet_aggregate_text_legacy" if legacy else "ipnet_aggregate_text", len(data) + 1)
    return answered(call, [data], legacy=legacy).decode("ascii")


def aggregate(networks: Networks) -> List[Network]:
    """Like aggregate_text. Returns networks of ipaddress.

    >>> aggregate(["10.0.0.6", "10.0.0.7"])
    [IPv4Network('10.0.0.6/31')]
    """
    return _parsed(aggregate_text(networks))


def _parsed(text: str) -> List[Network]:
    """The networks of a result."""
    return list(networks_of(text.encode("ascii")))


def _combined(name: str, networks: Networks, others: Networks) -> str:
    """Calls the function with two lists, and returns its result."""
    data, more = text_of(networks), text_of(others, other=True)
    return answered(library.writer(name, len(data) + len(more) + 1), [data, more]).decode("ascii")


def union_text(networks: Networks, others: Networks) -> str:
    """The union of two lists: the shortest list of networks with exactly the addresses that are in either list or in
    both. The result has the form of the result of aggregate_text, and the exceptions are the same; BadLine.other says
    in which list the line is.

    >>> union_text("10.0.0.0/25\\n", "10.0.0.128/25\\n")
    '10.0.0.0/24\\n'
    """
    return _combined("ipnet_union_text", networks, others)


def intersection_text(networks: Networks, others: Networks) -> str:
    """Like union_text, for the intersection: exactly the addresses that are in both lists.

    >>> intersection_text("10.0.0.0/24\\n", "10.0.0.128/25\\n10.0.1.0/24\\n")
    '10.0.0.128/25\\n'
    """
    return _combined("ipnet_intersection_text", networks, others)


def difference_text(networks: Networks, others: Networks) -> str:
    """Like union_text, for the difference: exactly the addresses that are in the first list and not in the second.

    >>> difference_text("10.0.0.0/24\\n", "10.0.0.0/26\\n")
    '10.0.0.64/26\\n10.0.0.128/25\\n'
    """
    return _combined("ipnet_difference_text", networks, others)


def union(networks: Networks, others: Networks) -> List[Network]:
    """Like union_text. Returns networks of ipaddress.

    >>> union("10.0.0.6", ipaddress.ip_address("10.0.0.7"))
    [IPv4Network('10.0.0.6/31')]
    """
    return _parsed(union_text(networks, others))


def intersection(networks: Networks, others: Networks) -> List[Network]:
    """Like intersection_text. Returns networks of ipaddress.

    >>> intersection(["10.0.0.0/24", "fd00::/32"], b"fd00::/16")
    [IPv6Network('fd00::/32')]
    """
    return _parsed(intersection_text(networks, others))


def difference(networks: Networks, others: Networks) -> List[Network]:
    """Like difference_text. Returns networks of ipaddress.

    >>> difference("10.0.0.0/31", [ipaddress.ip_address("10.0.0.1")])
    [IPv4Network('10.0.0.0/32')]
    """
    return _parsed(difference_text(networks, others))


def same_addresses(networks: Networks, others: Networks) -> bool:
    """Whether the two lists cover the same addresses.

    >>> same_addresses(["10.0.0.0/25"], ["10.0.0.0/24"])
    False
    """
    return answered(library.asker("ipnet_same_addresses"), [text_of(networks), text_of(others, other=True)])


def is_covered(networks: Networks, network: OneNetwork) -> bool:
    """Whether the list covers every address of the network. Several networks of the list may cover it together.

    >>> is_covered("10.0.0.0/25\\n", ipaddress.ip_address("10.0.0.200"))
    False
    """
    wanted = bytes_of(network)
    return answered(library.asker("ipnet_is_covered"), [text_of(networks)], wanted)


def parse(network: OneNetwork, legacy: bool = False) -> Interface:
    """Parses a network. Returns an interface of ipaddress, which keeps the host bits. If `legacy` is true, numbers may
    have leading zeros. Raises NotANetwork if the text is not a network.

    >>> parse("010.0.0.1/08", legacy=True)
    IPv4Interface('10.0.0.1/8')
    >>> parse(b"fd00::1")
    IPv6Interface('fd00::1/128')
    """
    return interface_of(bytes_of(network, legacy))


def canonical_text(network: OneNetwork) -> str:
    """The canonical text of a network: its address with the host bits (IPv6 as in RFC 5952), "/", and the prefix
    length. Raises NotANetwork if the text is not a network.

    >>> canonical_text("FD00:0::9/32")
    'fd00::9/32'
    """
    return answered(library.writer("ipnet_print", library.MAX_TEXT), [bytes_of(network)]).decode("ascii")
