"""Addresses, networks, ranges and walks as plain numbers, written from the definitions in crates/*/specs/.

This is a module, not a script: the scripts of tests/library compare the answers of `ipnet_probe` with it.
"""
import ipaddress
import os
import re
import sys
from collections import namedtuple

HERE = os.path.dirname(os.path.abspath(__file__))
sys.path.insert(0, os.path.dirname(HERE))

WIDTH = {4: 32, 6: 128}
GREATEST = {4: 2**32 - 1, 6: 2**128 - 1}

Address = namedtuple("Address", "family number")
Network = namedtuple("Network", "family number length")


def read_tables(name):
    """The tables of tests/rows/NAME.txt by name. `[NAME]` begins a table, `#` a comment; a row goes on after a `\\` at
    the end of its line. A row is a list of cells."""
    with open(os.path.join(os.path.dirname(HERE), "rows", name + ".txt"), encoding="utf-8") as file:
        text = re.sub(r"\\\n\s*", "", file.read())
    tables = {}
    for line in text.split("\n"):
        if re.fullmatch(r"\[[a-z_0-9]+\]", line):
            rows = tables[line[1:-1]] = []
        elif line.strip() and not line.startswith("#"):
            rows.append([cell.strip() for cell in line.split("|")])
    return tables


def address(text):
    """The address that the text writes."""
    value = ipaddress.ip_address(text)
    return Address(value.version, int(value))


def network(text):
    """The network that the text writes, with its host bits."""
    start, length = text.split("/")
    return Network(*address(start), int(length))


def items(cell):
    """The items of a list in brackets."""
    assert cell[0] == "[" and cell[-1] == "]", cell
    return cell[1:-1].split(", ") if cell != "[]" else []


def dotted(number):
    """The four octets of a number, with dots between them."""
    return ".".join(str(number >> shift & 255) for shift in (24, 16, 8, 0))


def address_text(family, number):
    """The canonical text: the longest run of two or more zero groups is `::`, the first of several; an address of
    ::ffff:0:0/96 ends in a dotted IPv4 address."""
    if family == 4:
        return dotted(number)
    if number >> 32 == 0xffff:
        return "::ffff:" + dotted(number & 0xffffffff)
    groups = [number >> shift & 0xffff for shift in range(112, -1, -16)]
    start = length = 0
    for first in range(8):
        last = first
        while last < 8 and groups[last] == 0:
            last += 1
        if last - first > length:
            start, length = first, last - first
    if length < 2:
        return ":".join("%x" % group for group in groups)
    head = ":".join("%x" % group for group in groups[:start])
    tail = ":".join("%x" % group for group in groups[start + length:])
    return head + "::" + tail


def text(net):
    """The canonical text of a network."""
    return "%s/%d" % (address_text(net.family, net.number), net.length)


def kind(family, name="Net"):
    """The type of a family: `Ipv4Net` or `Ipv6Net`, and so for the other names."""
    return "Ipv%d%s" % (family, name)


def size(family, length):
    """How many addresses a network of this prefix length has."""
    return 1 << WIDTH[family] - length


def first_of(net):
    """The number of the least address of the block."""
    return net.number // size(net.family, net.length) * size(net.family, net.length)


def last_of(net):
    """The number of the greatest address of the block."""
    return first_of(net) + size(net.family, net.length) - 1


def truncated(net):
    """The network without its host bits."""
    return Network(net.family, first_of(net), net.length)


def debug_range(family, start, end, either=False):
    """What `{:?}` writes of a range with these stored ends."""
    own = "%s { start: %d, end: %d }" % (kind(family, "AddrRange"), start, end)
    return "V%d(%s)" % (family, own) if either else own


def debug_walk(family, start, end, min_prefix_len, either=False):
    """What `{:?}` writes of a walk with these stored ends."""
    own = "%s { start: %d, end: %d, min_prefix_len: %d }" % (kind(family, "Subnets"), start, end, min_prefix_len)
    return "V%d(%s)" % (family, own) if either else own


def debug_list(texts):
    """What `{:?}` writes of a list of values that print as these texts."""
    return "[%s]" % ", ".join(texts)


def range_text(family, start, end):
    """A range as an argument of a question."""
    return "%s-%s" % (address_text(family, start), address_text(family, end))


def largest_networks(family, start, end, min_prefix_len):
    """The walk from one number to another: each time the largest network that starts there, ends within, and has at
    least the minimum prefix length."""
    networks = []
    while start <= end:
        length = min_prefix_len
        while start % size(family, length) or start + size(family, length) - 1 > end:
            length += 1
        networks.append(Network(family, start, length))
        start += size(family, length)
    return networks


def walk_left(family, start, end, networks):
    """What a walk stores after its networks: the start after the last of them, which saturates, and the end, or 0 if
    the walk reached the greatest address or the last network is the one address that was left."""
    if not networks:
        return start, end
    last = networks[-1]
    if end == GREATEST[family] or last.length == WIDTH[family]:
        return min(end + 1, GREATEST[family]), 0
    return end + 1, end
