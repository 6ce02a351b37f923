"""Writes a MaxMind DB file of IPv4 routes with a number each, for its readers: the peer of tables in bench/columns."""
import array
import struct

import numpy

NONE = -1
MARK = b"\xab\xcd\xefMaxMind.com"
# the bytes of a number in the data: its kind and size, and 4 bytes
NUMBER = 5


def tree_of(routes):
    """The two children of each node: a node, NONE, or a route as its place and 2, negative. The routes are a number, a
    prefix length from 1 on, and a place each, the shortest lengths first."""
    children = array.array("q", [NONE, NONE])
    for number, length, place in routes:
        node = 0
        for depth in range(length - 1):
            at = 2 * node + (number >> 31 - depth & 1)
            node = children[at]
            if node < 0:
                children.extend((node, node))
                node = children[at] = len(children) // 2 - 1
        children[2 * node + (number >> 32 - length & 1)] = -place - 2
    return numpy.array(children)


def text(word):
    return bytes([2 << 5 | len(word)]) + word.encode()


def metadata(nodes):
    """The map at the end of the file."""
    fields = {"node_count": bytes([6 << 5 | 4]) + struct.pack(">I", nodes), "record_size": b"\xa1\x20",
              "ip_version": b"\xa1\x04", "database_type": text("routes"), "languages": b"\x00\x04",
              "binary_format_major_version": b"\xa1\x02", "binary_format_minor_version": b"\xa0",
              "build_epoch": b"\x01\x02\x01", "description": b"\xe0"}
    return MARK + bytes([7 << 5 | len(fields)]) + b"".join(text(name) + value for name, value in fields.items())


def write(path, routes):
    """Writes the file. The value of each route is its place, from 0 on."""
    children = tree_of(routes)
    nodes = len(children) // 2
    records = numpy.where(children >= 0, children, numpy.where(children == NONE, nodes, nodes + 16 +
                                                               NUMBER * (-2 - children)))
    count = len(routes)
    data = numpy.zeros(count, dtype=[("kind", "u1"), ("value", ">u4")])
    data["kind"], data["value"] = 6 << 5 | 4, numpy.arange(count)
    with open(path, "wb") as file:
        file.write(records.astype(">u4").tobytes() + bytes(16) + data.tobytes() + metadata(nodes))
