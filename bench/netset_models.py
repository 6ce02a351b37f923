"""Plain models of netset, to compare its output with. Each model returns the lines of the output, as bytes.

The models read networks, addresses and ranges of both families, one per line. They read no comments or blanks.
"""
import bisect
import ipaddress
import socket
from typing import NamedTuple

from lists import ipv4, ipv6

WIDTH = {socket.AF_INET: 32, socket.AF_INET6: 128}
TEXT = {socket.AF_INET: ipv4, socket.AF_INET6: ipv6}


class Entry(NamedTuple):
    """A line: its text, and its first and last address."""
    text: str
    family: int
    first: int
    last: int


def number(text):
    """(family, number) of an address."""
    family = socket.AF_INET6 if ":" in text else socket.AF_INET
    return family, int.from_bytes(socket.inet_pton(family, text), "big")


def entry(text):
    start, dash, end = text.partition("-")
    address, slash, prefix_len = start.partition("/")
    family, first = number(address)
    if dash:
        return Entry(text, family, first, number(end)[1])
    hosts = (1 << WIDTH[family] - int(prefix_len) if slash else 1) - 1
    return Entry(text, family, first & ~hosts, first | hosts)


def entries(path):
    with open(path, encoding="ascii") as lines:
        return [entry(line) for line in lines.read().splitlines()]


class Spans:
    """The fewest ranges with the addresses of the entries of a family."""

    def __init__(self, listed, family):
        self.starts, self.ends = [], []
        for first, last in sorted((e.first, e.last) for e in listed if e.family == family):
            if self.ends and first <= self.ends[-1] + 1:
                self.ends[-1] = max(self.ends[-1], last)
            else:
                self.starts.append(first)
                self.ends.append(last)

    def size(self):
        return sum(last - first + 1 for first, last in zip(self.starts, self.ends))

    def has_all(self, e):
        place = bisect.bisect(self.starts, e.first) - 1
        return place >= 0 and e.last <= self.ends[place]

    def has_none(self, e):
        place = bisect.bisect(self.starts, e.last) - 1
        return place < 0 or self.ends[place] < e.first


def shortest(lines):
    """The shortest list of networks with the addresses of IPv4 lines. Differences by iprange are not the shortest."""
    spans = Spans([entry(line.decode().strip()) for line in lines], socket.AF_INET)
    for ends in zip(spans.starts, spans.ends):
        for network in ipaddress.summarize_address_range(*map(ipaddress.IPv4Address, ends)):
            yield b"%s\n" % str(network).encode()


def sizes(listed):
    """How many IPv4 and how many IPv6 addresses the entries have."""
    return [Spans(listed, family).size() for family in WIDTH]


def count(path):
    yield b"%s\t%d\t%d\n" % (path.encode(), *sizes(entries(path)))


def compare(first_path, second_path):
    first, second = entries(first_path), entries(second_path)
    both, first_sizes, second_sizes = sizes(first + second), sizes(first), sizes(second)
    if both != first_sizes or both != second_sizes:
        yield b"only in the first: IPv4 %d, IPv6 %d\n" % tuple(a - b for a, b in zip(both, second_sizes))
        yield b"only in the second: IPv4 %d, IPv6 %d\n" % tuple(a - b for a, b in zip(both, first_sizes))


def kept(set_path, path, is_kept):
    listed = entries(set_path)
    spans = {family: Spans(listed, family) for family in WIDTH}
    return (b"%s\n" % e.text.encode() for e in entries(path) if is_kept(spans[e.family], e))


def inside(set_path, path):
    return kept(set_path, path, Spans.has_all)


def outside(set_path, path):
    return kept(set_path, path, Spans.has_none)


def route(table_path, path):
    """The table contains only networks."""
    table = {family: {} for family in WIDTH}
    for e in entries(table_path):
        hosts = (e.last - e.first).bit_length()
        table[e.family].setdefault(hosts, set()).add(e.first >> hosts)
    shortest = {family: sorted(table[family]) for family in WIDTH}  # the longest networks first
    for e in entries(path):
        found = "-"
        for hosts in shortest[e.family]:
            if e.first >> hosts == e.last >> hosts and e.first >> hosts in table[e.family][hosts]:
                found = TEXT[e.family](e.first >> hosts << hosts, WIDTH[e.family] - hosts)
                break
        yield b"%s %s\n" % (e.text.encode(), found.encode())
