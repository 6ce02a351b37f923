"""Plain models of sets of addresses and of tables of routes, over integers. A module of tests/sets, not a script.

An address is a family, 4 or 6, and a number. A set is a list of ranges `(family, first, last)`: ascending, IPv4 first,
no two touching. A block is `(family, number, open bits)`. A route is `(block, value)`.
"""
from ipaddress import IPv4Address, IPv6Address

WIDTH = {4: 32, 6: 128}
LAST = {4: 2**32 - 1, 6: 2**128 - 1}
CELLS = 8


def address_text(family, number):
    """The canonical text of the address (RFC 5952)."""
    if family == 4:
        return str(IPv4Address(number))
    if number >> 32 == 0xffff:
        return "::ffff:" + str(IPv4Address(number & 0xffffffff))
    return str(IPv6Address(number))


def range_text(a_range):
    """The text of the range in questions and answers."""
    family, first, last = a_range
    return "{}-{}".format(address_text(family, first), address_text(family, last))


def list_text(ranges):
    """The ranges as a question writes a set."""
    return ",".join(range_text(a_range) for a_range in ranges) or "-"


def set_text(ranges):
    """The ranges as an answer writes a set."""
    return "{" + ", ".join(range_text(a_range) for a_range in ranges) + "}"


def ranges_text(ranges):
    """The ranges as an answer writes a list of ranges."""
    return "[" + ", ".join("V{0}(Ipv{0}AddrRange {{ start: {1}, end: {2} }})".format(*a_range)
                           for a_range in ranges) + "]"


def option_text(text):
    """The text of an optional value."""
    return "None" if text is None else "Some({})".format(text)


def joined(ranges):
    """The set of these ranges, which may overlap, touch, and come in any order; a reversed range has no address."""
    result = []
    for family, first, last in sorted(a_range for a_range in ranges if a_range[1] <= a_range[2]):
        if result and result[-1][0] == family and first <= result[-1][2] + 1:
            result[-1] = (family, result[-1][1], max(result[-1][2], last))
        else:
            result.append((family, first, last))
    return result


def block_of(text):
    """The range of a network's block, by the bits of its address."""
    address, _, prefix_len = text.partition("/")
    family = 6 if ":" in address else 4
    number = int(IPv6Address(address) if family == 6 else IPv4Address(address))
    open_bits = WIDTH[family] - int(prefix_len)
    first = number >> open_bits << open_bits
    return (family, first, first + 2**open_bits - 1)


def ranges_of_networks(texts):
    """The set of the networks."""
    return joined(block_of(text) for text in texts)


def networks_of(ranges):
    """The maximal blocks in the set, in order, as texts: from the first address of each range on, the largest aligned
    block that ends within the range."""
    texts = []
    for family, first, last in ranges:
        while first <= last:
            open_bits = 0
            while (open_bits < WIDTH[family] and first % 2**(open_bits + 1) == 0
                   and first + 2**(open_bits + 1) - 1 <= last):
                open_bits += 1
            texts.append("{}/{}".format(address_text(family, first), WIDTH[family] - open_bits))
            first += 2**open_bits
    return texts


def networks_text(texts):
    """The networks as an answer writes a list of networks."""
    return "[" + ", ".join(texts) + "]"


def has(ranges, family, number):
    """Whether the address is in the set."""
    return any(f == family and first <= number <= last for f, first, last in ranges)


def has_all(ranges, family, first, last):
    """Whether each address from the first to the last is in the set: no two ranges of a set touch."""
    return any(f == family and low <= first and last <= high for f, low, high in ranges)


def count(ranges, family):
    """How many addresses of the family the set has."""
    return sum(last - first + 1 for f, first, last in ranges if f == family)


def complement(ranges):
    """All addresses that are not in the set."""
    rest = []
    for family in (4, 6):
        free = 0
        for _, first, last in (a_range for a_range in ranges if a_range[0] == family):
            rest.append((family, free, first - 1))
            free = last + 1
        rest.append((family, free, LAST[family]))
    return joined(rest)


def intersection(ranges, others):
    """The addresses of both sets."""
    return joined((f, max(first, low), min(last, high))
                  for f, first, last in ranges for g, low, high in others if f == g)


def turns(ranges):
    """The numbers at which the set begins and ends, family by family: the order of sets is the order of these lists. No
    turn is written at the end of a family."""
    return tuple(tuple(number for f, first, last in ranges if f == family for number in (first, last + 1)
                       if number <= LAST[family]) for family in (4, 6))


class Cells:
    """The sets of eight cells of one family: bit 0 of a number is the first cell."""

    def __init__(self, family, first, size):
        self.family = family
        self.first = first
        self.size = size
        self.ranges = [self._ranges(bits) for bits in range(2**CELLS)]
        self.texts = [list_text(ranges) for ranges in self.ranges]

    def __str__(self):
        return "cells of {} from {}".format(self.size, address_text(self.family, self.first))

    def ends(self, cell):
        """The numbers of the first and the last address of the cell."""
        first = self.first + cell * self.size
        return first, first + self.size - 1

    def _ranges(self, bits):
        return joined((self.family,) + self.ends(cell) for cell in range(CELLS) if bits >> cell & 1)


MODELS = [
    Cells(4, 0, 1),
    Cells(4, LAST[4] - 7, 1),
    Cells(4, 0, 2**29),
    Cells(6, 0, 1),
    Cells(6, LAST[6] - 7, 1),
    Cells(6, 0, 2**125),
]


class Blocks:
    """Blocks, as `(family, number, open bits)`, and addresses, as `(family, number)`."""

    def __init__(self, label, blocks, addresses):
        self.label = label
        self.blocks = blocks
        self.addresses = addresses



def truncation(block):
    """The block without its host bits."""
    family, number, open_bits = block
    return (family, number >> open_bits << open_bits, open_bits)


def table_of(routes):
    """The blocks of the routes `(block, value)`, without host bits, each with the value of its last route."""
    table = {}
    for block, value in routes:
        table[truncation(block)] = value
    return table


def in_order(table):
    """The routes of the table: IPv4 before IPv6, then by number, then the shorter prefix, which has more open bits."""
    return sorted(table.items(), key=lambda route: (route[0][0], route[0][1], -route[0][2]))


def longest_match(table, family, number):
    """The route of the block with the fewest open bits that holds the address; none if no block holds it."""
    matches = [(block, value) for block, value in table.items()
               if block[0] == family and block[1] >> block[2] == number >> block[2]]
    return min(matches, key=lambda route: route[0][2]) if matches else None


def covering(table, block):
    """The route of the block with the fewest open bits that contains this block; none if no block does."""
    family, number, open_bits = block
    holders = [(other, value) for other, value in table.items()
               if other[0] == family and other[2] >= open_bits and other[1] >> other[2] == number >> other[2]]
    return min(holders, key=lambda route: route[0][2]) if holders else None


def matches(table, family, number):
    """The routes of the blocks that hold the address, the fewest open bits first."""
    found = [(block, value) for block, value in table.items()
             if block[0] == family and block[1] >> block[2] == number >> block[2]]
    return sorted(found, key=lambda route: route[0][2])


def within(table, block):
    """The routes of the blocks that lie in this block, in order."""
    family, number, open_bits = block
    return [(other, value) for other, value in in_order(table)
            if other[0] == family and other[2] <= open_bits and other[1] >> open_bits == number >> open_bits]


def supernet_text(ranges, family):
    """The smallest network that contains all addresses of the family in the set: of all networks that contain its
    first address, from the longest on, the first that contains them all. None if there is no such address."""
    ends = [end for f, first, last in ranges if f == family for end in (first, last)]
    for open_bits in range(WIDTH[family] + 1):
        if ends and len({end >> open_bits for end in ends}) == 1:
            return network_text(*truncation((family, ends[0], open_bits)))
    return None


def network_text(family, number, open_bits):
    """The canonical text of the network."""
    return "{}/{}".format(address_text(family, number), WIDTH[family] - open_bits)


def one_family(family, first):
    """Seven networks around eight addresses, five of them one in another; and three addresses far away."""
    offsets = [(0, 3), (0, 2), (3, 2), (2, 1), (3, 0), (6, 1)]
    blocks = [(family, 0, WIDTH[family])] + [(family, first + offset, open_bits) for offset, open_bits in offsets]
    addresses = [(family, first + offset) for offset in range(8)] + [(family, 2**31), (4, 3), (6, 3)]
    return Blocks("eight addresses from " + address_text(family, first), blocks, addresses)


def both_families():
    """The ends of both families, and all of each."""
    blocks = [(4, 0, 32), (4, LAST[4], 32), (4, 0, 0), (4, LAST[4], 0), (6, 0, 128), (6, 0, 32), (6, LAST[6], 0)]
    numbers = [(4, number) for number in (0, 1, LAST[4] - 1, LAST[4])]
    numbers += [(6, number) for number in (0, 1, LAST[4], 2**32, 0xffff0a000001, LAST[6] - 1, LAST[6])]
    return Blocks("both families", blocks, numbers)


def route_text(route):
    """The text of the route in answers."""
    block, value = route
    return '({}, "{}")'.format(network_text(*block), value)


def routes_text(routes):
    """The routes as a question writes them."""
    return ",".join("{}={}".format(network_text(*block), value) for block, value in routes) or "-"


ROUTE_MODELS = [
    one_family(4, 0),
    one_family(4, LAST[4] - 7),
    one_family(6, 0),
    one_family(6, LAST[6] - 7),
    both_families(),
]
