"""A plain model of maps: it has the class of every cell in a list. A module of tests/pictures, not a script.

A set is a list of ranges as in set_model. A map shows a frame, a network, in 2^depth cells, which are networks too. The
class of a cell says what a list, two lists that are compared, or several lists have of it; it is None if no list has
an address of it.
"""
import functools

import set_model
from set_model import WIDTH, joined

MOST_DEPTH = 20
MOST_RECTANGLES = 2**16
SIDE, LARGEST_CELL = 1024, 64
# a block whose cells are not all of one class
MIXED = object()


class Frame:
    """A network by its family, its first address and its prefix length."""

    def __init__(self, family, first, length):
        self.family, self.first, self.length = family, first, length
        self.host_bits = WIDTH[family] - length
        self.last = first + 2**self.host_bits - 1

    def __str__(self):
        return "{}/{}".format(set_model.address_text(self.family, self.first), self.length)

    def contains(self, a_range):
        """Whether the range has an address of the frame."""
        return a_range[0] == self.family and a_range[1] <= self.last and a_range[2] >= self.first

    def clipped(self, ranges):
        """The ranges in the frame, as numbers from its first address on."""
        return [(max(first, self.first) - self.first, min(last, self.last) - self.first)
                for family, first, last in ranges if self.contains((family, first, last))]


def frame_at(text):
    """The frame that the text of a network names; host bits do not matter."""
    family, first, last = set_model.block_of(text)
    return Frame(family, first, WIDTH[family] - (last - first + 1).bit_length() + 1)


def smallest_frame(ranges, family):
    """The smallest network that has all addresses of the family; None if there are none."""
    ends = [end for f, first, last in ranges if f == family for end in (first, last)]
    if not ends:
        return None
    bits = next(bits for bits in range(WIDTH[family] + 1) if min(ends) >> bits == max(ends) >> bits)
    return Frame(family, min(ends) >> bits << bits, WIDTH[family] - bits)


def counts_in(ranges, frame, depth):
    """How many addresses of the set each cell has."""
    bits = frame.host_bits - depth
    counts = [0] * 2**depth
    for first, last in frame.clipped(ranges):
        low, high = first >> bits, last >> bits
        if low == high:
            counts[low] += last - first + 1
        else:
            counts[low] += (low + 1 << bits) - first
            counts[low + 1:high] = [1 << bits] * (high - low - 1)
            counts[high] += last - (high << bits) + 1
    return counts


def share_class(count, size):
    """The class in a map of one list: `all` only if the cell has no other address."""
    if count in (0, size):
        return "all" if count else None
    return "sparse" if 256 * count < size else "below a quarter" if 4 * count < size else "from a quarter"


def change_class(before, after, either, size):
    """The class in a map of two lists that are compared. The counts are of the first list, the second, and of both
    together."""
    removed, added = either - after, either - before
    if removed or added:
        return "mixed" if removed and added else "removed" if removed else "added"
    return None if not either else "kept" if either == size else "kept part"


def several_class(counts, either, size):
    """The class in a map of several lists, with the count of each list and of all together."""
    if sum(counts) > either:
        return "shared"
    found = [number for number, count in enumerate(counts, 1) if count]
    if len(found) > 1:
        return "several"
    return "list {}{}".format(found[0], "" if either == size else " part") if found else None


def classes_of(sets, compares, frame, depth):
    """The class of each cell."""
    size = 2**(frame.host_bits - depth)
    each = [counts_in(ranges, frame, depth) for ranges in sets]
    either = counts_in(joined(a_range for ranges in sets for a_range in ranges), frame, depth)
    counts = list(zip(*each, either))
    named = {}
    for cell in set(counts):
        if compares:
            named[cell] = change_class(*cell, size)
        else:
            named[cell] = share_class(cell[0], size) if len(sets) == 1 else several_class(cell[:-1], cell[-1], size)
    return [named[cell] for cell in counts]


def blocks_of(classes):
    """The largest blocks of cells of one class, as `(class, first cell, bits)`: the block twice as large has other
    cells too."""
    found, bits = [], 0
    while True:
        larger = [a if a == b else MIXED for a, b in zip(classes[::2], classes[1::2])]
        for number, one in enumerate(classes):
            if one is not None and one is not MIXED and (not larger or larger[number // 2] is MIXED):
                found.append((one, number << bits, bits))
        if not larger:
            return found
        classes, bits = larger, bits + 1


def groups_of(length, depth):
    """How many bits of each octet the map shows."""
    groups = []
    while sum(groups) < depth:
        groups.append(min(depth - sum(groups), 8 - (length + sum(groups)) % 8))
    return groups


def axes_of(length, depth):
    """For each bit of a cell's number, from the first on, whether it is a bit of the column."""
    return [place >= bits // 2 for bits in groups_of(length, depth) for place in range(bits)]


@functools.lru_cache(8)
def numbers_of(length, depth, chosen):
    """For each cell, in order, the number that its bits of the column make, or its bits of the row."""
    numbers = [0]
    for axis in axes_of(length, depth):
        numbers = [2 * number + bit if axis == chosen else number for number in numbers for bit in (0, 1)]
    return numbers


class Map:
    """A map of sets in a frame, with the greatest depth that has at most 2^16 rectangles."""

    def __init__(self, sets, compares, frame):
        self.sets, self.compares, self.frame = sets, compares, frame
        depths = [depth for depth in range(MOST_DEPTH + 1) if depth <= frame.host_bits
                  and (frame.host_bits - depth) % 2 == 0]
        for self.depth in reversed(depths):
            self.classes = classes_of(sets, compares, frame, self.depth)
            self.blocks = blocks_of(self.classes)
            if len(self.blocks) <= MOST_RECTANGLES:
                break
        self.axes = axes_of(frame.length, self.depth)
        self.columns, self.rows = (numbers_of(frame.length, self.depth, axis) for axis in (True, False))
        self.width, self.height = max(self.columns) + 1, max(self.rows) + 1
        self.scale = min(LARGEST_CELL, SIDE // self.width)

    def rectangle(self, cell, bits):
        """The rectangle of the block of 2^bits cells: column, row, width and height in cells."""
        last = self.axes[self.depth - bits:]
        return self.columns[cell], self.rows[cell], 2**last.count(True), 2**last.count(False)

    def rectangles(self):
        """The rectangles of each class, in order."""
        found = {}
        for one, cell, bits in self.blocks:
            found.setdefault(one, []).append(self.rectangle(cell, bits))
        return {one: sorted(rectangles) for one, rectangles in found.items()}

    def grid(self):
        """The class of each cell by its place: a list of rows."""
        grid = [[None] * self.width for _ in range(self.height)]
        for one, column, row in zip(self.classes, self.columns, self.rows):
            grid[row][column] = one
        return grid

    def box(self, first, length):
        """The rectangle of a network of the frame, in pixels: left, top, right and bottom. The network is not smaller
        than a cell."""
        bits = self.frame.host_bits - self.depth
        cells = self.frame.length + self.depth - length
        column, row, width, height = self.rectangle((first - self.frame.first) >> bits, cells)
        return tuple(self.scale * side for side in (column, row, column + width, row + height))

    def shows(self, network):
        """Whether the network is in the frame, and not smaller than a cell."""
        return (self.frame.family == network.family and self.frame.first <= network.first <= self.frame.last
                and 0 <= network.length - self.frame.length <= self.depth)

    def cell_at(self, x, y):
        """The first address of the cell at this place of the map, in pixels."""
        cell = self.cells_by_place[x // self.scale, y // self.scale]
        return self.frame.first + (cell << self.frame.host_bits - self.depth)

    @functools.cached_property
    def cells_by_place(self):
        """The number of the cell in each column and row."""
        return {place: cell for cell, place in enumerate(zip(self.columns, self.rows))}

    def square_len(self):
        """The prefix length of a square: the frame's own bits of an octet, or all bits if they are of one octet."""
        return self.frame.length + (groups_of(self.frame.length, self.depth) or [0])[0]


def blocks_in(ranges, frame):
    """The fewest networks of each of these ranges, as `(first address, prefix length)`, in the frame."""
    found = []
    for first, last in frame.clipped(ranges):
        for text in set_model.networks_of([(frame.family, frame.first + first, frame.first + last)]):
            network = frame_at(text)
            found.append((network.first, network.length))
    return found


def free_in(ranges, frame):
    """The free blocks of the frame."""
    rest, at = [], frame.first
    for first, last in frame.clipped(ranges):
        rest.append((frame.family, at, frame.first + first - 1))
        at = frame.first + last + 1
    return blocks_in(joined(rest + [(frame.family, at, frame.last)]), frame)
