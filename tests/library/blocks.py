#!/usr/bin/env python3
"""Compares walks, aggregates and `same_addresses` with a plain slow model, through `ipnet_probe`.

Run it from anywhere, as `tests/library/blocks.py [--program PATH]`. A universe has sixteen cells, each as many
addresses as the least of its networks has; a set of cells is a number with a bit for each. The model tries every
network of the universe: the networks that lie in a set, and in no larger such network, are the answer. It ends with
the line `N passed, M failed`.
"""
import random
from collections import namedtuple
from functools import lru_cache
from itertools import product

from model import (GREATEST, WIDTH, Network, debug_list, debug_walk, kind, largest_networks, range_text,
                   size, text, walk_left)
from support import Checks, ask_lines, read_arguments

LONG_LISTS = 2_000
RANDOM_WALKS = 2_000
BATCH = 100_000

# A network of a universe: its text, the set of its cells, its prefix length, and whether it has no host bits.
Sample = namedtuple("Sample", "text cells length is_truncated")


class Universe:
    """Sixteen cells of one family: the number of the first address, and the prefix length of the whole."""

    def __init__(self, family, first, length):
        self.family = family
        self.first = first
        self.length = length
        self.cell = size(family, length + 4)
        self.samples = list(self.networks())
        self.largest = lru_cache(maxsize=None)(self.find_largest)

    def networks(self):
        """The networks by cell and then by length: each without host bits, and with all of them set."""
        for cell in range(16):
            for longer in range(5):
                cells = 16 >> longer
                if cell % cells in (0, cells - 1):
                    net = Network(self.family, self.first + cell * self.cell, self.length + longer)
                    covered = sum(1 << other for other in range(16) if other // cells == cell // cells)
                    yield Sample(text(net), covered, net.length, cell % cells == 0)

    def find_largest(self, cells, min_prefix_len):
        """The largest networks in the set, ascending: without host bits, in the set, and in no larger one in it."""
        inside = [sample for sample in self.samples
                  if sample.is_truncated and sample.length >= min_prefix_len and sample.cells & cells == sample.cells]
        return [sample.text for sample in inside
                if not any(other.cells != sample.cells and other.cells & sample.cells == sample.cells
                           for other in inside)]


# The first and the last addresses of each family, and all addresses of each.
UNIVERSES = [Universe(4, 0, 28), Universe(4, 2**32 - 16, 28), Universe(4, 0, 0),
             Universe(6, 0, 124), Universe(6, 2**128 - 16, 124), Universe(6, 0, 0)]


class Questions:
    """Asks questions in batches."""

    def __init__(self, program, checks, label):
        self.program, self.checks, self.label = program, checks, label
        self.lines, self.wanted = [], []

    def add(self, line, wanted):
        """Adds a question and the wanted answer."""
        self.lines.append(line)
        self.wanted.append(wanted)
        if len(self.lines) >= BATCH:
            self.ask()

    def ask(self):
        """Asks the questions that were added."""
        if self.lines:
            self.checks.check_all(self.label, self.lines, ask_lines(self.program, self.lines), self.wanted)
        self.lines, self.wanted = [], []


def compare_walks(questions, universe):
    """Every range of cells, and every minimum prefix length that a network of the universe has."""
    family = universe.family
    for start, end, longer in product(range(16), range(16), range(5)):
        cells = sum(1 << cell for cell in range(start, end + 1))
        length = universe.length + longer
        networks = universe.largest(cells, length)
        first = universe.first + start * universe.cell
        last = universe.first + end * universe.cell + universe.cell - 1
        given = [Network(family, 0, int(net.split("/")[1])) for net in networks]
        left = walk_left(family, first, last, given)
        for name, either in ((kind(family, "Subnets"), False), ("IpSubnets", True)):
            line = "%s items %s-%d" % (name, range_text(family, first, last), length)
            questions.add(line, "%s %s" % (debug_list(networks), debug_walk(family, *left, length, either)))


def compare_random_walks(questions):
    """Walks between random addresses, near to one another or not."""
    chance = random.Random(2)
    for _ in range(RANDOM_WALKS):
        family = chance.choice((4, 6))
        start = chance.choice((chance.getrandbits(WIDTH[family]), chance.getrandbits(8),
                               GREATEST[family] - chance.getrandbits(8)))
        end = min(start + chance.getrandbits(chance.randrange(WIDTH[family] + 1)), GREATEST[family])
        length = chance.choice((0, 0, chance.randrange(WIDTH[family] + 1)))
        length = max(0, min(length, WIDTH[family] - (end - start).bit_length() + 6))
        networks = largest_networks(family, start, end, length)
        left = walk_left(family, start, end, networks)
        for name, either in ((kind(family, "Subnets"), False), ("IpSubnets", True)):
            questions.add("%s items %s-%d" % (name, range_text(family, start, end), length), "%s %s" % (
                debug_list(map(text, networks)), debug_walk(family, *left, length, either)))


def compare_aggregate(questions, universe, samples):
    """The aggregate of a list, and whether the list is its own aggregate."""
    cells = 0
    for sample in samples:
        cells |= sample.cells
    networks = [sample.text for sample in samples]
    wanted = universe.largest(cells, 0)
    given = ",".join(networks)
    questions.add("IpNet aggregate " + given, debug_list(wanted))
    questions.add("IpNet is_aggregated " + given, "true" if networks == wanted else "false")
    questions.add("%s aggregate %s" % (kind(universe.family), given), debug_list(wanted))


def compare_long_lists(questions, ipv4, ipv6):
    """Random lists of both families."""
    chance = random.Random(3)
    for _ in range(LONG_LISTS):
        cells = {4: 0, 6: 0}
        networks = []
        for _ in range(chance.randrange(24)):
            universe = chance.choice((ipv4, ipv6))
            sample = chance.choice(universe.samples)
            networks.append(sample.text)
            cells[universe.family] |= sample.cells
        wanted = ipv4.largest(cells[4], 0) + ipv6.largest(cells[6], 0)
        questions.add("IpNet aggregate " + ",".join(networks), debug_list(wanted))
        questions.add("IpNet same_addresses %s %s" % (",".join(networks), ",".join(wanted)), "true")


def compare_pairs(questions, universe):
    """Every two lists of at most two networks without host bits."""
    truncated = [(place, sample) for place, sample in enumerate(universe.samples) if sample.is_truncated]
    lists = [(0, "")]
    for place, first in truncated:
        for other, second in truncated:
            if place <= other:
                lists.append((first.cells | second.cells, "%s,%s" % (second.text, first.text)))
    for (cells, networks), (other_cells, others) in product(lists, lists):
        wanted = "true" if cells == other_cells else "false"
        questions.add("IpNet same_addresses %s %s" % (networks, others), wanted)


def main():
    program = read_arguments(__doc__).program
    checks = Checks()
    walks = Questions(program, checks, "walks")
    for universe in UNIVERSES:
        compare_walks(walks, universe)
    compare_random_walks(walks)
    walks.ask()
    lists = Questions(program, checks, "lists")
    for universe in UNIVERSES:
        for count in range(4):
            for samples in product(universe.samples, repeat=count):
                compare_aggregate(lists, universe, samples)
    for ipv4, ipv6 in ((0, 3), (1, 4), (2, 5), (0, 4), (1, 5), (2, 3)):
        compare_long_lists(lists, UNIVERSES[ipv4], UNIVERSES[ipv6])
    for universe in (1, 5):
        compare_pairs(lists, UNIVERSES[universe])
    lists.ask()
    checks.finish()


if __name__ == "__main__":
    main()
