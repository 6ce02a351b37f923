"""A plain model of networks, sets and tables of routes, over integers. A module of tests/postgres and tests/sqlite.

A network is `(family, number, length)` without host bits; a set is a list of ranges as in set_model.
"""
import bisect

from entry_model import address_of, range_of as range_of_entry
from set_model import LAST, WIDTH, address_text, joined, range_text  # noqa: F401

# what a changed text of some_texts may get
CHARACTERS = "0123456789abcdefF.:/-% x,#;"
MAPPED = 0xffff << 32


# The prefix lengths of some networks: all of IPv4, and those that are usual or near an end of IPv6.
LENGTHS = {4: range(33), 6: (0, 1, 7, 16, 20, 29, 32, 36, 40, 44, 48, 56, 63, 64, 65, 96, 112, 120, 124, 127, 128)}


def network_text(network):
    family, number, length = network
    return "{}/{}".format(address_text(family, number), length)


def truncated(family, number, length):
    """The network of this length that contains the address."""
    shift = WIDTH[family] - length
    return (family, number >> shift << shift, length)


def range_of(network):
    family, number, length = network
    return (family, number, number + (1 << (WIDTH[family] - length)) - 1)


def ranges_of(networks):
    return joined(range_of(network) for network in networks)


def some_networks(random_numbers, count, least):
    """Networks of both families, each once, with this prefix length or a longer one. Half of them lie in one block of
    each family, so that many are nested or touch."""
    networks = set()
    while len(networks) < count:
        family = random_numbers.choice((4, 4, 6))
        length = random_numbers.choice(LENGTHS[family])
        if length < least:
            continue
        number = random_numbers.randint(0, LAST[family])
        if random_numbers.random() < 0.5:
            number = (10 << 24) + number % 2**20 if family == 4 else (0xfd << 120) + number % 2**40
        networks.add(truncated(family, number, length))
    return sorted(networks)


def some_addresses(random_numbers, networks, count):
    """Single addresses, as networks of full length: the ends of the networks, those next to them, and others."""
    found = []
    while len(found) < count:
        family, first, last = range_of(random_numbers.choice(networks))
        number = random_numbers.choice((first, last, first - 1, last + 1, random_numbers.randint(first, last),
                                        random_numbers.randint(0, LAST[family])))
        if 0 <= number <= LAST[family]:
            found.append((family, number, WIDTH[family]))
    return found


def some_inner(random_numbers, networks, count):
    """Networks in and around the given ones."""
    found = []
    for _ in range(count):
        family, number, length = random_numbers.choice(networks)
        length = min(WIDTH[family], max(0, length + random_numbers.randint(-3, 3)))
        found.append(truncated(family, number, length))
    return found


def close_networks(random_numbers):
    """A few networks of a small block of each family."""
    return [truncated(family, LAST[family] - random_numbers.randrange(64) if random_numbers.random() < 0.5 else
                      random_numbers.randrange(64), WIDTH[family] - random_numbers.randrange(5))
            for family in random_numbers.choices((4, 6), k=random_numbers.randrange(6))]


def covers(ranges, network):
    """Whether each address of the network lies in the set."""
    family, first, last = range_of(network)
    at = bisect.bisect_right(ranges, (family, first, LAST[6] + 1)) - 1
    return at >= 0 and ranges[at][0] == family and ranges[at][1] <= first and last <= ranges[at][2]


class Table:
    """Routes: a dictionary from networks to values."""

    def __init__(self, values):
        self.values = values
        self.lengths = {family: sorted({network[2] for network in values if network[0] == family}, reverse=True)
                        for family in (4, 6)}

    def longest(self, network):
        """The longest route that contains all of the network, or None."""
        family, number, length = network
        for shorter in self.lengths[family]:
            if shorter <= length:
                route = truncated(family, number, shorter)
                if route in self.values:
                    return route
        return None


def intersection(one, other):
    return joined((a[0], max(a[1], b[1]), min(a[2], b[2])) for a in one for b in other if a[0] == b[0])


def complement(ranges):
    rest = []
    for family in (4, 6):
        at = 0
        for _, first, last in (a_range for a_range in ranges if a_range[0] == family):
            rest.append((family, at, first - 1))
            at = last + 1
        rest.append((family, at, LAST[family]))
    return joined(rest)


def count(ranges, family):
    return sum(last - first + 1 for own, first, last in ranges if own == family)


def networks_of(ranges):
    """The fewest networks of the set: each is the largest that begins at the first address which is left."""
    networks = []
    for family, first, last in ranges:
        while first <= last:
            length = WIDTH[family]
            while length > 0 and first % (1 << (WIDTH[family] - length + 1)) == 0 \
                    and first + (1 << (WIDTH[family] - length + 1)) - 1 <= last:
                length -= 1
            networks.append((family, first, length))
            first += 1 << (WIDTH[family] - length)
    return networks


def networks_text(ranges):
    return ", ".join(map(network_text, networks_of(ranges)))


def list_text(ranges):
    """The set as a text of ranges."""
    return ", ".join(map(range_text, ranges))


def changed(random_numbers, text):
    """The text with a character put in, left out or replaced."""
    at = random_numbers.randrange(len(text) + 1)
    kept = at + random_numbers.randrange(2)
    return text[:at] + random_numbers.choice(("", random_numbers.choice(CHARACTERS))) + text[kept:]


def some_texts(random_numbers, count):
    """Texts of addresses, of IPv4 addresses mapped into IPv6, of networks and of ranges. Two thirds are changed."""
    found = []
    for _ in range(count):
        family = random_numbers.choice((4, 6))
        number = random_numbers.randint(0, LAST[family])
        if random_numbers.random() < 0.3:
            family, number = 6, max(0, MAPPED + random_numbers.randint(-2**20, 2**32 + 2**20))
        text = address_text(family, number)
        kind = random_numbers.randrange(4)
        if kind == 0:
            text += "/%d" % random_numbers.randrange(WIDTH[family] + 2)
        elif kind == 1:
            text += random_numbers.choice(("-", " - ")) + address_text(family, random_numbers.randint(0, LAST[family]))
        for _ in range(random_numbers.randrange(3)):
            text = changed(random_numbers, text)
        found.append(text)
    return found


def address_in(text):
    """The address that the text is, in its usual form, or None."""
    address = address_of(text, False)
    return address and address_text(*address)


def unmapped(text):
    """The same, with a mapped address as the IPv4 address that it stands for."""
    family, number = address_of(text, False) or (0, 0)
    return address_text(4, number - MAPPED) if family == 6 and number >> 32 == 0xffff else address_in(text)


def entry_in(text):
    """The range of the entry that the text is, or None."""
    entry = range_of_entry(text.strip(" "), False)
    return entry and range_text(entry)
