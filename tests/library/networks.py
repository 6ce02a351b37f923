#!/usr/bin/env python3
"""Compares the calls of networks, addresses and masks with plain numbers, through `ipnet_probe`, on random values.

Run it from anywhere, as `tests/library/networks.py [--program PATH]`. It ends with the line `N passed, M failed`.
"""
import random

from model import (GREATEST, WIDTH, Network, address_text, debug_range, debug_walk, first_of, kind, largest_networks,
                   last_of, size, text, truncated, walk_left)
from support import Checks, ask_lines, read_arguments

NETWORKS = 5_000
REFUSED = "Err(PrefixLenError)"


class Questions:
    """The questions and the wanted answers."""

    def __init__(self):
        self.lines, self.wanted = [], []

    def own(self, family, name, wanted, *words):
        """Adds a question to the type of the family."""
        self.lines.append(" ".join([kind(family, name), *words]))
        self.wanted.append(wanted)

    def either(self, name, wanted, *words):
        """Adds a question to the type of both families."""
        self.lines.append(" ".join(["Ip" + name, *words]))
        self.wanted.append(wanted)

    def both(self, family, wanted, *words):
        """Adds a question to the network types of the family and of both families."""
        self.own(family, "Net", wanted, *words)
        self.either("Net", wanted, *words)


def truth(holds):
    """What `{:?}` writes of it."""
    return "true" if holds else "false"


def random_number(chance, family):
    """A number of the family, often near to a power of two or to the least or the greatest."""
    width = WIDTH[family]
    number = chance.choice((chance.getrandbits(width), chance.getrandbits(8), GREATEST[family] - chance.getrandbits(8),
                            (1 << chance.randrange(width)) - chance.randrange(2),
                            0xffff << 32 | chance.getrandbits(32),
                            chance.getrandbits(width) & chance.getrandbits(width) & chance.getrandbits(width)))
    return number & GREATEST[family]


def random_network(chance, family):
    """A network, with host bits or without."""
    net = Network(family, random_number(chance, family), chance.randrange(WIDTH[family] + 1))
    return chance.choice((net, truncated(net)))


def neighbour(chance, net):
    """A network that is close to the other: the same, its half, its supernet, its neighbour, or another."""
    step = size(net.family, net.length)
    number = (net.number + chance.choice((0, 0, step, -step, 1, -1))) & GREATEST[net.family]
    length = min(max(net.length + chance.choice((-1, 0, 0, 0, 1)), 0), WIDTH[net.family])
    return Network(net.family, number, length)


def add_one(questions, net):
    """The calls that take only a network."""
    family, width, given = net.family, WIDTH[net.family], text(net)
    host_mask = size(family, net.length) - 1
    plain = {
        "addr": address_text(family, net.number),
        "prefix_len": str(net.length),
        "max_prefix_len": str(width),
        "netmask": address_text(family, GREATEST[family] - host_mask),
        "hostmask": address_text(family, host_mask),
        "network": address_text(family, first_of(net)),
        "broadcast": address_text(family, last_of(net)),
        "trunc": text(truncated(net)),
        "supernet": "None" if net.length == 0 else "Some(%s)" % text(
            truncated(Network(family, net.number, net.length - 1))),
        "to_text": '"%s"' % given,
        "to_json": '"%s"' % given,
        "formats": ",".join([given] * 6),
        "from_str": "Ok(%s)" % given,
        "parse_legacy": "Ok(%s)" % given,
    }
    for call, wanted in plain.items():
        questions.both(family, wanted, call, given)
    own = list(net.number.to_bytes(width // 8, "big")) + [net.length]
    tagged = [0 if family == 4 else 1] + own
    questions.own(family, "Net", str(own), "to_bytes", given)
    questions.either("Net", str(tagged), "to_bytes", given)
    questions.own(family, "Net", "Ok(%s)" % given, "from_bytes", ",".join(map(str, own)))
    questions.either("Net", "Ok(%s)" % given, "from_bytes", ",".join(map(str, tagged)))
    inside = family == 4 and net.length < 31
    ends = first_of(net) + inside, last_of(net) - inside
    questions.own(family, "Net", debug_range(family, *ends), "hosts", given)
    questions.either("Net", debug_range(family, *ends, True), "hosts", given)


def add_constructors(questions, chance, family):
    """The calls that make a network of an address and a length or a mask, and those that read masks."""
    number, width = random_number(chance, family), WIDTH[family]
    ip, length = address_text(family, number), chance.randrange(256)
    given = "%s/%d" % (ip, length)
    questions.both(family, "Ok(%s)" % given if length <= width else REFUSED, "new", ip, str(length))
    questions.own(family, "Net", given if length <= width else "no such question", "new_assert", ip, str(length))
    questions.either("Net", "Some(%s)" % given if length <= width else "None", "new_assert", ip, str(length))
    questions.both(family, "%s/%d" % (ip, width), "from", ip)
    for mask_family in (4, 6):
        mask = GREATEST[mask_family] - ((1 << chance.randrange(WIDTH[mask_family] + 1)) - 1)
        if chance.random() < 0.3:
            mask = random_number(chance, mask_family)
        shown = address_text(mask_family, mask)
        ones = bin(mask).count("1")
        is_mask = mask == GREATEST[mask_family] - (size(mask_family, ones) - 1)
        wanted = "Ok(%d)" % ones if is_mask else REFUSED
        questions.own(mask_family, "Addr", wanted, "mask_to_prefix", shown)
        questions.either("Addr", wanted, "mask_to_prefix", shown)
        wanted = "Ok(%s/%d)" % (ip, ones) if is_mask and ones <= width else REFUSED
        questions.either("Net", wanted, "with_netmask", ip, shown)
        if mask_family == family:
            questions.own(family, "Net", wanted, "with_netmask", ip, shown)


def add_two(questions, chance, net):
    """The calls that take two networks, or a network and an address, of one family or of two."""
    other = neighbour(chance, net)
    if chance.random() < 0.2:
        other = random_network(chance, chance.choice((4, 6)))
    left, right, ip = text(net), text(other), address_text(other.family, other.number)
    is_alike = net.family == other.family
    joined = [truncated(Network(one.family, one.number, one.length - 1)) for one in (net, other) if one.length]
    answers = [
        (truth(len(joined) == 2 and joined[0] == joined[1]), "is_sibling", right),
        (truth(is_alike and net.length <= other.length and first_of(net) <= other.number <= last_of(net)),
         "contains", right),
        (truth(is_alike and first_of(net) <= other.number <= last_of(net)), "contains", ip),
        ("(%s, %s, %s)" % (truth(net == other), "Less" if net < other else "Greater" if net > other else "Equal",
                           truth(net == other)), "compare", right),
    ]
    for wanted, call, argument in answers:
        questions.either("Net", wanted, call, left, argument)
        if is_alike:
            questions.own(net.family, "Net", wanted, call, left, argument)


def add_arithmetic(questions, chance, family):
    """Sums, differences and bits of two numbers of a family."""
    left, right = random_number(chance, family), random_number(chance, family)
    first, second = address_text(family, left), address_text(family, right)
    results = {"saturating_sub": max(left - right, 0), "bitand": left & right, "bitor": left | right}
    for call, wanted in results.items():
        questions.own(family, "Addr", address_text(family, wanted), call, first, str(right))
        shown = str(wanted) if call == "saturating_sub" else address_text(family, wanted)
        questions.own(family, "Addr", shown, call, first, second)
    total = min(left + right, GREATEST[family])
    questions.own(family, "Addr", address_text(family, total), "saturating_add", first, str(right))
    questions.own(family, "Addr", first, "text", first)


def add_subnets(questions, chance, net):
    """The subnets of a network of up to seven bits more, or of a length that is refused."""
    length = net.length + chance.randrange(-3, 8)
    if not net.length <= length <= WIDTH[net.family]:
        questions.both(net.family, "PrefixLenError" if length >= 0 else "no such question",
                       "subnets", text(net), str(length))
        return
    start, end = first_of(net), last_of(net)
    networks = largest_networks(net.family, start, end, length)
    left = walk_left(net.family, start, end, networks)
    shown = "[%s] " % ", ".join(map(text, networks))
    questions.own(net.family, "Net", shown + debug_walk(net.family, *left, length), "subnets", text(net), str(length))
    questions.either("Net", shown + debug_walk(net.family, *left, length, True), "subnets", text(net), str(length))


def main():
    program = read_arguments(__doc__).program
    chance = random.Random(5)
    checks, questions = Checks(), Questions()
    for _ in range(NETWORKS):
        family = chance.choice((4, 6))
        net = random_network(chance, family)
        add_one(questions, net)
        add_constructors(questions, chance, family)
        add_two(questions, chance, net)
        add_arithmetic(questions, chance, family)
        add_subnets(questions, chance, net)
    checks.check_all("networks", questions.lines, ask_lines(program, questions.lines), questions.wanted)
    checks.finish()


if __name__ == "__main__":
    main()
