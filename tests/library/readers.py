#!/usr/bin/env python3
"""Compares the readers of network texts with a plain slow reader, through `ipnet_probe`.

Run it from anywhere, as `tests/library/readers.py [--program PATH]`. The texts are all texts of up to six pieces, all
decimals of up to four digits, all counts of groups before and after `::`, and random texts. Each text is read by the
strict and the legacy reader of all three types. It ends with the line `N passed, M failed`.
"""
import random
from itertools import product

from model import Network, dotted, read_tables, text
from support import Checks, ask_lines, read_arguments

# The texts are made of these pieces; digits side by side make longer numbers.
PIECES = ["0", "8", "f", "129", "255", "256", ".", ":", "::", "/", "1.2.3.", "1:2:3:4:5:6:"]
DIGITS = set("0123456789")
HEXADECIMALS = set("0123456789abcdefABCDEF")
RANDOM_TEXTS = 100_000
BATCH = 200_000
NOTHING = "(None, None, None)"


def decimal(given, digits, greatest, strict):
    """The number that the text is in decimal, with at most `digits` digits, and at most `greatest`. A strict text
    begins with `0` only if it is `0`."""
    if not 0 < len(given) <= digits or not set(given) <= DIGITS:
        return None
    if strict and given != "0" and given[0] == "0":
        return None
    return int(given) if int(given) <= greatest else None


def dotted_number(given, strict):
    """The number of an IPv4 address: four octets with `.` between them."""
    octets = [decimal(octet, 3, 255, strict) for octet in given.split(".")]
    if len(octets) != 4 or None in octets:
        return None
    return int.from_bytes(bytes(octets), "big")


def groups(given, may_end_dotted, strict):
    """The groups of the text, with `:` between them, none for the empty text. The last may be a dotted address, which
    is two groups, if that is allowed."""
    found = []
    parts = given.split(":") if given else []
    for place, part in enumerate(parts):
        if may_end_dotted and place == len(parts) - 1 and "." in part:
            number = dotted_number(part, strict)
            if number is None:
                return None
            found += [number >> 16, number & 0xffff]
        elif 0 < len(part) <= 4 and set(part) <= HEXADECIMALS:
            found.append(int(part, 16))
        else:
            return None
    return found


def ipv6_number(given, strict):
    """The number of an IPv6 address. The strict reader has `::` for at least one group, the legacy reader also for none
    if at most seven groups come before it."""
    head, compression, tail = given.partition("::")
    if not compression:
        found = groups(given, True, strict)
        if found is None or len(found) != 8:
            return None
    else:
        head, tail = groups(head, False, strict), groups(tail, True, strict)
        if head is None or tail is None or len(head) > 7 or len(head) + len(tail) > (7 if strict else 8):
            return None
        found = head + [0] * (8 - len(head) - len(tail)) + tail
    return sum(group << 16 * (7 - place) for place, group in enumerate(found))


def slowly_read(given, strict):
    """The network that the whole text is, or None."""
    start, slash, length = given.partition("/")
    if not slash:
        return None
    if ":" in start:
        length = decimal(length, 3, 128, strict)
        number = None if length is None else ipv6_number(start, strict)
        return None if number is None else Network(6, number, length)
    length = decimal(length, 2, 32, strict)
    number = None if length is None else dotted_number(start, strict)
    return None if number is None else Network(4, number, length)


def reading(net):
    """What the readers of the three types give."""
    if net is None:
        return NOTHING
    some = "Some(%s)" % text(net)
    return "(%s, None, %s)" % (some, some) if net.family == 4 else "(None, %s, %s)" % (some, some)


def wanted(given):
    """What all six readers give for the text."""
    if "/" not in given:
        return NOTHING + " " + NOTHING
    strict = slowly_read(given, True)
    # Every text that the strict reader reads is read alike by the legacy reader: the law `strict_is_legacy`.
    return reading(strict) + " " + reading(slowly_read(given, False))


def check(checks, program, label, texts):
    """Reads the texts, none of which needs an escape."""
    for start in range(0, len(texts), BATCH):
        batch = texts[start:start + BATCH]
        answers = ask_lines(program, ["Text read " + given for given in batch])
        checks.check_all(label, batch, answers, [wanted(given) for given in batch])


def check_pieces(checks, program):
    """All texts of up to six pieces."""
    for count in range(6):
        check(checks, program, "texts of %d pieces" % count,
              ["".join(pieces) for pieces in product(PIECES, repeat=count)])
    for first in PIECES:
        check(checks, program, "texts of six pieces",
              [first + "".join(pieces) for pieces in product(PIECES, repeat=5)])


def check_decimals(checks, program):
    """All digits of up to four places in each place of a decimal, with the value computed from them."""
    for label, most, greatest, before, after in read_tables("grammar")["decimals"]:
        texts, answers = [], []
        for places in range(1, 5):
            for number in range(10**places):
                digits = str(number).zfill(places)
                is_legacy = places <= int(most) and number <= int(greatest)
                is_strict = is_legacy and digits == str(number)
                net = slowly_read("%s%d%s" % (before, number, after), True) if is_legacy else None
                assert (net is not None) == is_legacy
                texts.append(before + digits + after)
                answers.append(reading(net if is_strict else None) + " " + reading(net))
        found = ask_lines(program, ["Text read " + given for given in texts])
        checks.check_all("texts: " + label, texts, found, answers)


def joined(digit, count, is_dotted):
    """The text of `count` groups of two digits, and their numbers. The last two are a dotted address if asked for."""
    plain = max(count - 2, 0) if is_dotted else count
    parts = ["%s%x" % (digit, place) for place in range(plain)]
    numbers = [int(part, 16) for part in parts]
    if is_dotted:
        return ":".join(parts + ["1.2.3.4"]), numbers + [0x0102, 0x0304]
    return ":".join(parts), numbers


def of_groups(numbers):
    """The network of eight groups with the prefix length 64; None if there are not eight."""
    if len(numbers) != 8:
        return None
    return Network(6, sum(group << 16 * (7 - place) for place, group in enumerate(numbers)), 64)


def check_groups(checks, program):
    """All counts of groups, with and without `::` and a dotted address."""
    texts, answers = [], []
    for count in range(2, 12):
        for is_dotted in (False, True):
            given, numbers = joined("a", count, is_dotted)
            texts.append(given + "/64")
            answers.append(reading(of_groups(numbers)) + " " + reading(of_groups(numbers)))
    for head in range(10):
        for tail in range(10):
            for is_dotted in (False, True)[:1 if tail < 2 else 2]:
                before, first = joined("a", head, False)
                after, last = joined("b", tail, is_dotted)
                net = of_groups(first + [0] * (8 - head - tail) + last)
                legacy = net if head <= 7 and head + tail <= 8 else None
                strict = net if head + tail <= 7 else None
                texts.append("%s::%s/64" % (before, after))
                answers.append(reading(strict) + " " + reading(legacy))
    found = ask_lines(program, ["Text read " + given for given in texts])
    checks.check_all("texts: groups", texts, found, answers)


def check_random(checks, program):
    """Texts near to networks: the canonical or another text of a random network with up to two changes."""
    chance = random.Random(1)
    texts = []
    for _ in range(RANDOM_TEXTS):
        if chance.random() < 0.3:
            given = "%s/%d" % (dotted(chance.getrandbits(32)), chance.randrange(40))
        else:
            numbers = [chance.choice((0, 0, 1, 0xffff, chance.getrandbits(16))) for _ in range(8)]
            parts = [chance.choice(("%x", "%X", "%04x")) % number for number in numbers]
            if chance.random() < 0.4:
                first = chance.randrange(8)
                parts[first:chance.randrange(first, 9)] = [""]
            given = ":".join(parts).replace(":::", "::") + "/%d" % chance.randrange(140)
        given = list(given)
        for _ in range(chance.choice((0, 0, 1, 2))):
            place = chance.randrange(len(given))
            given[place:place + chance.randrange(2)] = chance.choice(["", *"0189af:./", "::"])
            given = given or ["/"]
        texts.append("".join(given))
    check(checks, program, "random texts", texts)


def main():
    program = read_arguments(__doc__).program
    checks = Checks()
    check_decimals(checks, program)
    check_groups(checks, program)
    check_random(checks, program)
    check_pieces(checks, program)
    checks.finish()


if __name__ == "__main__":
    main()
