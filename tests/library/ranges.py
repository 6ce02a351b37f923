#!/usr/bin/env python3
"""Compares ranges of addresses with plain numbers, through `ipnet_probe`: each answer, and the stored ends after it.

Run it from anywhere, as `tests/library/ranges.py [--program PATH]`. It asks every call on every range of up to five
numbers at both ends of both families, and random calls in turn on random ranges. It ends with the line
`N passed, M failed`.
"""
import random

from model import GREATEST, WIDTH, address_text, debug_range, kind, range_text
from support import Checks, ask_lines, read_arguments

RANDOM_RANGES = 20_000


def call(name, number, start, end):
    """The number that a call on a range with these stored ends returns, or None, and the stored ends after the call.

    A range that a call has used up stores 1 and 0. `next` and `next_back` leave an empty range as it is."""
    count = max(end - start + 1, 0)
    if name in ("next", "next_back") and not count:
        return None, start, end
    passed = number if name in ("nth", "nth_back") else 0
    if passed >= count:
        return None, 1, 0
    if name in ("next", "nth"):
        answer, start = start + passed, start + passed + 1
    else:
        answer, end = end - passed, end - passed - 1
    return (answer, start, end) if start <= end else (answer, 1, 0)


def whole(name, family, start, end):
    """What `{:?}` writes of the answer of a call that leaves the range as it is."""
    count = max(end - start + 1, 0)
    if name == "size_hint":
        return "(%d, %s)" % (min(count, 2**64 - 1), "Some(%d)" % count if count < 2**64 else "None")
    if name == "count":
        return "Some(%d)" % count if count < 2**64 else "None"
    if not count:
        return "None"
    return "Some(%s)" % address_text(family, start if name == "min" else end)


class Questions:
    """The questions and the wanted answers."""

    def __init__(self):
        self.lines, self.wanted = [], []

    def add(self, family, start, end, calls):
        """Adds a question to both types: calls in turn, each a name and a number."""
        answers = []
        given = range_text(family, start, end)
        for name, number in calls:
            if name in ("next", "next_back", "nth", "nth_back"):
                answer, start, end = call(name, number, start, end)
                answers.append("None" if answer is None else "Some(%s)" % address_text(family, answer))
            else:
                answers.append(whole(name, family, start, end))
        shown = ",".join("%s:%d" % pair for pair in calls)
        for name, either in ((kind(family, "AddrRange"), False), ("IpAddrRange", True)):
            self.lines.append("%s calls %s %s" % (name, given, shown))
            self.wanted.append(" ".join(answers + [debug_range(family, start, end, either)]))


def add_small(questions):
    """Every call on every range of up to five numbers at both ends of both families."""
    for family in (4, 6):
        for first in (0, GREATEST[family] - 4):
            for start in range(first, first + 5):
                for end in range(first, first + 5):
                    for name in ("next", "next_back", "nth", "nth_back"):
                        for number in range(7):
                            questions.add(family, start, end, [(name, number)])
                    questions.add(family, start, end, [(name, 0) for name in WHOLE])


WHOLE = ("size_hint", "count", "min", "max", "last")


def add_random(questions):
    """Random calls in turn on random ranges."""
    chance = random.Random(4)
    for _ in range(RANDOM_RANGES):
        family = chance.choice((4, 6))
        bits = chance.choice((3, 8, 32, 64, 65, WIDTH[family]))
        start = chance.getrandbits(WIDTH[family])
        end = min(max(start + chance.getrandbits(min(bits, WIDTH[family])) - 2, 0), GREATEST[family])
        names = ("next", "next_back", "nth", "nth_back") + WHOLE
        calls = [(chance.choice(names), chance.choice((0, 1, 2, chance.getrandbits(min(bits, 64)))))
                 for _ in range(chance.randrange(1, 12))]
        questions.add(family, start, end, calls)


def main():
    program = read_arguments(__doc__).program
    checks, questions = Checks(), Questions()
    add_small(questions)
    add_random(questions)
    checks.check_all("ranges", questions.lines, ask_lines(program, questions.lines), questions.wanted)
    checks.finish()


if __name__ == "__main__":
    main()
