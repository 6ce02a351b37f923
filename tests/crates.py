"""The crates of the repository, as crates.txt lists them: which there are, and which crates each one uses."""
import os

TOP = os.path.dirname(os.path.dirname(os.path.realpath(__file__)))


def listed():
    """The libraries that each crate uses, by the crate's name; of the repository and of the kit alike."""
    found = {}
    with open(os.path.join(TOP, "crates.txt"), encoding="utf8") as file:
        for line in file:
            head, colon, tail = line.partition("#")[0].partition(":")
            if colon:
                found[head.split()[0]] = tail.split()
    return found


def lowest_first(uses):
    """The names of the crates, each after the crates of the repository that it uses."""
    order = []

    def place(name):
        if name not in order and name in uses:
            for below in uses[name]:
                place(below)
            order.append(name)

    for name in sorted(uses):
        place(name)
    return order


def with_those_above(names, uses):
    """The crates of these names and all that use one of them, at any distance, lowest first."""
    found = set(names)
    for name in lowest_first(uses):
        if found & set(uses[name]):
            found.add(name)
    return [name for name in lowest_first(uses) if name in found]


def below(name, uses):
    """The crates of the repository that this crate uses, at any distance, lowest first."""
    found = []
    for used in uses[name]:
        if used in uses:
            found += [it for it in [*below(used, uses), used] if it not in found]
    return found
