"""Formats the cells of the tables, and records missed bounds and differing answers."""

MIB = 1 << 20


class Bench:
    """The programs, how often each runs, and the findings: bounds held, bounds missed, answers that differ."""

    def __init__(self, programs, rounds, only):
        self.programs, self.rounds, self.only = programs, rounds, only
        self.held, self.missed, self.differing = 0, [], []
        self.is_any_wanted = False

    def wants(self, *names):
        """Whether the row with these names was requested."""
        wanted = any(self.only in name for name in names if name)
        self.is_any_wanted |= wanted
        return wanted

    def judged(self, row, value, bound, goal=None):
        """The cell of a bound: the bound, its goal in brackets, and whether the rounded value is within the bound."""
        if bound is None:
            return "-"
        cell = "%g (%g)" % (bound, goal) if goal else "%g" % bound
        if value is None:
            return cell
        if round(value, 2) <= bound:
            self.held += 1
            return cell + " held"
        self.missed.append(row)
        return cell + " **missed**"

    def compared(self, row, answers):
        """The cell that says whether all programs gave the same answer."""
        if len(answers) < 2:
            return "-"
        if len(set(answers)) == 1:
            return "same"
        self.differing.append(row)
        return "**DIFFER**"


def row(*cells):
    print("| " + " | ".join(cells) + " |", flush=True)


def head(title, *cells):
    print("\n### %s\n" % title)
    row(*cells)
    row(*["---"] + ["---:"] * (len(cells) - 1))


def milliseconds(nanoseconds):
    return "-" if nanoseconds is None else "%.2f" % (nanoseconds / 1e6)


def mebibytes(size):
    return "-" if size is None else "%.1f" % (size / MIB)


def ratio(one, other):
    return None if one is None or other is None else one / other


def shown(number):
    return "-" if number is None else "%.2f" % number


def least(times):
    return min(times) if times else None
