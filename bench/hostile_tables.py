"""The table of lists that are made to be hard for netset. README.md explains the figures."""
import contextlib
import ipaddress
import math
import os
import shutil
import tempfile

from cells import MIB, head, mebibytes, milliseconds, ratio, row, shown
from programs import floor, note
from turns import Command, measured, with_lengths

LAST_IPV4, LAST_IPV6 = (1 << 32) - 1, (1 << 128) - 1
SIZES = 20_000, 80_000, 320_000  # lines
SIZES_OF_FILES = 62_500, 250_000, 1_000_000
LINES_OF_A_FILE = 100

# The bounds on the exponents: a sort takes a logarithm more than linear time.
TIME, MEMORY = 1.2, 1.1


def span(first, last, address=ipaddress.IPv4Address):
    return "%s-%s" % (address(first), address(last))


def nested(count):
    """Each range is inside the one before it."""
    return (span(index, LAST_IPV4 - index) for index in range(count))


def nested_outwards(count):
    """Each range is around the one before it."""
    return (span(index, LAST_IPV4 - index) for index in range(count, 0, -1))


def sawtooth(count):
    """Each address comes before the one before it, by turns from two ends, so that none is in order."""
    return ("%s" % ipaddress.IPv4Address(2 * (index if index % 2 else 2 * count - index)) for index in range(count))


def teeth(count):
    """Addresses that ascend a hundred times, each time between those that were there."""
    rounds = max(1, count // 100)
    return ("%s" % ipaddress.IPv4Address(2 * (index % 100 * rounds + index // 100)) for index in range(count))


def duplicates(count):
    """A hundred networks, repeated in turn."""
    return ("10.0.%d.0/25" % (index * 37 % 100 * 2) for index in range(count))


def widest_ipv4(count):
    """The IPv4 range that most networks are needed for."""
    return (span(1, LAST_IPV4 - 1) for _ in range(count))


def widest_ipv6(count):
    """The IPv6 range that most networks are needed for."""
    return (span(1, LAST_IPV6 - 1, ipaddress.IPv6Address) for _ in range(count))


def apart_ipv6(count):
    """IPv6 addresses that do not touch, descending."""
    return ("%s" % ipaddress.IPv6Address(2 * index) for index in range(count, 0, -1))


def long_comment(count):
    """One address, and a comment on its line that is the rest of the list."""
    yield "10.0.0.1 #" + " 10.0.0.1/32" * count


def long_line(count):
    """One line of digits, which is refused."""
    yield "1" * (12 * count)


def comments(count):
    """Addresses with comments that look like entries."""
    return ("10.%d.%d.%d ; ours, ; 10.0.0.0/8" % (index >> 16, index >> 8 & 255, index & 255) for index in range(count))


# Each kind of list: its name, the lines, whether iprange reads it, and the status.
KINDS = [
    ("nested, inwards", nested, True, 0),
    ("nested, outwards", nested_outwards, True, 0),
    ("sawtooth, from two ends", sawtooth, True, 0),
    ("sawtooth, a hundred teeth", teeth, True, 0),
    ("a hundred networks, repeated", duplicates, True, 0),
    ("widest IPv4 ranges", widest_ipv4, True, 0),
    ("widest IPv6 ranges", widest_ipv6, False, 0),
    ("IPv6 addresses apart, descending", apart_ipv6, False, 0),
    ("comments like entries", comments, False, 0),
    ("one long comment", long_comment, False, 0),
    ("one long line, refused", long_line, False, 2),
]
FILES = "files of %d lines" % LINES_OF_A_FILE


def written(path, lines):
    """Writes the lines, and returns the number of bytes."""
    with open(path, "w", encoding="ascii") as out:
        out.writelines(line + "\n" for line in lines)
    return os.path.getsize(path)


def files_of(folder, count):
    """The paths of files of addresses that do not touch, and the number of bytes in them."""
    addresses = teeth(count)
    paths = [os.path.join(folder, "%d.txt" % number) for number in range(count // LINES_OF_A_FILE)]
    size = sum(written(path, (next(addresses) for _ in range(LINES_OF_A_FILE))) for path in paths)
    return paths, size


@contextlib.contextmanager
def folder_of_lists():
    folder = tempfile.mkdtemp(prefix="ipnet-bench-")
    try:
        yield folder
    finally:
        shutil.rmtree(folder)


def exponent(sizes, figures, least=0, small=1):
    """The exponent of growth between the second and the third size, of what is above the least figure. 0 if at the
    third size that is small."""
    second, third = (max(figure - least, 1) for figure in figures[1:])
    return math.log(third / second) / math.log(sizes[2] / sizes[1]) if third >= small else 0


def hostile(bench):
    kinds = [kind for kind in KINDS if bench.wants(kind[0])]
    many = bench.wants(FILES)
    if not kinds and not many:
        return
    if not bench.programs.our_netset:
        note("there is no crate netset: the table of hostile lists is left out")
        return
    head("netset, union of hostile lists", "list", "bytes", "processor ms", "exponent of time", "bound",
         "iprange's ms", "of iprange's", "peak MiB", "exponent of memory", "bound", "iprange's MiB", "answers")
    for name, make, is_read, status in kinds:
        hostile_row(bench, name, lambda folder, count, make=make: one_file(folder, make(count)), is_read, status)
    if many:
        hostile_row(bench, FILES, files_of, True, 0, SIZES_OF_FILES)


def one_file(folder, lines):
    path = os.path.join(folder, "list.txt")
    size = written(path, lines)
    return [path], size


def hostile_row(bench, name, make, is_read, status, counts=SIZES):
    sizes, times, peaks = [], [], []
    with_iprange = is_read and bench.programs.iprange
    for count in counts:
        with folder_of_lists() as folder:
            paths, size = make(folder, count)
            commands = {"ours": Command([bench.programs.our_netset, "union", *paths], status)}
            if with_iprange:
                commands["iprange"] = Command([bench.programs.iprange, *paths], 0, with_lengths)
            found = measured(bench, commands)
        sizes.append(size)
        times.append(found.least("ours", "processor"))
        peaks.append(found.peak("ours"))
    of_time, of_memory = exponent(sizes, times), exponent(sizes, peaks, floor(), MIB)
    theirs = found.least("iprange", "processor")
    row(name, format(sizes[-1], ","), milliseconds(times[-1]), shown(of_time),
        bench.judged("time of " + name, of_time, TIME), milliseconds(theirs), shown(ratio(times[-1], theirs)),
        mebibytes(peaks[-1]), shown(of_memory), bench.judged("memory of " + name, of_memory, MEMORY),
        mebibytes(found.peak("iprange")), bench.compared("hostile, " + name, found.outputs))
