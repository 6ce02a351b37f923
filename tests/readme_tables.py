#!/usr/bin/env python3
"""The two tables of README.md that a script makes: what other tools print for the same lines, and times.

    tests/readme_tables.py            prints both tables as they should be
    tests/readme_tables.py --write    writes them into README.md

The lines of the first table are the code in its first column. Its other cells are what the tools print: the built
`netset`, and the Debian packages iprange, aggregate and python3-netaddr. The cells of a tool that is not installed, or
in another version than the table names, stay as they are. The times of the second table are copied from bench/README.md. tests/documents compares both.
"""
import os
import re
import shutil
import subprocess
import sys

TOP = os.path.dirname(os.path.dirname(os.path.abspath(__file__)))
NETSET = os.path.join(TOP, "crates/netset/out/netset")
PEERS_HEAD = "| Lines | "
SPEED_HEAD = "| Work | "
MERGE = """
import netaddr, sys
try:
    print(*netaddr.cidr_merge(sys.stdin.read().splitlines()), sep="\\n")
except (netaddr.AddrFormatError, ValueError) as err:
    sys.exit(repr(err))
"""
# of a longer output a cell shows the first two lines and the last
MOST_LINES = 4
# what `aggregate` prints to standard error for every input
NOT_A_WARNING = "aggregate: maximum prefix length permitted will be 32\n"
# the rows of the second table: the first column, the heading and the row in bench/README.md, the number of entries, and
# the columns there with our time and the times of iprange, the Rust crate and netaddr. A ratio as column gives the
# time by division: ("ours over it", COLUMN).
SPEED = [
    ("our program `ipnet`: all IPv4 ranges of `tor-geoipdb`, written as networks", "The program", "all IPv4 ranges",
     "lines", "processor ms", ("ours over it", "processor, of iprange's"),
     ("ours over it", "processor, of the original's"), None),
    ("`netset union`: the same addresses, as ranges `FIRST-LAST`", "netset", "union: all ranges, as FIRST-LAST",
     "lines", "processor ms", "iprange's ms", None, None),
    ("`netset difference`: two lists, each with the networks of forty countries", "netset",
     "difference: countries 1 to 40, and 21 to 60", "lines", "processor ms", "iprange's ms", None, None),
    ("library call `IpNet::aggregate`: random IPv4 networks", "Calls", "`IpNet::aggregate`, random IPv4", "items",
     "ours ms", None, "original ms", None),
    ("library call in Rattle for the union: two lists of networks", "Sets", "union, random_ipv4", "200,000", "ours ms", None,
     "original ms", "netaddr ms"),
]


def version(name):
    """The version of the tool that the head of the first table names."""
    return re.search(r"\b%s`? (\d[\d.]*)" % name, table_lines(read("README.md"), PEERS_HEAD)[0]).group(1)


def has_version(command, name):
    """Whether the command is installed, and what it prints names this version of the tool."""
    if not shutil.which(command[0]):
        return False
    ran = subprocess.run(command, stdout=subprocess.PIPE, stderr=subprocess.DEVNULL, universal_newlines=True)
    return version(name) in ran.stdout.split()


def netaddr_command():
    """The command of the first Python with netaddr; Debian's is not always the first on the path."""
    for python in ("python3", "/usr/bin/python3"):
        if has_version([python, "-c", "import netaddr; print(netaddr.__version__)"], "netaddr"):
            return [python, "-c", MERGE]
    return None


def commands():
    """The command of each column after the first; None if it is not installed."""
    return [[NETSET, "union", "-"] if os.access(NETSET, os.X_OK) else None,
            ["iprange"] if has_version(["iprange", "--version"], "iprange") else None,
            ["aggregate"] if shutil.which("aggregate") else None,
            netaddr_command()]


def cell(command, lines):
    """What the command prints for the lines: its output, a word on its messages, and its status if it is not 0."""
    ran = subprocess.run(command, input="".join(line + "\n" for line in lines), stdout=subprocess.PIPE,
                         stderr=subprocess.PIPE, universal_newlines=True)
    parts = ["`%s`" % line for line in ran.stdout.split("\n") if line]
    if len(parts) > MOST_LINES:
        parts = ["%d lines: %s, %s, .., %s" % (len(parts), *parts[:2], parts[-1])]
    if "netaddr" in command[-1] and ran.returncode:
        return "exception"
    if ran.returncode:
        return ", ".join([*(parts or ["refused"]), "status %d" % ran.returncode])
    has_warning = ran.stderr.replace(NOT_A_WARNING, "") != ""
    return ", ".join([*(parts or ["nothing"]), *(["warning"] if has_warning else [])])


def table_lines(text, head):
    """The lines of the table of a document whose first line begins so."""
    lines = text.split("\n")
    start = next(number for number, line in enumerate(lines) if line.startswith(head))
    end = start
    while lines[end].startswith("|"):
        end += 1
    return lines[start:end]


def cells_of(line):
    return [part.strip() for part in line.strip("|").split("|")]


def row_of(cells):
    return "| " + " | ".join(cells) + " |"


def peers_table(readme):
    """The first table as it should be."""
    table = table_lines(readme, PEERS_HEAD)
    tools = commands()
    for number, line in enumerate(table[2:], 2):
        first, *others = cells_of(line)
        lines = re.findall(r"`([^`]*)`", first)
        found = [cell(tool, lines) if tool else old for tool, old in zip(tools, others)]
        table[number] = row_of([first, *found])
    return table


def missing_tools():
    names = ("netset", "iprange " + version("iprange"), "aggregate", "netaddr " + version("netaddr"))
    return [name for name, command in zip(names, commands()) if command is None]


def bench_row(bench, heading, *names):
    """The cells of a row of bench/README.md by their columns. The names are in its first cells."""
    section = bench[re.search(r"(?m)^### %s\b.*$" % re.escape(heading), bench).end():]
    table = table_lines(section, "| ")
    row = next(line for line in table[2:] if cells_of(line)[:len(names)] == list(names))
    return dict(zip(cells_of(table[0]), cells_of(row)))


def milliseconds(row, ours, column):
    """A time as a whole number of milliseconds, with two digits if it is worked out from a ratio."""
    if column is None:
        return ""
    if isinstance(column, tuple):
        value = float("%.2g" % (float(row[ours]) / float(row[column[1]])))
    else:
        value = float(row[column])
    return format(round(value), ",")


def speed_table(readme, bench):
    """The second table as it should be."""
    table = table_lines(readme, SPEED_HEAD)[:2]
    for label, heading, name, entries, ours, *others in SPEED:
        row = bench_row(bench, heading, name)
        times = [milliseconds(row, ours, column) for column in (ours, *others)]
        table.append(row_of([label, row.get(entries, entries), *times]))
    return table


def read(path):
    with open(os.path.join(TOP, path), encoding="utf-8") as file:
        return file.read()


def tables_of(readme):
    """(the table that README.md has, the table as it should be), for both tables."""
    return [(table_lines(readme, PEERS_HEAD), peers_table(readme)),
            (table_lines(readme, SPEED_HEAD), speed_table(readme, read("bench/README.md")))]


def main(words):
    readme = read("README.md")
    for old, new in tables_of(readme):
        print("\n".join(new))
        readme = readme.replace("\n".join(old), "\n".join(new))
    if words == ["--write"]:
        with open(os.path.join(TOP, "README.md"), "w", encoding="utf-8") as file:
            file.write(readme)


if __name__ == "__main__":
    main(sys.argv[1:])
