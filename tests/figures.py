#!/usr/bin/env python3
"""The figures in sentences of documents that are copied from the tables of bench/README.md.

    tests/figures.py            prints each sentence as it should be
    tests/figures.py --write    writes them into the documents

tests/documents compares them. tests/readme_tables.py does the same for a table of README.md.
"""
import os
import re
import sys

from readme_tables import TOP, bench_row, read

PROGRAM = "The program"
LENGTHS = "The program by the number of lines"
PARTS = "The program on parts of a list"
# the document, the sentence with `{}` for each figure, and of each figure the table, its row, its column and its form
FIGURES = [
    ("docs/NETSET.md", "{} MiB for a million IPv4 routes, {} MiB for a million IPv6 /48.",
     [(PROGRAM, ("IPv4 routes",), "peak MiB", "whole"), (PROGRAM, ("/48 inside forty /32",), "peak MiB", "whole")]),
    ("docs/NETSET.md", "`ipnet` aggregated 10^7 IPv4 routes (156 MB) in {} s of processor time with {} MiB.",
     [(PARTS, ("the whole list",), "processor ms", "seconds"), (PARTS, ("the whole list",), "peak MiB", "whole")]),
    ("docs/NETSET.md", "In lists of 10^6 lines and more, a line takes {} to {} bytes of memory for IPv4, and {} for "
     "IPv6 /48.",
     [(LENGTHS, ("routes_ipv4", "10,000,000"), "bytes a line", "whole"),
      (LENGTHS, ("routes_ipv4", "1,000,000"), "bytes a line", "whole"),
      (LENGTHS, ("sites_ipv6", "1,000,000"), "bytes a line", "whole")]),
    *(("docs/NETSET.md", "| %s | {} s | {} | {} MiB |" % label,
       [(PARTS, (name,), "processor ms", "seconds"), (PARTS, (name,), "lines out", "text"),
        (PARTS, (name,), "peak MiB", "whole")])
      for label, name in (("`ipnet < list`", "the whole list"),
                          ("four parts, then their results", "four parts, then their results"),
                          ("fifteen parts, then their results", "fifteen parts, then their results"))),
    ("SECURITY.md", "`ipnet` takes {} MiB and {} s for a million IPv4 routes.",
     [(PROGRAM, ("IPv4 routes",), "peak MiB", "whole"), (PROGRAM, ("IPv4 routes",), "processor ms", "seconds")]),
    ("SECURITY.md", "`netset route` takes {} MiB and {} s for a million addresses in a million routes.",
     [("netset", ("route: 10^6 addresses by 10^6 routes",), "peak MiB", "whole"),
      ("netset", ("route: 10^6 addresses by 10^6 routes",), "processor ms", "seconds")]),
]


def shown(value, form):
    """The figure as a sentence has it: a whole number, seconds with two digits from milliseconds, or as it is."""
    if form == "text":
        return value
    return "%d" % round(float(value)) if form == "whole" else "%#.2g" % (float(value) / 1000)


def sentences(document):
    """(the sentence as the document has it, or None; the sentence as it should be), for each of the document."""
    text, bench = read(document), read("bench/README.md")
    for path, sentence, figures in FIGURES:
        if path == document:
            found = re.search(re.escape(sentence).replace(r"\{\}", r"\d[\d.,]*(?:, then \d+)?"), text)
            values = [shown(bench_row(bench, heading, *row)[column], form) for heading, row, column, form in figures]
            yield found and found.group(), sentence.format(*values)


def main(words):
    for document in sorted({path for path, _, _ in FIGURES}):
        text = read(document)
        for old, new in sentences(document):
            print("%s: %s" % (document, new))
            text = text.replace(old, new) if old else text
        if words == ["--write"]:
            with open(os.path.join(TOP, document), "w", encoding="utf-8") as file:
                file.write(text)


if __name__ == "__main__":
    main(sys.argv[1:])
