#!/usr/bin/env python3
"""Counts the words and forms that the plain English of this repository avoids, in documents and in comments.

    tests/english.py              one line for each file with its count, the most first, and the sum
    tests/english.py PATH..       each place in these files: path, line number, the form and its line

CONTRIBUTING.md says what to write instead. `places(top)` yields the places, for other scripts. It reads documents
(.md, .1) outside fenced blocks, comments of sources, and docstrings of Python. Code in backquotes and the headline in
docs/PROVED.md are left out.
"""
import collections
import os
import re
import subprocess
import sys

TOP = os.path.dirname(os.path.dirname(os.path.abspath(__file__)))
FORMS = [
    re.compile(r"\b(?:alone|tells?|told|stands?(?! for\b)|where)\b", re.I),
    re.compile(r"\b(?:wants? of|but for|so many|(?:that|those) of|(?<!there )(?:is|are) no)\b(?! longer)", re.I),
    re.compile(r"\b(?:behind|takes? (?:no |the )?memory|gives? back)\b", re.I),
    # a sentence that begins with "Of ..", "Who ..", "What .."
    re.compile(r"(?:^|(?<=[.;:] ))(?:Of|Who|What) [a-z]"),
    # `answers` as a verb
    re.compile(r"\banswers\b(?! (?:to|are|of|and|in|that|differ)\b)(?!\s*[.,;:|])"),
]
COMMENTS = {
    ".rt": r"\s*//[/!]? ?(.*)",
    ".rs": r"\s*//[/!]? ?(.*)",
    ".antt": r"\s*-- ?(.*)",
    ".h": r"\s*/?\*+ ?(.*)",
    ".c": r"\s*(?://|/?\*) ?(.*)",
    ".py": r"\s*# ?(.*)",
    "": r"\s*# ?(.*)",
}
DOCUMENTS = (".md", ".1")
HEADLINE = "> **The headline.**"


def tracked(top):
    found = subprocess.run(["git", "-C", top, "ls-files", "-co", "--exclude-standard"], stdout=subprocess.PIPE,
                           universal_newlines=True, check=True).stdout
    return [path for path in found.split("\n") if path and os.path.isfile(os.path.join(top, path))]


def ending_of(path):
    """The ending of the file's name; a text NAME.rt.txt is a source in Rattle."""
    return ".rt" if path.endswith(".rt.txt") else os.path.splitext(path)[1]


def is_prose(path):
    """Whether the file has prose to count: a document, or a source with comments."""
    ending = ending_of(path)
    return ending in DOCUMENTS or ending in COMMENTS and not os.path.basename(path).startswith(("LICENSE", "."))


def document_lines(lines):
    """(number, text) of each line of a document that is outside a fenced block."""
    is_fenced = False
    for number, line in lines:
        if line.startswith("```"):
            is_fenced = not is_fenced
        elif not is_fenced and not line.startswith(HEADLINE):
            yield number, line


def comment_lines(ending, lines):
    """(number, text) of each comment line of a source, and of each line of a docstring."""
    is_docstring = False
    for number, line in lines:
        quotes = line.count('"""') if ending in (".py", "") else 0
        comment = re.match(COMMENTS[ending], line)
        if is_docstring or quotes:
            yield number, line.strip()
        elif comment:
            yield number, comment.group(1)
        if quotes % 2:
            is_docstring = not is_docstring


def prose_lines(top, path):
    """(number, text) of each line of prose in the file, without code in backquotes."""
    with open(os.path.join(top, path), encoding="utf-8", errors="replace") as file:
        lines = list(enumerate(file.read().split("\n"), 1))
    ending = ending_of(path)
    found = document_lines(lines) if ending in DOCUMENTS else comment_lines(ending, lines)
    for number, text in found:
        yield number, re.sub(r"`[^`]*`", "`_`", text)


def places(top, paths=None):
    """Yields (path, line number, text) of each place; the text is the form that was found and its line."""
    for path in paths or tracked(top):
        if not is_prose(path):
            continue
        for number, text in prose_lines(top, path):
            for form in FORMS:
                for match in form.finditer(text):
                    yield path, number, "%s: %s" % (match.group(0), text.strip())


def main(paths):
    if paths:
        for path, number, text in places(TOP, [os.path.relpath(path, TOP) for path in paths]):
            print("%s:%d: %s" % (path, number, text))
        return
    counts = collections.Counter(path for path, _, _ in places(TOP))
    for path, count in sorted(counts.items(), key=lambda item: (-item[1], item[0])):
        print("%5d %s" % (count, path))
    print("%d places in %d files" % (sum(counts.values()), len(counts)))


if __name__ == "__main__":
    main(sys.argv[1:])
