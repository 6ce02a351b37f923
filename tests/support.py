"""What the scripts of tests/ share: the built programs, questions to the probe, tables of rows, and the counts.

This is a module, not a script: `from support import Checks, ask, probe_path` in a script of tests/.
"""
import argparse
import os
import subprocess
import sys
from urllib.parse import quote

TOP = os.path.dirname(os.path.dirname(os.path.abspath(__file__)))

# Bytes of a word that need no percent sign; a blank, a newline, NUL and `%` do.
PLAIN = "!\"#$&'()*+,-./:;<=>?@[\\]^_`{|}~"

MOST_FAILURES_SHOWN = 20

# the part of their rounds that the scripts make, in percent from 1 to 100: fewer than all only in tests/installed
PERCENT = int(os.environ.get("IPNET_ROUNDS", "100"))


def rounds(count):
    """The part of the rounds of a script that it makes."""
    return max(1, count * PERCENT // 100)


def built_program(name):
    """The path of the program that `rt ci`, `rt run` or `rt try` left in the crate."""
    return os.path.join(TOP, "crates", name, "out", name)


def is_program(path):
    """Whether there is a program that can be run."""
    return os.access(path, os.X_OK)


def read_arguments(description, program="ipnet_probe", is_needed=True):
    """Parses the command line: `--program PATH`. Ends the script if there is no such program and it is needed."""
    parser = argparse.ArgumentParser(description=description)
    parser.add_argument("--program", default=built_program(program), metavar="PATH", help="the program to ask")
    arguments = parser.parse_args()
    if is_needed and not is_program(arguments.program):
        sys.exit("no program {}: build it with `rt run` in crates/{}".format(arguments.program, program))
    return arguments


def line_of(words):
    """The question as a line: the words, percent-encoded, with one blank between two."""
    return " ".join(quote(word, safe=PLAIN) for word in words)


def ask_lines(program, lines):
    """The answers to the questions, each a line. Each word is encoded already."""
    given = "".join(line + "\n" for line in lines).encode()
    run = subprocess.run([program], input=given, stdout=subprocess.PIPE, check=False)
    answers = run.stdout.decode().split("\n")
    answers.pop()
    if run.returncode != 0 or len(answers) != len(lines):
        sys.exit("{}: status {}, {} answers to {} questions".format(
            program, run.returncode, len(answers), len(lines)))
    return answers


def ask(program, questions):
    """The answers to the questions, each a list of words."""
    return ask_lines(program, [line_of(words) for words in questions])


def read_table(path, columns):
    """The rows of a table: cells between `|`, without the blanks around them. A row goes on after a `\\` at the end of
    its line; a line that begins with `#` is a comment. Cells that a row lacks are empty."""
    with open(path, encoding="utf-8") as file:
        text = file.read().replace("\\\n", "")
    rows = []
    for line in text.split("\n"):
        if line.strip() and not line.startswith("#"):
            cells = [cell.strip() for cell in line.split("|")]
            rows.append(cells + [""] * (columns - len(cells)))
    return rows


class Checks:
    """Counts the checks that passed, those that failed, and the parts that were skipped."""

    def __init__(self):
        self.passed = 0
        self.failed = 0
        self.skipped = 0

    def check(self, label, found, wanted):
        """Counts the check as passed if the two are equal, and else prints its label and both."""
        if found == wanted:
            self.passed += 1
            return
        self.failed += 1
        if self.failed <= MOST_FAILURES_SHOWN:
            print("FAILED: {}\n  found  {}\n  wanted {}".format(label, found, wanted))

    def check_all(self, label, questions, found, wanted):
        """Checks each answer to the questions. The label is printed before the question of a failed check."""
        if found == wanted:
            self.passed += len(wanted)
            return
        if len(found) != len(wanted):
            self.check(label + ": how many answers", len(found), len(wanted))
        for question, one, other in zip(questions, found, wanted):
            self.check("{}: {}".format(label, question), one, other)

    def skip(self, missing):
        """Counts a part that cannot run here, and prints what is missing."""
        self.skipped += 1
        print("skipped: " + missing)

    def finish(self):
        """Prints the counts, and ends the script: with status 0 if no check failed."""
        counts = "{} passed, {} failed".format(self.passed, self.failed)
        print(counts + (", %d skipped" % self.skipped if self.skipped else ""))
        sys.exit(0 if self.failed == 0 and self.passed > 0 else 1)
