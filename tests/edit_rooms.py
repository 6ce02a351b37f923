"""Copies of the repository in which `tests/wrong_bodies` proves crates and tries edits.

Each crate has a tree: the crate, which is proved there first, and the libraries that it uses, as their trees built
them.
A batch of edits has a room: the tree again, by hard links, which is removed after the check. So each check begins with
the proofs of the right bodies, and no verdict depends on the checks before it. A check writes new files in the place of
old ones, so it changes nothing in the tree. If `rt ci` has proved and built a crate, its tree has no proofs at first:
then the first batch proves the other functions too, and leaves the tree what it proved. This module is not run:
`tests/wrong_bodies` imports it.
"""
import os
import re
import shutil
import subprocess
import time

from crates import below
from edit_files import TOP, read_text
from edit_verdicts import Report

SOURCES = ("src", "specs", "proofs")
# with edits of so few functions, a crate that no other uses is proved only for these functions
FEW = 8


class Check:
    """What a check printed and how it ended, with its seconds, and the seconds of a processor that it used."""

    def __init__(self, report, is_proved, seconds, used):
        self.report = report
        self.is_proved = is_proved
        self.seconds = seconds
        self.used = used

    def times(self):
        return "%.0f s, %.0f s of a processor" % (self.seconds, self.used)


class Rooms:
    """The trees and rooms below a folder. `uses` has the libraries that each crate uses, by its name."""

    def __init__(self, folder, uses):
        self.folder = folder
        self.uses = uses
        self.used = 0

    def libraries_below(self, crate):
        """The crates of the repository that this crate uses, at any distance, lowest first."""
        return below(crate, self.uses)

    def tree(self, crate):
        return os.path.join(self.folder, "trees", crate)

    def prove(self, crate, jobs, functions=None):
        """Makes the tree of a crate whose libraries have trees, and proves the crate, or only these functions."""
        tree = self.tree(crate)
        libraries = self.libraries_below(crate)
        write_lists(tree, [*libraries, crate])
        for name in libraries:
            there = os.path.join(tree, "crates", name)
            shutil.rmtree(there, ignore_errors=True)
            link_folders(os.path.join(self.tree(name), "crates", name), there, (*SOURCES, "out/rlib"))
        here, there = os.path.join(TOP, "crates", crate), os.path.join(tree, "crates", crate)
        for part in SOURCES:
            shutil.rmtree(os.path.join(there, part), ignore_errors=True)
            if os.path.isdir(os.path.join(here, part)):
                shutil.copytree(os.path.join(here, part), os.path.join(there, part))
        if not os.path.isdir(os.path.join(there, "out")):
            link_folders(os.path.join(here, "out"), os.path.join(there, "out"), kept_in(here))
        words = ["check", *only(functions)] if functions or not is_library(crate) else ["lib"]
        return self.run(tree, crate, [*words, "--jobs", str(jobs)], crate + " without edits")

    def has_proofs(self, crate):
        """Whether the crate's tree has proofs, with which the check of a batch can begin."""
        return os.path.isdir(self.proofs(self.tree(crate), crate))

    def proofs(self, root, crate):
        return os.path.join(root, "crates", crate, "out", "incremental")

    def check(self, crate, edits, title, functions=None):
        """Puts the edits, which change different lines, into a room, and checks the crate there. If the tree has no
        proofs, it gets what this check proves."""
        room = os.path.join(self.folder, "rooms", file_name(title))
        shutil.rmtree(room, ignore_errors=True)
        write_lists(room, [*self.libraries_below(crate), crate])
        link_folders(self.tree(crate), room, ("crates",))
        hunks = {}
        for edit in edits:
            for path, start, end, new in edit.hunks():
                hunks.setdefault(path, []).append((start, end, new))
        for path, found in hunks.items():
            lines = read_text(os.path.join(TOP, "crates", crate, path)).split("\n")
            for start, end, new in sorted(found, key=lambda hunk: hunk[0], reverse=True):
                lines[start:end] = new
            write_anew(os.path.join(room, "crates", crate, path), "\n".join(lines))
        for path, text in [it for edit in edits for it in edit.files()]:
            os.makedirs(os.path.dirname(os.path.join(room, "crates", crate, path)), exist_ok=True)
            write_anew(os.path.join(room, "crates", crate, path), text)
        try:
            return self.run(room, crate, ["check", *only(functions), "--jobs", "1"], title)
        finally:
            if not self.has_proofs(crate) and os.path.isdir(self.proofs(room, crate)):
                os.rename(self.proofs(room, crate), self.proofs(self.tree(crate), crate))
            shutil.rmtree(room, ignore_errors=True)

    def run(self, root, crate, words, title):
        """Runs `rt` in the crate's folder below the root. A file of the logs keeps what it prints."""
        began, used = time.time(), 0
        log = os.path.join(self.folder, "logs", file_name(title) + ".txt")
        os.makedirs(os.path.dirname(log), exist_ok=True)
        for _ in range(2):
            with open(log, "wb") as file:
                ran = subprocess.Popen(["rt", *words], cwd=os.path.join(root, "crates", crate), stdout=file,
                                       stderr=subprocess.STDOUT, stdin=subprocess.DEVNULL)
                _, status, usage = os.wait4(ran.pid, 0)
                ran.returncode = status
            used += usage.ru_utime + usage.ru_stime
            with open(log, encoding="utf8", errors="replace") as file:
                report = Report(file.read())
            # a check that was killed, most likely for memory, is run once more
            if report.verdicts or status == 0:
                break
        self.used += used
        return Check(report, status == 0, time.time() - began, used)


def kept_in(crate_folder):
    """The folders of the crate's out/ that later checks can use. A library that `rt ci` built has no file `stamp`."""
    out = os.path.join(crate_folder, "out")
    return [part for part, file in (("incremental", ""), ("rlib", "stamp"))
            if os.path.exists(os.path.join(out, part, file))]


def head(line):
    """The words of a line of crates.txt that are before the colon."""
    words, colon, _ = line.partition("#")[0].partition(":")
    return words.split() if colon else []


def is_library(crate):
    """Whether the crate is a library that other crates can use."""
    lines = read_text(os.path.join(TOP, "crates.txt")).split("\n")
    return (os.path.isfile(os.path.join(TOP, "crates", crate, "src", "lib.rt"))
            and not any(head(line)[:2] == [crate, "staticlib"] for line in lines))


def only(functions):
    return [word for name in sorted(functions or ()) for word in ("--only", name)]


def file_name(title):
    return re.sub(r"\W+", "-", title)


def write_lists(root, crates):
    """Writes crates.txt with the lines of these crates, and HANDLES."""
    lines = [line for line in read_text(os.path.join(TOP, "crates.txt")).split("\n") if head(line)[:1] and
             head(line)[0] in crates]
    os.makedirs(root, exist_ok=True)
    write_anew(os.path.join(root, "crates.txt"), "\n".join(lines) + "\n")
    if os.path.isfile(os.path.join(TOP, "HANDLES")):
        write_anew(os.path.join(root, "HANDLES"), read_text(os.path.join(TOP, "HANDLES")))


def write_anew(path, text):
    """Writes a new file in the place of what is there, which may be a link to a file of a tree."""
    if os.path.exists(path):
        os.remove(path)
    with open(path, "w", encoding="utf8") as file:
        file.write(text)


def link_folders(here, there, parts):
    """Makes these folders of `here` in `there`, if they exist: the files are hard links, or copies on another disk."""
    for part in parts:
        for place, _, names in os.walk(os.path.join(here, part)):
            new = os.path.normpath(os.path.join(there, os.path.relpath(place, here)))
            os.makedirs(new, exist_ok=True)
            for name in names:
                try:
                    os.link(os.path.join(place, name), os.path.join(new, name))
                except FileNotFoundError:
                    # another run has moved what it kept
                    continue
                except OSError:
                    shutil.copy2(os.path.join(place, name), os.path.join(new, name))
