"""Whether `tests/wrong_bodies` tries a crate again as soon as something has changed on which its verdicts depend: a
small repository with three crates, whose lines are written, and in which then one thing is changed.

This module is not run: `tests/wrong_bodies --self-test` imports it.
"""
import glob
import os
import shutil
import subprocess
import sys
import tempfile

from edit_files import TOP
from edit_keys import DRAWN, drawn

KIT, OTHER = "kit 1 logic a", "kit 2 logic b"
EDIT = "at: high::f\nfile: src/lib.rt\nold: one\nnew: %s\n"
FILES = {
    "HANDLES": "Handles allowed: none.\n",
    "crates.txt": "low:\nhigh: low\nbeside:\n",
    **{"crates/%s/%s" % (crate, path): text for crate in ("low", "high", "beside") for path, text in {
        "src/lib.rt": "one\n", "specs/Lib.antt": "two\n", "proofs/f/Answers.antt": "three\n",
        "wrong/first.edit": EDIT % "1", "wrong/second.edit": EDIT % "2", "must-fail/third.edit": EDIT % "3"}.items()},
}
KEEP = """
from crates import listed
from edit_keys import Keys, keep_line
for crate in listed():
    keep_line(crate, %r, Keys(listed()), listed())
"""
CHANGED_MEANWHILE = """
from crates import listed
from edit_keys import Keys, keep_line
keys = Keys(listed())
keys.key("high", %r)
open("../crates/high/src/lib.rt", "a").write("more")
keep_line("high", %r, keys, listed())
""" % (KIT, KIT)

# label; the files that change, with what is put at their end, or None if the file goes; the crates that are tried
CASES = [
    ("nothing", {}, []),
    ("a source", {"crates/high/src/lib.rt": "\n"}, ["high"]),
    ("a comment in a source", {"crates/high/src/lib.rt": "// four\n  /// five\n"}, []),
    ("a comment in a definition and a proof of a crate below",
     {"crates/low/specs/Lib.antt": "-- four\n", "crates/low/proofs/f/Answers.antt": "  -- five\n"}, []),
    ("a comment behind a definition", {"crates/high/specs/Lib.antt": "four -- five\n"}, ["high"]),
    ("the mark of another kind of file", {"crates/high/src/lib.rt": "-- four\n"}, ["high"]),
    ("what looks like a comment in a string", {"crates/high/src/lib.rt": "\"\\\n// four\n\"\n"}, ["high"]),
    ("a new source", {"crates/high/src/new.rt": "\n"}, ["high"]),
    ("a definition", {"crates/high/specs/Lib.antt": "\n"}, ["high"]),
    ("a proof", {"crates/high/proofs/f/Answers.antt": "\n"}, ["high"]),
    ("a proof that goes", {"crates/high/proofs/f/Answers.antt": None}, ["high"]),
    ("a source of a crate below", {"crates/low/src/lib.rt": "\n"}, ["high", "low"]),
    ("a definition of a crate below", {"crates/low/specs/Lib.antt": "\n"}, ["high", "low"]),
    ("a proof of a crate below", {"crates/low/proofs/f/Answers.antt": "\n"}, ["high", "low"]),
    ("an edit of a crate below", {"crates/low/wrong/first.edit": "clause: x\n"}, ["low"]),
    ("an edit", {"crates/high/wrong/first.edit": "clause: x\n"}, ["high"]),
    ("an edit in must-fail", {"crates/high/must-fail/third.edit": "clause: x\n"}, ["high"]),
    ("a new edit", {"crates/high/wrong/fourth.edit": EDIT % "4"}, ["high"]),
    ("an edit that goes", {"crates/high/wrong/first.edit": None}, ["high"]),
    ("an edit that moves", {"crates/high/wrong/first.edit": None, "crates/high/must-fail/first.edit": EDIT % "1"},
     ["high"]),
    ("the handles", {"HANDLES": "\n"}, ["beside", "high", "low"]),
    ("the libraries of a crate", {"crates.txt": "high: low beside\n"}, ["high"]),
    ("a crate beside", {"crates/beside/src/lib.rt": "\n"}, ["beside"]),
    ("a file on which no verdict depends", {"README.md": "\n"}, []),
    *[("the script " + name, {"tests/" + name: "\n"}, ["beside", "high", "low"])
      for name in ("crates.py", "edit_batches.py", "edit_copies.py", "edit_files.py", "edit_keys.py", "edit_rooms.py",
                   "edit_trials.py", "edit_verdicts.py")],
]

# label; the old and the new text of the file with the lines; the kit of this machine; the crates that are tried, and
# whether it says that the lines of another kit decide
RECORDS = [
    ("the lines of this kit", ("", ""), KIT, [], False),
    ("another kit without lines", ("", ""), OTHER, [], True),
    ("a line under the name of another kit", ("kit " + KIT, "kit " + OTHER), OTHER, ["beside", "high", "low"], False),
    ("a key written by hand", ("high ", "high 0"), KIT, ["high"], False),
    ("a count written by hand", (" 3 0\n", " 4 0\n"), KIT, ["beside", "high", "low"], False),
    ("a crate without a line", ("beside ", "# "), KIT, ["beside"], False),
    ("this kit has a line that does not fit, beside one of another kit that does",
     ("# The", "kit %s\nlow 0 3 0\n# The" % OTHER), OTHER, ["low"], True),
]


class Repository:
    """The small repository in a folder, with the scripts of this one, and a command `rt` that only names its kit."""

    def __init__(self, folder):
        self.folder = folder
        for path, text in FILES.items():
            self.write(path, text)
        self.write("bin/rt", "#!/bin/sh\necho \"$KIT\"\n")
        os.chmod(os.path.join(folder, "bin/rt"), 0o755)
        os.makedirs(os.path.join(folder, "tests"))
        for path in [*glob.glob(TOP + "/tests/edit_*.py"), TOP + "/tests/crates.py", TOP + "/tests/wrong_bodies"]:
            shutil.copy(path, os.path.join(folder, "tests"))
        self.run(["-c", KEEP % KIT], KIT)

    def write(self, path, text, how="w"):
        path = os.path.join(self.folder, path)
        os.makedirs(os.path.dirname(path), exist_ok=True)
        with open(path, how, encoding="utf8") as file:
            file.write(text)

    def change(self, files):
        for path, text in files.items():
            if text is None:
                os.remove(os.path.join(self.folder, path))
            else:
                self.write(path, text, "a")

    def run(self, words, kit):
        """What a script prints, under this kit."""
        path = os.path.join(self.folder, "bin") + os.pathsep + os.environ["PATH"]
        return subprocess.run([sys.executable, "-B", *words], cwd=os.path.join(self.folder, "tests"), text=True,
                              stdout=subprocess.PIPE, stderr=subprocess.STDOUT,
                              env={**os.environ, "PATH": path, "KIT": kit}).stdout

    def tried(self, kit):
        """The crates that would be tried under this kit, and whether the lines of another kit decide about others."""
        lines = self.run(["wrong_bodies", "--list"], kit).split("\n")
        named = {line.partition(":")[0] for line in lines if ": tried" in line}
        return sorted(named), any("has no line of" in line for line in lines)


def run(tally_class):
    """The tally of all cases."""
    tally = tally_class()

    def check(label, found, wanted):
        if found == wanted:
            tally.passed += 1
        else:
            tally.fail(label, "%s, and not %s" % (found, wanted))

    with tempfile.TemporaryDirectory(prefix="edit-keys-") as folder:
        first = Repository(os.path.join(folder, "first"))
        for number, (label, files, wanted) in enumerate(CASES):
            copy = copied(first, os.path.join(folder, str(number)))
            copy.change(files)
            check("what is tried after a change of: " + label, copy.tried(KIT), (wanted, False))
        for number, (label, (old, new), kit, *wanted) in enumerate(RECORDS):
            copy = copied(first, os.path.join(folder, "record" + str(number)))
            path = os.path.join(copy.folder, "tests", "tried_edits.txt")
            with open(path, encoding="utf8") as file:
                text = file.read()
            copy.write("tests/tried_edits.txt", text.replace(old, new) if old else text)
            check("what is tried with " + label, copy.tried(kit), tuple(wanted))
        copy = copied(first, os.path.join(folder, "meanwhile"))
        copy.run(["-c", CHANGED_MEANWHILE], KIT)
        check("a text that changes during the run", copy.tried(KIT), (["high"], False))
    check_drawn(check)
    return tally


def copied(repository, folder):
    """A copy of the repository in this folder."""
    shutil.copytree(repository.folder, folder)
    copy = Repository.__new__(Repository)
    copy.folder = folder
    return copy


def check_drawn(check):
    """Checks which edits a commit draws."""
    taken = {"a": ["a%d" % n for n in range(50)], "b": ["b%d" % n for n in range(7)], "c": ["c1"]}
    draws = [drawn("commit %d" % n, taken) for n in range(200)]
    check("what a commit draws is drawn again", drawn("commit 7", taken), draws[7])
    check("edits of their own crates, each once", all(
        len(set(edits)) == len(edits) and set(edits) <= set(taken[crate])
        for found in draws for crate, edits in found.items()), True)
    check("all crates are drawn", {crate for found in draws for crate in found}, set(taken))
    check("how many are drawn of a large crate", {sum(map(len, it.values())) for it in draws if "a" in it}, {DRAWN})
    check("two crates at most", max(map(len, draws)), 2)
    check("nothing is drawn of nothing", drawn("commit", {}), {})
