"""Which crates' edits need not be tried: they were all tried with the same key, and passed.

The key of a crate is a hash of all that the verdicts on its edits depend on: the kit, the texts of the crate and of
every crate below it, their lines of crates.txt, the edits, and the scripts that judge. A line of a source, definition
or proof that has only a comment does not count: the prover does not read comments. The file tests/tried_edits.txt
has a section for each kit, the newest last. A line has a crate, its key, and how many edits and controls passed.
`tests/wrong_bodies` writes the line of a crate when all of its edits have passed in one run. Nothing else writes lines.

A kit judges a crate by its own line. If it has none, it takes the line of the newest section that has one. This module
is not run: `tests/wrong_bodies` imports it.
"""
import fcntl
import hashlib
import os
import random
import re
import subprocess

from crates import below
from edit_files import FOLDERS, TOP, edits_of, read_text

RECORD = os.path.join(TOP, "tests", "tried_edits.txt")
HEAD = """# The crates whose wrong bodies were all tried and refused: crate, key, edits, controls. Only tests/wrong_bodies
# writes this file, when the edits of a crate have passed; tests/edit_keys.py says what a key is.
"""
# the parts of a crate on which a verdict depends, for itself and for the crates above it
SOURCES = ("src", "specs", "proofs")
JUDGES = ("crates.py", "edit_batches.py", "edit_copies.py", "edit_files.py", "edit_keys.py", "edit_rooms.py",
          "edit_trials.py", "edit_verdicts.py")
# what begins a comment in a source, and in a definition or proof
COMMENT_MARKS = {".rt": b"//", ".antt": b"--"}
# what is in a string or is a character, and does not end a string
IN_STRINGS = re.compile(rb"""\\\\|\\"|'"'""")
# how many edits of crates that are not tried a commit draws
DRAWN = 20


def kit_name():
    """The kit as it names itself."""
    return subprocess.run(["rt", "version"], stdout=subprocess.PIPE, check=True).stdout.decode().strip()


class Keys:
    """The keys of the crates. `uses` has the libraries that each crate uses, by its name."""

    def __init__(self, uses):
        self.uses = uses
        self.sums = {}
        self.common = self.sum_of(os.path.join("tests", name) for name in JUDGES) + self.sum_of(["HANDLES"])

    def key(self, crate, kit):
        """The key of the crate under this kit."""
        parts = [kit, self.common, self.texts(crate, FOLDERS)]
        for name in [*below(crate, self.uses), crate]:
            parts += [name, *self.uses[name], self.texts(name, SOURCES)]
        return hashlib.sha256("\n".join(parts).encode()).hexdigest()

    def texts(self, crate, folders):
        """The sum of all files in these folders of the crate. It is found once."""
        if (crate, folders) not in self.sums:
            tops = [os.path.join("crates", crate, folder) for folder in folders]
            paths = [os.path.join(place, name) for top in tops for place, _, names in os.walk(os.path.join(TOP, top))
                     for name in names]
            self.sums[crate, folders] = self.sum_of(sorted(os.path.relpath(path, TOP) for path in paths))
        return self.sums[crate, folders]

    def sum_of(self, paths):
        """The sum of the names and contents of these files, without comments."""
        total = hashlib.sha256()
        for path in paths:
            with open(os.path.join(TOP, path), "rb") as file:
                text = read_by_prover(path, file.read())
            total.update(("%s %s\n" % (path, hashlib.sha256(text).hexdigest())).encode())
        return total.hexdigest()


def read_by_prover(path, text):
    """The text of the file without the lines that have only a comment.

    If a string can go on in the next line, what looks like a comment there can be a part of it, and all lines count.
    """
    mark = COMMENT_MARKS.get(os.path.splitext(path)[1])
    if mark is None:
        return text
    lines = [line for line in text.split(b"\n") if not line.lstrip().startswith(mark)]
    return text if any(IN_STRINGS.sub(b"", line).count(b'"') % 2 for line in lines) else b"\n".join(lines)


def counts_of(crate):
    """How many edits and controls the crate has."""
    edits = edits_of(crate)
    return len(edits), sum(edit.has_control for edit in edits)


class Record:
    """The lines of tests/tried_edits.txt: for each kit, the newest last, the lines by the name of their crate."""

    def __init__(self):
        self.kits = {}
        lines = read_text(RECORD).split("\n") if os.path.exists(RECORD) else []
        for words in (line.split() for line in lines if line and not line.startswith("#")):
            if words[0] == "kit":
                section = self.kits.setdefault(" ".join(words[1:]), {})
            else:
                section[words[0]] = words[1:]

    def judge(self, crate, kit):
        """The kit whose line decides about the crate under this kit, or None if no section has a line of it."""
        named = [name for name, section in self.kits.items() if crate in section]
        return kit if kit in named else named[-1] if named else None

    def takes(self, crate, kit, keys):
        """The kit by whose line the edits of the crate need not be tried, or None if they have to be tried."""
        judge = self.judge(crate, kit)
        if judge is None:
            return None
        wanted = [keys.key(crate, judge), *map(str, counts_of(crate))]
        return judge if self.kits[judge][crate] == wanted else None

    def put(self, crate, kit, keys):
        """Puts the line of the crate, and makes the kit's section the newest."""
        section = self.kits.pop(kit, {})
        section[crate] = [keys.key(crate, kit), *map(str, counts_of(crate))]
        self.kits[kit] = section

    def text(self):
        parts = [HEAD]
        for kit, section in self.kits.items():
            parts += ["kit %s\n" % kit, *("%s %s\n" % (crate, " ".join(section[crate])) for crate in sorted(section))]
        return "".join(parts)


def keep_line(crate, kit, keys, uses):
    """Writes the line of a crate whose edits have all passed, if its key is still the one with which they began."""
    if Keys(uses).key(crate, kit) != keys.key(crate, kit):
        print("%s: its texts changed during the run, so no line is written" % crate, flush=True)
        return
    with open(RECORD, "a", encoding="utf8") as file:
        fcntl.flock(file, fcntl.LOCK_EX)
        record = Record()
        record.put(crate, kit, keys)
        file.seek(0)
        file.truncate()
        file.write(record.text())


def drawn(commit, taken):
    """Some edits of one or two of these crates, as the commit draws them: `taken` has the edits of each."""
    draw, found = random.Random(commit), {}
    left = [(crate, edit) for crate in sorted(taken) for edit in taken[crate]]
    while left and len(found) < 2 and sum(map(len, found.values())) < DRAWN:
        crate = draw.choice(left)[0]
        most = DRAWN - sum(map(len, found.values()))
        found[crate] = draw.sample(taken[crate], min(most, len(taken[crate])))
        left = [it for it in left if it[0] != crate]
    return found
