"""Copies of functions, so that one check can try several wrong bodies of one function.

A copy is below its function in the same file. It has the function's contract, another name, the body of one edit, and
the function's hand proofs under its own name. Nothing calls it. So it leaves all other verdicts as they are. A copy
with the right body goes with the copies of a function, and has to be proved: if it is not, the form of the copies is at
fault, and the edits are tried in the function itself. This module is not run: `tests/edit_batches.py` imports it.
"""
import os
import re

from edit_files import TOP, read_text

HAND_PROOFS = ("Answers.antt", "Invariants.antt", "Proof.antt")
RIGHT = "as_it_is"


class Copy:
    """An edit whose body is in a copy of its function. It has what batches and verdicts read of an edit.

    `original` is the edit, and `right` is the name of the copy with the right body, as a check prints it.
    """

    def __init__(self, edit, place, suffix):
        self.original = edit
        self.place = place
        self.suffix = suffix
        self.name = edit.name
        self.crate = edit.crate
        self.path = edit.path
        self.folder = edit.folder
        self.is_control = edit.is_control
        self.has_control = edit.has_control
        self.texts = edit.texts
        self.notes = {**edit.notes, "at": "%s_%s" % (edit.notes["at"], suffix)}
        self.right = "%s_%s" % (edit.notes["at"], RIGHT)

    def __str__(self):
        return str(self.original)

    def body(self):
        """The lines of the function with the changes of the edit."""
        item = self.place.item
        lines = self.place.lines[item.start:item.body.stop]
        hunks = sorted(self.original.hunks(), key=lambda hunk: hunk[1], reverse=True)
        for _, start, end, new in hunks:
            lines[start - item.start:end - item.start] = new
        return lines

    def hunks(self):
        """The place below the function, and the lines of the copy, with the function's attributes."""
        lines, name = self.body(), self.place.name
        lines[0] = re.sub(r"\bfn %s\b" % name, "fn %s_%s" % (name, self.suffix), lines[0], count=1)
        at = self.place.item.body.stop
        yield self.place.path, at, at, ["", *self.place.attributes(), *lines]

    def files(self):
        """(path, text) of each file of hand proofs of the copy."""
        path = self.original.notes["at"].split("::")[1:]
        folder = os.path.join("proofs", *path)
        own = re.compile(r"\bproofs\.%s\b" % re.escape(".".join(path)))
        for name in HAND_PROOFS:
            file = os.path.join(TOP, "crates", self.crate, folder, name)
            if os.path.isfile(file):
                text = own.sub("proofs.%s_%s" % (".".join(path), self.suffix), read_text(file))
                yield os.path.join("%s_%s" % (folder, self.suffix), name), text


class RightCopy(Copy):
    """A copy of the function as it is."""

    def __init__(self, copy):
        super().__init__(copy.original, copy.place, RIGHT)

    def body(self):
        return self.place.lines[self.place.item.start:self.place.item.body.stop]


class Place:
    """A function that can be copied: its file with its lines, its item there, and its name."""

    def __init__(self, path, lines, item, name):
        self.path = path
        self.lines = lines
        self.item = item
        self.name = name

    def attributes(self):
        """The lines of the attributes above the function: an exported function needs its own."""
        start = self.item.start
        while self.lines[start - 1].strip().startswith("#["):
            start -= 1
        return self.lines[start:self.item.start]


def place_of(edit, source):
    """The function that the edit changes, if a copy of it can take the edit, and otherwise None. The function must be
    the one that refuses the edit. It must not be a method of a trait, and must not call itself."""
    hunks = list(edit.hunks())
    found = [source.item_at(path, start) for path, start, _, _ in hunks]
    item = found[0] if found else None
    if item is None or not item.is_function or any(it is not item for it in found):
        return None
    path, name = hunks[0][0], item.name.split("::")[-1]
    lines = source.files[path][0]
    whole = "\n".join(lines[item.start + 1:item.body.stop])
    fits = (item.body and all(item.start < start and end <= item.body.stop for _, start, end, _ in hunks)
            and edit.notes.get("at", "").split("::")[-1] == name
            and not of_trait(lines, item.start) and not re.search(r"\b%s\(" % name, whole))
    return Place(path, lines, item, name) if fits else None


def of_trait(lines, at):
    """Whether the function whose head is this line is a method of a trait or of an impl of a trait."""
    if not lines[at].startswith(" "):
        return False
    heads = [it for it in range(at) if re.match(r"(?:pub )?(?:unsafe )?(?:impl|trait)\b", lines[it])]
    head = " ".join(lines[heads[-1]:heads[-1] + 6]).partition("{")[0] if heads else ""
    return " for " in head or not head.startswith("impl")


def right_copies(batch):
    """One copy with the right body for each function that edits of this batch have copies of."""
    found = {}
    for edit in batch:
        if isinstance(edit, Copy) and edit.right not in found:
            found[edit.right] = RightCopy(edit)
    return list(found.values())
