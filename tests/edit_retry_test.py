"""Whether `tests/wrong_bodies` tries an edit again before it fails, also one that was tried in a copy of its function,
whether the first batch of a crate without proofs proves what the others need, and which functions each check asks for:
checks with outputs that are written here.

This module is not run: `tests/wrong_bodies --self-test` imports it.
"""
import contextlib
import io

from edit_copies import Copy
from edit_rooms import Check
from edit_verdicts import Report

GOAL = "fn c::%s: no proof: `search` did not prove `goal`"
TYPE = "fn c::%s: not proved\n./proofs/%s/Answers.antt:1:1: error: the types differ"
PROVED = "fn c::%s: proved"
WAITS = "note: `search` has not tried the goals of `c::%s`, which wait for a callee's proof\n" \
    "fn c::%s: not proved: it calls `c::%s`, which is not proved"
UNREAD = "src/lib.rt:1:1: error: expected an expression"
LEFT = "note: src/lib.rt:1:1: it is not proved that what the function ensures holds when it returns (`%s`)\n"
LEMMA = "./proofs/Laws.antt:1:1: error: `%s`: `omega`: the goal does not follow from what it read\n" \
    "./proofs/law/Answers.antt:1:1: error: 1 declaration that depends on `%s` was not checked: returns\n" \
    "fn c::law: not proved"
# the goals and the lemmas that edits name, by their function
CLAUSES = {"k": "returns-then-wrong-clause-value"}
LEMMAS = {"law": "lemma"}

# label; what each check prints, by the edits that it is of; the edits that fail; the number of checks
CASES = [
    ("an edit that a type refuses in its batch, and a goal alone, passes",
     {"f g": GOAL % "f" + "\n" + TYPE % ("g", "g"), "g": GOAL % "g"}, [], 2),
    ("an edit that a type refuses in its batch and alone fails",
     {"f g": GOAL % "f" + "\n" + TYPE % ("g", "g"), "g": TYPE % ("g", "g")}, ["g"], 2),
    ("an edit that is proved fails, and the others of its batch pass",
     {"f g h": GOAL % "f" + "\n" + PROVED % "g" + "\n" + GOAL % "h", "g": PROVED % "g"}, ["g"], 2),
    ("an edit that cannot be read fails alone",
     {"f g h": UNREAD, "f": GOAL % "f", "g h": UNREAD, "g": UNREAD, "h": GOAL % "h"}, ["g"], 5),
    ("edits that wait for a function that another edit changes share a check, and pass",
     {"f g h": GOAL % "f" + "\n" + WAITS % ("g", "g", "f") + "\n" + WAITS % ("h", "h", "f"),
      "g h": GOAL % "g" + "\n" + GOAL % "h"}, [], 2),
    ("an edit that is refused only through another function, also alone, fails",
     {"f g": GOAL % "f" + "\n" + WAITS % ("g", "g", "f"), "g": WAITS % ("g", "g", "f")}, ["g"], 2),
    ("an edit that a type refuses passes if the goal is left open that it names",
     {"k": LEFT % "returns-then-wrong-clause-value" + TYPE % ("k", "k")}, [], 1),
    ("an edit that a type refuses fails if only another goal is left open",
     {"k": LEFT % "returns-2-clause-value" + TYPE % ("k", "k")}, ["k"], 1),
    ("an edit of a definition passes if the goal of the lemma that it names fails",
     {"law": LEMMA % ("lemma", "lemma")}, [], 1),
    ("an edit of a definition fails if only another lemma fails", {"law": LEMMA % ("other", "other")}, ["law"], 1),
    ("an edit of a definition fails if the law is proved all the same",
     {"law": (LEMMA % ("lemma", "lemma")).replace("not proved", "proved")}, ["law"], 1),
]

# the same for an edit that is tried in a copy of `f`, with the copy that has the right body
COPIES = [
    ("an edit that a goal refuses in a copy passes if the right copy is proved",
     {"f f": GOAL % "f_again" + "\n" + PROVED % "f_as_it_is"}, [], 1),
    ("an edit that a goal refuses in a copy is tried in the function if the right copy is refused",
     {"f f": GOAL % "f_again" + "\n" + GOAL % "f_as_it_is", "f": GOAL % "f"}, [], 2),
    ("an edit that a goal refuses in a copy fails if the right copy is refused and the function is proved",
     {"f f": GOAL % "f_again" + "\n" + GOAL % "f_as_it_is", "f": PROVED % "f"}, ["f"], 2),
    ("an edit that is proved in a copy and in the function fails",
     {"f f": PROVED % "f_again" + "\n" + PROVED % "f_as_it_is", "f": PROVED % "f"}, ["f"], 2),
    ("an edit whose copy cannot be read is tried in the function", {"f f": UNREAD, "f": GOAL % "f"}, [], 2),
]


class Named:
    """An edit of the function of its name."""

    is_control = has_control = False
    crate, path, folder, texts = "c", "", "", ()

    def __init__(self, name):
        self.name = name
        self.notes = {"at": "c::" + name}
        if name in CLAUSES:
            self.notes["clause"] = CLAUSES[name]
        if name in LEMMAS:
            self.notes["lemma"] = LEMMAS[name]


class Written:
    """Rooms whose checks print what is written in a case. `first` are the functions that the first check asks for, if
    there are no proofs before it."""

    def __init__(self, outputs, first=None):
        self.outputs = outputs
        self.first = first
        self.checks = 0
        self.is_asked = True

    def has_proofs(self, _crate):
        return not self.first or self.checks > 0

    def check(self, _crate, batch, _title, functions):
        wanted = {edit.notes["at"] for edit in batch} if self.has_proofs("c") else self.first
        self.checks += 1
        self.is_asked &= functions == wanted
        return Check(Report(self.outputs[" ".join(edit.name for edit in batch)]), False, 0, 0)


def run(trial_class, tally_class):
    """The tally of all cases."""
    tally = tally_class()
    cases = [(*case, [Named(name) for name in next(iter(case[1])).split()]) for case in CASES]
    cases += [(*case, [Copy(Named("f"), None, "again")]) for case in COPIES]
    for label, outputs, wanted, checks, batch in cases:
        trial = tried(trial_class, Written(outputs), [batch])
        if not trial.rooms.is_asked:
            tally.fail(label, "a check asks for other functions than it should")
        elif (trial.tally.failing, trial.tally.passed, trial.rooms.checks) == (wanted, len(batch) - len(wanted), checks):
            tally.passed += 1
        else:
            tally.fail(label, "%s fail, %d pass, in %d checks"
                       % (trial.tally.failing, trial.tally.passed, trial.rooms.checks))
    trial = tried(trial_class, Written({"f": GOAL % "f", "g": GOAL % "g", "h": GOAL % "h"}, {"c::f", "c::g", "c::h"}),
                  [[Named("f")], [Named("g")], [Named("h")]])
    if trial.rooms.is_asked and (trial.tally.passed, trial.rooms.checks) == (3, 3):
        tally.passed += 1
    else:
        tally.fail("the first batch of a crate without proofs asks for what all edits name", "it does not")
    return tally


def tried(trial_class, rooms, batches):
    """A trial of these batches in these rooms, after all its checks."""
    trial = trial_class.__new__(trial_class)
    trial.rooms, trial.crate, trial.batches, trial.tally = rooms, "c", batches, Kept()
    trial.has_begun, trial.functions = False, None
    trial.named = {edit.notes["at"] for batch in batches for edit in batch}
    left = trial.titled(batches if rooms.has_proofs("c") else batches[:1])
    with contextlib.redirect_stdout(io.StringIO()):
        while left:
            left += trial.try_batch(*left.pop(0))
    return trial


class Kept:
    """Counts the edits that pass, and keeps the names of the others."""

    def __init__(self):
        self.passed = 0
        self.failing = []

    def add(self, edit, _refusal, fault):
        if fault is None:
            self.passed += 1
        else:
            self.failing.append(edit.name)
