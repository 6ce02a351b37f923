"""What follows from the checks of a crate's edits: which edits pass, and which are tried again.

This module is not run: `tests/wrong_bodies` imports it.
"""
import collections

from edit_batches import Source, batches_of, first_fit
from edit_copies import Copy, right_copies
from edit_rooms import FEW
from edit_verdicts import KINDS, Refusal

WEAK = ("type", "name")
# if more edits of one batch fail, the fault is not theirs, and they are not tried one by one
MOST_ALONE = 40


def verdict_on(edit, report, named):
    """The refusal of the function that the edit names, and the fault of the edit, or None if it passes.

    `named` are the functions that the edits of this check name.
    """
    if "at" not in edit.notes:
        return Refusal("fault"), "it has no line at:"
    unread = report.unread_text()
    if unread:
        return Refusal("unread", unread), KINDS["unread"] + ": " + " ".join(unread.split())[:200]
    clause = edit.notes.get("clause")
    refusal = report.refusal_of(edit.notes["at"], clause, edit.notes.get("lemma"))
    if edit.is_control:
        return refusal, None if refusal.kind == "proved" else "the control is refused: " + refusal.text[:200]
    if refusal.kind != "goal" and not ("weak" in edit.notes and refusal.kind in WEAK):
        fault = KINDS[refusal.kind] + ": " + refusal.text[:200]
        others = [function for function in report.refused() if function not in named]
        if refusal.kind == "proved" and others:
            fault = KINDS["elsewhere"] + ": one of " + ", ".join(others)
        return refusal, fault
    if clause and not any(goal == clause or goal.endswith("clause-" + clause) for goal in refusal.goals):
        return refusal, KINDS["clause"] + ": " + ", ".join(sorted(refusal.goals))
    return refusal, None


def unexpected(edit, refusal, fault):
    """The fault of an edit of the self-test, which has to be reported as the edit expects. None if it is."""
    if fault is None:
        return "it is taken for a refusal"
    return None if refusal.kind == edit.notes["expected"] else "it is reported as " + KINDS[refusal.kind]


class Trial:
    """The trial of the edits of one crate: its batches, and what follows from the verdicts in them."""

    def __init__(self, rooms, crate, edits, is_leaf):
        self.rooms = rooms
        self.crate = crate
        self.source = Source(crate)
        self.batches = batches_of(edits, self.source)
        self.named = functions_of(edits)
        self.functions = self.named if is_leaf and len(self.named) <= FEW else None
        self.has_begun = False
        # how many batches are waiting or being tried
        self.left = 0
        self.tally = Tally()

    def prove(self, jobs):
        """Proves the crate without edits. Returns the next work."""
        check = self.rooms.prove(self.crate, jobs, self.functions)
        print("%s without edits: %s, %s" % (self.crate, "proved" if check.is_proved else "NOT PROVED", check.times()),
              flush=True)
        if not check.is_proved:
            self.tally.fail(self.crate, "not proved without edits, so its refusals say nothing")
            return None
        return self.titled(self.batches if self.rooms.has_proofs(self.crate) else self.batches[:1])

    def titled(self, batches):
        """These batches with their titles."""
        return [(batch, "%s, batch %d of %d" % (self.crate, self.batches.index(batch) + 1, len(self.batches)))
                for batch in batches]

    def try_batch(self, batch, title):
        """Tries a batch, counts the edits that pass, and returns the batches in which the others are tried again."""
        rights = right_copies(batch)
        named = functions_of(batch) | functions_of(rights)
        later = [] if self.has_begun or self.rooms.has_proofs(self.crate) else self.titled(self.batches[1:])
        self.has_begun = True
        # the other batches begin with the proofs of the first one
        check = self.rooms.check(self.crate, batch + rights, title, self.named | named if later else named)
        judged = []
        for edit in batch:
            refusal, fault = verdict_on(edit, check.report, named)
            fault = unexpected(edit, refusal, fault) if "expected" in edit.notes else fault
            judged.append((edit, refusal, fault or fault_of_copy(edit, check.report)))
        failing = [edit for edit, _, fault in judged if fault]
        is_again = (len(batch) > 1 or bool(rights)) and bool(failing)
        rest = ("%d to be tried again" if is_again else "%d failed") % len(failing)
        print("%s: %d edits, %d as wanted, %s, %s"
              % (title, len(batch), len(batch) - len(failing), rest, check.times()), flush=True)
        if is_again and len(batch) > 1 and check.report.unread_text():
            half = len(batch) // 2
            return [(batch[:half], title + ", first half"), (batch[half:], title + ", second half"), *later]
        again = self.again(failing, check.report, title) if is_again else []
        left = {edit for part, _ in again for edit in part}
        for edit, refusal, fault in judged:
            if edit not in left and in_place(edit) not in left:
                self.tally.add(edit, refusal, fault)
        return again + later

    def again(self, failing, report, title):
        """The batches in which these edits are tried again: each in a check of its own. But edits whose goals only wait
        for the proof of a function that another edit changes share a check without that one."""
        waiting = {edit: report.unproved_below(edit.notes["at"]) for edit in failing
                   if "at" in edit.notes and report.is_waiting(edit.notes["at"]) and not title.endswith("again")}
        groups = first_fit(waiting, lambda edit, other: edit.notes["at"] in waiting[other]
                           or other.notes["at"] in waiting[edit])
        alone = [[edit] for edit in failing if edit not in waiting]
        if len(alone) > MOST_ALONE:
            print("%s: %d edits fail, which are too many to try one by one" % (title, len(alone)), flush=True)
            alone = []
        # each title differs from the others, because the folder of a check has it as its name
        return [(part, "%s, %s again" % (title, part[0].name if len(part) == 1 else "edits %d" % number))
                for number, part in enumerate(groups + [[in_place(edit)] for edit, in alone], 1)]


def fault_of_copy(edit, report):
    """The fault of the copies of a function if the one with the right body is refused, and not only through a function
    that it calls and that another edit changes. None for other edits."""
    if not isinstance(edit, Copy) or report.refusal_of(edit.right).kind in ("proved", "callee"):
        return None
    return "a copy of its function with the right body is refused"


def in_place(edit):
    """The edit that changes the function itself."""
    return edit.original if isinstance(edit, Copy) else edit


def functions_of(edits):
    """The functions and laws that these edits name."""
    return {edit.notes["at"] for edit in edits if "at" in edit.notes}


class Tally:
    """How many edits passed and failed, the names of those that passed, and the kinds of their refusals."""

    def __init__(self):
        self.passed = 0
        self.failed = 0
        self.names = set()
        self.kinds = collections.Counter()

    def add(self, edit, refusal, fault):
        if fault is None:
            self.passed += 1
            self.names.add(str(edit))
            if "expected" in edit.notes:
                return
            weak = edit.notes.get("weak")
            kind = "control" if edit.is_control else "false goal" if refusal.is_false else refusal.kind
            kind = "weak goal" if (kind, weak) == ("goal", "goal") else kind
            kind = "goal beside" if kind == "goal" and refusal.is_beside else kind
            self.kinds[kind + " with a control" if kind in WEAK and edit.has_control else kind] += 1
            if refusal.kind == "goal" and weak and not edit.is_control and (weak != "goal" or refusal.is_false):
                print("%s: refused by a goal, so its line weak: can go" % edit, flush=True)
        else:
            self.fail(edit, fault)

    def fail(self, what, fault):
        self.failed += 1
        print("%s: %s" % (what, fault), flush=True)

    def join(self, other):
        self.passed += other.passed
        self.failed += other.failed
        self.kinds += other.kinds
