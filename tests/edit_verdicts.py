"""What one `rt check` says about each function, and why it refuses a function.

This module is not run: `tests/wrong_bodies` imports it.
"""
import collections
import re

VERDICT = re.compile(r"fn (\S+): (.*)")
OPEN = re.compile(r"did not prove ((?:`[^`]*`(?:, )?)+)")
WAITS = re.compile(r"note: `search` has not tried the goals of `([^`]*)`, which wait for a callee's proof")
FALSE = re.compile(r"note: .*\(`([^`]*)`\); the facts known there allow values at which this goal is false")
# a goal that is left open; the last name in parentheses
LEFT = re.compile(r"note: src/\S+: (?:.* )?(?:is not proved|found no proof)\b.*\(`([^`]*)`\)")
ERROR = re.compile(r"(?:\./)?((?:proofs|src|specs)/\S+?):\d+:\d+: error: (?:`([^`]*)`: )?(.*)")
# an error that only repeats another one
REPEATED = re.compile(r"declarations? that depends? on|was rejected|was not admitted")
NAME = re.compile(r"has no field|has no `|is not in scope|is not the name of|unknown name")
TYPE = re.compile(r"types? (?:first )?differ|the two types are `|no occurrence of the path|expected type"
                  r"|but (?:this )?has type|mismatch|is applied to"
                  r"|is not a function|cannot be applied|is not equal|takes? \d+ argument|too many arguments"
                  r"|is wanted here|proves a path .* is not one")
KINDS = {
    "goal": "refused by a goal",
    "type": "refused only because the type of a hand proof differs",
    "name": "refused only because a hand proof names what the edit took away",
    "other": "refused for a reason that is none of a goal, a type and a name",
    "callee": "refused only through a function that it calls",
    "proved": "NOT REFUSED: still proved",
    "elsewhere": "refused by other functions than the one that it names",
    "missing": "the check does not print its function",
    "unread": "the check does not come to a verdict",
    "fault": "the edit cannot be applied",
    "clause": "refused by another clause",
}


class Refusal:
    """The kind of a verdict (a key of KINDS), the goals that the check names, and the text that it prints.

    `is_false` says whether values were found that make a goal false, and `is_beside` whether the hand proof has errors
    beside the open goal."""

    def __init__(self, kind, text="", goals=(), is_false=False, is_beside=False):
        self.kind = kind
        self.text = text
        self.goals = set(goals)
        self.is_false = is_false
        self.is_beside = is_beside


class Report:
    """The output of one `rt check`."""

    def __init__(self, output):
        self.lines = [line for line in output.split("\n") if not line.startswith("so far: ")]
        self.verdicts = {}
        self.errors = collections.defaultdict(list)
        self.false_goals = collections.defaultdict(set)
        self.left_goals = collections.defaultdict(set)
        self.waiting = {found[1] for found in map(WAITS.match, self.lines) if found}
        self.is_proved = any(line.startswith("logic=proved") for line in self.lines)
        self.read()

    def read(self):
        false, left = set(), set()
        for at, line in enumerate(self.lines):
            verdict, error, goal, open_goal = (it.match(line) for it in (VERDICT, ERROR, FALSE, LEFT))
            if verdict:
                self.verdicts[verdict[1]] = verdict[2]
                self.false_goals[verdict[1]] |= false
                self.left_goals[verdict[1]] |= left
                false, left = set(), set()
            elif goal:
                false.add(goal[1])
            elif open_goal:
                left.add(open_goal[1])
            elif error:
                more = self.lines[at + 1] if at + 1 < len(self.lines) else ""
                self.errors[owner(error[1])].append((error[1], error[2] or "", error[3], more))

    def unread_text(self):
        """The first error that says that a source cannot be read, so that no contract was tried, or None."""
        for place, errors in sorted(self.errors.items()):
            for path, goal, message, _ in errors:
                if place.startswith(("src/", "specs/")) and (not goal or NAME.search(message)):
                    return path + ": " + message
        return None if self.verdicts else "\n".join(self.lines[-6:])

    def refusal_of(self, function, goal=None, lemma=None):
        """Why the check refuses the function, or that it does not. If its hand proof has errors, only this goal counts
        as left open: others may have lost an answer that has another name now. A law is also refused by a goal if this
        lemma is, on which its proof rests."""
        text = self.verdicts.get(function)
        if text is None:
            return Refusal("missing", function)
        if text.startswith("proved"):
            return Refusal("proved", function)
        left_open = OPEN.search(text)
        goals = re.findall(r"`([^`]*)`", left_open[1]) if left_open else []
        false = self.false_goals[function]
        if goals or false:
            return Refusal("goal", text, {*goals, *false}, bool(false))
        if goal in self.left_goals[function]:
            return Refusal("goal", text, [goal], is_beside=True)
        below = [it for errors in self.errors.values() for it in errors if it[1] == lemma]
        if lemma and any(kind_of(message, more) == "goal" for _, _, message, more in below):
            return Refusal("goal", text, [lemma], any("goal fails" in it[2] for it in below))
        errors = [it for it in self.errors["/".join(function.split("::")[1:])] if not REPEATED.search(it[2])]
        kinds = [(kind_of(message, more), goal, message) for _, goal, message, more in errors]
        for kind in ("goal", "type", "name", "other"):
            found = [it for it in kinds if it[0] == kind]
            if found:
                false = kind == "goal" and any("goal fails at" in it[3] or "goal fails at" in it[2] for it in errors)
                return Refusal(kind, found[0][2], [it[1] for it in found], false)
        if "not proved" in text and "it calls" in text:
            return Refusal("callee", text)
        return Refusal("other", text)

    def is_waiting(self, function):
        """Whether goals of the function were not tried, since a function that it calls is not proved."""
        return function in self.waiting and self.refusal_of(function).kind != "goal"

    def unproved_below(self, function):
        """The functions that it calls and that are not proved, and those that they call."""
        found, rest = set(), [function]
        while rest:
            _, calls, callees = self.verdicts.get(rest.pop(), "").partition("it calls ")
            new = set(re.findall(r"`([^`]*)`", callees.partition(", which")[0])) - found if calls else set()
            found |= new
            rest += new
        return found

    def refused(self):
        """The functions that are refused, and not only through a function that they call."""
        return [function for function in self.verdicts
                if self.refusal_of(function).kind in ("goal", "type", "name", "other")]


def owner(path):
    """The function that a file of proofs belongs to, as `net/IpNet/new`; for other files their path."""
    found = re.fullmatch(r"proofs/(.*)/(?:Answers|Invariants|Proof)\.antt", path)
    return found[1] if found else path


def kind_of(message, more):
    """Whether an error of a hand proof is a goal that is left open, a type that differs, or a name that is gone."""
    if NAME.search(message):
        return "name"
    if TYPE.search(message) or re.match(r"\s+(?:but )?(?:this )?has type|\s+expected", more):
        return "type"
    if re.search(r"no proof|found nothing|does not follow|is false|left open|goal fails|did not prove|gave up"
                 r"|missing equation|could not|no way|limit|not derived|unsolved|remains", message):
        return "goal"
    return "other"
