"""The steps of the body that a hand proof names, and which of them are missing in a right body in other words.

A proof reads `c.STEP.FIELD`, and an invariant `l.VARIABLE`; the names of goals have steps too, as
`returns-then-STEP`. A step is a call, a test, an arm or a loop, and a variable is a part of its name: `number-len` is
the call `number` whose result `let len` names. If a step is not there, the proof fails without a check. This module is
not run: `tests/right_list.py` imports it.
"""
import difflib
import os
import re

from edit_files import read_text
from right_functions import HAND_PROOFS

PATH = re.compile(r"\b([cl])\.([\w.-]+)")
GOAL = re.compile(r"\bgoal\.([\w-]+)")
# what a proof may name of any body
FREE = ("args", "requires", "ranges", "utf8", "type_inv", "fn", "initial")
# steps with the variables of the body among their fields, and their other fields
VARIABLES = re.compile(r"loop-|in-|in_ok-|if-|match-")
FIXED = {"ensures", "invariant", "is", "auto", "branch", "yielded", "yielded_by", "true", "false", "was"}


def steps(folder):
    """The steps, variables and goals that a hand proof names."""
    found = set()
    for name in HAND_PROOFS:
        path = os.path.join(folder, name)
        if os.path.isfile(path):
            text = re.sub(r"(?m)^\s*--.*$", "", read_text(path))
            found |= {re.sub(r"-clause-.*", "", goal) for goal in GOAL.findall(text)}
            for _, words in PATH.findall(text):
                first, *fields = words.split(".")
                if first not in FREE:
                    found.add(first)
                    # a field of a loop or an arm is a variable, if it is not one of the fixed ones
                    found |= set(fields[:1]) - FIXED if VARIABLES.match(first) else set()
    return found


def last_call(text):
    """The call that a line computes last, or None if the line is not one call."""
    depth, found = 0, None
    for match in re.finditer(r"(\w+)(?:::<\w+>)?!?\(|[()\[\]{}]", text):
        sign = match[0][-1]
        if not depth and match[1]:
            found = match[1]
        depth += (sign in "([{") - (sign in ")]}")
    return found if re.fullmatch(r"[\w.:&*!]+.*\)\??", text.strip()) and " " not in text.split("(")[0].strip() else None


def is_once(call, body):
    """Whether the body has this call once, so that its step has no count."""
    return len(re.findall(r"\b%s(?:::<\w+>)?!?\(" % call, body)) == 1


def tests_with(named, condition):
    """The steps that name a test with words of this condition only."""
    words = set(re.findall(r"[A-Za-z_]\w*", condition))
    found = []
    for step in named:
        parts = re.split(r"(?:^|-)(?:if|then|else)-", step)
        last = re.sub(r"\b(?:not|eq|ne|lt|le|gt|ge)?\d*\b", "", parts[-1]) if len(parts) > 1 else ""
        names = set(re.findall(r"[A-Za-z_]\w*", last))
        if names and names <= words:
            found.append(step)
    return found


def by_variable(named, lines, new):
    """A step with the variable that has another name."""
    before, after = (set(re.findall(r"\w+", "\n".join(it))) for it in (lines, new))
    return [step for step in named if (before - after) & set(step.split("-"))]


def by_value(named, lines, new):
    """The call whose value gets a name. If the value is a choice, the returns of its branches are gone."""
    added = [line[2:] for line in difflib.ndiff(lines, new) if line.startswith("+ ")]
    values = [found[1] for found in (re.fullmatch(r" *let \w+ = (.*?)[;{]?", line) for line in added) if found]
    body = "\n".join(lines)
    if len(values) != 1:
        return []
    if re.match(r"(?:match|if)\b", values[0]):
        is_only = len(re.findall(r"\b(?:match|if)\b", body)) == 1 and not re.search(r"\breturn\b|\?", body)
        return [step for step in named if re.match(r"returns-(?:in|then|else)", step)] if is_only else []
    call = last_call(values[0].lstrip("!"))
    return [call] if call in named and is_once(call, body) else []


def by_condition(named, lines, new):
    """A test of the condition that changes."""
    gone = [line[2:] for line in difflib.ndiff(lines, new) if line.startswith("- ")]
    tests = [found[1] for found in (re.fullmatch(r" *if (.*) \{", line) for line in gone) if found]
    return tests_with(named, tests[0]) if tests else []


def by_sides(named, lines, new):
    """A test that names both sides of the comparison in their old order."""
    for before, after in zip(lines, new):
        if before != after:
            sides = [re.findall(r"[A-Za-z_]\w*", side) for side in re.split(r" (?:==|!=|<=|>=|<|>) ", before)]
            pairs = ["-%s-%s" % (one[-1], two[at]) for one, two in zip(sides, sides[1:]) if one and two
                     for at in (0, -1)]
            return [step for step in named for pair in pairs if pair in step + "-" and tests_with([step], before)]
    return []


def by_else(named, lines, _):
    """The last return, which gets the name of its branch."""
    return ["returns"] if "returns" in named else []


def by_match(named, lines, new):
    """The branch without a pattern, if the first pattern of the body becomes a `match`."""
    first = next((at for at, line in enumerate(lines) if re.search(r"\blet (?:Some|Ok)\(", line)), None)
    return sorted({"returns-in_default", "in_default"} & named) if first and lines[first] != new[first] else []


def by_order(named, lines, new):
    """A call of two arms, of which only the first has no arm in its name."""
    heads = {found[1] for before, after in zip(lines, new) if before != after
             for found in [re.match(r" *(?:\w+::)*([A-Z]\w*)(?:\(.*\)| \{.*\})? => ", before)] if found}
    return [step for step in named if step.split("-in-")[-1] in heads
            and re.match(r"(?!in_|in-|returns|loop)\w+-in-", step)]


def by_inlining(named, lines, new):
    """The variable that is gone."""
    name = next(found[1] for line in difflib.ndiff(lines, new) for found in [re.match(r"- +let (\w+)", line)] if found)
    return [step for step in named if name in step.split("-")[1:] and not step.startswith("decreases-")]


def by_end(named, lines, new):
    """The last call, which no longer passes its error on."""
    body = "\n".join(lines)
    found = re.fullmatch(r" *(?:[\w:]+[.:])?(\w+)\(.*\)\?;", lines[-3])
    if len(new) > len(lines) or not found or re.search(r"\b(?:if|match|for|while|loop|else)\b", body):
        return []
    count = len(re.findall(r"\b%s\(.*\)\?;" % found[1], body))
    return sorted({"in_ok-%s" % found[1] + ("-%d" % count if count > 1 else "")} & named)


LOST = {"renamed": by_variable, "named": by_value, "helped": by_value, "conditioned": by_condition, "nested": by_else,
        "exchanged": by_condition, "flipped": by_sides, "matched": by_match, "reordered": by_order,
        "inlined": by_inlining, "ended": by_end}


def lost_step(folder, form, new, lines):
    """A step that the proof names and that the new body surely does not have, or None."""
    found = sorted(LOST[form](steps(folder), lines, new)) if form in LOST else []
    return found[0] if found else None
