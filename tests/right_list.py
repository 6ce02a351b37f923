"""The lists of right bodies in other words: tests/right_bodies_left and tests/right_bodies_passed.

Each function with a hand proof, and with a line in its body, is in one of the two. A line of the first has the
function, the form of the right body and the reason: `untried`; `names STEP`, if the proof names a step that the right
body does not have, which needs no check; or the kind of the verdict (tests/edit_verdicts.py) and its text. A line of
the second has the function and the form. `tests/right_bodies` writes both; this module is not run.
"""
import os

from edit_files import TOP, read_text
from right_functions import functions, hand_proofs
from right_names import lost_step

LEFT = os.path.join(TOP, "tests", "right_bodies_left")
PASSED = os.path.join(TOP, "tests", "right_bodies_passed")
UNTRIED = "untried"
NAMES = "names "
HEADS = {
    LEFT: """\
# Functions whose proof does not hold for a right body in other words, or was not tried with one: the function, the form
# (tests/right_forms.py) and the reason. tests/right_bodies writes this list, and it only gets shorter.
""",
    PASSED: """\
# Functions with a hand proof that holds for a right body in other words too: the function and the form
# (tests/right_forms.py). tests/right_bodies writes this list.
""",
}


def read(path):
    """The words of each line after the function, by the function."""
    found = {}
    for line in read_text(path).split("\n") if os.path.exists(path) else ():
        function, _, rest = line.partition(" ")
        if function and function != "#":
            found[function] = rest
    return found


def write(path, lines):
    with open(path, "w", encoding="utf8") as out:
        out.write(HEADS[path] + "".join("%s %s\n" % it for it in sorted(lines.items())))


def with_hand_proof(crate):
    """The functions of a crate that have a hand proof and a line in their body."""
    proofs = hand_proofs(crate)
    return [it for it in functions(crate) if it.name in proofs and it.has_steps()]


def is_tried(rest):
    """Whether the rest of a line has the verdict of a check."""
    return not rest.endswith(" " + UNTRIED) and not rest.partition(" ")[2].startswith(NAMES)


def form_of(function):
    """The form with which the function is tried."""
    bodies = function.right_bodies()
    return bodies[0][0] if bodies else "none"


def unchecked(function, folder):
    """The form and the reason of a function that no check has tried."""
    bodies = function.right_bodies()
    step = lost_step(folder, *bodies[0], function.body()) if bodies else None
    return "%s %s" % (form_of(function), NAMES + step if step else UNTRIED)


def bring_up_to_date(crates):
    """Adds the functions that no list has, and drops those that are gone."""
    left, passed = read(LEFT), read(PASSED)
    every = {it.name: it for crate in crates for it in with_hand_proof(crate)}
    # a function without a hand proof that was found to fail stays listed while it exists
    names = {it.name for crate in crates for it in functions(crate)}
    new = {name: rest for name, rest in left.items() if name in names - set(passed) and is_tried(rest)}
    folders = {name: folder for crate in crates for name, folder in hand_proofs(crate).items()}
    for name, function in every.items():
        if name not in new and name not in passed:
            new[name] = unchecked(function, folders[name])
    write(LEFT, new)
    write(PASSED, {name: rest for name, rest in passed.items() if name in every})


def keep(verdicts):
    """Writes (function, form, reason) of functions that were tried; the reason is None if the function passed."""
    left, passed = read(LEFT), read(PASSED)
    for function, form, reason in verdicts:
        left.pop(function.name, None)
        passed.pop(function.name, None)
        if reason:
            left[function.name] = "%s %s" % (form, reason)
        elif function.name in hand_proofs(function.crate):
            passed[function.name] = form
    write(LEFT, left)
    write(PASSED, passed)


def faults(crates):
    """Lines of the lists that are stale, and functions that no list has."""
    left, passed = read(LEFT), read(PASSED)
    every = {it.name for crate in crates for it in with_hand_proof(crate)}
    names = {it.name for crate in crates for it in functions(crate)}
    for name in sorted(every - set(left) - set(passed)):
        yield "%s has a hand proof and is in no list: run tests/right_bodies --list" % name
    for name, rest in sorted(left.items()):
        if name not in every and (name not in names or not is_tried(rest)):
            yield "tests/right_bodies_left: %s has no hand proof now: run tests/right_bodies --list" % name
    for name in sorted(passed):
        if name in left or name not in every:
            yield "tests/right_bodies_passed: the line of %s is stale: run tests/right_bodies --list" % name


def count_left():
    """How many functions are left."""
    return len(read(LEFT))
