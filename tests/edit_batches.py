"""Which edits are tried in one check: the batches of a crate.

The edits of one batch change different functions, or copies of functions (tests/edit_copies.py). Edits of contracts,
ghost members, derives and definitions can change the verdict on other functions: they come after edits of bodies, and
only with edits of types that do not use each other. Controls, which have to be proved, come last, and only with wrong
bodies of functions that theirs does not call. Edits of the self-test share no batch with others. This module is not
run: `tests/wrong_bodies` imports it.
"""
import os
import re

from edit_copies import Copy, place_of
from edit_files import TOP, items, read_text

# the heads of what a changed line can lie in
AROUND = re.compile(r"(?:pub(?:\(\w+\))? )?(?:impl|struct|enum|trait|const|fn)\b|#\[derive")

# the traits whose impls compare and hash, and what stands for all traits
COMPARED = {"PartialEq", "Eq", "PartialOrd", "Ord", "Hash", "derive_where"}
ANY = "any"


class Source:
    """The sources of a crate: the lines of each function and type, and which types a type is made of."""

    def __init__(self, crate):
        self.files = {}
        folder = os.path.join(TOP, "crates", crate)
        for place, _, names in os.walk(os.path.join(folder, "src")):
            for name in names:
                path = os.path.relpath(os.path.join(place, name), folder)
                self.files[path] = (read_text(os.path.join(folder, path)).split("\n"),
                                    items(read_text(os.path.join(folder, path))))
        self.users = self.users_of_types()
        self.calls = self.calls_of_functions()

    def users_of_types(self):
        """For each type and constant of the crate, the types whose definition names it."""
        named = {}
        for lines, found in self.files.values():
            for item in found:
                if re.match(r"\s*(pub(\(\w+\))? )?(struct|enum|trait|const) ", lines[item.start]):
                    named.setdefault(item.name, set()).update(words(lines[item.start:item.end]))
        return {name: {user for user, used in named.items() if name in used} for name in named}

    def calls_of_functions(self):
        """For each name of a function of the crate, the names that the functions of this name call."""
        found = {}
        for lines, its in self.files.values():
            for item in its:
                if item.is_function:
                    found.setdefault(last_name(item.name), set()).update(calls(lines[item.start + 1:item.end]))
        return found

    def called_by(self, function):
        """The names of the functions that this one may call, and that those may call, without their types."""
        found, rest = set(), [last_name(function)]
        while rest:
            new = {name for name in self.calls.get(rest.pop(), ()) if name in self.calls} - found
            found |= new
            rest += new
        return found

    def item_at(self, path, line):
        return next((it for it in self.files.get(path, ([], []))[1] if it.start <= line < it.end), None)

    def with_users(self, types):
        """The types, and all types that are made of them."""
        found, rest = set(), list(types)
        while rest:
            name = rest.pop()
            if name not in found:
                found.add(name)
                rest += self.users.get(name, ())
        return found

    def words_of_function(self, function):
        """The words of the function or law of this name, as a check prints it."""
        tail = last_name(function)
        return {word for lines, found in self.files.values() for item in found
                if item.is_function and last_name(item.name) == tail
                and (item.name in function or "::" not in item.name)
                for word in words(lines[item.start:item.end])}


def last_name(name):
    """The name of a function or method without its type and module."""
    return name.split("::")[-1]


def words(lines):
    """The words of these lines, without their comments."""
    return {word for line in lines for word in re.findall(r"\w+", line.partition("//")[0])}


def calls(lines):
    """The names that these lines call."""
    return {name for line in lines for name in re.findall(r"(\w+)(?:::<[^>()]*>)?\(", line.partition("//")[0])}


class Reach:
    """What an edit changes, and what its verdict depends on.

    - `places`: the functions, impls and types that it changes, and the function that has to refuse it;
    - `is_control`: whether it is a control, which has to be proved, and `is_test` whether it is of the self-test;
    - `calls`: for a control, the names of the functions whose proofs its verdict may wait for;
    - `names`: the names of the functions that it changes;
    - `is_local`: whether it changes bodies of functions only, so that no other verdict can change;
    - `is_global`: whether it changes definitions, which any verdict can depend on;
    - `changed` and `read`: for the rest, the types that it can change, and those that its verdict depends on;
    - `traits`: for the rest, which impls it changes, if it changes no other thing: clones, comparisons and hashes
      (`Compare`), iterators, or impls of another trait. The verdict on an impl does not depend on impls of other
      traits.
    """

    def __init__(self, edit, source):
        self.places = {edit.notes["at"]} if "at" in edit.notes else set()
        self.is_local = True
        self.is_control = edit.is_control
        self.is_test = "expected" in edit.notes
        function = (edit.original if isinstance(edit, Copy) else edit).notes.get("at", "")
        self.calls = source.called_by(function) if edit.is_control else set()
        self.names = set()
        self.is_global = any(not path.startswith("src/") for path in edit.texts)
        self.traits, types = set(), set()
        for path, start, end, new in () if isinstance(edit, Copy) else edit.hunks():
            item = source.item_at(path, start)
            self.places.add((path, item.start if item else start))
            self.names |= {last_name(item.name)} if item and item.is_function else set()
            if path not in source.files:
                self.is_local = False
                self.traits.add(ANY)
                continue
            lines = source.files[path][0]
            if not item or any(at not in item.body for at in range(start, max(end, start + 1))):
                self.is_local = False
                types |= touched(item, lines, range(start, end), new, source) or {path}
                self.traits |= traits_of(lines, range(start, end), new)
        self.changed = source.with_users(types)
        self.read = types | source.words_of_function(edit.notes.get("at", "")) if types else set()

    def keeps_apart(self, other):
        """Whether the two edits have to be tried in different checks. Right bodies cannot change other verdicts, but they
        are not proved if a function that theirs calls is not."""
        if self.is_test != other.is_test or self.places & other.places:
            return True
        if self.is_control and other.is_control:
            return False
        if self.calls & other.names or other.calls & self.names:
            return True
        return (self.is_local != other.is_local or self.is_global or other.is_global
                or bool(self.traits & other.traits or ANY in self.traits | other.traits)
                and bool(self.changed & other.read or other.changed & self.read))


def touched(item, lines, old, new, source):
    """What a change outside of bodies is about: a contract, or the types that it adds, takes away or is in."""
    if item and item.is_function and old.start < item.end and item.body and old.stop <= item.body.start:
        return {item.name}
    found = {word for word in words(lines[at] for at in old) ^ words(new) if word in source.users}
    at = next((at for at in range(min(old.start, len(lines) - 1), -1, -1) if AROUND.match(lines[at])), None)
    if at is not None and not found:
        derived = [line for line in lines[at:] if not line.startswith("#[")] if lines[at].startswith("#[") else []
        head = (derived or lines[at:])[0].partition("{")[0]
        found |= {word for word in words([head]) if word in source.users}
    return found


def traits_of(lines, old, new):
    """The traits whose impls a change outside of bodies adds, takes away or is in, or ANY."""
    found = words(lines[at] for at in old) ^ words(new)
    named = {"Clone"} & found | ({"Compare"} if found & COMPARED else set())
    at = next((at for at in range(min(old.start, len(lines) - 1), -1, -1) if AROUND.match(lines[at])), 0)
    head = re.match(r"impl(?:<[^>]*>)? (\w+)[^{]* for ", lines[at])
    return named or ({re.sub(".*Iterator", "Iterator", head[1])} if head else {ANY})


def first_fit(edits, keeps_apart):
    """The edits in as few batches as a first fit finds."""
    batches = []
    for edit in edits:
        batch = next((it for it in batches if not any(keeps_apart(edit, other) for other in it)), None)
        if batch is None:
            batches.append([edit])
        else:
            batch.append(edit)
    return batches


def batches_of(edits, source):
    """The batches of these edits: edits of bodies first, and controls last. An edit that fits into no batch changes a
    copy of its function, if that fits into one."""
    reach = {edit: Reach(edit, source) for edit in edits}
    batches = []

    def fitting(edit):
        return next((it for it in batches if not any(reach[edit].keeps_apart(reach[other]) for other in it)), None)

    for edit in sorted(edits, key=lambda edit: (edit.is_control, not reach[edit].is_local)):
        batch, place = fitting(edit), place_of(edit, source)
        if batch is None and place is not None:
            copy = Copy(edit, place, "again_%d" % len(reach))
            reach[copy] = Reach(copy, source)
            batch = fitting(copy)
            edit = edit if batch is None else copy
        if batch is None:
            batches.append(batch := [])
        batch.append(edit)
    return batches
