"""The tests of tests/rattle: sources in Rattle that are compiled and run, and not proved.

No crate of crates.txt has them, so `rt ci` neither proves nor reads them. Each is a text NAME.rt.txt, since `rt ci`
refuses a file NAME.rt outside a crate. `make_crate` makes a crate of them in another folder, in which `rt` finds it
beside the libraries that the tests call. A file tests/rattle/NAME.rt.txt is a module of that crate, and the files of
tests/rattle/NAME/ are its submodules.
"""
import os
import re
import shutil

import crates

FOLDER = os.path.join(crates.TOP, "tests", "rattle")
ENDING = ".rt.txt"
CRATE = "unproved_tests"
HEAD = "//! The tests of tests/rattle.\n#![tactic(auto)]\n"


def modules():
    """The names of the modules, in order."""
    return sorted(name[:-len(ENDING)] for name in os.listdir(FOLDER) if name.endswith(ENDING))


def texts(names):
    """The paths below tests/rattle of the texts of these modules, in order."""
    found = []
    for at, _, files in os.walk(FOLDER):
        found += [os.path.relpath(os.path.join(at, file), FOLDER) for file in files if file.endswith(ENDING)]
    return sorted(path for path in found if path[:-len(ENDING)].split(os.sep)[0] in names)


def read(path):
    """The text at this path below tests/rattle."""
    with open(os.path.join(FOLDER, path), encoding="utf8") as file:
        return file.read()


def used(names, uses):
    """The crates of the repository that the modules name, and all crates below these, lowest first."""
    words = {word for path in texts(names) for word in re.findall(r"\b(\w+)::", read(path))}
    found = words & set(uses)
    return [name for name in crates.lowest_first(uses) if any(name in (it, *crates.below(it, uses)) for it in found)]


def source(path):
    """The path in the crate's folder of the text at this path."""
    return os.path.join("src", path[:-len(".txt")])


def make_crate(room, names):
    """Makes a repository in the folder: the crate of these modules, and the sources of the crates that it uses. Returns
    the folder of the crate."""
    uses = crates.listed()
    below = used(names, uses)
    lines = ["%s: %s\n" % (name, " ".join(uses[name])) for name in below] + ["%s: %s\n" % (CRATE, " ".join(below))]
    with open(os.path.join(room, "crates.txt"), "w", encoding="utf8") as file:
        file.writelines(lines)
    for name in below:
        for part in ("src", "specs"):
            path = os.path.join("crates", name, part)
            if os.path.isdir(os.path.join(crates.TOP, path)):
                shutil.copytree(os.path.join(crates.TOP, path), os.path.join(room, path))
    folder = os.path.join(room, "crates", CRATE)
    for path in texts(names):
        os.makedirs(os.path.dirname(os.path.join(folder, source(path))), exist_ok=True)
        shutil.copy(os.path.join(FOLDER, path), os.path.join(folder, source(path)))
    with open(os.path.join(folder, "src", "lib.rt"), "w", encoding="utf8") as file:
        file.write(HEAD + "".join("\n#[cfg(test)]\nmod %s;" % name for name in names) + "\n")
    return folder
