"""What the reference shows: the crates, their modules, and an entry for each public item and each definition."""
import os
import re

from . import definitions, rattle

TYPES = ("struct", "enum", "union", "trait", "type")
# the crates that most users name come first, then those below and above them, then examples and what serves tests
FIRST = ("ipnet", "ipnet_sets", "ipnet_routes")
LAST = ("example", "test")


class Entry:
    """One box of the page. `anchor` is its address there, `name` its title, and `path` and `line` its source."""

    def __init__(self, anchor, name, kind, path, line):
        self.anchor, self.name, self.kind, self.path, self.line = anchor, name, kind, path, line
        self.doc, self.code, self.scope = "", "", {}
        # an item that other crates cannot name: `pub` in a private module or of a private type
        self.is_internal = False
        # whether the source says `pub fn` on this line
        self.is_public_function = False
        # the other names that other crates may use, and the anchors of members that the code shows
        self.public_names, self.members = [], []


class Module:
    """A module of a crate, or a file of its `specs/`."""

    def __init__(self, anchor, path):
        self.anchor, self.path = anchor, path
        self.doc, self.entries, self.items = "", [], []
        self.is_public, self.is_definitions = True, False


class Crate:
    def __init__(self, name, below):
        self.name, self.below = name, below
        self.modules = []

    def entries(self):
        return [entry for module in self.modules for entry in module.entries]


def read(top, path):
    with open(os.path.join(top, path), encoding="utf8") as file:
        return file.read()


def libraries(top):
    """{name: the crates below it} of the libraries of crates.txt that are not crates of tests."""
    found = {}
    for line in read(top, "crates.txt").split("\n"):
        head, colon, tail = line.partition("#")[0].partition(":")
        name = head.split()[0] if colon else ""
        if name and not name.endswith("_tests") and os.path.exists(os.path.join(top, "crates", name, "src/lib.rt")):
            found[name] = tail.split()
    order = sorted(found, key=lambda name: (name.startswith(LAST), name not in FIRST, name))
    return {name: found[name] for name in order}


def modules_of(top, crate):
    """The modules of the crate's sources, from lib.rt down; files of tests are left out."""

    def visit(anchor, path, folder, is_public):
        module = Module(anchor, path)
        text = read(top, path)
        module.doc, module.items, module.is_public = rattle.file_doc(text), rattle.items(text), is_public
        yield module
        for item in module.items:
            if item.kind == "mod" and item.code.endswith(";") and "#[cfg(test)]" not in item.attributes:
                yield from visit(anchor + "::" + item.name, folder + item.name + ".rt", folder + item.name + "/",
                                 is_public and item.is_public)

    source = "crates/%s/src/" % crate
    return list(visit(crate, source + "lib.rt", source, True))


def definition_modules(top, crate):
    folder = os.path.join(top, "crates", crate, "specs")
    paths = sorted(os.path.join(at, name) for at, _, names in os.walk(folder) for name in names
                   if name.endswith(".antt") and name != "Lib.antt")
    for path in paths:
        path = os.path.relpath(path, top)
        name = os.path.relpath(path, "crates/%s/specs" % crate)[:-len(".antt")].replace(os.sep, "::")
        module = Module("%s::specs::%s" % (crate, name), path)
        module.is_definitions = True
        text = read(top, path)
        module.doc = definitions.file_comment(text)
        scope = definitions.used_names(text)
        for one in definitions.definitions(text):
            entry = Entry(module.anchor + "::" + one.name, one.name, "definition", path, one.line)
            entry.doc = "" if one.comment == module.doc else one.comment
            entry.code, entry.scope = one.code, scope
            module.entries.append(entry)
        yield module


def exported_names(crate_modules):
    """{anchor: the names by which other crates may use it} from the `pub use` items of public modules."""
    by_anchor = {module.anchor: module for module in crate_modules}
    found = {}
    for module in crate_modules:
        for item in module.items:
            if not (module.is_public and item.kind == "use" and item.is_public):
                continue
            for path, name in rattle.listed_names(item.code):
                parts = path.split(".")
                start = parts[0]
                if start == "crate":
                    parts[0] = module.anchor.split("::")[0]
                elif module.anchor + "::" + start in by_anchor:
                    parts[0] = module.anchor + "::" + start
                found.setdefault("::".join(parts), []).append(module.anchor + "::" + name)
    return found


def resolved_exports(crates):
    """The exported names, with exports of exports followed."""
    found = {}
    for crate in crates:
        for target, names in exported_names(crate.modules).items():
            found.setdefault(target, []).extend(names)
    for _ in crates:
        for target, names in list(found.items()):
            for name in names:
                for more in found.get(name, []):
                    if more not in names:
                        names.append(more)
    return found


def add_entries(module, exports, owners):
    """Makes the entries of a module's items. `owners` has the (anchor, is internal) of the crate's types by name."""
    scope = rattle.used_names(module.items)
    for item in module.items:
        if item.kind in ("fn", "const", "static", *TYPES) and item.is_public:
            entry = entry_of(module, item, module.anchor + "::" + item.name, item.name, scope)
            entry.public_names = exports.get(entry.anchor, [])
            entry.is_internal = not module.is_public and not entry.public_names
            module.entries.append(entry)
            if item.kind == "trait":
                add_members(module, item, entry, scope)
        elif item.kind == "impl" and item.trait:
            add_implementation(module, item, owners, scope)
        elif item.kind == "impl":
            add_methods(module, item, owners, scope)


def entry_of(module, item, anchor, name, scope):
    entry = Entry(anchor, name, item.kind, module.path, item.line)
    shown = [line for line in item.attributes if line.startswith(("#[derive", "#[must_use", "#[unsafe"))]
    entry.doc, entry.code, entry.scope = item.doc, "\n".join([*shown, item.code]), scope
    entry.is_public_function = item.kind == "fn" and item.is_public
    return entry


def add_members(module, trait, owner, scope):
    for item in trait.items:
        if item.kind in ("fn", "const", "type", "ghost") and item.name != "use":
            name = item.name.rstrip(":")
            entry = entry_of(module, item, owner.anchor + "::" + name, trait.name + "::" + name, scope)
            entry.is_internal = owner.is_internal
            module.entries.append(entry)


def add_methods(module, block, owners, scope):
    owner = rattle.bare_type(block.type)
    anchor, is_internal = owners.get(owner, (module.anchor + "::" + owner, True))
    for item in block.items:
        if item.kind in ("fn", "const") and item.is_public:
            entry = entry_of(module, item, anchor + "::" + item.name, owner + "::" + item.name, scope)
            entry.is_internal = is_internal
            module.entries.append(entry)


def add_implementation(module, block, owners, scope):
    """One entry for the implementation of a trait, unless the type or the trait is private."""
    for name in (rattle.bare_type(block.type), rattle.bare_type(block.trait)):
        if owners.get(name, ("", False))[1]:
            return
    anchor = module.anchor + "::" + rattle.joined_name(block.type) + rattle.joined_name(block.trait)
    entry = entry_of(module, block, anchor, "%s for %s" % (block.trait, block.type), scope)
    members = [item for item in block.items if item.kind in ("fn", "const", "type", "ghost") and item.name != "use"]
    entry.members = [(item.name, anchor + "::" + item.name) for item in members if item.kind == "fn"]
    if members:
        inner = "\n\n".join(comment_and_code(item) for item in members)
        entry.code += " {\n" + re.sub(r"(?m)^(?=.)", "    ", inner) + "\n}"
    else:
        entry.code += " {}"
    module.entries.append(entry)


def comment_and_code(item):
    lines = ["/// " + line if line else "///" for line in item.doc.split("\n")] if item.doc else []
    code = item.code if item.code.endswith(";") else item.code + ";"
    return "\n".join([*lines, code])


def owners_of(crate_modules, exports):
    """{name: (anchor, whether it is internal)} of the types and traits that the crate defines."""
    found = {}
    for module in crate_modules:
        for item in module.items:
            if item.kind in TYPES:
                anchor = module.anchor + "::" + item.name
                is_internal = not (item.is_public and (module.is_public or anchor in exports))
                if item.name not in found or found[item.name][1]:
                    found[item.name] = anchor, is_internal
    return found


def collected(top):
    """The crates with all their entries."""
    crates = []
    for name, below in libraries(top).items():
        crate = Crate(name, below)
        crate.modules = modules_of(top, name)
        crates.append(crate)
    exports = resolved_exports(crates)
    for crate in crates:
        owners = owners_of(crate.modules, exports)
        for module in crate.modules:
            add_entries(module, exports, owners)
        crate.modules.extend(definition_modules(top, crate.name))
    return crates
