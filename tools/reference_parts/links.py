"""The links of the page: the entry to which a word of a contract, a signature or a comment leads."""
from . import words
from .model import TYPES


class Links:
    """Finds the anchor of a word by the file's `use` lines: a name that is not in scope is not linked."""

    def __init__(self, crates):
        self.standard = words.anchors()
        self.anchors, self.by_file, self.types, self.titles = set(), {}, {}, {}
        self.below = {crate.name: crate.below for crate in crates}
        for crate in crates:
            for entry in crate.entries():
                self.anchors.add(entry.anchor)
                if entry.kind == "definition":
                    self.add_definition(entry)
                elif entry.kind in TYPES:
                    self.types.setdefault(entry.name, []).append(entry)
                self.titles.setdefault(entry.name, []).append(entry)

    def add_definition(self, entry):
        names = self.by_file.setdefault(entry.path, {})
        names[entry.name] = entry.anchor
        if "data " in entry.code.split("\n")[0]:
            for line in entry.code.split("\n")[1:]:
                names[line.split(":")[0].strip()] = entry.anchor

    def imported(self, path):
        """The anchor of a name that a `use` line brings in, as `Rattle.ipnet.specs.Lines.lines_of`."""
        parts = path.split(".")
        if parts[0] != "Rattle" or "specs" not in parts:
            return None
        crate, inner = parts[1], parts[3:]
        if inner[0] == "declared":
            for end in range(len(inner), 1, -1):
                anchor = "::".join([crate, *inner[1:end]])
                if anchor in self.anchors:
                    return anchor
            return None
        if crate in ("std", "core", "std_alloc"):
            return self.standard.get(inner[-1])
        for name in [crate, *self.below.get(crate, [])]:
            file = "crates/%s/specs/%s.antt" % (name, "/".join(inner[:-1]))
            if inner[-1] in self.by_file.get(file, {}):
                return self.by_file[file][inner[-1]]
        return None

    def of_field(self, entry, owner, word):
        """The anchor of `word` in `owner.word`, if `owner` is a file of definitions that the file uses by this name."""
        parts = entry.scope.get(owner, "").split(".")
        if len(parts) < 4 or parts[0] != "Rattle" or parts[2] != "specs":
            return None
        file = "crates/%s/specs/%s.antt" % (parts[1], "/".join(parts[3:]))
        return self.by_file.get(file, {}).get(word)

    def of_type(self, entry, word):
        """The type of this name: in the same file, or in the crate, or in a crate below."""
        crate = entry.anchor.split("::")[0]
        found = self.types.get(word, [])
        for place in ([one for one in found if one.path == entry.path],
                      [one for one in found if one.anchor.split("::")[0] == crate],
                      [one for one in found if one.anchor.split("::")[0] in self.below[crate]]):
            if len(place) == 1:
                return place[0].anchor
            if place:
                return None
        return None

    def of_word(self, entry, word):
        """The anchor of a word in the entry's code, or None."""
        if word in entry.scope:
            return self.imported(entry.scope[word])
        if word in self.by_file.get(entry.path, {}):
            return self.by_file[entry.path][word]
        if entry.kind != "definition":
            return self.of_type(entry, word) or (word in ("requires", "ensures") and self.standard[word]) or None
        return None

    def kit_path(self, entry, word):
        """The place in the kit of a name that has no anchor, as `std.specs.Net.Addr`, or None."""
        parts = entry.scope.get(word, "").split(".")
        if parts[0] != "Rattle" or parts[1] in self.below:
            return None
        return ".".join(parts[1:-1])

    def of_span(self, entry, text):
        """The anchor of code in a comment, as `IpNet::aggregate`, or None."""
        crate = entry.anchor.split("::")[0]
        found = self.titles.get(text.rstrip("()"), [])
        for crates in ([crate], self.below.get(crate, [])):
            near = [one for one in found if one.anchor.split("::")[0] in crates]
            if len(near) == 1:
                return near[0].anchor
            if near:
                return None
        return None
