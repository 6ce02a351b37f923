"""Edit files: small changes of a crate's text, each of which makes one function or law wrong.

They lie in `crates/NAME/must-fail` and `crates/NAME/wrong`. An edit has lines `file: PATH` and then pairs of lines
`old: TEXT` and `new: TEXT`; each old text is in the file exactly once. The lines `at:`, `clause:`, `lemma:`, `weak:`,
`control:` and `expected:` are for `tests/wrong_bodies`. This module is not run: `tests/edits` and `tests/wrong_bodies`
import it.
"""
import difflib
import os
import re

TOP = os.path.dirname(os.path.dirname(os.path.abspath(__file__)))
FOLDERS = ("must-fail", "wrong")
NOTES = ("at", "clause", "lemma", "weak", "expected")
# the head of a function, an impl or a type
HEAD = re.compile(r"^(?P<indent> *)(?:pub(?:\([a-z]+\))? )?(?:const |unsafe |extern .C. )*(?:fn (?P<function>\w+)"
                  r"|(?P<impl>impl\b.*)|(?:struct|enum|trait) (?P<type>\w+)|const (?P<const>\w+))")
CONTRACT = re.compile(r"^\s*(?:ensures|requires|invariant|decreases)\b")


class Edit:
    """One edit file, and what it makes of the texts of its crate.

    - `notes` holds the values of the lines `at:`, `clause:`, `lemma:`, `weak:` and `expected:`;
    - `texts` holds the edited text of each file that the edit changes;
    - `has_control` says whether the file has a line `control:`, and `is_control` whether its texts are used here;
    - `fault` says why the edit cannot be applied, and is None if it can.
    """

    def __init__(self, path, crate_folder, is_control=False):
        self.path = path
        self.crate_folder = crate_folder
        self.crate = os.path.basename(crate_folder)
        self.name = os.path.basename(path)[:-len(".edit")] + " (control)" * is_control
        self.folder = os.path.basename(os.path.dirname(path))
        self.is_control = is_control
        self.has_control = False
        self.notes = {}
        self.texts = {}
        self.originals = {}
        self.fault = self.read()

    def __str__(self):
        return self.crate + "/" + self.name

    def control(self):
        """The control of this edit: the right body in the same form."""
        return Edit(self.path, self.crate_folder, is_control=True)

    def read(self):
        """Applies the edit to the texts of the crate, and returns the fault if that fails."""
        path, pairs = None, []
        for line in read_text(self.path).split("\n"):
            key, _, word = line.partition(": ")
            if key in NOTES:
                self.notes[key] = word.strip()
            elif key == "file":
                path = word.strip()
            elif key == "old":
                pairs.append([path, word, None])
            elif line.startswith("new:"):
                if not pairs or not pairs[-1][0] or pairs[-1][2] is not None:
                    return "a line new: comes before its lines file: and old:"
                pairs[-1][2] = re.sub(r"^new: ?", "", line)
            elif line.startswith("control:"):
                if not pairs or pairs[-1][2] is None:
                    return "a line control: comes before its line new:"
                self.has_control = True
                if self.is_control:
                    pairs[-1][2] = re.sub(r"^control: ?", "", line)
        if not pairs:
            return "the edit has no pair of lines old: and new:"
        fault = next(filter(None, (self.replace(*pair) for pair in pairs)), None)
        if self.is_control and not fault and self.texts == self.originals:
            return "the control is the text as it is, so it shows nothing of the form"
        return fault

    def replace(self, path, old, new):
        """Puts the new text in the place of the old one, and returns the fault if the old text is not there once."""
        if not old or new is None:
            return "a line old: has no text or no line new: below it"
        if path not in self.texts:
            source = os.path.join(self.crate_folder, path)
            if not os.path.isfile(source):
                return "there is no file " + path
            self.originals[path] = self.texts[path] = read_text(source)
        count = self.texts[path].count(old)
        if count != 1:
            return "%s contains this text %d times: %s" % (path, count, old)
        self.texts[path] = self.texts[path].replace(old, new)
        return None

    def hunks(self):
        """(path, first line, line after the last, new lines) of each place that the edit changes."""
        for path, text in sorted(self.texts.items()):
            before, after = self.originals[path].split("\n"), text.split("\n")
            for kind, start, end, other_start, other_end in changes(before, after):
                if kind != "equal":
                    yield path, start, end, after[other_start:other_end]

    def files(self):
        """The new files of the edit: it has none."""
        return ()


def changes(before, after):
    return difflib.SequenceMatcher(None, before, after, autojunk=False).get_opcodes()


def read_text(path):
    with open(path, encoding="utf8") as file:
        return file.read()


def edits_of(crate, folders=FOLDERS):
    """The edits of a crate in these folders, by name."""
    found = []
    for folder in folders:
        found += edits_in(os.path.join(TOP, "crates", crate, folder), crate)
    return sorted(found, key=lambda edit: edit.name)


def edits_in(folder, crate):
    """The edits of the crate that lie in this folder, by name."""
    names = sorted(os.listdir(folder)) if os.path.isdir(folder) else []
    crate_folder = os.path.join(TOP, "crates", crate)
    return [Edit(os.path.join(folder, name), crate_folder) for name in names if name.endswith(".edit")]


class Item:
    """A function, an impl or a type of a source file: its lines, and the lines of its body if it is a function."""

    def __init__(self, start, name, is_function):
        self.start = start
        self.end = start
        self.name = name
        self.is_function = is_function
        self.body = range(start, start)

    def close(self, lines, end):
        """Ends the item before line `end`, and finds the body."""
        self.end = end
        if not self.is_function:
            return
        indent = re.match(" *", lines[self.start]).group()
        has_contract, first = False, None
        for at in range(self.start, end):
            line = lines[at]
            has_contract = has_contract or bool(CONTRACT.match(line))
            if line in (indent + "{", indent + "{}") or not has_contract and line.endswith("{"):
                first = at
                break
        if first is not None:
            last = next((at for at in range(first, end) if lines[at] in (indent + "}", indent + "{}")), end - 1)
            self.body = range(first, last + 1)


def items(text):
    """The items of a source file in their order. A method's name begins with its impl, as `Ipv4NetOrd::cmp`."""
    lines = text.split("\n")
    found, of_impl = [], ""
    for at, line in enumerate(lines):
        head = HEAD.match(line)
        if not head:
            continue
        if not head["indent"]:
            of_impl = impl_name(whole_head(lines, at)) + "::" if head["impl"] else ""
        if head["function"]:
            name = of_impl + head["function"]
        else:
            name = of_impl.rstrip(":") or head["type"] or head["const"] or ""
        if found:
            found[-1].close(lines, at)
        found.append(Item(at, name, bool(head["function"])))
    if found:
        found[-1].close(lines, len(lines))
    return found


def whole_head(lines, at):
    """The head of an impl, up to its brace."""
    return " ".join(lines[at:at + 6]).split("{")[0]


def impl_name(head):
    """The name that a check gives an impl: `impl Contains<&Ipv4Net> for Ipv4Net` is `Ipv4NetContainsRefIpv4Net`."""
    head = re.sub(r"^impl\s*(<[^<>]*(<[^<>]*>)?[^<>]*>)?\s*", "", " ".join(head.split())).split(" where ")[0].strip()
    trait, found, of_type = head.partition(" for ")
    if not found:
        return re.sub(r"\W", "", re.sub(r"<.*", "", head))
    words = [re.sub(r"'\w+ ?|\b\w+::", "", part).replace("&", "Ref") for part in (of_type, trait)]
    return "".join(re.sub(r"\W", "", word) for word in words)
