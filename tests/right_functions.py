"""The functions of the crates under the names that a check prints, and which of them have a hand proof.

A hand proof is a folder below a crate's `proofs/` with one of the files HAND_PROOFS. Its path is the name of the
function; the folder of a function that calls itself begins with `+`. This module is not run: `tests/right_bodies` and
`tests/lint` import it.
"""
import os
import re

from edit_files import TOP, items, read_text, whole_head
from right_forms import right_bodies

HAND_PROOFS = ("Answers.antt", "Invariants.antt", "Proof.antt")
TYPE = re.compile(r"^ *(?:pub(?:\(\w+\))? )?(?:struct|enum|trait) (\w+)", re.M)


class Function:
    """A function of a crate: its source file, the lines of its body, and its name as a check prints it."""

    def __init__(self, crate, path, item, name):
        self.crate = crate
        self.path = path
        self.item = item
        self.name = name

    def __str__(self):
        return self.name

    def lines(self):
        return read_text(os.path.join(TOP, "crates", self.crate, self.path)).split("\n")

    def body(self):
        """The lines of the body, from its brace to its brace. The first line may be the end of the head."""
        return self.lines()[self.item.body.start:self.item.body.stop]

    def changing(self):
        """The parameters that are passed to be changed."""
        head = "\n".join(self.lines()[self.item.start:self.item.body.start + 1]).split("ensures")[0]
        return frozenset(re.findall(r"(\w+): &(?:'\w+ )?mut ", head)) | frozenset(re.findall(r"&mut (self)\b", head))

    def right_bodies(self):
        """(name of the form, lines) of each right body in other words, the first of which is tried."""
        return right_bodies(self.body(), self.changing())

    def has_steps(self):
        """Whether the body has a line, so that there can be another body."""
        return any(line.strip() for line in self.body()[1:-1])


def module_of(path):
    """The module of a source file: `net::ipv4_net` of src/net/ipv4_net.rt."""
    return [part for part in path[len("src/"):-len(".rt")].split("/") if part not in ("lib", "main")]


def sources(crate):
    """The paths of the sources of a crate in its folder."""
    folder = os.path.join(TOP, "crates", crate)
    return sorted(os.path.relpath(os.path.join(place, name), folder)
                  for place, _, names in os.walk(os.path.join(folder, "src")) for name in names if name.endswith(".rt"))


def split_commas(text):
    """The parts of the text between commas that are in no bracket."""
    parts, depth = [""], 0
    for sign in text:
        depth += (sign in "<([") - (sign in ">)]")
        if sign == "," and not depth:
            parts.append("")
        else:
            parts[-1] += sign
    return [part.strip() for part in parts if part.strip()]


def type_word(text, free):
    """What the name of an impl has of a type; nothing of a type parameter in `free`."""
    text = re.sub(r"'\w+ ?", "", text).strip()
    if text.startswith("&"):
        return "Ref" + type_word(text[1:].replace("mut ", ""), free)
    if text.startswith("("):
        parts = split_commas(text[1:-1])
        return "Tuple%d" % len(parts) + "".join(type_word(it, free) for it in parts) if parts else "Unit"
    head, _, rest = text.partition("<")
    word = head.split("::")[-1].strip()
    if word in free:
        return ""
    return word[:1].upper() + word[1:] + "".join(type_word(it, free) for it in split_commas(rest[:-1]))


def impl_word(head):
    """The name that a check gives an impl: `impl Contains<&Ipv4Net> for Ipv4Net` is `Ipv4NetContainsRefIpv4Net`."""
    head = " ".join(head.split()).split(" where ")[0].strip()
    head, free = head[len("impl"):], []
    if head.startswith("<"):
        depth = 0
        for at, sign in enumerate(head):
            depth += (sign == "<") - (sign == ">")
            if not depth:
                break
        free = [it.split(":")[0].strip() for it in split_commas(head[1:at])]
        head = head[at + 1:]
    head = head.strip()
    trait, is_of_trait, of_type = head.partition(" for ")
    if is_of_trait:
        name, _, rest = trait.partition("<")
        rest = [it for it in split_commas(rest[:-1]) if it != of_type.strip()]
        return type_word(of_type, free) + name.split("::")[-1] + "".join(type_word(it, free) for it in rest)
    name, _, rest = head.partition("<")
    given = [it for it in split_commas(rest[:-1]) if it not in free and not it.startswith("'")]
    return "+".join([name.split("::")[-1].strip(), *given])


def functions(crate):
    """The functions of a crate that have a body."""
    texts = {path: read_text(os.path.join(TOP, "crates", crate, path)) for path in sources(crate)}
    homes = {}
    for path, text in texts.items():
        for name in TYPE.findall(text):
            homes.setdefault(name, []).append(module_of(path))
    found = []
    for path, text in texts.items():
        lines, word, home = text.split("\n"), "", []
        impls = {at for at, line in enumerate(lines) if re.match(r"impl\b", line)}
        for item in items(text):
            if item.start in impls:
                head = whole_head(lines, item.start)
                word, home = impl_word(head), module_of(path)
                if " for " not in head and home not in homes.get(word, [home]):
                    home = homes[word][0]
            elif item.is_function and item.body:
                is_method = lines[item.start].startswith(" ") and word
                words = [*home, word] if is_method else module_of(path)
                found.append(Function(crate, path, item, "::".join([crate, *words, item.name.split("::")[-1]])))
            elif not lines[item.start].startswith(" "):
                word = ""
    return found


def hand_proofs(crate):
    """The folder of each hand proof of a crate, by the name of its function."""
    top = os.path.join(TOP, "crates", crate, "proofs")
    found = {}
    for place, _, files in os.walk(top):
        if any(it in files for it in HAND_PROOFS):
            *above, last = os.path.relpath(place, top).split(os.sep)
            found["::".join([crate, *above, last.lstrip("+")])] = place
    return found
