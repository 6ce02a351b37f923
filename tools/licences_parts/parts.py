"""The parts of the programs and of the C library: the crates of the kit that crates.txt names, and all below them.

The names come from crates.txt, the crates below them from the kit's `rlibs/NAME.rlib/format`, and the licences from the
texts beside the sources of the kit.
"""
import collections
import os
import re
import subprocess

# what is shipped, and the crate that it is built from
PRODUCTS = {"ipnet": "ipnet_program", "netset": "netset", "libipnet": "ipnet_c"}
# every program has it, named in crates.txt or not
BASE = "std"
# the licences that a notice may name, and how it names them
NAMED = {"MIT": r"\bMIT\b", "Apache-2.0": r"\bApache\b", "Unicode-3.0": r"\bUnicode License v3",
         "Unlicense": r"\bUnlicense\b"}
END_OF_TERMS = "END OF TERMS AND CONDITIONS"


class Text:
    """A licence text of a part: its file, its words, the licence that it is, and the copyright lines in it."""

    def __init__(self, file, text):
        self.file, self.text = file, text.strip("\n")
        self.licence = licence_of(text)
        lines = re.findall(r"(?m)^ *(Copyright (?!notice|holder|owner|\[).*\S)", text)
        self.copyrights = [line for line in lines if "{" not in line]

    @property
    def terms(self):
        """The words without line breaks, and without what follows the terms of the Apache licence."""
        return " ".join(self.text.split(END_OF_TERMS)[0].split())


class Notice:
    """A notice at the top of a source, and the licence that it names, NOASSERTION if it names none that is known."""

    def __init__(self, text):
        self.text, words = text, " ".join(text.split())
        named = [licence for licence, form in NAMED.items() if re.search(form, words)]
        self.licence = " OR ".join(named) or "NOASSERTION"


class Part:
    """A crate of the kit."""

    def __init__(self, name):
        self.name, self.products = name, []
        # the Rust crate that it follows, as "clap 4.5", if its page says so
        self.origin = ""
        # texts that are its own, and the notices in its sources: {path: Notice}
        self.texts, self.notices = [], {}
        # texts of licences that a notice names
        self.named = []

    @property
    def licence(self):
        """The licences of its texts as an SPDX expression; NOASSERTION if it has no text."""
        if not self.texts:
            return "NOASSERTION"
        own = sorted({text.licence for text in self.texts if is_choice(text.file)}, reverse=True)
        others = sorted({text.licence for text in self.texts if not is_choice(text.file)} - set(own))
        choice = " OR ".join(own)
        return " AND ".join(["(%s)" % choice if others and len(own) > 1 else choice, *others])


def is_choice(file):
    """Whether the file is one of the licences to choose from, and not the licence of a piece of another origin."""
    return file in ("LICENSE", "LICENSE-MIT", "LICENSE-APACHE", "UNLICENSE", "COPYING")


def file_of(text):
    return text.file


def licence_of(text):
    if "Apache License" in text:
        return "Apache-2.0"
    if "UNICODE LICENSE V3" in text:
        return "Unicode-3.0"
    if "Permission is hereby granted, free of charge, to any person" in " ".join(text.split()):
        return "MIT"
    return "NOASSERTION"


def kit_folder():
    """The folder of the kit: `rt doc` prints the path of its first page."""
    ran = subprocess.run(["rt", "doc"], stdout=subprocess.PIPE, universal_newlines=True, check=True)
    return os.path.dirname(ran.stdout.strip())


def kit_name(kit):
    with open(os.path.join(kit, "KIT-ID"), encoding="utf8") as file:
        return file.readline().split()[0]


def listed(top):
    """{crate: what it uses} of crates.txt."""
    found = {}
    with open(os.path.join(top, "crates.txt"), encoding="utf8") as file:
        for line in file:
            head, colon, tail = line.partition("#")[0].partition(":")
            if colon:
                found[head.split()[0]] = tail.split()
    return found


def below(kit, name):
    """The crates of the kit that this one is built on."""
    path = os.path.join(kit, "rlibs", name + ".rlib", "format")
    with open(path, encoding="utf8", errors="replace") as file:
        return re.findall(r"(?m)^dep (\w+)$", file.read())


def all_below(top, kit, crate):
    """The crates of the kit in what is built from this crate of the repository."""
    uses, found, left = listed(top), set(), [crate, BASE]
    while left:
        name = left.pop()
        if name in uses:
            left.extend(uses[name])
        elif name not in found:
            found.add(name)
            left.extend(below(kit, name))
    return found


def texts_of(folder):
    names = sorted(name for name in os.listdir(folder) if re.match("LICEN[CS]E|UNLICENSE|COPYING|NOTICE", name))
    for name in names:
        with open(os.path.join(folder, name), encoding="utf8") as file:
            yield Text(name, file.read())


def notices_of(folder):
    """(path, notice) of each source whose first comment speaks of a licence."""
    for at, _, names in sorted(os.walk(os.path.join(folder, "src"))):
        for name in sorted(names):
            path = os.path.join(at, name)
            with open(path, encoding="utf8", errors="replace") as file:
                head = re.match(r"(?:[ \t]*//[^\n]*\n)*", file.read()).group()
            if re.search(r"licen[cs]e|copyright", head, re.I):
                lines = [re.sub(r"^\s*//[/!]? ?", "", line) for line in head.rstrip("\n").split("\n")]
                yield os.path.relpath(path, os.path.dirname(folder)), Notice("\n".join(lines).strip("\n"))


def origin_of(folder):
    """The Rust crate and version that the crate's page names first, as "memchr 2.8.3"."""
    path = os.path.join(folder, "README.md")
    if not os.path.exists(path):
        return ""
    with open(path, encoding="utf8") as file:
        text = file.read()
    name = os.path.basename(folder).replace("_", "[-_]")
    version = r" (\d+\.\d+\.\d+)"
    found = re.search(r"Rust crate `(%s2?)`%s|\bFrom (%s)%s" % (name, version, name, version), text)
    return " ".join(part for part in found.groups() if part) if found else ""


def named_texts(kit, notice):
    """The texts that the kit has, beside another crate, of a licence that a notice names."""
    if notice.licence == "Unicode-3.0":
        for name in sorted(os.listdir(os.path.join(kit, "rattle"))):
            path = os.path.join(kit, "rattle", name, "LICENSE-UNICODE")
            if os.path.exists(path):
                with open(path, encoding="utf8") as file:
                    return [Text("LICENSE-UNICODE", file.read())]
    return []


def start_files(kit):
    """The files of the kit that its linker adds to each program."""
    folder = os.path.join(kit, "toolchain/lib")
    if not os.path.isdir(folder):
        return []
    return sorted(name for name in os.listdir(folder) if name.endswith((".o", ".a")))


def collected(top, kit):
    """{name: part} of all that crates.txt uses of the kit, with the products that contain each."""
    found = collections.OrderedDict()
    inside = {product: all_below(top, kit, crate) for product, crate in PRODUCTS.items()}
    everything = set().union(*(all_below(top, kit, crate) for crate in listed(top)))
    for name in sorted(everything):
        folder = os.path.join(kit, "rattle", name)
        part = found[name] = Part(name)
        part.products = [product for product in PRODUCTS if name in inside[product]]
        part.texts, part.notices = list(texts_of(folder)), dict(notices_of(folder))
        part.origin = origin_of(folder)
        for notice in part.notices.values():
            part.named.extend(text for text in named_texts(kit, notice) if text.file not in map(file_of, part.named))
    return found
