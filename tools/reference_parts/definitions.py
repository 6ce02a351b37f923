"""Reads the files of `specs/`: each definition with its comment and its text."""
import re

HEAD = re.compile(r"^(?P<marks>(?:(?:abbrev|unfoldable|pub|record|data)\s+)*)"
                  r"(?P<name>[^\s(){}:]+)(?=[\s({:])(?P<rest>.*)")
MARKS = {"abbrev", "unfoldable", "record", "data"}


class Definition:
    """A definition: its name, its comment, its text, and the line on which it begins."""

    def __init__(self, name, line, is_public, comment, lines):
        self.name, self.line, self.is_public, self.comment, self.lines = name, line, is_public, comment, lines

    @property
    def code(self):
        return "\n".join(self.lines).rstrip()


def started(line):
    """The head of the definition that begins on this line at the margin, or None."""
    head = HEAD.match(line)
    if not head or head["name"] in ("use", "mod", "open", "module", "import", "unfolding"):
        return None
    marks = set(head["marks"].split())
    return head if marks & MARKS or ":" in head["rest"].split(" = ")[0] else None


def is_equation_of(name, line):
    """Whether the line at the margin is an equation of the definition: `name x = ..`; `x >>= y = ..` of `◌>>=◌`."""
    return name.strip("◌") in re.split(r"[\s(]+", line.split(" = ")[0])[:2 if "◌" in name else 1]


def definitions(text):
    """The definitions of the file, in order."""
    found, comment, is_open = [], [], False
    for number, line in enumerate(text.split("\n"), 1):
        if not line.strip():
            comment = []
        elif line.startswith("-- "):
            comment.append(line[3:])
            is_open = False
        elif line[0].isspace() or line[0] in "])}":
            if is_open and found:
                found[-1].lines.append(line)
        else:
            head = started(line)
            if found and not (head and head["marks"]) and is_equation_of(found[-1].name, line):
                found[-1].lines.extend([*("-- " + one for one in comment), line])
                is_open = True
            elif head:
                marks = head["marks"].split()
                found.append(Definition(head["name"], number, "pub" in marks, "\n".join(comment), [line]))
                is_open = True
            else:
                is_open = False
            comment = []
    return found


def file_comment(text):
    """What the file says of itself: the comment at its top."""
    lines = []
    for line in text.split("\n"):
        if not line.startswith("--"):
            break
        lines.append(line[3:])
    return "\n".join(lines)


def used_names(text):
    """{name: path} of the names that the file brings into scope."""
    found = {}
    for path, names, other in re.findall(r"(?m)^(?:pub )?use ([\w.]+?)(?:\.\{([^}]*)\})?(?: as (\w+))?$", text):
        for name in names.split(","):
            if name.strip():
                found[name.strip()] = path + "." + name.strip()
        if not names:
            found[other or path.split(".")[-1]] = path
    return found
