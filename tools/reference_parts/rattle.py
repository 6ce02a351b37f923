"""Reads sources of Rattle: the items of a file, each with its comment, its signature and its contract.

`items(text)` parses the whole text. It checks no types: it knows comments, strings, brackets and the heads of items.
"""
import re

PLAIN = re.compile(r'//[^\n]*|/\*.*?\*/|b?r(#*)".*?"\1|b?"(?:\\.|[^"\\])*"|b?\'(?:\\[^\'\n]*|[^\'\\\n])\'', re.S)
CLAUSE = re.compile(r"\n[ \t]*(?:requires|ensures)\b")
HEAD = re.compile(r"(?P<visibility>pub(?:\s*\([^)]*\))?\s+)?"
                  r"(?:(?:async|unsafe|extern|const(?=\s+(?:fn|unsafe|async|extern)\b))\s+)*"
                  r"(?P<kind>fn|struct|enum|union|trait|impl|mod|use|const|static|type|ghost|macro_rules!)"
                  r"(?P<rest>\W\s*[^\s;{(=:<]*)")
CLOSING = {"(": ")", "[": "]", "{": "}"}
IMPL = re.compile(r"impl\s*(?:<.*?>(?=\s))?\s*(?:(?P<trait>.+?)\s+for\s+)?(?P<type>.+?)\s*(?:\bwhere\b.*)?$", re.S)


class Item:
    """An item of a source, with the lines and the text that a page shows of it."""

    def __init__(self, kind, name, visibility, line):
        self.kind, self.name, self.visibility, self.line = kind, name, visibility, line
        self.doc, self.attributes, self.code, self.items = "", [], "", []
        # of an `impl`: the type, and the trait if it has one
        self.type, self.trait = "", ""

    @property
    def is_public(self):
        return self.visibility == "pub"


def masked(text):
    """The text with blanks in place of comments, strings and characters: as long, with the same lines."""
    return PLAIN.sub(lambda found: re.sub(r"[^\n]", " ", found.group()), text)


def match_of(code, start):
    """The place after the bracket that closes the one at `start`."""
    open_brackets = []
    for at in range(start, len(code)):
        if code[at] in CLOSING:
            open_brackets.append(CLOSING[code[at]])
        elif open_brackets and code[at] == open_brackets[-1]:
            open_brackets.pop()
            if not open_brackets:
                return at + 1
    raise ValueError("a bracket is not closed")


def find_flat(code, start, ends):
    """The first place from `start` with one of these characters outside round and square brackets."""
    at = start
    while at < len(code) and code[at] not in ends:
        at = match_of(code, at) if code[at] in CLOSING else at + 1
    return at


def dedented(text, column):
    """The text, whose first line began at this column, without the indent of that line."""
    first, *rest = text.rstrip().split("\n")
    return "\n".join([first, *(line[min(column, len(line) - len(line.lstrip())):] for line in rest)])


def comment_of(text, mark):
    """The lines of the documentation comments with this mark, `///` or `//!`."""
    lines = [line.strip() for line in text.split("\n")]
    found = [line[len(mark):] for line in lines if line.startswith(mark)]
    return "\n".join(line[1:] if line.startswith(" ") else line for line in found)


def function_end(code, start):
    """(end of the signature and its clauses, end of the function)."""
    at = start
    while True:
        ahead = find_flat(code, at, ";{")
        clause = CLAUSE.search(code, at, ahead + 1)
        if not clause:
            break
        at = match_of(code, code.index("{", clause.end()))
    return ahead, ahead + 1 if code[ahead:ahead + 1] == ";" else match_of(code, ahead)


def item_end(code, start, kind):
    """(end of the part that is shown, end of the item, start of its members or 0)."""
    if kind == "fn":
        return (*function_end(code, start), 0)
    if kind in ("use", "const", "static", "type", "ghost"):
        at = start
        while code[at] != ";":
            at = match_of(code, at) if code[at] in CLOSING else at + 1
        return at + 1, at + 1, 0
    ahead = find_flat(code, start, ";{")
    if code[ahead] == ";":
        return ahead + 1, ahead + 1, 0
    end = match_of(code, ahead)
    if kind in ("trait", "impl", "mod"):
        return ahead, end, ahead + 1
    return end, end, 0


def parsed_item(text, code, start, doc_start):
    head = HEAD.match(code, start)
    if not head:
        # a macro that is called, or what this reader does not know
        end = find_flat(code, start, ";{")
        return None, end + 1 if code[end:end + 1] == ";" else match_of(code, end)
    kind = head["kind"].rstrip("!")
    shown, end, members = item_end(code, start, kind)
    line_start = text.rfind("\n", 0, start) + 1
    item = Item(kind, head["rest"].strip(), (head["visibility"] or "").strip(), text.count("\n", 0, start) + 1)
    item.doc = comment_of(text[doc_start:start], "///")
    item.code = dedented(text[start:shown], start - line_start)
    if kind == "impl":
        found = IMPL.match(" ".join(item.code.split()))
        item.name, item.type, item.trait = "", found["type"].strip(), (found["trait"] or "").strip()
    if members:
        item.items = parsed_items(text, code, members, end - 1)
    return item, end


def parsed_items(text, code, start, end):
    found, at, doc_start, attributes = [], start, start, []
    while True:
        at += len(code[at:end]) - len(code[at:end].lstrip())
        if at >= end:
            return found
        if code[at] == "#":
            inner = match_of(code, code.index("[", at))
            attributes.append(text[at:inner])
            at = inner
            continue
        if code[at] in ";,":
            at += 1
            continue
        item, after = parsed_item(text, code, at, doc_start)
        if item:
            item.attributes = [one for one in attributes if not one.startswith("#!")]
            found.append(item)
        at = doc_start = after
        attributes = []


def items(text):
    """The items of the file, in order. A trait, an `impl` or a module has its members in `.items`."""
    return parsed_items(text, masked(text), 0, len(text))


def file_doc(text):
    """What the file says of itself in `//!`."""
    return comment_of(text, "//!")


def bare_type(text):
    """The name of a type without its path, reference and arguments."""
    text = re.sub(r"^&\s*(?:'\w+\s*)?(?:mut\s+)?", "", text)
    return re.split(r"[<\s(\[]", text)[0].split("::")[-1]


def joined_name(text):
    """A type or trait as the check writes it in a name: `Contains<&IpNet>` is `ContainsRefIpNet`."""
    words = re.findall(r"&|\w+", re.sub(r"'\w+\s*,?\s*|\w+::", "", text))
    return "".join("Ref" if word == "&" else word[0].upper() + word[1:] for word in words)


def used_names(items_of, kind="ghost"):
    """{name: path} of what the `use` (or `ghost use`) items bring into scope, members of an `impl` included."""
    found = {}
    for item in items_of:
        if item.kind == kind and (kind == "use" or item.name == "use"):
            for path, name in listed_names(item.code):
                found[name] = path
        elif item.kind == "impl":
            found.update(used_names(item.items, kind))
    return found


def listed_names(code):
    """(path, name) of each name that a `use` item lists."""
    body = re.sub(r"^.*?\buse\s+", "", " ".join(code.split())).rstrip("; ")
    yield from leaves(body, "")


def leaves(body, prefix):
    brace = body.find("{")
    if brace < 0:
        path, _, other = body.strip().partition(" as ")
        if path:
            parts = re.split(r"::|\.", path.strip())
            if parts[-1] == "self":
                parts.pop()
            whole = ".".join(part for part in [prefix, *parts] if part)
            yield whole, other.strip() or whole.split(".")[-1]
        return
    prefix = ".".join(part for part in [prefix, *re.split(r"::|\.", body[:brace])] if part.strip())
    depth, start = 0, brace + 1
    for at in range(brace, len(body)):
        if body[at] == "{":
            depth += 1
        elif body[at] == "}" or body[at] == "," and depth == 1:
            if body[at] == "}":
                depth -= 1
            if depth <= 1 and (body[at] == "," or depth == 0):
                yield from leaves(body[start:at], prefix)
                start = at + 1
