"""Writes the reference as one page of HTML."""
import os
import re
from html import escape

from . import words
from .links import Links

FOLDER = os.path.dirname(os.path.abspath(__file__))
KEYWORDS = set("abbrev as const data dyn else ensures enum extern fn for ghost if impl in let match mut pub record ref "
               "requires self Self static struct then trait type unfoldable unsafe use where".split())
TOKEN = re.compile(r"(?P<comment>//[^\n]*|--[ \n][^\n]*)|(?P<string>\"(?:\\.|[^\"\\])*\")|(?P<word>[A-Za-zℕ_][\w']*)"
                   r"|(?P<other>.)", re.S)
KINDS = {"definition": "definition", "impl": "implementation", "ghost": "ghost member", "fn": "call"}


def file_text(name):
    with open(os.path.join(FOLDER, name), encoding="utf8") as file:
        return file.read()


def link(anchor, inner, names=""):
    return '<a href="#%s"%s>%s</a>' % (escape(anchor), names, inner)


class Page:
    def __init__(self, crates):
        self.crates = crates
        self.links = Links(crates)

    def word(self, entry, owner, text):
        """A word of the code. `owner` is the word before it if only a point is between them."""
        inner = escape(text, quote=False)
        if owner:
            anchor = self.links.of_field(entry, owner, text)
        else:
            anchor = self.links.of_word(entry, text) if text not in ("self", "Self") else None
        if anchor and anchor != entry.anchor:
            inner = link(anchor, inner)
        elif not owner and not anchor and self.links.kit_path(entry, text):
            inner = '<span title="%s">%s</span>' % (self.links.kit_path(entry, text), inner)
        return "<b>%s</b>" % inner if text in KEYWORDS and not owner else inner

    def code(self, entry):
        """The code with its keywords marked, its words linked, and the anchors of the calls of an implementation."""
        shown, last, members = [], "", dict(entry.members)
        for token in TOKEN.finditer(entry.code):
            kind, text = token.lastgroup, token.group()
            if kind == "word" and last == "fn" and text in members:
                shown.append('<span id="%s">%s</span>' % (members.pop(text), text))
            elif kind == "word":
                is_field = entry.code[token.start() - 1:token.start()] == "."
                shown.append(self.word(entry, (last or ".") if is_field else "", text))
            else:
                inner = escape(text, quote=False)
                shown.append(inner if kind == "other" else "<i>%s</i>" % inner)
            last = text if kind == "word" else last if text in " ." else ""
        return "<pre><code>%s</code></pre>" % "".join(shown)

    def sentence(self, entry, text):
        """A paragraph's text, with `code` set as code and linked if it is the name of an entry."""
        parts = re.split(r"\[?`([^`]+)`\]?(?:\([^)\s]*\))?", text)
        for at, part in enumerate(parts):
            inner = escape(part, quote=False)
            if at % 2:
                anchor = self.links.of_span(entry, part) if entry else None
                inner = "<code>%s</code>" % inner
                inner = link(anchor, inner) if anchor and anchor != entry.anchor else inner
            parts[at] = inner
        return "".join(parts)

    def prose(self, entry, text):
        """A comment as paragraphs, lists and blocks of code."""
        shown = []
        for at, part in enumerate(re.split(r"(?ms)^```\w*\n(.*?)^```$", text + "\n")):
            if at % 2:
                shown.append("<pre>%s</pre>" % escape(part.rstrip("\n"), quote=False))
                continue
            for paragraph in re.split(r"\n\s*\n", part.strip("\n")):
                if re.match(r"- |\d+\. ", paragraph):
                    rows = re.split(r"(?m)^(?:- |\d+\. )", paragraph)[1:]
                    rows = "".join("<li>%s</li>" % self.sentence(entry, row.strip()) for row in rows)
                    shown.append("<ul>%s</ul>" % rows)
                elif paragraph.strip():
                    shown.append("<p>%s</p>" % self.sentence(entry, paragraph))
        return "\n".join(shown)

    def kind(self, entry):
        """What the entry is; a function that only states a fact is a law, and its file is named so."""
        is_law = entry.kind == "fn" and entry.path.endswith("laws.rt")
        return "law" if is_law else KINDS.get(entry.kind, entry.kind)

    def notes(self, entry):
        if entry.is_internal:
            yield "private: other crates cannot name it"
        if entry.public_names:
            shortest = sorted(entry.public_names, key=lambda name: (name.count("::"), name))
            yield "use " + " or ".join("<code>%s</code>" % escape(name) for name in shortest)

    def members(self, entry, crate):
        """The calls and implementations of a type, in all modules of the crate."""
        if entry.kind not in ("struct", "enum"):
            return ""
        found = [link(one.anchor, escape(one.name.split("::")[-1])) for one in crate.entries()
                 if one.anchor.startswith(entry.anchor + "::")]
        traits = [link(one.anchor, escape(one.name.partition(" for ")[0])) for one in crate.entries()
                  if one.kind == "impl" and re.sub(r"<.*", "", one.name.partition(" for ")[2]) == entry.name]
        shown = ['<p class="calls">%s: %s</p>' % (label, ", ".join(names))
                 for label, names in (("Calls", found), ("Traits", traits)) if names]
        return "\n".join(shown)

    def article(self, entry, crate):
        names = " ".join([entry.name, *(re.sub(r".* for |<.*", "", entry.name) + "::" + name
                                        for name, _ in entry.members)])
        title = re.sub(r"^(.*::)?(.*)$", lambda part: "%s<strong>%s</strong>" % (part[1] or "", part[2]),
                       escape(entry.name, quote=False))
        notes = "".join('<p class="note">%s</p>' % note for note in self.notes(entry))
        return '''<article id="%s" data-name="%s" data-source="%s:%d">
<h4><a href="#%s">%s</a> <small>%s <span>%s:%d</span></small></h4>
%s
</article>''' % (
            escape(entry.anchor), escape(names), entry.path, entry.line, escape(entry.anchor), title,
            self.kind(entry), entry.path, entry.line, "\n".join(part for part in (
                notes, self.prose(entry, entry.doc), self.code(entry), self.members(entry, crate)) if part))

    def module(self, module, crate):
        label = "definitions" if module.is_definitions else "module" if module.is_public else "private module"
        entries = "\n".join(self.article(entry, crate) for entry in module.entries)
        anchor = escape(module.anchor)
        return '''<section id="%s">
<h3><a href="#%s">%s</a> <small>%s <span>%s</span></small></h3>
<div class="about">%s</div>
%s
</section>''' % (anchor, anchor, anchor, label, module.path, self.prose(None, module.doc), entries)

    def shown_modules(self, crate):
        return [module for module in crate.modules if module.entries]

    def crate(self, crate):
        about = crate.modules[0].doc
        below = ", ".join(link(name, name) if name in self.links.below else name for name in crate.below)
        below = '<p class="about">Uses %s.</p>' % below if below else ""
        modules = "\n".join(self.module(module, crate) for module in self.shown_modules(crate)
                            if module.anchor != crate.name)
        top = crate.modules[0]
        top = "\n".join(self.article(entry, crate) for entry in top.entries)
        return '''<section id="%s" class="crate">
<h2><a href="#%s">%s</a></h2>
<div class="about">%s</div>
%s
%s
%s
</section>''' % (crate.name, crate.name, crate.name, self.prose(None, about), below, top, modules)

    def index(self):
        """The list of crates, modules and entries."""
        for crate in self.crates:
            yield '<details><summary>%s</summary><ul>' % link(crate.name, crate.name)
            for module in self.shown_modules(crate):
                rows = "".join("<li>%s</li>" % link(entry.anchor, escape(entry.name)) for entry in module.entries)
                inner = escape(module.anchor.partition("::")[2] or module.anchor)
                yield "<li><details><summary>%s</summary><ul>%s</ul></details></li>" % (
                    link(module.anchor, inner), rows)
            yield "</ul></details>"

    def words(self):
        rows = "".join('<tr id="word-%d"><td><code>%s</code></td><td>%s</td></tr>\n' % (
            number, escape(word, quote=False), self.sentence(None, meaning))
            for number, (word, meaning) in enumerate(words.STANDARD, 1))
        title = '<h2><a href="#words">Words of contracts</a></h2>'
        return '<section id="words">%s\n<table>\n%s</table></section>' % (title, rows)

    def html(self):
        parts = {"STYLE": file_text("page.css"), "SCRIPT": file_text("page.js"), "INDEX": "\n".join(self.index()),
                 "WORDS": self.words(), "CRATES": "\n".join(self.crate(crate) for crate in self.crates)}
        return re.sub(r"\{\{(\w+)\}\}", lambda mark: parts[mark[1]], file_text("page.html"))
