"""The three files about licences: a page to read, a list in SPDX, and the copyright file of a Debian package."""
import hashlib
import os
import re

from . import parts as kit_parts

OWN = "MIT OR Apache-2.0"
HOLDER = "2026 The Dewikonu maintainers"
PAGE, SPDX, DEBIAN = "docs/internals/LICENCES.md", "licences/dewikonu.spdx", "licences/debian-copyright"
# Debian's names of licences, and the words that a text has to contain in this file
DEBIAN_NAMES = {"MIT": "Expat"}
NO_TEXT, NO_HOLDER = "no-text-in-the-kit", "no holder is named in the kit"
TEMPLATE = os.path.join(os.path.dirname(os.path.abspath(__file__)), "page.md")


def groups_of(parts):
    """[(licence, texts of the same words, names of the parts)] in the order in which they are shown, without Apache's."""
    found = {}
    for part in parts:
        for text in part.texts + part.named:
            if text.licence != "Apache-2.0":
                group = found.setdefault(text.terms, (text.licence, text, []))
                if part.name not in group[2]:
                    group[2].append(part.name)
    return sorted(found.values(), key=lambda group: (group[0], group[2]))


def title_of(group):
    return "%s: %s" % (group[0], ", ".join(group[2]))


def anchor_of(title):
    return re.sub(r"[^\w\- ]", "", title.lower()).replace(" ", "-")


def text_links(part, groups):
    """The links to the texts of the part."""
    found = []
    for text in part.texts:
        if text.licence == "Apache-2.0":
            found.append("[%s](../../LICENSE-APACHE)" % text.file)
        for group in groups:
            if group[1].terms == text.terms:
                found.append("[%s](#%s)" % (text.file, anchor_of(title_of(group))))
    return ", ".join(found)


def row(part, groups, is_product):
    licence = part.licence if part.texts else "no text"
    cells = ["`%s`" % part.name, part.origin, licence, text_links(part, groups)]
    if is_product:
        cells += ["yes" if product in part.products else "" for product in kit_parts.PRODUCTS]
    return "| %s |\n" % " | ".join(cells)


def page(parts, kit, start_files):
    """docs/internals/LICENCES.md."""
    groups = groups_of(parts)
    notices = ["`%s`, %s:\n\n```text\n%s\n```\n" % (path, notice.licence, notice.text)
               for part in parts if part.products for path, notice in part.notices.items()]
    texts = ["### %s\n\n```text\n%s\n```\n" % (title_of(group), group[1].text) for group in groups]
    marks = {
        "KIT": kit,
        "INSIDE": "".join(row(part, groups, True) for part in parts if part.products),
        "WITHOUT": ", ".join("`%s`" % part.name for part in parts if not part.texts),
        "START": ", ".join("`%s`" % name for name in start_files),
        "NOTICES": "\n".join(notices),
        "TESTS": "".join(row(part, groups, False) for part in parts if not part.products),
        "TEXTS": "\n".join(texts).rstrip("\n"),
    }
    with open(TEMPLATE, encoding="utf8") as file:
        return re.sub(r"\{\{(\w+)\}\}", lambda mark: marks[mark[1]], file.read())


def copyrights_of(part):
    found = []
    for text in part.texts:
        found.extend(line for line in text.copyrights if line not in found)
    return found


def package(name, licence, copyrights, comment):
    """The lines of a package in SPDX."""
    shown = "<text>%s</text>" % "\n".join(copyrights) if copyrights else "NOASSERTION"
    lines = ["PackageName: " + name, "SPDXID: SPDXRef-" + name.replace("_", "-"),
             "PackageDownloadLocation: NOASSERTION", "FilesAnalyzed: false", "PackageLicenseConcluded: " + licence,
             "PackageLicenseDeclared: " + licence, "PackageCopyrightText: " + shown]
    return lines + (["PackageComment: <text>%s</text>" % comment] if comment else [])


def comment_of(part, kit):
    comment = "The crate %s of %s." % (part.name, kit)
    if part.origin:
        comment += " It follows the Rust crate %s." % part.origin
    if not part.texts:
        comment += " The kit has no licence text for it."
    if part.notices:
        notices = ["%s (%s)" % (path, notice.licence) for path, notice in part.notices.items()]
        comment += " Sources with notices of their own: %s." % ", ".join(notices)
    return comment


def spdx(parts, kit, start_files, created):
    """licences/dewikonu.spdx, in the form tag-value of SPDX 2.3. `created` is its time."""
    inside = [part for part in parts if part.products]
    lines = []
    for product in kit_parts.PRODUCTS:
        lines += ["", *package(product, OWN, ["Copyright (c) " + HOLDER], ""),
                  "Relationship: SPDXRef-DOCUMENT DESCRIBES SPDXRef-" + product]
    for part in inside:
        lines += ["", *package(part.name, part.licence, copyrights_of(part), comment_of(part, kit))]
        for product in part.products:
            lines.append("Relationship: SPDXRef-%s STATIC_LINK SPDXRef-%s" % (product, part.name.replace("_", "-")))
    comment = "The start and end of a program: %s. The kit has no licence text for them." % ", ".join(start_files)
    lines += ["", *package("start-files", "NOASSERTION", [], comment)]
    for product in ("ipnet", "netset"):
        lines.append("Relationship: SPDXRef-%s STATIC_LINK SPDXRef-start-files" % product)
    body = "\n".join(lines) + "\n"
    digest = hashlib.sha256(body.encode()).hexdigest()
    head = ["SPDXVersion: SPDX-2.3", "DataLicense: CC0-1.0", "SPDXID: SPDXRef-DOCUMENT", "DocumentName: dewikonu",
            "DocumentNamespace: https://spdx.org/spdxdocs/dewikonu-" + digest, "Creator: Tool: tools/licences",
            "Created: " + created]
    return "\n".join(head) + "\n" + body


def paragraph(text):
    """Lines of a text in a field of a Debian control file."""
    return "\n".join(" " + line.strip() if line.strip() else " ." for line in text.split("\n"))


def debian_licence(licence):
    """An SPDX expression by Debian's names."""
    words = licence.replace("(", "").replace(")", "").replace(" OR ", " or ").replace(" AND ", " and ")
    for name, other in DEBIAN_NAMES.items():
        words = re.sub(r"\b%s\b" % name, other, words)
    return words


def holders(copyrights):
    """The field Copyright of a Debian file."""
    plain = sorted({re.sub(r"^Copyright (?:\([cC]\) |© )?", "", line) for line in copyrights})
    return "Copyright: " + "\n ".join(plain or [NO_HOLDER])


def without_copyright(text):
    """The permission of a text, without its title and its copyright lines."""
    start = re.search(r"(?m)^Permission is hereby", text)
    return text[start.start():] if start else text


def debian(parts, kit, top_texts):
    """licences/debian-copyright, in the machine-readable form of Debian (DEP 5)."""
    lines = ["Format: https://www.debian.org/doc/packaging-manuals/copyright-format/1.0/", "Upstream-Name: dewikonu",
             "Comment: The programs and the C library also contain parts of the Rattle kit (%s)." % kit,
             " The paragraphs kit/NAME are about these parts, which are not in this source.",
             " docs/internals/LICENCES.md has every text word for word.", "",
             "Files: *", "Copyright: " + HOLDER, "License: Expat or Apache-2.0"]
    for part in (part for part in parts if part.products):
        lines += ["", "Files: kit/%s/*" % part.name, holders(copyrights_of(part)),
                  "License: " + (debian_licence(part.licence) if part.texts else NO_TEXT)]
        for path, notice in part.notices.items():
            named = [line for text in part.named if text.licence == notice.licence for line in text.copyrights]
            lines += ["", "Files: kit/" + path, holders(named), "License: " + debian_licence(notice.licence)]
    lines += ["", "License: Expat", paragraph(without_copyright(top_texts["LICENSE-MIT"])),
              "", "License: Apache-2.0",
              " On Debian systems the full text is in /usr/share/common-licenses/Apache-2.0.",
              "", "License: Unlicense", " The notice in the source names the Unlicense. The kit has no text of it.",
              "", "License: " + NO_TEXT, " The kit has no licence text for this part."]
    for text in {text.file: text for part in parts for text in part.named}.values():
        lines += ["", "License: " + text.licence, paragraph(text.text)]
    return "\n".join(lines) + "\n"
