"""The examples of a database in docs/SQL.md. A module of tests/postgres and tests/sqlite, not a script."""
import os
import re

TOP = os.path.dirname(os.path.dirname(os.path.abspath(__file__)))


def section(heading):
    """The part of the page below the heading."""
    with open(os.path.join(TOP, "docs", "SQL.md"), encoding="utf-8") as file:
        return file.read().split("\n## " + heading + "\n", 1)[1].split("\n## ", 1)[0]


def examples(heading):
    """The statements of each block ```sql below the heading, in order, with the result in the block ```text after it; or
    None, if another block ```sql comes first."""
    blocks = re.findall(r"```(sql|text)\n(.*?)\n?```", section(heading), re.S)
    return [(text, after[1] if after[0] == "text" else None)
            for (kind, text), after in zip(blocks, blocks[1:] + [("", None)]) if kind == "sql"]
