"""Runs the Python blocks of a document. A comment after a `print` in a block is what it prints.

A block runs as a program of its own, in a new folder with the repository's files, and finds the package ipnet_proved.
"""
import os
import re
import subprocess
import sys
import tempfile

TOP = os.path.dirname(os.path.dirname(os.path.realpath(__file__)))
BLOCK = re.compile(r"^```python\n(.*?)^```$", re.S | re.M)
PRINTED = re.compile(r"(?m)^ *print\(.*\)  # (.*)$")


def blocks_of(document):
    """The Python blocks of a document of the repository."""
    with open(os.path.join(TOP, document), encoding="utf8") as file:
        return BLOCK.findall(file.read())


def fault_of(block):
    """What is wrong with a block: it fails, or prints something else. Empty if nothing is."""
    with tempfile.TemporaryDirectory() as room:
        for name in os.listdir(TOP):
            if name != ".git":
                os.symlink(os.path.join(TOP, name), os.path.join(room, name))
        path = os.path.join(room, "block.py")
        with open(path, "w", encoding="utf8") as file:
            file.write(block)
        home = {**os.environ, "PYTHONPATH": os.path.join(TOP, "bindings", "python"), "PYTHONDONTWRITEBYTECODE": "1"}
        ran = subprocess.run([sys.executable, path], cwd=room, env=home,
                             stdin=subprocess.DEVNULL, stdout=subprocess.PIPE, stderr=subprocess.PIPE, text=True)
    wanted = "".join(line + "\n" for line in PRINTED.findall(block))
    if ran.returncode != 0 or not wanted:
        return "a block ends with %d:\n%s%s" % (ran.returncode, block, ran.stderr)
    return "" if ran.stdout == wanted else "a block prints\n%sand not\n%s" % (ran.stdout, wanted)
