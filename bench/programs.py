"""Finds the measured programs, builds them if they are missing or old, and runs them under the launcher."""
import functools
import glob
import json
import os
import shutil
import subprocess
import sys
import tempfile
from typing import NamedTuple

from lists import CACHE

BENCH = os.path.dirname(os.path.abspath(__file__))
TOP = os.path.dirname(BENCH)

# The program that times the calls, and the crates that it uses. crates.txt does not list it, so `rt ci` does not prove
# it. Its texts are in the folder rattle, and their names end with .txt.
CALLS_CRATE = "ipnet_bench"
CALLS_USES = ["ipnet", "ipnet_base", "ipnet_fewest", "ipnet_pools", "ipnet_routes", "ipnet_rules", "ipnet_sets",
              "thiserror"]
CALLS_TEXTS = os.path.join(BENCH, "rattle")

# The crates of the program that the script `ipnet` runs, and of `netset`.
PROGRAM_CRATE = "ipnet_program"
NETSET_CRATE = "netset"


class Took(NamedTuple):
    """The time and memory of one run of a program."""
    wall: int       # nanoseconds
    processor: int  # nanoseconds, user and system
    peak: int       # the most bytes that were resident


def note(text):
    print("bench/run: " + text, file=sys.stderr, flush=True)


def crates():
    """What each crate of this repository uses, by crates.txt, in which words such as `staticlib` follow some names."""
    uses = {}
    with open(os.path.join(TOP, "crates.txt"), encoding="utf-8") as lines:
        for line in lines:
            name, colon, below = line.partition("#")[0].partition(":")
            if colon:
                uses[name.split()[0]] = below.split()
    return uses


def libraries(*names):
    """The crates of this repository among these, and the crates of this repository below them."""
    uses = crates()
    found = [name for name in names if name in uses]
    for name in found:
        found += [below for below in uses[name] if below in uses and below not in found]
    return found


def copy_folder(source, target):
    """Makes the folder `target` a copy of `source`, or removes it if there is no such folder."""
    shutil.rmtree(target, ignore_errors=True)
    if os.path.isdir(source):
        shutil.copytree(source, target)


def copy_calls(room):
    """Makes a repository in the folder: the program that times the calls, and the sources of the crates that it uses.
    It keeps the work of earlier builds there. Returns the folder of the program."""
    uses, names = crates(), libraries(*CALLS_USES)
    for name in names:
        for part in ("src", "specs", "proofs"):
            copy_folder(os.path.join(TOP, "crates", name, part), os.path.join(room, "crates", name, part))
    folder = os.path.join(room, "crates", CALLS_CRATE)
    for part in ("src", "proofs"):
        copy_folder(os.path.join(CALLS_TEXTS, part), os.path.join(folder, part))
    for path in glob.glob(os.path.join(folder, "**/*.txt"), recursive=True):
        os.rename(path, path.removesuffix(".txt"))
    with open(os.path.join(room, "crates.txt"), "w", encoding="utf-8") as file:
        for name in names:
            file.write("%s: %s\n" % (name, " ".join(uses[name])))
        file.write("%s: %s\n" % (CALLS_CRATE, " ".join(CALLS_USES)))
    return folder


def is_older(built, sources):
    """Whether a file is missing, or older than one of its sources."""
    return not os.path.exists(built) or any(os.path.getmtime(path) > os.path.getmtime(built) for path in sources)


def code_of(names):
    """The files with the code of these crates."""
    return [path for name in names
            for path in glob.glob(os.path.join(TOP, "crates", name, "src/**/*.rt"), recursive=True)]


def build(folder, *words):
    """Proves and builds the program of the crate in this folder. With these words and no input, its status is 0."""
    crate = os.path.basename(folder)
    if not shutil.which("rt"):
        sys.exit("bench/run: building %s needs the Rattle kit (command rt)" % crate)
    note("proving and building %s; this takes some minutes" % crate)
    command = ["rt", "run", "--", *words]
    if subprocess.run(command, cwd=folder, stdin=subprocess.DEVNULL, stdout=subprocess.DEVNULL).returncode:
        sys.exit("bench/run: rt run failed in " + folder)
    os.utime(os.path.join(folder, "out", crate))  # also if rt had nothing to build, or the next run would build again


def ours(crate, *words):
    """The program of a crate of this repository. With these words and no input, its status is 0."""
    folder = os.path.join(TOP, "crates", crate)
    program = os.path.join(folder, "out", crate)
    if is_older(program, code_of(libraries(crate))):
        build(folder, *words)
    return program


def our_calls():
    """The program that times the calls, proved and built outside the repository."""
    room = os.path.join(CACHE, "rattle")
    program = os.path.join(room, "crates", CALLS_CRATE, "out", CALLS_CRATE)
    texts = glob.glob(os.path.join(CALLS_TEXTS, "**/*.txt"), recursive=True)
    if is_older(program, [*texts, *code_of(libraries(*CALLS_USES))]):
        build(copy_calls(room))
    return program


def originals():
    """(the original's calls, the original's program), built by cargo outside the repository."""
    copy = os.path.join(CACHE, "original")
    shutil.copytree(os.path.join(BENCH, "original"), copy, dirs_exist_ok=True)
    command = ["cargo", "build", "--quiet", "--release", "--manifest-path", os.path.join(copy, "Cargo.toml"),
               "--target-dir", os.path.join(copy, "target")]
    source = os.environ.get("IPNET_SOURCE")
    if source:
        path = json.dumps(os.path.abspath(os.path.expanduser(source)))
        command += ["--offline", "--config", "patch.crates-io.ipnet.path=" + path]
    if not shutil.which("cargo"):
        note("there is no cargo: the original's columns stay empty")
    elif subprocess.run(command).returncode != 0:
        note("the original can't be built: its columns stay empty. Without a registry, let IPNET_SOURCE name the "
             "folder of the source of ipnet 2.12.2")
    else:
        return [os.path.join(copy, "target/release", name) for name in ("original_calls", "original_program")]
    return [None, None]


def compiled(name):
    """The program of a C file of this folder."""
    source, program = os.path.join(BENCH, name + ".c"), os.path.join(CACHE, name)
    if is_older(program, [source]):
        compiler = os.environ.get("CC") or "cc"
        if not shutil.which(compiler):
            sys.exit("bench/run: %s.c needs a C compiler (apt-get install gcc libc6-dev)" % name)
        if subprocess.run([compiler, "-O2", "-Wall", "-o", program, source]).returncode:
            sys.exit("bench/run: %s.c can't be compiled" % name)
    return program


def in_python(module, script):
    """The command of a script, by the first Python with the module. Debian's has it, but is not always this one."""
    for python in filter(os.path.exists, (sys.executable, "/usr/bin/python3")):
        if subprocess.run([python, "-c", "import " + module], capture_output=True).returncode == 0:
            return [python, os.path.join(BENCH, script)]
    note("there is no %s (apt-get install python3-%s): its columns stay empty" % (module, module))
    return None


class Programs:
    """The paths of the programs, each built or searched when it is first used. None: it is not available, and
    its columns stay empty."""

    def __init__(self):
        os.makedirs(CACHE, exist_ok=True)
        compiled("launch")

    @functools.cached_property
    def our_calls(self):
        return our_calls()

    @functools.cached_property
    def our_program(self):
        return ours(PROGRAM_CRATE)

    @functools.cached_property
    def our_netset(self):
        """None if this repository does not have the crate."""
        return ours(NETSET_CRATE, "--version") if NETSET_CRATE in crates() else None

    @functools.cached_property
    def originals(self):
        return originals()

    @property
    def original_calls(self):
        return self.originals[0]

    @property
    def original_program(self):
        return self.originals[1]

    @functools.cached_property
    def plain_c(self):
        """The job of our program in plain C."""
        return compiled("floor")

    @functools.cached_property
    def iprange(self):
        found = shutil.which("iprange")
        if not found:
            note("there is no iprange (apt-get install iprange): its columns stay empty")
        return found

    @functools.cached_property
    def grepcidr(self):
        found = shutil.which("grepcidr")
        if not found:
            note("there is no grepcidr (apt-get install grepcidr): its column stays empty")
        return found

    @functools.cached_property
    def netaddr(self):
        """The command of netaddr_sets.py."""
        return in_python("netaddr", "netaddr_sets.py")

    @functools.cached_property
    def radix(self):
        """The command of radix_routes.py."""
        return in_python("radix", "radix_routes.py")


def run(command, source=os.devnull, sink=subprocess.PIPE, status=0, quiet=False):
    """(time and memory, output to a pipe) of one run of a program, which must end with this status. Its reports are
    discarded if `quiet`, or if the status is not 0."""
    with open(source, "rb") as given, tempfile.NamedTemporaryFile("r") as report:
        launched = [os.path.join(CACHE, "launch"), report.name] + command
        errors = subprocess.DEVNULL if status or quiet else None
        ended = subprocess.run(launched, stdin=given, stdout=sink, stderr=errors)
        if ended.returncode != status:
            sys.exit("bench/run: %s < %s ended with status %d" % (" ".join(command), source, ended.returncode))
        wall, processor, peak = map(int, report.read().split())
    return Took(wall, 1000 * processor, 1024 * peak), ended.stdout


def figure(program, task, source=os.devnull):
    """(the printed JSON object, the memory peak) of one task. The program is a path or a command."""
    took, told = run([*([program] if isinstance(program, str) else program), *task], source)
    return json.loads(told), took.peak


def floor():
    """The lowest memory peak that can be measured: the peak of a program that does nothing."""
    return run([os.path.join(CACHE, "launch")])[0].peak
