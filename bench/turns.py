"""Compares programs: runs each in turn, so that other work on the machine affects all of them."""
import hashlib
import os
import tempfile
from typing import Callable, NamedTuple

from cells import least
from programs import figure, run


def unchanged(lines):
    return lines


class Command(NamedTuple):
    """How to call one of the programs."""
    words: list
    status: int = 0                       # which it ends with
    as_ours: Callable | None = unchanged  # the lines of its output as our program writes them. None: not compared


class Measured(NamedTuple):
    """The runs of each program, by its name, and the digests of their outputs."""
    runs: dict
    outputs: list

    def least(self, who, field):
        """The shortest time of a program: wall or processor time. None if it did not run."""
        return least([getattr(took, field) for took in self.runs.get(who, [])])

    def peak(self, who):
        """The highest memory peak of a program. None if it did not run."""
        return max((took.peak for took in self.runs.get(who, [])), default=None)


def digest(lines):
    """The digest of an output, line by line."""
    found = hashlib.sha256()
    for line in lines:
        found.update(line)
    return found.hexdigest()


def measured(bench, commands, source=os.devnull, times=1):
    """Measures the programs, the given number of times in each round. The first run of each is not measured; its output
    is kept."""
    outputs = []
    with tempfile.NamedTemporaryFile() as answer, open(os.devnull, "wb") as nowhere:
        for command in commands.values():
            answer.truncate(0)
            answer.seek(0)
            run(command.words, source, answer, command.status)
            if command.as_ours:
                with open(answer.name, "rb") as lines:
                    outputs.append(digest(command.as_ours(lines)))
        runs = {who: [] for who in commands}
        for _ in range(times * bench.rounds):
            for who, command in commands.items():
                runs[who].append(run(command.words, source, nowhere, command.status)[0])
    return Measured(runs, outputs)


def with_lengths(lines):
    """The output of iprange, with prefix lengths for single addresses. iprange leaves them out."""
    return (line if b"/" in line else line.rstrip(b"\n") + b"/32\n" for line in lines)


def in_turns(bench, task, original_task, source):
    """(our shortest time, the shortest time of the original, all results) of a task of the call programs."""
    ours, theirs, answers = [], [], []
    sides = [(bench.programs.our_calls, task, ours), (bench.programs.original_calls, original_task, theirs)]
    for _ in range(bench.rounds):
        for path, named, times in sides:
            if path:
                line, _ = figure(path, named, source)
                times.append(line["min_ns"])
                answers.append((line["items"], line["check"]))
    return least(ours), least(theirs), answers
