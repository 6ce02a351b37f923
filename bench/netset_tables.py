"""The table of the program netset. README.md explains the figures."""
import tempfile
from typing import Callable, NamedTuple

import netset_models as models
from cells import MIB, head, mebibytes, milliseconds, ratio, row, shown
from lists import MILLION, Missing, lines_of, path_of
from programs import note
from turns import Command, digest, measured, unchanged, with_lengths


def as_ranges(lines):
    """The output of iprange with single addresses as ranges. iprange prints them without a range."""
    return (line if b"-" in line else line.rstrip(b"\n") + b"-" + line for line in lines)


class Call(NamedTuple):
    """A row: the words of a netset command and of the other program's. {0} and {1} are the paths of the lists."""
    label: str
    lists: list                              # names, or pairs of a name and a number of lines
    words: str
    other: str | None = None
    as_ours: Callable | None = with_lengths  # the other's lines as netset writes them. None: it tells less
    model: Callable | None = None            # the lines of the answer, by the lists' paths
    status: int = 0                          # netset's
    other_status: int = 0
    bound: float = 1                         # on the ratio of the times
    peak: float | None = None                # the bound on our peak, MiB
    program: str = "iprange"                 # the other one


ALL = "ranges_ipv4"
FIRST, SECOND = "countries_ipv4", "next_countries_ipv4"

CALLS = [
    Call("union: all ranges, and countries 1 to 40", [ALL, FIRST], "union {0} {1}", "{0} {1}", bound=0.5, peak=12),
    Call("union: all ranges, as FIRST-LAST", ["spans_ipv4"], "union {0}", "{0}", bound=0.6, peak=5),
    Call("union: 10^7 routes", [("routes_ipv4", 10 * MILLION)], "union {0}", "{0}", bound=0.5, peak=160),
    Call("union, as ranges: countries 1 to 40, and 21 to 60", [FIRST, SECOND],
         "union --ranges {0} {1}", "-j {0} {1}", as_ranges),
    Call("intersection: countries 1 to 40, and 21 to 60", [FIRST, SECOND],
         "intersection {0} {1}", "{0} {1} --common", bound=0.35, peak=12),
    Call("difference: countries 1 to 40, and 21 to 60", [FIRST, SECOND],
         "difference {0} {1}", "{0} --except {1}", bound=0.35, peak=12),
    Call("difference: all ranges, and countries 1 to 40", [ALL, FIRST],
         "difference {0} {1}", "{0} --except {1}"),
    Call("symmetric difference: countries 1 to 40, and 21 to 60", [FIRST, SECOND],
         "symmetric-difference {0} {1}", "{0} --diff {1}", models.shortest, other_status=1, bound=0.35, peak=12),
    # iprange reads all addresses from standard input
    Call("complement: countries 1 to 40", [FIRST], "complement {0}", "- --except {0}"),
    Call("count: countries 1 to 40", [FIRST], "count {0}", "-C {0}", None, models.count),
    Call("count: countries 1 to 40, both families", ["countries_both"], "count {0}", model=models.count),
    Call("compare: countries 1 to 40, and 21 to 60", [FIRST, SECOND],
         "compare {0} {1}", "{0} --diff {1} --quiet", None, models.compare, 1, 1),
    Call("filter, beside grepcidr: 10^6 addresses by countries 1 to 40", [FIRST, "addresses_ipv4"],
         "filter --stream {0} {1}", "-f {0} {1}", unchanged, bound=0.3, peak=12, program="grepcidr"),
    Call("filter, whole lines, beside grepcidr: 10^6 lines of an access log by countries 1 to 40", [FIRST, "access_log"],
         "filter --lines {0} {1}", "-f {0} {1}", unchanged, bound=0.4, peak=12, program="grepcidr"),
    Call("filter: of all ranges, those in countries 1 to 40", [FIRST, ALL],
         "filter {0} {1}", model=models.inside),
    Call("filter: of all ranges, those outside countries 1 to 40", [FIRST, ALL],
         "filter --outside {0} {1}", model=models.outside),
    Call("route: 10^6 addresses by 10^6 routes", ["routes_ipv4", "addresses_ipv4"],
         "route --stream {0} {1}", model=models.route, status=1, peak=70),
]


def name_of(named):
    return named[0] if isinstance(named, tuple) else named


def file_of(named):
    """The path of a list, of a million lines or of the number of lines beside its name."""
    return path_of(*named) if isinstance(named, tuple) else path_of(named)


def netset(bench):
    wanted = [call for call in CALLS if bench.wants(call.label, *map(name_of, call.lists))]
    if not wanted:
        return
    if not bench.programs.our_netset:
        note("there is no crate netset: its table is left out")
        return
    head("netset", "call: lists", "lines", "processor ms", "iprange's ms", "of iprange's", "bound", "peak MiB", "bound",
         "iprange's", "answers")
    for call in wanted:
        try:
            netset_row(bench, call, [file_of(named) for named in call.lists])
        except Missing as missing:
            row(call.label, "left out: %s" % missing)


def netset_row(bench, call, paths):
    commands = {"ours": Command([bench.programs.our_netset, *call.words.format(*paths).split()], call.status)}
    program = getattr(bench.programs, call.program) if call.other else None
    if program:
        commands["other"] = Command([program, *call.other.format(*paths).split()], call.other_status, call.as_ours)
    with tempfile.NamedTemporaryFile() as everything:
        everything.write(b"0.0.0.0/0\n")
        everything.flush()
        found = measured(bench, commands, everything.name)
    answers = found.outputs + ([digest(call.model(*paths))] if call.model else [])
    ours, theirs = found.least("ours", "processor"), found.least("other", "processor")
    part, peak = ratio(ours, theirs), found.peak("ours")
    row(call.label, format(sum(map(lines_of, paths)), ","), milliseconds(ours), milliseconds(theirs), shown(part),
        bench.judged("netset, " + call.label, part, call.bound if call.other else None), mebibytes(peak),
        bench.judged("netset's peak, " + call.label, peak / MIB, call.peak), mebibytes(found.peak("other")),
        bench.compared("netset, " + call.label, answers))
