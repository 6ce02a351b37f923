"""The tables of the bench. README.md explains the figures."""
import os
import tempfile
from typing import NamedTuple

import hostile_tables
import map_tables
import netset_tables
import set_tables
from cells import MIB, head, least, mebibytes, milliseconds, ratio, row, shown
from lists import MILLION, MOST, Missing, lines_of, path_of
from programs import figure, floor, run
from turns import Command, in_turns, measured, with_lengths


class Call(NamedTuple):
    """A row of the table of calls: a task of ipnet_bench on a list, compared with the original crate."""
    label: str
    task: list
    list_name: str | None
    bound: float
    goal: float | None = None
    original_task: list | None = None  # where it isn't our task


class Program(NamedTuple):
    """A row of the table of the program. Times are relative to the original, peaks in MiB."""
    label: str
    list_name: str
    iprange: bool  # whether iprange can read the list
    time: float | None = None
    time_goal: float | None = None
    peak: float | None = None
    peak_goal: float | None = None


IPV4_RANGE = ["10.0.0.0", "10.255.255.255"]
IPV6_RANGE = ["2001:db8::", "2001:db8::ff:ffff"]
IPV4_WALK = ["0.0.0.1", "255.255.255.254"]
IPV6_WALK = ["2001:db8::1", "2001:db8:ffff:ffff:ffff:ffff:ffff:fffe"]

CALLS = [
    Call("2^24 `next` of an IPv4 range", ["range_next_ipv4", *IPV4_RANGE], None, 1.0),
    Call("2^24 `next` of an IPv6 range", ["range_next_ipv6", *IPV6_RANGE], None, 1.0),
    Call("walk of an IPv4 range, minimum prefix length 24", ["walk_ipv4", *IPV4_WALK], None, 0.4, 0.31),
    Call("walk of an IPv6 range, minimum prefix length 56", ["walk_ipv6", *IPV6_WALK], None, 0.4, 0.31),
    Call("sort of `IpNet`, routing table", ["sort"], "routing_table", 1.0, 0.8),
    Call("`contains`, random IPv4", ["contains"], "random_ipv4", 1.5, 1.0),
    Call("`contains`, random IPv6", ["contains"], "random_ipv6", 1.0),
    Call("`contains`, routing table", ["contains"], "routing_table", 1.5, 1.0),
    Call("`IpNet::aggregate`, random IPv4", ["aggregate"], "random_ipv4", 1.25, 1.22),
    Call("`IpNet::aggregate`, random IPv6", ["aggregate"], "random_ipv6", 1.0, 0.7),
    Call("`IpNet::aggregate`, random, both families", ["aggregate"], "random_both", 0.65, 0.59),
    Call("`IpNet::aggregate`, routing table", ["aggregate"], "routing_table", 1.25, 1.19),
    Call("`IpNet::aggregate`, consecutive /32, descending", ["aggregate"], "consecutive_hosts", 1.0, 0.62),
    Call("`IpNet::aggregate`, aggregated IPv4", ["aggregate"], "aggregated_ipv4", 1.0, 0.7),
    Call("`IpNet::aggregate`, aggregated IPv6", ["aggregate"], "aggregated_ipv6", 1.0, 0.7),
    Call("`Ipv4Net::aggregate`, random IPv4", ["aggregate_ipv4"], "random_ipv4", 1.0, 0.7),
    Call("`Ipv4Net::aggregate`, consecutive /32, descending", ["aggregate_ipv4"], "consecutive_hosts", 1.0, 0.7),
    Call("`Ipv4Net::aggregate`, aggregated IPv4", ["aggregate_ipv4"], "aggregated_ipv4", 1.0, 0.7),
    Call("`Ipv6Net::aggregate`, random IPv6", ["aggregate_ipv6"], "random_ipv6", 1.0, 0.7),
    Call("`Ipv6Net::aggregate`, aggregated IPv6", ["aggregate_ipv6"], "aggregated_ipv6", 1.0, 0.7),
    Call("`Display` into one buffer, both families", ["print"], "random_both", 0.7, 0.4),
    Call("`to_text` into one buffer, both families, beside `Display`", ["to_text"], "random_both", 0.7, 0.4, ["print"]),
    Call("reading IPv4 texts", ["read"], "random_ipv4", 0.75, 0.7),
    Call("reading IPv6 texts", ["read"], "random_ipv6", 0.4),
    Call("reading texts of both families", ["read"], "random_both", 0.4),
    Call("reading texts, routing table", ["read"], "routing_table", 0.75, 0.72),
]

AGGREGATED = ["random_ipv4", "random_ipv6", "random_both", "routing_table", "consecutive_hosts", "aggregated_ipv4",
              "aggregated_ipv6"]

PROGRAM = [
    Program("all IPv4 ranges", "ranges_ipv4", True, 0.38, 0.32, 1.5),
    Program("all IPv6 ranges", "ranges_ipv6", False, 0.32, 0.28, 2.5),
    Program("both, in any order", "ranges_both", False, 0.42, 0.38, 19.5),
    Program("forty countries, IPv4", "countries_ipv4", True, 0.46, 0.42, 7),
    Program("forty countries, both families", "countries_both", False),
    Program("IPv4 routes", "routes_ipv4", True, 0.42, 0.36, 12),
    Program("descending /32", "descending_hosts", True, 0.32, 0.28, 8.5),
    Program("/48 inside forty /32", "sites_ipv6", False, 0.36, 0.32, 28),
]

# The lengths at which `IpNet::aggregate`, and the program, are measured.
CALL_LENGTHS = [10_000, 100_000, MILLION]
PROGRAM_LENGTHS = [10_000, 100_000, MILLION, 10 * MILLION]


def calls(bench):
    wanted = [call for call in CALLS if bench.wants(call.label, call.list_name)]
    if wanted:
        head("Calls", "call", "items", "ours ms", "original ms", "of the original's", "bound (goal)", "answers")
    for call in wanted:
        call_row(bench, call)
    if bench.wants("refused texts"):
        refused(bench)


def call_row(bench, call):
    source = path_of(call.list_name) if call.list_name else os.devnull
    ours, theirs, answers = in_turns(bench, call.task, call.original_task or call.task, source)
    part = ratio(ours, theirs)
    row(call.label, format(answers[0][0], ","), milliseconds(ours), milliseconds(theirs), shown(part),
        bench.judged(call.label, part, call.bound, call.goal),
        bench.compared(call.label, answers) if theirs else "-")


def refused(bench):
    head("Refused texts, 100,000 calls", "the text repeats", "64 times ms", "100,000 times ms", "ratio", "bound")
    for piece in (":", "0"):
        short, long = [], []
        for _ in range(bench.rounds):
            short.append(figure(bench.programs.our_calls, ["refuse", piece, "64"])[0]["min_ns"])
            long.append(figure(bench.programs.our_calls, ["refuse", piece, "100000"])[0]["min_ns"])
        part = ratio(least(long), least(short))
        row("`%s`" % piece, milliseconds(least(short)), milliseconds(least(long)), shown(part),
            bench.judged("refused texts of " + piece, part, 2))


def growth(bench):
    wanted = [name for name in AGGREGATED if bench.wants(name)]
    if wanted:
        head("Growth of `IpNet::aggregate`", "list", *("%s ms" % format(length, ",") for length in CALL_LENGTHS),
             "10^5 over 10^4", "10^6 over 10^5", "bound")
    for name in wanted:
        times = [least([figure(bench.programs.our_calls, ["aggregate"], path_of(name, length))[0]["min_ns"]
                        for _ in range(bench.rounds)]) for length in CALL_LENGTHS]
        steps = [times[1] / times[0], times[2] / times[1]]
        row(name, *map(milliseconds, times), *("%.1f" % step for step in steps),
            bench.judged("growth, " + name, round(max(steps), 1), 14))


def memory(bench):
    wanted = [name for name in AGGREGATED if bench.wants(name)]
    if wanted:
        head("Memory of `IpNet::aggregate`", "list", "the input's list MiB", "taken beside it MiB", "in lists", "bound",
             "the original's list MiB", "taken beside it MiB", "in lists")
    for name in wanted:
        listed, taken = beside_list(bench.programs.our_calls, name)
        cells = [mebibytes(listed), mebibytes(taken), "%.2f" % (taken / listed),
                 bench.judged("memory, " + name, taken / listed, 1.05)]
        if bench.programs.original_calls:
            listed, taken = beside_list(bench.programs.original_calls, name)
            cells += [mebibytes(listed), mebibytes(taken), "%.2f" % (taken / listed)]
        row(name, *cells, *["-"] * (7 - len(cells)))


def beside_list(program, name):
    """(the bytes of a list of networks, the additional bytes for aggregating it)"""
    held, peak_held = figure(program, ["hold"], path_of(name))
    _, peak_aggregated = figure(program, ["aggregate"], path_of(name))
    return held["check"], peak_aggregated - peak_held


def text_programs(bench, with_iprange):
    """The commands of the programs that aggregate a text."""
    programs = bench.programs
    commands = {"ours": programs.our_program, "original": programs.original_program}
    commands = {who: Command([path]) for who, path in commands.items() if path}
    if with_iprange and programs.iprange:
        commands["iprange"] = Command([programs.iprange], as_ours=with_lengths)
    return commands


def floors(bench):
    """The commands that show how little time the job can take: it in plain C, and a copy of the text."""
    return {"plain C": Command([bench.programs.plain_c]), "cat": Command(["cat"], as_ours=None)}


def program(bench):
    wanted = [listed for listed in PROGRAM if bench.wants(listed.label, listed.list_name)]
    if wanted:
        head("The program", "list", "lines", "wall ms", "processor ms", "wall, of the original's",
             "processor, of the original's", "bound (goal)", "processor, of iprange's", "processor, of plain C's",
             "plain C, processor ms", "cat, processor ms", "peak MiB", "bound (goal)", "the original's", "iprange's",
             "plain C's", "output")
    for listed in wanted:
        try:
            program_row(bench, listed, path_of(listed.list_name))
        except Missing as missing:
            row(listed.label, "left out: %s" % missing)
    if wanted:
        print("\nThe floor of a peak is %s MiB." % mebibytes(floor()))


def program_row(bench, listed, source):
    found = measured(bench, text_programs(bench, listed.iprange) | floors(bench), source)
    wall, processor, peak = found.least("ours", "wall"), found.least("ours", "processor"), found.peak("ours")
    part = ratio(processor, found.least("original", "processor"))
    row(listed.label, format(lines_of(source), ","), milliseconds(wall), milliseconds(processor),
        shown(ratio(wall, found.least("original", "wall"))), shown(part),
        bench.judged(listed.label + ", time", part, listed.time, listed.time_goal),
        shown(ratio(processor, found.least("iprange", "processor"))),
        shown(ratio(processor, found.least("plain C", "processor"))),
        milliseconds(found.least("plain C", "processor")), milliseconds(found.least("cat", "processor")),
        mebibytes(peak), bench.judged(listed.label + ", peak", round(peak / MIB, 1), listed.peak, listed.peak_goal),
        mebibytes(found.peak("original")), mebibytes(found.peak("iprange")), mebibytes(found.peak("plain C")),
        bench.compared(listed.label, found.outputs))


def lengths(bench):
    wanted = [name for name in ("routes_ipv4", "sites_ipv6") if bench.wants(name)]
    if wanted:
        head("The program by the number of lines", "list", "lines", "processor ms", "ns a line", "of 10^6 lines'",
             "bound", "of the original's", "peak MiB", "bytes a line", "the original's MiB", "output")
    start = least([run([bench.programs.our_program])[0].processor for _ in range(bench.rounds)])
    for name in wanted:
        found = {length: measured(bench, text_programs(bench, False), path_of(name, length),
                                  max(1, MILLION // length // 5))
                 for length in PROGRAM_LENGTHS if length <= MOST.get(name, length)}
        a_line = {length: (found[length].least("ours", "processor") - start) / length for length in found}
        for length in found:
            length_row(bench, name, length, found[length], a_line[length], a_line[length] / a_line[MILLION])
    if bench.wants("unbroken line"):
        unbroken(bench)


def length_row(bench, name, length, found, a_line, part):
    """The row of a length: nanoseconds per line, and that time relative to a list of a million lines."""
    processor, peak = found.least("ours", "processor"), found.peak("ours")
    label = "%s, %d lines" % (name, length)
    row(name, format(length, ","), milliseconds(processor), "%.1f" % a_line, "%.2f" % part,
        bench.judged(label, part, 1.1 if length < MILLION else None),
        shown(ratio(processor, found.least("original", "processor"))), mebibytes(peak), "%.1f" % (peak / length),
        mebibytes(found.peak("original")), bench.compared(label, found.outputs))


def unbroken(bench):
    """A line that never ends is bad, and is not kept in memory."""
    head("One line of 10^7 digits, refused", "program", "processor ms", "peak MiB", "bound")
    with tempfile.NamedTemporaryFile() as text:
        text.write(b"1" * 10 * MILLION)
        text.flush()
        for who, path in (("ours", bench.programs.our_program), ("original", bench.programs.original_program)):
            if path:
                took, _ = run([path], text.name, status=1)
                bound = 4 if who == "ours" else None
                row(who, milliseconds(took.processor), mebibytes(took.peak),
                    bench.judged("unbroken line", round(took.peak / MIB, 1), bound))


PARTS = {"calls": calls, "growth": growth, "memory": memory, "sets": set_tables.sets, "program": program,
         "lengths": lengths, "netset": netset_tables.netset, "maps": map_tables.maps,
         "hostile": hostile_tables.hostile}
