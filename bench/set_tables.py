"""The tables of sets of addresses and of routes. README.md explains the figures."""
from cells import head, least, mebibytes, milliseconds, ratio, row, shown
from lists import path_of
from programs import figure
from turns import in_turns

# The set operations, and the lists whose two halves are the operands: twice 10^5 networks.
SET_OPERATIONS = ["union", "intersection", "difference"]
SET_LISTS = ["random_ipv4", "routing_table"]
SET_LENGTH = 200_000


def sets(bench):
    wanted = [(name, task) for name in SET_LISTS for task in SET_OPERATIONS if bench.wants(name, task)]
    if wanted:
        head("Sets: two lists of 10^5 networks, from networks to networks", "operation, list", "ours ms",
             "original ms", "of the original's", "bound", "netaddr ms", "hundredths of netaddr's", "bound", "answers")
    for name, task in wanted:
        set_row(bench, name, task)
    asked(bench)
    beside_sets(bench)
    routes(bench)
    access_lists(bench)


def set_row(bench, name, task):
    """A set operation, compared with the program over the original's aggregate, and with netaddr, which runs once."""
    label, source = "%s, %s" % (task, name), path_of(name, SET_LENGTH)
    ours, theirs, answers = in_turns(bench, [task], [task], source)
    python = None
    if bench.programs.netaddr:
        line, _ = figure(bench.programs.netaddr, [task], source)
        python = line["min_ns"]
        answers.append((line["items"], line["check"]))
    part, hundredths = ratio(ours, theirs), ratio(100 * ours, python)
    row(label, milliseconds(ours), milliseconds(theirs), shown(part), bench.judged(label, part, 1),
        milliseconds(python), shown(hundredths), bench.judged(label + ", netaddr", hundredths, 1),
        bench.compared(label, answers))


def asked(bench):
    """One query of a set or a table of 10^5 networks."""
    wanted = [(name, task) for name in SET_LISTS for task in ("set_contains", "longest_match")
              if bench.wants(name, task)]
    if wanted:
        head("A question of 10^5 networks", "call, list", "ours ns", "bound", "original ns", "answers")
    for name, task in wanted:
        label = "%s, %s" % (task, name)
        ours, theirs, answers = in_turns(bench, [task], [task], path_of(name, SET_LENGTH))
        items = answers[0][0]
        row(label, "%.0f" % (ours / items), bench.judged(label, ours / items, 500),
            "-" if theirs is None else "%.0f" % (theirs / items), bench.compared(label, answers))


def beside_sets(bench):
    """The memory of sets and tables of routes, compared with the lists that they are made from."""
    tasks = [(task, "hold_halves") for task in SET_OPERATIONS] + [("routes", "hold_routes")]
    wanted = [(name, task, held) for name in SET_LISTS for task, held in tasks if bench.wants(name, task)]
    if wanted:
        head("Memory of sets and routes of 10^6 networks", "task, list", "the input's lists MiB", "taken beside MiB",
             "in lists", "bound")
    for name, task, held in wanted:
        before, peak_before = figure(bench.programs.our_calls, [held], path_of(name))
        _, peak = figure(bench.programs.our_calls, [task], path_of(name))
        part = (peak - peak_before) / before["check"]
        row("%s, %s" % (task, name), mebibytes(before["check"]), mebibytes(peak - peak_before), "%.2f" % part,
            bench.judged("memory, %s, %s" % (task, name), part, 2))


# The numbers of lines of the lists whose halves are asked about each line's last address: with many routes, and with
# so few that the original can search through all of them.
ROUTE_COUNTS = [1_000_000, 10_000]
# The numbers of values, drawn at random, of the routes whose shortest table is made.
VALUE_COUNTS = [2, 16, 256]


def routes(bench):
    """Routes: questions of a table and of a map, and changes of a map, beside py-radix and the original."""
    wanted = [(name, count) for count in ROUTE_COUNTS for name in SET_LISTS
              if bench.wants(name, "longest_match", "map_longest_match")]
    if wanted:
        head("The longest match, of half of the list's networks", "list", "lines", "`RouteTable` ns", "`RouteMap` ns",
             "of the table's", "bound", "py-radix ns", "the original's map ns", "its search ns", "answers")
    for name, count in wanted:
        match_row(bench, name, count)
    wanted = [name for name in SET_LISTS if bench.wants(name, "fill_map", "update_map")]
    if wanted:
        head("Changes of a `RouteMap` of 10^6 routes", "list", "insert ns", "bound", "an update ns", "bound",
             "py-radix: insert ns", "an update ns", "MiB", "the table's MiB", "of the table's", "bound", "answers")
    for name in wanted:
        change_row(bench, name, path_of(name))
    wanted = [count for count in VALUE_COUNTS if bench.wants("routes_ipv4", "shortest_%d" % count)]
    if wanted:
        head("The shortest table of 10^6 routes", "values", "routes", "routes left", "ours ms", "making the table ms",
             "of the table's", "bound")
    for count in wanted:
        shortest_row(bench, count, path_of("routes_ipv4"))


def match_row(bench, name, count):
    """A question of a table and of a map."""
    label, source = "longest match, %s, %d" % (name, count), path_of(name, count)
    table, original, answers = in_turns(bench, ["longest_match"], ["longest_match"], source)
    search = ["linear_match"] if count == min(ROUTE_COUNTS) else ["longest_match"]
    changed, searched, more = in_turns(bench, ["map_longest_match"], search, source)
    python = python_figure(bench, "longest_match", source, answers)
    part = ratio(changed, table)
    row(name, format(count, ","), *("%.0f" % (time / count) for time in (table, changed)), shown(part),
        bench.judged(label, part, 2), each(python, count), each(original, count),
        each(searched, count) if search == ["linear_match"] else "-", bench.compared(label, answers + more))


def change_row(bench, name, source):
    """Inserts and updates; an update is half of a removal and the insert after it."""
    ours = {task: [figure(bench.programs.our_calls, [task], source) for _ in range(bench.rounds)]
            for task in ("fill_map", "update_map")}
    insert, update = (least([line["min_ns"] for line, _ in ours[task]]) for task in ours)
    items, answers = ours["fill_map"][0][0]["items"], [(line["items"], line["check"]) for line, _ in ours["fill_map"]]
    changes = [(line["items"], line["check"]) for line, _ in ours["update_map"]]
    inserted = python_figure(bench, "fill_map", source, answers)
    updated = python_figure(bench, "update_map", source, changes)
    held = figure(bench.programs.our_calls, ["hold"], source)[1]
    table = figure(bench.programs.our_calls, ["routes"], source)[1] - held
    memory = max(peak for _, peak in ours["fill_map"]) - held
    row(name, each(insert, items), bench.judged("insert, " + name, insert / items, 2000), each(update, 2 * items),
        bench.judged("update, " + name, update / items / 2, 1000), each(inserted, items), each(updated, 2 * items),
        mebibytes(memory), mebibytes(table), shown(memory / table),
        bench.judged("memory of a map, " + name, memory / table, 2),
        "same" if bench.compared(name, answers) == bench.compared(name, changes) == "same" else "**DIFFER**")


def shortest_row(bench, count, source):
    """The shortest table of a table with this many values, beside the time of making the table."""
    label = "shortest_%d" % count
    lines = [figure(bench.programs.our_calls, [label], source)[0] for _ in range(bench.rounds)]
    made = least([figure(bench.programs.our_calls, ["routes"], source)[0]["min_ns"] for _ in range(bench.rounds)])
    ours = least([line["min_ns"] for line in lines])
    part = ratio(ours, made)
    row(str(count), format(lines[0]["items"], ","), format(lines[0]["check"], ","), milliseconds(ours), milliseconds(made),
        shown(part), bench.judged(label, part, 3))


def python_figure(bench, task, source, answers):
    """The time of a task of py-radix; its answer joins the others. None without py-radix."""
    if not bench.programs.radix:
        return None
    line, _ = figure(bench.programs.radix, [task], source)
    answers.append((line["items"], line["check"]))
    return line["min_ns"]


def each(time, items):
    """The time for each item, in nanoseconds."""
    return "-" if time is None else "%.0f" % (time / items)


# The lists of the access lists' rules, and the number of rules. Both calls have to take at most 50 ms.
RULE_LISTS = ["random_ipv4", "routing_table", "random_both"]
RULE_COUNT = 10_000


def access_lists(bench):
    """Access lists: the two calls that compile, and a question, beside a search through the rules by the original."""
    wanted = [name for name in RULE_LISTS if bench.wants(name, "permitted", "unreached", "verdict")]
    if wanted:
        head("Access lists of 10^4 rules", "list", "`permitted` ms", "bound", "`unreached` ms", "bound",
             "a question of the set ns", "a search ns", "the original's search ns", "answers")
    for name in wanted:
        label, source = "rules, " + name, path_of(name, RULE_COUNT)
        compiled, unreached = (ours_only(bench, task, source) for task in ("permitted", "unreached"))
        asked_set, _, answers = in_turns(bench, ["compiled_verdict"], ["verdict"], source)
        searched, theirs, more = in_turns(bench, ["verdict"], ["verdict"], source)
        row(name, milliseconds(compiled), bench.judged(label + ", permitted", compiled / 1e6, 50),
            milliseconds(unreached), bench.judged(label + ", unreached", unreached / 1e6, 50),
            "%.0f" % (asked_set / RULE_COUNT), "%.0f" % (searched / RULE_COUNT),
            "-" if theirs is None else "%.0f" % (theirs / RULE_COUNT), bench.compared(label, answers + more))


def ours_only(bench, task, source):
    """Our shortest time of a task that the original does not have."""
    return least([figure(bench.programs.our_calls, [task], source)[0]["min_ns"] for _ in range(bench.rounds)])
