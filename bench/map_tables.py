"""The table of maps: `netset map` beside `netset union` of the same list. README.md explains the figures."""
import os
import tempfile

from cells import MIB, head, mebibytes, milliseconds, ratio, row, shown
from lists import Missing, lines_of, path_of
from programs import note, run
from turns import Command, measured

TIME_BOUND, TIME_GOAL = 1.5, 1.25   # of the time of the union
MORE_MEMORY = 2                     # MiB more than the union
MOST_BYTES = 500                    # of a map, in 1000 bytes

LISTS = ["addresses_ipv4", "sorted_addresses_ipv4", "blocks_ipv4", "sorted_blocks_ipv4", "sites_ipv6",
         "sorted_sites_ipv6", "random_ipv4", "random_ipv6", "random_both", "routing_table", "consecutive_hosts",
         "descending_hosts", "aggregated_ipv4", "aggregated_ipv6", "routes_ipv4", "ranges_ipv4", "ranges_ipv6",
         "ranges_both", "countries_ipv4", "countries_both"]


def maps(bench):
    wanted = [name for name in LISTS if bench.wants("map", name)]
    if not wanted:
        return
    if not bench.programs.our_netset:
        note("there is no crate netset: its maps are left out")
        return
    head("Maps, beside the union of the same list", "list", "lines", "union ms", "map ms", "of the union's", "bound",
         "union's peak MiB", "map's peak MiB", "more MiB", "bound", "the map's 1000 bytes", "bound")
    for name in wanted:
        try:
            map_row(bench, name, path_of(name))
        except Missing as missing:
            row(name, "left out: %s" % missing)


def map_row(bench, name, path):
    netset = bench.programs.our_netset
    commands = {who: Command([netset, who, path], as_ours=None) for who in ("union", "map")}
    found = measured(bench, commands)
    with tempfile.TemporaryFile() as document:
        run(commands["map"].words, sink=document)
        size = os.fstat(document.fileno()).st_size
    union, drawn = found.least("union", "processor"), found.least("map", "processor")
    more = found.peak("map") - found.peak("union")
    part = ratio(drawn, union)
    row(name, format(lines_of(path), ","), milliseconds(union), milliseconds(drawn), shown(part),
        bench.judged("map, " + name, part, TIME_BOUND, TIME_GOAL), mebibytes(found.peak("union")),
        mebibytes(found.peak("map")), mebibytes(more), bench.judged("map's peak, " + name, more / MIB, MORE_MEMORY),
        format(size // 1000, ","), bench.judged("map's bytes, " + name, size / 1000, MOST_BYTES))
