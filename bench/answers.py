#!/usr/bin/env python3
"""Measures `netset fit`, `netset shorten` and `netset origins`, and prints tables in Markdown.

  bench/answers.py [added] [time] [--netset PATH] [--rounds N]

`added` compares the addresses that `netset fit` adds with the addresses that the greedy rule adds, for five countries
of Debian's package tor-geoipdb. `time` measures processor time (user and system, the least of the rounds) and the peak of memory.
PATH is the built program, by default crates/netset/out/netset. The lists are made in the folder IPNET_BENCH_CACHE.
"""
import argparse
import heapq
import ipaddress
import os
import random
import re
import subprocess
import sys

sys.dont_write_bytecode = True

import programs
from lists import CACHE, GEOIP_IPV4, MILLION, path_of

TOP = os.path.dirname(os.path.dirname(os.path.realpath(__file__)))
COUNTRIES = {"US": "the United States", "DE": "Germany", "BR": "Brazil", "NL": "the Netherlands", "JP": "Japan"}
LIMITS = (10, 60, 1000)
ADDED = re.compile(r"added: IPv4 ([0-9,]+)")


def made(name, lines):
    """The path of a list with these lines, which is made if it does not exist."""
    path = os.path.join(CACHE, "lists", name)
    if not os.path.exists(path):
        os.makedirs(os.path.dirname(path), exist_ok=True)
        with open(path + ".part", "w", encoding="ascii") as out:
            out.writelines(line + "\n" for line in lines())
        os.rename(path + ".part", path)
    return path


def ranges_of(country):
    with open(GEOIP_IPV4, encoding="ascii") as table:
        rows = [line.split(",") for line in table if line.rstrip().endswith("," + country)]
    return ["{}-{}".format(*map(ipaddress.IPv4Address, map(int, row[:2]))) for row in rows]


# ---- fit, beside the greedy rule


def around_both(first, second):
    """The smallest block around two blocks, each a pair of number and host bits."""
    bits = (first[0] ^ second[0]).bit_length()
    return first[0] >> bits << bits, bits


def greedy_added(blocks, limit):
    """The addresses that the greedy rule adds: again and again it replaces the two neighbours for which the block
    around both adds the fewest addresses, until there are at most `limit` blocks."""
    parent, left, right, waiting = {}, {}, {}, []

    def offer(node):
        if left.get(node) in leaves and right.get(node) in leaves:
            added = (1 << node[1]) - sum(1 << half[1] for half in (left[node], right[node]))
            heapq.heappush(waiting, (added, node))

    stack = [blocks[0]]
    leaves = set(blocks)
    for block in blocks[1:]:  # a tree of the blocks around neighbours, made by a stack of its right edge
        around, last = around_both(stack[-1], block), stack.pop()
        while stack and stack[-1][1] < around[1]:
            right[stack[-1]], parent[last] = last, stack[-1]
            last = stack.pop()
        left[around], parent[last] = last, around
        stack += [around, block]
    last = stack.pop()
    while stack:
        right[stack[-1]], parent[last] = last, stack[-1]
        last = stack.pop()
    for node in left:
        offer(node)
    total, count = 0, len(blocks)
    while count > limit:
        added, node = heapq.heappop(waiting)
        leaves.add(node)
        total, count = total + added, count - 1
        if node in parent:
            offer(parent[node])
    return total


def blocks_of(netset, path):
    """The fewest networks of a list, each as a pair of number and host bits."""
    lines = subprocess.run([netset, "union", path], stdout=subprocess.PIPE, text=True, check=True).stdout.split()
    networks = map(ipaddress.ip_network, lines)
    return [(int(network.network_address), 32 - network.prefixlen) for network in networks]


def fit_added(netset, path, limit):
    """The addresses that `netset fit` adds."""
    words = [netset, "fit", "--ipv4", str(limit), path]
    ran = subprocess.run(words, stdout=subprocess.PIPE, stderr=subprocess.PIPE, text=True, check=True)
    if len(ran.stdout.split()) > limit:
        sys.exit("bench/answers.py: more networks than the limit: " + " ".join(words))
    return int(ADDED.search(ran.stderr)[1].replace(",", ""))


def added_table(netset):
    print("\n### Addresses that a list within a limit adds\n")
    print("| country | networks | " + " | ".join("{} {:,}".format(word, limit) for limit in LIMITS
                                                 for word in ("`fit`,", "the greedy rule,")) + " |")
    print("| --- |" + " ---: |" * (1 + 2 * len(LIMITS)))
    for country, name in COUNTRIES.items():
        path = made("country_%s.txt" % country, lambda: ranges_of(country))
        blocks = blocks_of(netset, path)
        cells = [name, "{:,}".format(len(blocks))]
        for limit in LIMITS:
            best, greedy = fit_added(netset, path, limit), greedy_added(blocks, limit)
            if greedy < best:
                sys.exit("bench/answers.py: the greedy rule adds fewer addresses: " + path)
            cells += ["{:,}".format(best), "{:.3f} times".format(greedy / best)]
        print("| " + " | ".join(cells) + " |", flush=True)


# ---- times and memory


def with_texts(count, texts):
    chance = random.Random(count + texts)
    with open(path_of("routes_ipv4", count), encoding="ascii") as routes:
        return ["%s h%d" % (route.rstrip(), chance.randrange(texts)) for route in routes]


def with_origins(count, form):
    """Routes with an origin, or VRPs for half of them, in the form of CSV or JSON."""
    chance = random.Random(count)
    with open(path_of("routes_ipv4", count), encoding="ascii") as routes:
        rows = [(route.rstrip(), chance.randrange(64000, 64400)) for route in routes]
    if form == "routes":
        return ["%s %d" % row for row in rows]
    rows = chance.sample(rows, count // 2)
    vrps = [(asn + chance.choice((0, 0, 1)), route, min(32, int(route.split("/")[1]) + chance.choice((0, 0, 1, 2))))
            for route, asn in rows]
    if form == "networks":
        return [vrp[1] for vrp in vrps]
    if form == "csv":
        return ["ASN,IP Prefix,Max Length,Trust Anchor,Expires"] + ["AS%d,%s,%d,x,1700000000" % vrp for vrp in vrps]
    items = ['{"asn": "AS%d", "prefix": "%s", "maxLength": %d, "ta": "x"}' % vrp for vrp in vrps]
    return ['{"roas": [', ",\n".join(items), "]}"]


def measured(rounds, *words, status=0):
    """The least processor time in seconds, and the highest peak in MiB."""
    runs = [programs.run(list(words), sink=subprocess.DEVNULL, status=status, quiet=True)[0] for _ in range(rounds)]
    return min(run.processor for run in runs) / 1e9, max(run.peak for run in runs) / 2 ** 20


def held(value, bound):
    return "%g %s" % (bound, "held" if value <= bound else "**missed**")


def fit_rows():
    yield "`fit`, 10^5 entries, N = 1,000", (0.6, 64), "fit", "--ipv4", "1000", path_of("routes_ipv4", 100_000)
    yield "`fit`, 10^4 entries, N = 60", (0.05, 64), "fit", "--ipv4", "60", path_of("routes_ipv4", 10_000)


def time_table(netset, rounds):
    programs.Programs()
    print("\n### Lists within a limit: time and memory\n")
    print("| task | s | bound | MiB | bound |\n| --- | ---: | ---: | ---: | ---: |")
    for label, (most, room), *words in fit_rows():
        seconds, peak = measured(rounds, netset, *words)
        print("| {} | {:.3f} | {} | {:.0f} | {} |".format(label, seconds, held(seconds, most), peak, held(peak, room)))
    nothing = made("one_address.txt", lambda: ["::1"])
    print("\n### Short tables: 10^6 routes, beside making the table\n")
    print("| values | s | times making | bound | bytes a route | bound |\n| --- | ---: | ---: | ---: | ---: | ---: |")
    for texts in (2, 16, 256):
        path = made("texts_%d.txt" % texts, lambda: with_texts(MILLION, texts))
        table, floor = measured(rounds, netset, "route", "--with-text", path, nothing, status=1)
        seconds, peak = measured(rounds, netset, "shorten", path)
        room = (peak - floor) * 2 ** 20 / MILLION
        print("| {} | {:.2f} | {:.2f} | {} | {:.0f} | {} |".format(texts, seconds, seconds / table,
                                                                  held(seconds / table, 3), room, held(room, 64)))
    print("\n### Origins: 10^6 routes by 5 · 10^5 VRPs, beside `route`\n")
    print("| VRPs | s | MiB | times `route` | bound |\n| --- | ---: | ---: | ---: | ---: |")
    routes = made("origins_routes.txt", lambda: with_origins(MILLION, "routes"))
    networks = made("origins_networks.txt", lambda: with_origins(MILLION, "networks"))
    beside = measured(rounds, netset, "route", networks, path_of("routes_ipv4", MILLION), status=1)[0]
    for form in ("csv", "json"):
        vrps = made("origins_vrps." + form, lambda: with_origins(MILLION, form))
        seconds, peak = measured(rounds, netset, "origins", vrps, routes, status=1)
        print("| {} | {:.2f} | {:.0f} | {:.2f} | {} |".format(form.upper(), seconds, peak, seconds / beside,
                                                             held(seconds / beside, 1.5)))


def main():
    parser = argparse.ArgumentParser(description=__doc__, formatter_class=argparse.RawDescriptionHelpFormatter)
    parser.add_argument("parts", nargs="*", choices=["added", "time", []], default=[])
    parser.add_argument("--netset", default=os.path.join(TOP, "crates/netset/out/netset"))
    parser.add_argument("--rounds", type=int, default=5)
    options = parser.parse_args()
    if "added" in options.parts or not options.parts:
        added_table(options.netset)
    if "time" in options.parts or not options.parts:
        time_table(options.netset, options.rounds)


main()
