#!/usr/bin/env python3
"""Measures the routes of py-radix (Debian's python3-radix): bench/radix_routes.py TASK < NETWORKS

The tasks `fill_map`, `update_map` and `longest_match`, the output and the checksum of the answers are the same as in
ipnet_bench, so that the two can be compared. A task runs once. The processor time is measured, because other work on
the machine affects it least.
"""
import ipaddress
import json
import sys
import time

import radix

MASK = (1 << 64) - 1


def mixed(before, number):
    """Adds a value to the checksum (FNV-1a, 64 bits at a time)."""
    return (before ^ number) * 0x0000_0100_0000_01B3 & MASK


def filled(networks):
    """The tree of a route to each network, with its place as value."""
    tree = radix.Radix()
    for place, network in enumerate(networks):
        tree.add(network).data["place"] = place
    return tree


def fill_map(networks):
    return lambda: len(filled(networks).nodes())


def update_map(networks):
    tree = filled(networks)

    def work():
        total = 0
        for network in networks:
            value = tree.search_exact(network).data["place"]
            tree.delete(network)
            tree.add(network).data["place"] = value
            total += value
        return total & MASK
    return work


def longest_match(networks):
    """The longest match of the last address of each network, in the tree of every second network."""
    tree = filled(networks[0::2])
    addresses = [str(ipaddress.ip_network(network, strict=False)[-1]) for network in networks]

    def work():
        check = 0
        for address in addresses:
            found = tree.search_best(address)
            check = mixed(check, 0 if found is None else found.data["place"] + 1)
        return check
    return work


TASKS = {"fill_map": fill_map, "update_map": update_map, "longest_match": longest_match}


def main(task):
    networks = sys.stdin.read().split()
    work = TASKS[task](networks)
    start = time.process_time_ns()
    check = work()
    took = time.process_time_ns() - start
    print(json.dumps({"task": task, "items": len(networks), "min_ns": took, "median_ns": took, "check": check}))


if __name__ == "__main__":
    main(sys.argv[1])
