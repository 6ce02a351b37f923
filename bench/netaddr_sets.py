#!/usr/bin/env python3
"""Measures the sets of Python's netaddr: bench/netaddr_sets.py TASK < NETWORKS

The tasks, the output and the checksum of the answers are the same as in ipnet_bench, so that the two can be compared. A
task runs once. The processor time is measured, because other work on the machine affects it least.
"""
import json
import sys
import time

import netaddr

MASK = (1 << 64) - 1


def mixed(before, number):
    """Adds a value to the checksum (FNV-1a, 64 bits at a time)."""
    return (before ^ number) * 0x0000_0100_0000_01B3 & MASK


def listed(networks):
    check = len(networks)
    for network in networks:
        check = mixed(mixed(check, (network.first ^ network.first >> 64) & MASK), network.prefixlen)
    return check


def combined(operation, first, second):
    """A set operation, from networks to networks."""
    one, other = netaddr.IPSet(first), netaddr.IPSet(second)
    return list(operation(one, other).iter_cidrs())


OPERATIONS = {"union": netaddr.IPSet.union, "intersection": netaddr.IPSet.intersection,
              "difference": netaddr.IPSet.difference}


def main(task):
    networks = [netaddr.IPNetwork(line) for line in sys.stdin.read().split()]
    start = time.process_time_ns()
    found = combined(OPERATIONS[task], networks[0::2], networks[1::2])
    took = time.process_time_ns() - start
    print(json.dumps({"task": task, "items": len(networks), "min_ns": took, "median_ns": took, "check": listed(found)}))


if __name__ == "__main__":
    main(sys.argv[1])
