#!/usr/bin/env python3
"""Address pools of netaddr's IPSet and of a plain bitmap in Python, for the tasks of `ipnet_bench`: pools.py TASK COUNT.

`assign` and `turn` do what `ipnet_bench pool_assign` and `pool_turn` do: prefix lengths 29 to 32 in turn in 10.0.0.0/8,
and then a release and an assignment for each lease, in an order that jumps. Prints nanoseconds for each lease.
"""
import sys
import time

LENGTHS = (29, 30, 31, 32)
BITS = 24


class Bitmap:
    """One byte for each address of 10.0.0.0/8: first fit, by a search for free bytes."""

    def __init__(self):
        self.used = bytearray(1 << BITS)

    def assign(self, length):
        size = 1 << (32 - length)
        free = bytes(size)
        at = self.used.find(free)
        while at >= 0 and at % size:
            at = self.used.find(free, at + size - at % size)
        if at < 0:
            raise LookupError
        self.used[at:at + size] = b"\x01" * size
        return at, size

    def release(self, lease):
        at, size = lease
        self.used[at:at + size] = bytes(size)


class Netaddr:
    """An IPSet of free networks: the smallest one that is large enough."""

    def __init__(self):
        import netaddr
        self.netaddr = netaddr
        self.free = netaddr.IPSet(["10.0.0.0/8"])

    def assign(self, length):
        block = max((cidr for cidr in self.free.iter_cidrs() if cidr.prefixlen <= length), key=lambda c: c.prefixlen)
        network = self.netaddr.IPNetwork((block.first, length))
        self.free.remove(network)
        return network

    def release(self, network):
        self.free.add(network)


def main():
    kind, task, count = sys.argv[1], sys.argv[2], int(sys.argv[3])
    pool = {"bitmap": Bitmap, "netaddr": Netaddr}[kind]()
    start = time.perf_counter_ns()
    leases = [pool.assign(LENGTHS[index % 4]) for index in range(count)]
    if task == "turn":
        start = time.perf_counter_ns()
        for turn in range(count):
            index = turn * 7919 % count
            pool.release(leases[index])
            leases[index] = pool.assign(LENGTHS[index % 4])
    print((time.perf_counter_ns() - start) // count)


main()
