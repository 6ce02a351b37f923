#!/usr/bin/env python3
"""Makes the lists of networks for the bench: bench/lists.py [NAME..]

Without a name it makes all lists. It prints the path, the number of lines and the digest of each. Generated lists come
from fixed seeds, so they are the same on every machine. Real lists come from the tables of Debian's package
tor-geoipdb, and change with the version of the package. The lists are in the folder IPNET_BENCH_CACHE, or in
~/.cache/ipnet-bench if that is not set.
"""
import bisect
import hashlib
import ipaddress
import itertools
import os
import socket
import sys

CACHE = os.path.expanduser(os.environ.get("IPNET_BENCH_CACHE") or os.path.join(
    os.environ.get("XDG_CACHE_HOME") or "~/.cache", "ipnet-bench"))
MILLION = 1_000_000

# The tables of tor-geoipdb: "FIRST,LAST,COUNTRY" on each line, IPv4 addresses as numbers.
GEOIP_IPV4, GEOIP_IPV6 = "/usr/share/tor/geoip", "/usr/share/tor/geoip6"
COUNTRIES = 40

# The number of routes with each prefix length, of 100,000 IPv4 routes: about as in the Internet's routing table.
ROUTES = {8: 2, 9: 1, 10: 4, 11: 10, 12: 30, 13: 60, 14: 120, 15: 210, 16: 1_400, 17: 850, 18: 1_400, 19: 2_550,
          20: 4_500, 21: 5_200, 22: 11_000, 23: 10_200, 24: 62_463}
# The number of routes with each prefix length, of 100 IPv6 routes.
ROUTES_IPV6 = {29: 5, 32: 13, 33: 4, 34: 3, 36: 5, 38: 2, 40: 9, 42: 2, 44: 10, 45: 1, 46: 2, 47: 1, 48: 43}


class Missing(Exception):
    """The source of a list is not on this machine."""


class Numbers:
    """The pseudorandom numbers of SplitMix64 (Steele, Lea, Flood, 2014), the same on every version of Python."""

    def __init__(self, seed):
        self.state = seed

    def bits(self):
        """64 bits."""
        self.state = (self.state + 0x9E3779B97F4A7C15) & 0xFFFFFFFFFFFFFFFF
        mixed = (self.state ^ self.state >> 30) * 0xBF58476D1CE4E5B9 & 0xFFFFFFFFFFFFFFFF
        mixed = (mixed ^ mixed >> 27) * 0x94D049BB133111EB & 0xFFFFFFFFFFFFFFFF
        return mixed ^ mixed >> 31

    def below(self, bound):
        return self.bits() % bound

    def percent(self, chance):
        """True with this probability in percent."""
        return self.below(100) < chance

    def shuffle(self, items):
        """Shuffles the list."""
        for index in range(len(items) - 1, 0, -1):
            other = self.below(index + 1)
            items[index], items[other] = items[other], items[index]

    def any_of(self, weights):
        """Random keys of the table, without end. The weights are the probabilities."""
        keys, sums = list(weights), list(itertools.accumulate(weights.values()))
        while True:
            yield keys[bisect.bisect(sums, self.below(sums[-1]))]


def ipv4(address, prefix_len):
    return "%d.%d.%d.%d/%d" % (address >> 24, address >> 16 & 255, address >> 8 & 255, address & 255, prefix_len)


def ipv6(address, prefix_len):
    return "%s/%d" % (socket.inet_ntop(socket.AF_INET6, address.to_bytes(16, "big")), prefix_len)


# Generated lists: each is endless or long, and a row uses as much of it as it needs.

def random_ipv4(seed=1):
    """Random addresses, with prefix lengths 20 to 32."""
    numbers = Numbers(seed)
    while True:
        bits = numbers.bits()
        yield ipv4(bits >> 32, 20 + (bits & 0xFFFFFFFF) % 13)


def random_ipv6(seed=2):
    """Random addresses of 2000::/3, with prefix lengths 32 to 128."""
    numbers = Numbers(seed)
    while True:
        address = 1 << 125 | numbers.bits() >> 3 << 64 | numbers.bits()
        yield ipv6(address, 32 + numbers.below(97))


def random_both():
    """Networks of both families in turn."""
    for pair in zip(random_ipv4(3), random_ipv6(4)):
        yield from pair


def routing_table():
    """Routes of both families in random order; one in five is IPv6. A quarter of them is followed by its sibling, as if
    a block were announced in two parts. A tenth is repeated."""
    numbers = Numbers(5)
    lengths, lengths_ipv6 = numbers.any_of(ROUTES), numbers.any_of(ROUTES_IPV6)
    while True:
        if numbers.percent(20):
            prefix_len, text, width = next(lengths_ipv6), ipv6, 128
            network = (1 << 125 | numbers.below(1 << 29) << 96 | numbers.bits() << 32) >> 128 - prefix_len
        else:
            prefix_len, text, width = next(lengths), ipv4, 32
            network = numbers.bits() >> 64 - prefix_len
        routes = [network] + [network ^ 1] * numbers.percent(25) + [network] * numbers.percent(10)
        for route in routes:
            yield text(route << width - prefix_len, prefix_len)


def consecutive_hosts():
    """Adjacent /32, descending: all of them join."""
    for address in range(0x0AFFFFFF, -1, -1):
        yield ipv4(address, 32)


def aggregated_ipv4():
    """Every other /26: no two join."""
    for address in range(0, 1 << 32, 1 << 7):
        yield ipv4(address, 26)


def aggregated_ipv6():
    """Every other /49, starting at 2000::. No two join."""
    for address in range(0x2000 << 112, 0x4000 << 112, 1 << 80):
        yield ipv6(address, 49)


def routes_ipv4():
    """IPv4 networks between 1.0.0.0 and 223.255.255.255, with the prefix lengths of a routing table."""
    numbers = Numbers(6)
    for prefix_len in numbers.any_of(ROUTES):
        address = (1 << 24) + numbers.below(223 << 24)
        yield ipv4(address >> 32 - prefix_len << 32 - prefix_len, prefix_len)


def descending_hosts():
    """/32, descending, with about one address in five left out."""
    numbers = Numbers(7)
    for address in range(0x0AFFFFFF, -1, -1):
        if not numbers.percent(20):
            yield ipv4(address, 32)


def sites_ipv6():
    """Different /48 inside forty /32, in random order."""
    numbers = Numbers(8)
    parents = [0x20010000 + numbers.below(0x0FFF0000) for _ in range(40)]
    seen = set()
    while len(seen) < 40 << 16:
        site = parents[numbers.below(40)] << 16 | numbers.below(1 << 16)
        if site not in seen:
            seen.add(site)
            yield ipv6(site << 80, 48)


def addresses_ipv4():
    """Random addresses, without a prefix length."""
    numbers = Numbers(13)
    while True:
        yield ipv4(numbers.bits() >> 32, 32)[:-3]


def blocks_ipv4():
    """Different /24, in random order."""
    numbers = Numbers(14)
    seen = set()
    while True:
        block = numbers.bits() >> 40
        if block not in seen:
            seen.add(block)
            yield ipv4(block << 8, 24)


def in_order(make, key):
    """The list of the first million lines of another one, in order."""
    return sorted(itertools.islice(make(), MILLION), key=key)


def ipv4_number(line):
    """The address of a line, as a number."""
    return int.from_bytes(bytes(map(int, line.partition("/")[0].split("."))), "big")


def sorted_addresses_ipv4():
    """The first million addresses, ascending."""
    return in_order(addresses_ipv4, ipv4_number)


def sorted_blocks_ipv4():
    """The first million /24, ascending."""
    return in_order(blocks_ipv4, ipv4_number)


def sorted_sites_ipv6():
    """The first million /48, ascending."""
    return in_order(sites_ipv6, lambda line: int(ipaddress.ip_network(line).network_address))


# The requests of a log, and the programs that made them.
REQUESTS = ("GET / HTTP/1.1", "GET /api/v1/items/%d HTTP/1.1", "GET /static/css/site.%d.css HTTP/1.1",
            "GET /images/photo-%d.jpg HTTP/2.0", "POST /search?q=%d HTTP/1.1", "GET /login?next=/account/%d HTTP/1.1")
AGENTS = ("Mozilla/5.0 (X11; Linux x86_64; rv:115.0) Gecko/20100101 Firefox/115.0", "curl/7.88.1",
          "Mozilla/5.0 (compatible; Bot/2.1; +http://www.example.com/bot.html)",
          "Mozilla/5.0 (Windows NT 10.0) Chrome/120.0")


def access_log():
    """The lines of an access log, in the combined format, of random clients."""
    numbers = Numbers(14)
    for second in itertools.count():
        request = REQUESTS[numbers.below(len(REQUESTS))]
        if "%" in request:
            request %= numbers.below(MILLION)
        time = "%02d:%02d:%02d" % (second // 3600 % 24, second // 60 % 60, second % 60)
        yield '%s - - [26/Nov/2026:%s +0000] "%s" 200 %d "-" "%s"' % (
            ipv4(numbers.bits() >> 32, 32)[:-3], time, request, numbers.below(MILLION), AGENTS[numbers.below(len(AGENTS))])


# Real lists.

def ranges(path, address):
    """(networks, country) of each range of a table, the networks as pairs of an address and a prefix length."""
    with open(path, encoding="ascii") as lines:
        for line in lines:
            if not line.startswith("#"):
                first, last, country = line.rstrip("\n").split(",")
                cut = ipaddress.summarize_address_range(address(first), address(last))
                yield [(int(network.network_address), network.prefixlen) for network in cut], country


def ranges_of_ipv4():
    return ranges(GEOIP_IPV4, lambda text: ipaddress.IPv4Address(int(text)))


def ranges_of_ipv6():
    return ranges(GEOIP_IPV6, ipaddress.IPv6Address)


def ranges_ipv4():
    """Every IPv4 range, split into networks, in the order of the table, which is ascending."""
    return (ipv4(*network) for networks, _ in ranges_of_ipv4() for network in networks)


def ranges_ipv6():
    """Every IPv6 range, split into networks, in the order of the table."""
    return (ipv6(*network) for networks, _ in ranges_of_ipv6() for network in networks)


def spans_ipv4():
    """Every IPv4 range as its first and its last address, FIRST-LAST, in the table's order."""
    for networks, _ in ranges_of_ipv4():
        (first, _), (last, prefix_len) = networks[0], networks[-1]
        yield "%s-%s" % (ipv4(first, 32)[:-3], ipv4(last | (1 << 32 - prefix_len) - 1, 32)[:-3])


def ranges_both():
    """The networks of both families, in random order."""
    lines = list(ranges_ipv4()) + list(ranges_ipv6())
    Numbers(9).shuffle(lines)
    return lines


def by_country(table):
    """The networks of each country, and its number of ranges. "??" is not a country."""
    networks, counts = {}, {}
    for found, country in table:
        if country != "??":
            networks.setdefault(country, []).extend(found)
            counts[country] = counts.get(country, 0) + 1
    return networks, counts


def untidy(networks, width, numbers):
    """Every network; one in five occurs twice, and three in ten of these have host bits."""
    for address, prefix_len in networks:
        for _ in range(2 if numbers.percent(20) else 1):
            hosts = (1 << width - prefix_len) - 1
            yield address | (numbers.bits() & hosts if numbers.percent(30) else 0), prefix_len


def countries(with_ipv6, seed, more=0):
    """The forty countries with the most IPv4 ranges, after the first `more`; untidy and in random order."""
    numbers = Numbers(seed)
    networks, counts = by_country(ranges_of_ipv4())
    chosen = sorted(counts, key=lambda country: (-counts[country], country))[more:more + COUNTRIES]
    lines = [ipv4(*network) for country in chosen for network in untidy(networks[country], 32, numbers)]
    if with_ipv6:
        networks, _ = by_country(ranges_of_ipv6())
        lines += [ipv6(*network) for country in chosen for network in untidy(networks.get(country, []), 128, numbers)]
    numbers.shuffle(lines)
    return lines


def countries_ipv4():
    return countries(False, 10)


def countries_both():
    return countries(True, 11)


def next_countries_ipv4():
    """The 21st to the 60th country."""
    return countries(False, 12, COUNTRIES // 2)


GENERATED = {make.__name__: make for make in (
    random_ipv4, random_ipv6, random_both, routing_table, consecutive_hosts, aggregated_ipv4, aggregated_ipv6,
    routes_ipv4, descending_hosts, sites_ipv6, addresses_ipv4, access_log, blocks_ipv4, sorted_addresses_ipv4,
    sorted_blocks_ipv4, sorted_sites_ipv6)}
# The maximum lengths of lists.
MOST = {"sites_ipv6": MILLION, "sorted_addresses_ipv4": MILLION, "sorted_blocks_ipv4": MILLION,
        "sorted_sites_ipv6": MILLION, "consecutive_hosts": 10 * MILLION, "descending_hosts": 10 * MILLION}
REAL = {make.__name__: make for make in (
    ranges_ipv4, ranges_ipv6, ranges_both, spans_ipv4, countries_ipv4, countries_both, next_countries_ipv4)}


def path_of(name, count=MILLION):
    """The path of a list, which is made if it does not exist. Real lists have a fixed length."""
    file = name + ".txt" if name in REAL else "%s.%d.txt" % (name, count)
    path = os.path.join(CACHE, "lists", file)
    if not os.path.exists(path):
        if name in REAL and not (os.path.exists(GEOIP_IPV4) and os.path.exists(GEOIP_IPV6)):
            raise Missing("there is no %s (apt-get install tor-geoipdb)" % GEOIP_IPV4)
        print("making the list " + file, file=sys.stderr, flush=True)
        lines = REAL[name]() if name in REAL else itertools.islice(GENERATED[name](), count)
        os.makedirs(os.path.dirname(path), exist_ok=True)
        with open(path + ".part", "w", encoding="ascii") as out:
            out.writelines(line + "\n" for line in lines)
        os.rename(path + ".part", path)
    return path


def lines_of(path):
    with open(path, "rb") as text:
        return sum(1 for _ in text)


def main(names):
    for name in names or [*GENERATED, *REAL]:
        if name not in GENERATED and name not in REAL:
            sys.exit("bench/lists.py: no list " + name)
        try:
            path = path_of(name)
        except Missing as missing:
            print("%s is left out: %s" % (name, missing))
            continue
        with open(path, "rb") as lines:
            text = lines.read()
        print("%9d lines  %s  %s" % (text.count(b"\n"), hashlib.sha256(text).hexdigest()[:16], path))


if __name__ == "__main__":
    main(sys.argv[1:])
