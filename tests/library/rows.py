#!/usr/bin/env python3
"""Asks `ipnet_probe` the rows of tests/rows: calls of the library and the answers that are known.

Run it from anywhere, as `tests/library/rows.py [--program PATH]`. Each row that names a network or an address of one
family is asked of the type of this family and of the type of both. It prints the label of each row that fails, and
ends with the line `N passed, M failed`.
"""
from model import (GREATEST, WIDTH, address, address_text, debug_range, debug_walk, items, kind,
                   network, range_text, read_tables, text)
from support import Checks, ask, read_arguments

REFUSED = "Err(PrefixLenError)"


class Rows:
    """Questions with a label and the wanted answer each."""

    def __init__(self):
        self.all = []

    def add(self, label, wanted, *words):
        """Adds a question."""
        self.all.append((label, list(words), wanted))

    def both(self, label, family, name, wanted, call, *words):
        """Adds a question to the type of the family, and the same to the type of both. `wanted` is the answer, or a
        function of whether the type of both is asked."""
        for either in (False, True):
            asked = "Ip" + name if either else kind(family, name)
            self.add("%s, by %s" % (label, asked), wanted(either) if callable(wanted) else wanted, asked, call, *words)


def some(answer):
    """What `{:?}` writes of the option."""
    return "None" if answer in ("none", "None") else "Some(%s)" % answer


def result(cell):
    """What `{:?}` writes of a result: a network, a refused length, or an error with its type's name before it."""
    if cell == "refused":
        return REFUSED
    return "Err(%s)" % cell.split("::", 1)[1] if "Error::" in cell else "Ok(%s)" % cell


def add_constructors(rows, tables):
    for label, ip, length, want in tables["new"]:
        rows.both("networks: " + label, address(ip).family, "Net", result(want), "new", ip, length)
    for label, ip, length, want in tables["new_assert"]:
        family = address(ip).family
        rows.add("networks: %s, by its family's type" % label, want, kind(family), "new_assert", ip, length)
        rows.add("networks: %s, by IpNet" % label, some(want), "IpNet", "new_assert", ip, length)
    for label, ip, want in tables["from_addresses"]:
        rows.both("networks: " + label, address(ip).family, "Net", want, "from", ip)
    for label, net in (("from a network, IPv4", "10.1.1.0/24"), ("from a network, IPv6", "fd00::/32")):
        rows.add("networks: " + label, some(net), "IpNet", "from", net)
    for label, name, want in (("default, either family", "IpNet", "0.0.0.0/0"),
                              ("default, IPv4", "Ipv4Net", "0.0.0.0/0"), ("default, IPv6", "Ipv6Net", "::/0")):
        rows.add("networks: " + label, want, name, "default")


def add_networks(rows):
    tables = read_tables("networks")
    add_constructors(rows, tables)
    for label, net, call, want in tables["addresses"] + tables["lengths"]:
        rows.both("networks: " + label, network(net).family, "Net", want, call, net)
    for label, net, want in tables["truncated"]:
        rows.both("networks: " + label, network(net).family, "Net", want, "trunc", net)
    for label, net, want in tables["supernets"]:
        rows.both("networks: " + label, network(net).family, "Net", some(want), "supernet", net)
    for label, net, other, want in tables["siblings"]:
        rows.both("networks: " + label, network(net).family, "Net", want, "is_sibling", net, other)
        rows.add("networks: %s, the other way round" % label, want, "IpNet", "is_sibling", other, net)
    for label, net, other, want in tables["siblings_of_two_families"]:
        rows.add("networks: " + label, want, "IpNet", "is_sibling", net, other)
        rows.add("networks: %s, the other way round" % label, want, "IpNet", "is_sibling", other, net)
    for label, net, other, want in tables["networks_inside"] + tables["addresses_inside"]:
        rows.both("networks: " + label, network(net).family, "Net", want, "contains", net, other)
    for label, net, other, want in tables["networks_of_the_other_family"] + tables["addresses_of_the_other_family"]:
        rows.add("networks: " + label, want, "IpNet", "contains", net, other)
    add_hosts(rows, tables["hosts"])
    for label, net, length, want in tables["subnets"]:
        add_subnets(rows, "networks: " + label, network(net), length, want)


def add_hosts(rows, table):
    for label, net, want in table:
        family = network(net).family
        hosts = [address(ip).number for ip in items(want)]
        rows.both("networks: " + label, family, "Net",
                  lambda either: debug_range(family, hosts[0], hosts[-1], either), "hosts", net)
        calls = ",".join(["next"] * (len(hosts) + 1))
        answers = " ".join([some(ip) for ip in items(want)] + ["None"])
        rows.both("networks: %s: each" % label, family, "AddrRange",
                  lambda either: answers + " " + debug_range(family, 1, 0, either),
                  "calls", range_text(family, hosts[0], hosts[-1]), calls)
    least, greatest = address("0.0.0.1").number, address("255.255.255.254").number
    rows.both("networks: least and greatest host of a whole family", 4, "Net",
              lambda either: debug_range(4, least, greatest, either), "hosts", "0.0.0.0/0")
    rows.both("networks: least and greatest host of a whole family: min and max", 4, "AddrRange",
              lambda either: "Some(0.0.0.1) Some(255.255.255.254) " + debug_range(4, least, greatest, either),
              "calls", "0.0.0.1-255.255.255.254", "min,max")


def add_subnets(rows, label, net, length, want):
    if want == "refused":
        rows.both(label, net.family, "Net", "PrefixLenError", "subnets", text(net), length)
        return
    last = network(items(want)[-1])
    end = last.number + (1 << WIDTH[net.family] - last.length) - 1
    left = 0 if last.length == WIDTH[net.family] or end == GREATEST[net.family] else end
    start = min(end + 1, GREATEST[net.family])
    rows.both(label, net.family, "Net",
              lambda either: want + " " + debug_walk(net.family, start, left, int(length), either),
              "subnets", text(net), length)


def add_aggregates(rows):
    for label, nets, want in read_tables("aggregates")["rows"]:
        label = "aggregates: " + label
        given, wanted = ",".join(items(nets)), ",".join(items(want))
        rows.add(label, want, "IpNet", "aggregate", given)
        rows.add(label + ": of the answer again", want, "IpNet", "aggregate", wanted)
        rows.add(label + ": is_aggregated of the answer", "true", "IpNet", "is_aggregated", wanted)
        families = {network(net).family for net in items(nets)}
        for family in families or {4, 6}:
            if len(families) < 2:
                rows.add("%s, by %s" % (label, kind(family)), want, kind(family), "aggregate", given)
    descending = ",".join("10.0.0.%d/32" % last for last in range(255, -1, -1))
    rows.both("aggregates: 256 addresses, descending", 4, "Net", "[10.0.0.0/24]", "aggregate", descending)
    tables = read_tables("lists")
    for label, nets, want in tables["aggregated"]:
        rows.add("lists: " + label, want, "IpNet", "is_aggregated", ",".join(items(nets)))
    for label, nets, others, want in tables["same_addresses"]:
        first, second = ",".join(items(nets)), ",".join(items(others))
        rows.add("lists: " + label, want, "IpNet", "same_addresses", first, second)
        rows.add("lists: %s, the other way round" % label, want, "IpNet", "same_addresses", second, first)


def add_addresses(rows):
    for label, left, call, right, want in read_tables("arithmetic")["rows"]:
        rows.add("arithmetic: " + label, want, kind(address(left).family, "Addr"), call, left, right)
    tables = read_tables("masks")
    for label, mask, want in tables["lengths"]:
        rows.both("masks: " + label, address(mask).family, "Addr", result(want), "mask_to_prefix", mask)
    for label, ip, mask, want in tables["networks"]:
        rows.both("masks: " + label, address(ip).family, "Net", result(want), "with_netmask", ip, mask)
    for label, ip, mask, want in tables["networks_of_two_families"]:
        rows.add("masks: " + label, result(want), "IpNet", "with_netmask", ip, mask)


def add_bytes(rows):
    tables = read_tables("bytes")
    for label, name, net, want in tables["written"]:
        rows.add("bytes: " + label, want, name, "to_bytes", net)
    for label, name, given, want in tables["read"]:
        rows.add("bytes: " + label, result(want), name, "from_bytes", ",".join(items(given)))
    for (net,) in tables["networks"]:
        value = network(net)
        own = list(value.number.to_bytes(WIDTH[value.family] // 8, "big")) + [value.length]
        for name, form in ((kind(value.family), own), ("IpNet", [0 if value.family == 4 else 1] + own)):
            rows.add("bytes: there and back, written by " + name, str(form), name, "to_bytes", net)
            rows.add("bytes: there and back, read by " + name, "Ok(%s)" % net, name, "from_bytes", comma(form))
            for end in range(len(form)):
                rows.add("bytes: beginnings of a form of " + name, "Err(Length)", name, "from_bytes", comma(form[:end]))
    ipv4, ipv6 = [10, 1, 1, 0], [253] + [0] * 15
    for first in range(2, 256):
        for rest in ([], [0], ipv4 + [24], ipv4 + [33], ipv6 + [32]):
            rows.add("bytes: first bytes 2 to 255", "Err(Variant)", "IpNet", "from_bytes", comma([first] + rest))
    for family, ip in ((4, ipv4), (6, ipv6)):
        for length in range(WIDTH[family] + 1, 256):
            label = "bytes: lengths above %d" % WIDTH[family]
            rows.add(label, "Err(Prefix)", kind(family), "from_bytes", comma(ip + [length]))
            tag = 0 if family == 4 else 1
            rows.add(label, "Err(Prefix)", "IpNet", "from_bytes", comma([tag] + ip + [length]))


def comma(numbers):
    """The numbers as a list in a question."""
    return ",".join(map(str, numbers))


def add_json_and_errors(rows):
    for label, name, want in read_tables("errors")["texts"]:
        rows.add("errors: " + label, want, "Error", name)
    tables = read_tables("json")
    for label, name, value, want in tables["read"]:
        rows.add("json: " + label, result(want), name, "from_json", value)
    for label, net, want in tables["written"]:
        rows.both("json: " + label, network(net).family, "Net", want, "to_json", net)
        rows.both("json: %s: read again" % label, network(net).family, "Net", "Ok(%s)" % net, "from_json", want)


def add_limits(rows):
    tables = read_tables("limits")
    for ip, length, ip_bytes, net_bytes in tables["texts"]:
        family = address(ip).family
        net = "%s/%s" % (ip, length)
        assert len(ip) == int(ip_bytes) and len(net) == int(net_bytes), net
        rows.add("limits: bytes of an address text", ip, kind(family, "Addr"), "text", ip)
        rows.both("limits: bytes of a network text", family, "Net", '"%s"' % net, "to_text", net)
        rows.add("limits: bytes of a network text: room for them", net_bytes, kind(family), "to_text_capacity", net)
        for other in range(256):
            want = "Ok(%s/%d)" % (ip, other) if other <= int(length) else REFUSED
            rows.both("limits: prefix length %d" % other, family, "Net", want, "new", ip, str(other))
    for family, ip in ((4, "10.0.0.1"), (6, "fd00::1")):
        for length in range(WIDTH[family] + 1):
            label = "conditions: new_assert: length %d" % length
            rows.add(label, "%s/%d" % (ip, length), kind(family), "new_assert", ip, str(length))
            label = "conditions: minimum prefix length of a walk: %d" % length
            number = address(ip).number
            rows.both(label, family, "Subnets", lambda either: "[%s/%d] %s" % (
                ip, WIDTH[family], debug_walk(family, number + 1, 0, length, either)),
                "items", "%s-%s-%d" % (ip, ip, length))
        rows.add("conditions: a minimum prefix length above the width", "no such question", kind(family, "Subnets"),
                 "items", "%s-%s-%d" % (ip, ip, WIDTH[family] + 1))
    whole = range_text(6, 0, GREATEST[6])
    rows.both("limits: items of a range, IPv6", 6, "AddrRange", lambda either: "Some(::) Some(%s) %s" % (
        address_text(6, GREATEST[6]), debug_range(6, 0, GREATEST[6], either)), "calls", whole, "min,max")
    numbers = address("fd00::").number, address("fd00::ff").number
    rows.both("conditions: count of a range", 6, "AddrRange", lambda either: "(256, Some(256)) Some(256) "
              + debug_range(6, *numbers, either), "calls", range_text(6, *numbers), "size_hint,count")


def add_order(rows):
    tables = read_tables("order")
    for label, left, right, equal, order in tables["networks"]:
        rows.both("networks: " + label, network(left).family, "Net", compared(equal, order), "compare", left, right)
    for label, left, right, equal, order in tables["networks_of_two_families"]:
        rows.add("networks: " + label, compared(equal, order), "IpNet", "compare", left, right)
    for label, *ends, equal, order in tables["ranges"]:
        rows.both("networks: " + label, address(ends[0]).family, "AddrRange", compared(equal, order), "compare",
                  "-".join(ends[:2]), "-".join(ends[2:]))
    for label, *ends, equal, order in tables["ranges_of_two_families"]:
        rows.add("networks: " + label, compared(equal, order), "IpAddrRange", "compare", "-".join(ends[:2]),
                 "-".join(ends[2:]))
    for label, *ends, equal, order in tables["walks"]:
        rows.both("networks: " + label, address(ends[0]).family, "Subnets", compared(equal, order), "compare",
                  "-".join(ends[:3]), "-".join(ends[3:]))
    for label, *ends, equal, order in tables["walks_of_two_families"]:
        rows.add("networks: " + label, compared(equal, order), "IpSubnets", "compare", "-".join(ends[:3]),
                 "-".join(ends[3:]))


def compared(equal, order):
    """What `compare` answers: whether the two are equal, their order, and whether their hashes are the same."""
    return "(%s, %s, %s)" % (equal, order, equal)


def add_printing(rows):
    tables = read_tables("printing")
    for label, parts, length, want in tables["networks"]:
        parts = [int(part) for part in items(parts)]
        ip = ".".join(map(str, parts)) if len(parts) == 4 else ":".join("%x" % part for part in parts)
        family = 4 if len(parts) == 4 else 6
        rows.both("printing: " + label, family, "Net", '"%s"' % want, "to_text", "%s/%s" % (ip, length))
        rows.both("printing: %s, by the formatter" % label, family, "Net", ",".join([want] * 6), "formats",
                  "%s/%s" % (ip, length))
    for label, ip, want, length in tables["addresses"]:
        assert len(want) == int(length), want
        rows.add("printing: " + label, want, kind(address(ip).family, "Addr"), "text", ip)
    for net in ("10.1.1.0/24", "fd00::/32"):
        rows.both("printing: width of the formatter is dropped", network(net).family, "Net", ",".join([net] * 6),
                  "formats", net)
    for (left,) in tables["alike"]:
        for (right,) in tables["alike"]:
            equal, order = str(left == right).lower(), ordering(network(left), network(right))
            rows.add("printing: alike if and only if equal", compared(equal, order), "IpNet", "compare", left, right)
        rows.add("printing: alike if and only if equal", '"%s"' % text(network(left)), "IpNet", "to_text", left)


def ordering(left, right):
    """The order of two networks: IPv4 first, then the address, then the prefix length."""
    return "Less" if left < right else "Greater" if left > right else "Equal"


def add_ranges(rows):
    tables = read_tables("ranges")
    for label, start, end, calls, answers, left in tables["in_turn"]:
        family = address(start).family
        answers = " ".join(map(some, answers.split(", ")))
        calls = ",".join(call.replace("()", "").replace("(", ":").replace(")", "") for call in calls.split(", "))
        ends = [address(ip).number for ip in left.split(", ")]
        rows.both("ranges: " + label, family, "AddrRange",
                  lambda either: answers + " " + debug_range(family, *ends, either),
                  "calls", start + "-" + end, calls)
    for label, start, end, hint, count, least, greatest in tables["whole"]:
        family = address(start).family
        ends = address(start).number, address(end).number
        count = "None" if count == "not allowed" else some(count)
        answers = " ".join([hint, count, least, greatest, greatest])
        rows.both("ranges: " + label, family, "AddrRange",
                  lambda either: answers + " " + debug_range(family, *ends, either),
                  "calls", start + "-" + end, "size_hint,count,min,max,last")
    empty = "0.0.0.5-0.0.0.3"
    rows.both("ranges: empty, after next", 4, "AddrRange", lambda either: "None " + debug_range(4, 5, 3, either),
              "calls", empty, "next")
    rows.both("ranges: empty, after nth", 4, "AddrRange", lambda either: "None " + debug_range(4, 1, 0, either),
              "calls", empty, "nth:0")
    rows.both("ranges: two empty ranges", 4, "AddrRange", compared("false", "Greater"), "compare", empty,
              "0.0.0.1-0.0.0.0")


def add_texts(rows):
    tables = read_tables("texts")
    for label, given, *cells in tables["read"]:
        add_readings(rows, "texts: " + label, given, *cells)
    for label, given, ipv4, ipv6, either in tables["by_type"]:
        for name, want in (("Ipv4Net", ipv4), ("Ipv6Net", ipv6), ("IpNet", either)):
            want = "Err(AddrParseError(()))" if want == "refused" else "Ok(%s)" % want
            for call in ("from_str", "parse_legacy"):
                rows.add("texts: %s, %s of %s" % (label, call, name), want, name, call, given)
    for label, given in (("blank after the text", "10.0.0.0/24 "), ("sign in front", "+1.0.0.0/8"),
                         ("sign of a length", "10.0.0.0/-1"), ("blank in front", " 10.0.0.0/8"),
                         ("past ASCII, after the text", "10.0.0.0/8\u00e9"),
                         ("past ASCII, a digit of another script", "\u06610.0.0.0/8"),
                         ("100,000 colons", ":" * 100_000), ("100,000 zeros", "0" * 100_000)):
        add_readings(rows, "texts: " + label, given, "refused", "refused")
    for label, given, count, read in tables["beginnings"]:
        assert len(given) == int(count), given
        for end in range(len(given)):
            want = given[:end] if given[:end] in items(read) else "refused"
            add_readings(rows, "texts: " + label, given[:end], want, want)
    for label, given in (("eight groups and one more byte", "1:2:3:4:5:6:7:8/128"),
                         ("a mapped address and one more byte", "::ffff:1.2.3.4/128"),
                         ("an IPv4 network and one more byte", "10.1.1.0/24")):
        add_readings(rows, "texts: " + label, given, given, given)
        for byte in range(128):
            add_readings(rows, "texts: " + label, given + chr(byte), "refused", "refused")


def reading(cell):
    """What the readers of the three types give: the network by IpNet and by the type of its family."""
    if cell == "refused":
        return "(None, None, None)"
    net = network(cell)
    shown = some(text(net))
    return "(%s, %s, %s)" % (shown if net.family == 4 else "None", shown if net.family == 6 else "None", shown)


def add_readings(rows, label, given, strict, legacy):
    rows.add(label, reading(strict) + " " + reading(legacy), "Text", "read", given)


def add_walks(rows):
    tables = read_tables("walks")
    for label, start, end, length, want, left in tables["items"]:
        family = address(start).family
        ends = [address(ip).number for ip in left.split(", ")]
        rows.both("walks: " + label, family, "Subnets",
                  lambda either: want + " " + debug_walk(family, *ends, int(length), either),
                  "items", "%s-%s-%s" % (start, end, length))


def check_counts(checks, program):
    """Walks of which the row gives only the count of items, the first and the last."""
    table = read_tables("walks")["counts"]
    table += [["items of a walk with minimum prefix length 0", start, end, "0", count, None, None, None]
              for start, end, count in read_tables("limits")["walks"]]
    for label, start, end, length, count, first, last, left in table:
        family = address(start).family
        for name, either in ((kind(family, "Subnets"), False), ("IpSubnets", True)):
            (answer,) = ask(program, [[name, "items", "%s-%s-%s" % (start, end, length)]])
            shown, _, stored = answer.partition("] ")
            shown = shown[1:].split(", ")
            checks.check("walks: %s, by %s: how many" % (label, name), len(shown), int(count))
            if left:
                ends = [address(ip).number for ip in left.split(", ")]
                checks.check("walks: %s, by %s: first and last" % (label, name), [shown[0], shown[-1]], [first, last])
                checks.check("walks: %s, by %s: stored" % (label, name), stored,
                             debug_walk(family, *ends, int(length), either))


def main():
    program = read_arguments(__doc__).program
    rows, checks = Rows(), Checks()
    for add in (add_networks, add_aggregates, add_addresses, add_bytes, add_json_and_errors, add_limits, add_order,
                add_printing, add_ranges, add_texts, add_walks):
        add(rows)
    answers = ask(program, [words for _, words, _ in rows.all])
    for (label, words, wanted), answer in zip(rows.all, answers):
        checks.check("%s (%s)" % (label, " ".join(words)[:200]), answer, wanted)
    check_counts(checks, program)
    checks.finish()


if __name__ == "__main__":
    main()
