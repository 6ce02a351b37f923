"""Plain readers of the formats of docs/NETSET.md, written from the manuals of the programs. A module of tests/formats.

A reader takes a text and returns its set: ranges `(family, first, last)`, as tests/set_model.py has them.
"""
import csv
import json
import re
import shlex
from ipaddress import ip_network

from entry_model import range_of
from set_model import LAST, complement, intersection, joined

ALL = [(4, 0, LAST[4]), (6, 0, LAST[6])]
# the types of routes in ip-route(8)
ROUTE_TYPES = set("unicast unreachable blackhole prohibit local broadcast throw nat anycast multicast".split())


def entry(text):
    """The range of an address, a network or a range, in any case of letters."""
    found = range_of(text.strip().lower(), False)
    if found is None:
        raise ValueError(text)
    return found


def decided(rules, default=()):
    """The addresses that a list of rules permits. A rule is a verdict and a range; the first that matches decides."""
    result = list(default)
    for is_permitted, a_range in reversed(rules):
        result = joined([*result, a_range]) if is_permitted else intersection(result, complement([a_range]))
    return result


def firewall(text):
    words = (line.split("//")[0].strip().rstrip(",").strip() for line in text.splitlines())
    return joined(entry(re.sub(r"^host\s+", "", word)) for word in words if word)


def natural(network):
    """The network with its length. If it has none, its first octet has: the rule of address classes."""
    if "/" in network or ":" in network:
        return network
    octet = int(network.split(".")[0])
    length = 0 if network == "0.0.0.0" else 8 if octet < 128 else 16 if octet < 192 else 24
    return "%s/%d" % (network, length)


def bgp(text):
    """The signs before a network have a fixed width, as wide as what precedes `Network` in the heading. With RPKI, FRR
    8.4 writes one sign more, and not in the heading. A table ends at an empty line."""
    networks, width = [], None
    for line in text.splitlines():
        if "Next Hop" in line:
            width = line.index("Network")
        elif not line.strip():
            width = None
        elif width:
            is_wider = width == 3 and line[0] in "VIN"
            networks += re.findall(r"^\S+", line[width + is_wider:])
    return joined(entry(natural(network)) for network in networks)


def values(data):
    """The values of the two keys in JSON."""
    if isinstance(data, dict):
        for key, value in data.items():
            yield from [value] if key in ("ip_prefix", "ipv6_prefix") else values(value)
    elif isinstance(data, list):
        for item in data:
            yield from values(item)


def cloud(text):
    return joined(entry(value) for value in values(json.loads(text)))


def router(text):
    ranges = []
    for line in text.splitlines():
        found = re.match(r"(ip|ipv6) route (?:vrf \S+ )?(\S+)(?: (\S+))?", line)
        if found:
            version, network, mask = found.groups()
            ranges.append(entry(network if "/" in network else "%s/%s" % (network, mask)))
    return joined(ranges)


def access_list(text):
    rules = []
    for line in text.splitlines():
        found = re.match(r"access-list 10 (permit|deny) +(?:(any)|host (\S+)|(\S+)(?: ([\d.]+))?)", line)
        if found:
            verdict, is_any, host, address, wildcard = found.groups()
            wildcard = "255.255.255.255" if is_any else wildcard or "0.0.0.0"
            mask = ".".join(str(255 - int(octet)) for octet in wildcard.split("."))
            network = ip_network("%s/%s" % (host or address or "0.0.0.0", mask), strict=False)
            rules.append((verdict == "permit", entry(str(network))))
    return decided(rules)


def ip_route(text):
    """The networks of the routes, without default routes. A line that begins with a blank belongs to the one above."""
    ranges = []
    for line in text.splitlines():
        words = line.split()
        network = words[1] if words[0] in ROUTE_TYPES else words[0]
        if not line[0].isspace() and network != "default":
            ranges.append(entry(network))
    return joined(ranges)


def ipset(text):
    """The most specific entry that matches decides: ipset(8), hash:net. A netmask is the length of each entry."""
    rules, mask = [], ""
    for words in map(shlex.split, text.splitlines()):
        if words[0] == "create":
            options = dict(zip(words, words[1:]))
            mask = options.get("netmask") or options.get("bitmask") or ""
        else:
            comment = words.index("comment") if "comment" in words[3:] else len(words)
            options = words[3:comment] + words[comment + 2:]
            rules.append(("nomatch" not in options, entry(words[2] + ("/" + mask if mask else ""))))
    return decided(sorted(rules, key=lambda rule: rule[1][2] - rule[1][1]))


def nginx_words(text):
    """The words and signs of a configuration. A `#` or a quotation mark counts only at the start of a word."""
    at = 0
    while at < len(text):
        if text[at].isspace():
            at += 1
            continue
        for pattern in (r"#[^\n]*", r"[;{}]", r'"(?:[^"\\]|\\.)*"', r"'(?:[^'\\]|\\.)*'", r"[^\s;{}]+"):
            found = re.compile(pattern, re.S).match(text, at)
            if found:
                break
        at = found.end()
        if not found.group().startswith("#"):
            yield found.group()


def nginx(text):
    rules, directive = [], []
    for word in nginx_words(text):
        if word not in (";", "{", "}"):
            directive.append(word.strip("\"'"))
            continue
        if len(directive) == 2 and directive[0] in ("allow", "deny") and directive[1] != "unix:":
            ranges = ALL if directive[1] == "all" else [entry(directive[1])]
            rules += [(directive[0] == "allow", a_range) for a_range in ranges]
        directive = []
    return decided(rules, ALL)


def rpsl(text):
    """RFC 2622, section 2: the first sign of a line says whether it continues the one above."""
    attributes = []
    for line in text.splitlines():
        line = line.partition("#")[0]
        if line[:1] and line[:1] in " \t+":
            attributes[-1] += " " + line[1:]
        else:
            attributes.append(line)
    pairs = (attribute.partition(":") for attribute in attributes)
    names = ("inetnum", "inet6num", "route", "route6")
    return joined(entry(value) for name, _, value in pairs if name.lower() in names)


def geo(text):
    ranges = []
    lines = (line for line in text.splitlines() if not line.startswith("#"))
    for row in csv.reader(lines, skipinitialspace=True):
        first, last, country = (cell.strip() for cell in row[:3])
        if country == "AU":
            is_number = first.isdigit()
            ranges.append((4, int(first), int(last)) if is_number else entry("%s-%s" % (first, last)))
    return joined(ranges)
