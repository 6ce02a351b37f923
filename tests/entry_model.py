"""A plain model of the texts of entries and of the contents of lines, written from Entries.antt, Comments.antt and
Lists.antt in crates/ipnet_lists/specs. A module, not a script."""
import re
from ipaddress import AddressValueError, IPv4Address, IPv6Address

BLANKS = " \t\f\r"

# The numbers of the IPv4 netmasks.
MASKS = {2**32 - 2**(32 - length) for length in range(33)}


def address_of(text, legacy):
    """The family and the number of the address, or None."""
    parts = text.split(".")
    if ":" not in text:
        zeros = any(len(part) > 1 and part[0] == "0" for part in parts)
        if len(parts) != 4 or not all(re.fullmatch("[0-9]{1,3}", part) and int(part) < 256 for part in parts):
            return None
        return None if zeros and not legacy else (4, int(IPv4Address(".".join(str(int(part)) for part in parts))))
    dotted = re.fullmatch("(.*:)([0-9.]+)", text)
    if legacy and dotted and address_of(dotted.group(2), True):
        text = dotted.group(1) + str(IPv4Address(address_of(dotted.group(2), True)[1]))
    filled = ":".join(part for part in text.partition("::")[::2] if part)
    for whole in [text] + [filled] * (legacy and "::" not in filled):
        try:
            return None if "%" in text or "/" in text else (6, int(IPv6Address(whole)))
        except AddressValueError:
            pass
    return None


def length_of(text, address, legacy):
    """The prefix length that the text after the "/" of a network is, by digits or by a netmask, or None."""
    most = 32 if address[0] == 4 else 128
    if re.fullmatch("[0-9]+", text):
        zero = len(text) > 1 and text[0] == "0"
        return int(text) if len(text) <= len(str(most)) and int(text) <= most and (legacy or not zero) else None
    mask = address_of(text, legacy)
    is_one = mask and mask[1] in MASKS and (mask[1] > 0 or address[1] == 0)
    if is_one and address[0] == mask[0] == 4 and (mask[1] < 2**32 - 1 or address[1] > 0):
        return bin(mask[1]).count("1")
    return None


def range_of(text, legacy):
    """The family, the first and the last number of the entry, or None."""
    first, sign, last = text.partition("-")
    if sign and "\r" in text:
        return None
    if sign:
        first, last = address_of(first.rstrip(BLANKS), legacy), address_of(last.lstrip(BLANKS), legacy)
        return (*first, last[1]) if first and last and first[0] == last[0] and first[1] <= last[1] else None
    front, sign, back = text.partition("/")
    address = address_of(front, legacy)
    if not address or not sign:
        return (*address, address[1]) if address else None
    length = length_of(back, address, legacy)
    if length is None:
        return None
    size = 2 ** ((32 if address[0] == 4 else 128) - length)
    first = address[1] // size * size
    return (address[0], first, first + size - 1)


def is_entry(text, legacy=True):
    return range_of(text, legacy) is not None


def begins_with_entry(text):
    """Whether the first word of the text is an entry, or its first two words are a range."""
    first, two = re.match(r"([^ \t\f\r;,]*)[ \t\f\r;,]*[^ \t\f\r;,]*", text).group(1, 0)
    return is_entry(first) or is_entry(two)


def hides_entry(comment):
    """Whether the comment begins with ";", and then with an entry, a rule, a change, words of a router's prefix list,
    or a VRP."""
    said = comment.partition("#")[0].lstrip(BLANKS + ";,")
    first, rest = re.match(r"([^ \t\f\r;,]*)[ \t\f\r;,]*(.*)", said).groups()
    named = re.match(r"(any|all|default|host|ip)(?![^ \t\f\r;,])", rest)
    is_rule = first in ("permit", "deny", "+", "-", "host") and (bool(named) or begins_with_entry(rest))
    is_router = first in ("ip", "ipv6") and bool(re.match(r"prefix-list(?![^ \t\f\r;,])", rest))
    is_router = is_router or first in ("le", "ge", "seq") and bool(re.match(r"[0-9]+(?![^ \t\f\r;,])", rest))
    is_vrp = bool(re.fullmatch(r"(AS)?[0-9]+", first)) and begins_with_entry(rest)
    return comment.startswith(";") and (begins_with_entry(said) or is_rule or is_router or is_vrp)


def contents_of(line):
    """The text before the comment, or the whole line if the comment follows text and hides an entry, or if a carriage
    return is between other bytes than blanks."""
    if "\r" in line.strip(BLANKS):
        return line.strip(BLANKS)
    sign = re.search(r"#|(?:^|(?<=[ \t\f\r]));", line)
    start = sign.start() if sign else len(line)
    text = line[:start].strip(BLANKS)
    return line.strip(BLANKS) if text and hides_entry(line[start:]) else text
