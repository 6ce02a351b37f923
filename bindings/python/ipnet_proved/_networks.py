"""Networks and lists in the forms that callers pass, as the texts and bytes that the library takes; and the errors."""
import io
import re
import socket
from ipaddress import IPv4Address, IPv4Interface, IPv4Network, IPv6Address, IPv6Interface, IPv6Network
from typing import Any, Callable, Iterable, Iterator, NoReturn, Sequence, Tuple, TypeVar, Union

from . import _library as library

Text = Union[str, bytes, bytearray, memoryview]
Address = Union[IPv4Address, IPv6Address]
Network = Union[IPv4Network, IPv6Network]
Interface = Union[IPv4Interface, IPv6Interface]
OneNetwork = Union[Text, Address, Network, Interface]
Networks = Union[OneNetwork, Iterable[OneNetwork]]
Answer = TypeVar("Answer")

TEXTS = (str, bytes, bytearray, memoryview)
OBJECTS = (IPv4Address, IPv6Address, IPv4Network, IPv6Network)
LONGEST_QUOTE = 100

PARSE = library.writer("ipnet_parse", library.MAX_BYTES)
PARSE_LEGACY = library.writer("ipnet_parse_legacy", library.MAX_BYTES)

# lines that are an address without a prefix length
BARE_IPV4 = re.compile(rb"^[0-9.]+$", re.M)
BARE_IPV6 = re.compile(rb"^[0-9A-Fa-f.]*:[0-9A-Fa-f:.]*$", re.M)


def quoted(text: str) -> str:
    """The text in quotes, cut if it is long."""
    return repr(text if len(text) <= LONGEST_QUOTE else text[:LONGEST_QUOTE] + "...")


class BadLine(ValueError):
    """A line of a list is not a network. `line` is its number: lines count from 1, including empty ones, and the items
    of an iterable count as lines. `text` is the line, `cause` says why it is not a network, and `other` is True if it
    is in the second of two lists.

    >>> str(BadLine(3, "10.0.0.0/33", "the prefix length is above 32"))
    "line 3: '10.0.0.0/33': the prefix length is above 32"
    """

    def __init__(self, line: int, text: str, cause: str, other: bool = False) -> None:
        super().__init__(line, text, cause, other)
        self.line = line
        self.text = text
        self.cause = cause
        self.other = other

    def __str__(self) -> str:
        return f"line {self.line}{' of the other list' if self.other else ''}: {quoted(self.text)}: {self.cause}"


class NotANetwork(ValueError):
    """`text` is not a network, and `cause` says why; or a list is not UTF-8, and `text` is its first line that is not.

    >>> str(NotANetwork("10.0.0.0/33", "the prefix length is above 32"))
    "'10.0.0.0/33': the prefix length is above 32"
    """

    def __init__(self, text: str, cause: str) -> None:
        super().__init__(text, cause)
        self.text = text
        self.cause = cause

    def __str__(self) -> str:
        return f"{quoted(self.text)}: {self.cause}"


BLANKS = " \t\f\r"
# a dash other than "-" that people write in a range
OTHER_DASH = re.compile("([^\u2000-\u2fff]*)[\u2013\u2014\u2212](.*)", re.S)
# a first word and what follows it; a first and a last address and what follows them
FOLLOWED = re.compile(r"([^\s,;]+)[\s,;]+(.+)", re.S)
RANGE_FOLLOWED = re.compile(r"([^-]*-[ \t\f\r]*[^\s,;-]+)[\s,;]+(.+)", re.S)
# a dash, and what may be meant as an address
GOES_ON = re.compile(r"[-\u2013\u2014\u2212][ \t\f\r]*([0-9]|[^\s,;]*:)")
NAME = re.compile(r"(?=.*[A-Za-z])[A-Za-z0-9._-]+")


def shown(data: bytes) -> str:
    """The bytes as text, with backslashes for those that are not UTF-8."""
    return data.decode("utf-8", "backslashreplace")


def is_entry(text: str) -> bool:
    """Whether the text is an entry of a list, with or without leading zeros. The library decides."""
    data = as_bytes(text)
    if not text.strip(BLANKS) or re.search("[#;\n]", text):
        return False
    return library.writer("ipnet_set_from_list_legacy", len(data) + library.MAX_BYTES + 64)(data)[0] == library.OK


def cause_in_name(text: str) -> str:
    """The cause that a word for all addresses or a host name is the text, or ""."""
    host = text.partition("/")[0].partition(":")[0]
    if text.lower() in ("any", "all", "default"):
        return "all addresses: write 0.0.0.0/0 and ::/0"
    if NAME.fullmatch(text) or NAME.fullmatch(host) and "." in host:
        return "a host name: write its addresses"
    return ""


def is_followed(text: str) -> bool:
    """Whether the text is an entry and a text after it that is not one."""
    for match in (FOLLOWED.fullmatch(text), RANGE_FOLLOWED.fullmatch(text)):
        if match and is_entry(match[1]) and not GOES_ON.match(match[2]):
            return not is_entry(re.split(r"[\s,;]", match[2])[0])
    return False


def cause_in_entry(text: str) -> str:
    """The cause that an entry is in the text, or ""."""
    dashed = OTHER_DASH.fullmatch(text)
    front, dash, back = text.partition("-")
    if dashed and is_entry(dashed[1].rstrip(BLANKS)) and is_entry(dashed[2].lstrip(BLANKS)):
        return "a dash other than -: write - between the first and the last address"
    if dash and is_entry(front) and not back.strip(BLANKS):
        return "the range has no last address"
    if is_followed(text):
        return "text after the entry: write # before it"
    return "a - before the entry: leave it out" if dash and not front and is_entry(back) else ""


def cause_of(data: bytes, legacy: bool) -> str:
    """Why a text is not a network. The library decides whether the part before the slash is an address."""
    try:
        text = data.decode()
    except UnicodeDecodeError:
        return "it is not UTF-8"
    address, _, length = text.partition("/")
    width = 128 if ":" in address else 32
    parse = "ipnet_parse_legacy" if legacy else "ipnet_parse"
    for cause, holds in (
            ("it is empty", not text),
            ("it has several lines", "\n" in text),
            ("it has white space", text.split() != [text]),
            ("a zone is not part of a network", "%" in address),
    ):
        if holds:
            return cause
    status, _, _ = library.writer(parse, library.MAX_BYTES)(f"{address}/{width}".encode())
    if status != library.OK:
        return cause_in_name(text) or f"the IPv{6 if ':' in address else 4} address is not valid"
    if not length:
        return "the prefix length is missing"
    if not re.fullmatch("[0-9]+", length):
        return "the prefix length is not a number"
    if len(length.lstrip("0")) > 3 or int(length) > width:
        return f"the prefix length is above {width}"
    return "the prefix length has leading zeros"


def cause_of_entry(line: bytes, legacy: bool = False) -> str:
    """Why a line of a list of entries is none."""
    entry = re.split(rb"#|(?<![^ \t]);", line)[0].strip()
    if entry and b";" in line and (b"/" in entry or entry.count(b".") == 3 or b":" in entry):
        return "the comment after ';' begins with an entry, or ';' follows it without a blank"
    cause = cause_in_entry(shown(entry))
    if not cause and b"-" in entry:
        cause = cause_in_name(shown(entry)) or "not a range of addresses, FIRST-LAST"
    return cause or cause_of(entry, legacy)


def first_not_utf8(data: bytes) -> bytes:
    """The first line that is not UTF-8."""
    for line in data.split(b"\n"):
        try:
            line.decode()
        except UnicodeDecodeError:
            return line
    return b""


def refuse(status: int, number: int, given: Sequence[bytes], legacy: bool = False) -> NoReturn:
    """Raises the exception for the status and the line number of a call on the given texts."""
    other = status in (library.BAD_LINE_IN_OTHER, library.OTHER_NOT_UTF8)
    text = given[1 if other else 0]
    if status in (library.BAD_LINE, library.BAD_LINE_IN_OTHER):
        line = text.split(b"\n")[number - 1]
        raise BadLine(number, shown(line), cause_of(line, legacy), other)
    if status in (library.NOT_UTF8, library.OTHER_NOT_UTF8):
        raise NotANetwork(shown(first_not_utf8(text)), "it is not UTF-8")
    if status == library.OUT_OF_MEMORY:
        raise MemoryError("libipnet: out of memory")
    raise NotANetwork(shown(text), cause_of(text, legacy))


def as_bytes(text: Text) -> bytes:
    """The text, encoded. Surrogates are kept, and the library refuses them, since they are not UTF-8."""
    return text.encode("utf-8", "surrogatepass") if isinstance(text, str) else bytes(text)


def with_lengths(data: bytes) -> bytes:
    """The list with "/32" or "/128" after each address that has no prefix length."""
    return BARE_IPV6.sub(rb"\g<0>/128", BARE_IPV4.sub(rb"\g<0>/32", data))


def answered(call: Callable[..., Tuple[int, int, Answer]], given: Sequence[bytes], *more: bytes,
             legacy: bool = False) -> Answer:
    """The result of the call on the texts and on more arguments. If a text is refused that has addresses without a
    prefix length, the call is made again with their lengths, so that other texts cost nothing more."""
    status, number, answer = call(*given, *more)
    if status in (library.BAD_LINE, library.BAD_LINE_IN_OTHER, library.NOT_A_NETWORK):
        status, number, answer = call(*map(with_lengths, given), *more)
    if status != library.OK:
        refuse(status, number, given, legacy)
    return answer


def octets_of(network: Any) -> Tuple[bytes, int]:
    """The octets and the prefix length of an object of ipaddress. Raises NotANetwork if it has a zone."""
    if isinstance(network, (IPv4Network, IPv6Network)):
        address, length = network.network_address, network.prefixlen
    elif isinstance(network, (IPv4Interface, IPv6Interface)):
        address, length = network.ip, network.network.prefixlen
    else:
        address, length = network, network.max_prefixlen
    if getattr(address, "scope_id", None) is not None or getattr(network, "scope_id", None) is not None:
        raise NotANetwork(str(network), "a zone is not part of a network")
    return address.packed, length


def line_of(network: OneNetwork) -> bytes:
    """The text of a network. Raises TypeError if it is neither a text nor an object of ipaddress."""
    if isinstance(network, TEXTS):
        return as_bytes(network)
    if not isinstance(network, OBJECTS):
        raise TypeError(f"a network is a text or an object of ipaddress, and not {network!r}")
    return line_of_octets(*octets_of(network))


def line_of_octets(octets: bytes, length: int) -> bytes:
    """The text of a network with these 4 or 16 octets and this prefix length."""
    if len(octets) == 4:
        return b"%d.%d.%d.%d/%d" % (*octets, length)
    return f"{octets.hex(':', 2)}/{length}".encode()


def text_of(networks: Networks, other: bool = False) -> bytes:
    """The text of a list. Items are lines: an item that is empty, or that has several lines, is refused."""
    if isinstance(networks, (*TEXTS, *OBJECTS)):
        return line_of(networks)
    try:
        items = iter(networks)
    except TypeError:
        raise TypeError(f"a list of networks is a text, an object of ipaddress or an iterable of these, and not "
                        f"{networks!r}") from None
    lines = []
    for number, item in enumerate(items, 1):
        try:
            line = line_of(item)
        except TypeError as error:
            raise TypeError(f"item {number}: {error}") from None
        except NotANetwork as error:
            raise BadLine(number, error.text, error.cause, other) from None
        if not line or b"\n" in line:
            raise BadLine(number, shown(line), cause_of(line, False), other)
        lines.append(line)
    return b"\n".join(lines)


def items_of(networks: Networks) -> Iterable[OneNetwork]:
    """The networks of a list, one by one: the lines of a text, the items of an iterable, or the only network."""
    if isinstance(networks, TEXTS):
        return as_bytes(networks).splitlines()
    if isinstance(networks, OBJECTS):
        return [networks]
    return networks


def bytes_of(network: OneNetwork, legacy: bool = False) -> bytes:
    """The byte form of a network: a byte for the family, the octets, the prefix length."""
    if isinstance(network, TEXTS):
        data = as_bytes(network)
        parse = PARSE_LEGACY if legacy else PARSE
        status, _, answer = parse(data if b"/" in data else data + (b"/128" if b":" in data else b"/32"))
        return answer if status == library.OK else answered(parse, [data], legacy=legacy)
    if not isinstance(network, OBJECTS):
        raise TypeError(f"a network is a text or an object of ipaddress, and not {network!r}")
    octets, length = octets_of(network)
    return bytes([len(octets) == 16]) + octets + bytes([length])


def interface_of(data: bytes) -> Interface:
    """The interface with this byte form."""
    if data[0]:
        return IPv6Interface((data[1:-1], data[-1]))
    return IPv4Interface((data[1:-1], data[-1]))


def network_of(data: bytes) -> Network:
    """The network with this byte form, which has no host bits."""
    if data[0]:
        return IPv6Network((data[1:-1], data[-1]))
    return IPv4Network((data[1:-1], data[-1]))


def networks_of(text: bytes) -> Iterator[Network]:
    """The networks of a result in text, one per line, each made when it is asked for. `inet_pton` reads the canonical
    text of an address in half the time of ipaddress."""
    for line in io.BytesIO(text):
        address, _, length = line.decode("ascii").partition("/")
        if ":" in address:
            yield IPv6Network((socket.inet_pton(socket.AF_INET6, address), int(length)))
        else:
            yield IPv4Network((socket.inet_pton(socket.AF_INET, address), int(length)))
