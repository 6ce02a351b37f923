"""The shared library libipnet.so: its place, its functions as in include/ipnet.h, and its statuses."""
import ctypes
import os
from typing import Callable, List, Tuple, Union

OK = 0
BAD_LINE = 1
NOT_UTF8 = 2
OUT_OF_MEMORY = 3
BUFFER_TOO_SHORT = 4
NOT_A_NETWORK = 5
WRONG_LENGTH = 6
UNKNOWN_FAMILY = 7
PREFIX_TOO_LONG = 8
BAD_LINE_IN_OTHER = 9
OTHER_NOT_UTF8 = 10
NOT_A_SET = 11
OTHER_NOT_A_SET = 12
NOT_A_TABLE = 13
BAD_OFFSETS = 14
BAD_ROW = 15
NOT_ORIGINS = 16
UNKNOWN_OPTION = 17
NO_ADDRESS = 18
NO_PLACE = 19

MAX_BYTES = 18
MAX_TEXT = 43

# the major version of the library that this package needs
MAJOR = 1


def _path() -> str:
    """The path of the library: in the folder IPNET_LIB; else in the package, as pip installs it; else in ../../out, as
    in a clone and as ./install installs it."""
    folder = os.environ.get("IPNET_LIB")
    here = os.path.dirname(os.path.abspath(__file__))
    places = [folder] if folder else [here, os.path.normpath(os.path.join(here, "..", "..", "out"))]
    for place in places:
        path = os.path.join(place, "libipnet.so")
        if os.path.exists(path):
            return path
    raise ImportError(
        f"libipnet.so is not in {' or '.join(places)}: run bindings/build in the repository, or set the environment "
        "variable IPNET_LIB to the folder that contains it")


def _load() -> ctypes.CDLL:
    """Loads the library, and declares its functions."""
    path = _path()
    try:
        library = ctypes.CDLL(path)
    except OSError as error:
        raise ImportError(f"{path} cannot be loaded: {error}; it runs on x86-64 Linux with glibc. Run bindings/build "
                          "in the repository to build it again") from error
    read, size, number = ctypes.c_char_p, ctypes.c_size_t, ctypes.POINTER(ctypes.c_size_t)
    byte, words, word = ctypes.POINTER(ctypes.c_uint8), ctypes.c_void_p, ctypes.POINTER(ctypes.c_uint32)
    value = ctypes.c_uint32
    into_buffer = [read, size, read, size, number]
    declared = {
        "ipnet_version": [],
        "ipnet_aggregate_text": into_buffer,
        "ipnet_aggregate_text_legacy": into_buffer,
        "ipnet_union_text": [read, size, read, size, read, size, number],
        "ipnet_intersection_text": [read, size, read, size, read, size, number],
        "ipnet_difference_text": [read, size, read, size, read, size, number],
        "ipnet_same_addresses": [read, size, read, size, byte, number],
        "ipnet_is_covered": [read, size, read, size, byte, number],
        "ipnet_parse": into_buffer,
        "ipnet_parse_legacy": into_buffer,
        "ipnet_print": into_buffer,
        "ipnet_set_from_text": into_buffer,
        "ipnet_set_from_text_legacy": into_buffer,
        "ipnet_set_from_list": into_buffer,
        "ipnet_set_from_list_legacy": into_buffer,
        "ipnet_set_to_text": into_buffer,
        "ipnet_set_to_ranges": into_buffer,
        "ipnet_set_check": [read, size],
        "ipnet_set_contains": [read, size, read, size],
        "ipnet_set_covers": [read, size, read, size],
        "ipnet_set_contains_all": [read, size, read, size, size, read, size],
        "ipnet_set_covers_all": [read, size, read, size, size, read, size],
        "ipnet_set_counts": [read, size, words, size],
        "ipnet_set_is_subset": [read, size, read, size],
        "ipnet_set_union": [read, size, read, size, read, size, number],
        "ipnet_set_intersection": [read, size, read, size, read, size, number],
        "ipnet_set_difference": [read, size, read, size, read, size, number],
        "ipnet_set_symmetric_difference": [read, size, read, size, read, size, number],
        "ipnet_set_complement": into_buffer,
        "ipnet_set_map": [read, size, read, size, value, read, size, number],
        "ipnet_set_comparison_map": [read, size, read, size, read, size, value, read, size, number],
        "ipnet_set_bar": [read, size, read, size, value, read, size, number],
        "ipnet_set_comparison_bar": [read, size, read, size, read, size, value, read, size, number],
        "ipnet_set_plan": [read, size, value, read, size, read, size, number],
        "ipnet_info": [read, size, value, read, size, number],
        "ipnet_set_range_rows": [read, size, read, size, read, size, number],
        "ipnet_rows_from_lines": [read, size, read, size, read, size, number],
        "ipnet_rows_from_offsets": [read, size, read, size, read, size, read, size, number],
        "ipnet_table_from_text": [read, size, words, size, read, size, number],
        "ipnet_table_check": [read, size],
        "ipnet_table_count": [read, size, number],
        "ipnet_table_networks": [read, size, size, read, size, read, size, read, size],
        "ipnet_table_values": [read, size, size, words, size],
        "ipnet_table_with_values": [read, size, words, size, read, size, number],
        "ipnet_table_longest_match": [read, size, read, size, word],
        "ipnet_table_longest_route": [read, size, read, size, read, size, word],
        "ipnet_table_longest_covering": [read, size, read, size, read, size, word],
        "ipnet_table_longest_match_all": [read, size, read, size, size, value, words, size],
        "ipnet_set_contains_u32": [read, size, words, size, read, size],
        "ipnet_set_contains_rows": [read, size, read, size, read, size, read, size],
        "ipnet_table_longest_match_u32": [read, size, words, size, value, words, size],
        "ipnet_table_longest_match_rows": [read, size, read, size, read, size, value, words, size],
        "ipnet_origins_from_rows": [read, size, read, size, read, size, read, size, words, size, read, size, number],
        "ipnet_origins_count": [read, size, number],
        "ipnet_origins_validity": [read, size, read, size, read, size, read, size, words, size, read, size],
        "ipnet_unmap_rows": [read, size, read, size],
        "ipnet_truncate_rows": [value, value, read, size, read, size],
    }
    try:
        for name, types in declared.items():
            function = getattr(library, name)
            function.argtypes = types
            function.restype = ctypes.c_uint32
    except AttributeError as error:
        raise ImportError(f"{path} is older than this package: {error}") from error
    if library.ipnet_version() // 1_000_000 != MAJOR:
        raise ImportError(f"{path} has version {library.ipnet_version()}, and this package needs version {MAJOR}")
    return library


_library = _load()


def version() -> Tuple[int, int, int]:
    """The version of the library: major, minor, patch."""
    number: int = _library.ipnet_version()
    return number // 1_000_000, number // 1000 % 1000, number % 1000


def writer(name: str, room: int) -> Callable[..., Tuple[int, int, bytes]]:
    """The function as one that takes texts, bytes or numbers, and returns its status, the number that it writes, and
    its result. `room` is the length of the first buffer that it gets."""
    function = getattr(_library, name)

    def call(*given: Union[bytes, int]) -> Tuple[int, int, bytes]:
        arguments: List[Union[bytes, int]] = []
        for data in given:
            arguments += [data] if isinstance(data, int) else [data, len(data)]
        count, length = ctypes.c_size_t(0), max(room, 1)
        while True:
            buffer = ctypes.create_string_buffer(length)
            status = function(*arguments, buffer, length, ctypes.byref(count))
            if status != BUFFER_TOO_SHORT:
                return status, count.value, ctypes.string_at(buffer, count.value) if status == OK else b""
            length = count.value

    return call


def asker(name: str) -> Callable[..., Tuple[int, int, bool]]:
    """The function, whose result is yes or no, as one that takes two texts or bytes, and returns its status, the line
    that it writes, and its result."""
    function = getattr(_library, name)

    def call(data: bytes, more: bytes) -> Tuple[int, int, bool]:
        answer, line = ctypes.c_uint8(0), ctypes.c_size_t(0)
        status = function(data, len(data), more, len(more), ctypes.byref(answer), ctypes.byref(line))
        return status, line.value, answer.value == 1

    return call


def question(name: str) -> Callable[..., int]:
    """The function, which takes pointers and lengths and returns 0, 1 or a status."""
    function: Callable[..., int] = getattr(_library, name)
    return function
