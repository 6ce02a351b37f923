"""Long lists and long columns on a Dask cluster. Needs dask and distributed, and the package on each worker.

A set or a table reaches each worker once, by a plugin, also a worker that starts later. docs/PYTHON.md has examples.
"""
import hashlib
import os
import threading
from typing import TYPE_CHECKING, Any, Dict, Iterable, List, NamedTuple, Optional, Sequence, Tuple, Union

from ._networks import BadLine, quoted
from ._rows import BadRow
from ._sets import IpSet
from ._tables import RouteTable

if TYPE_CHECKING:
    class WorkerPlugin:
        """What a worker runs when it starts."""

    def default_client() -> Any:
        """The client of this process."""

    def parse_bytes(size: Union[str, int]) -> int:
        """The number of bytes."""
        return int(size)
else:
    from dask.utils import parse_bytes
    from distributed import WorkerPlugin, default_client

Path = Union[str, "os.PathLike[str]"]
# how many images a task joins
WIDTH = 4
# the seconds that a task waits for an image: a worker that gets it anew forgets it for a moment
PATIENCE = 2.0


class BadFileLine(ValueError):
    """A line of a file is not an entry of a list. `path` is the file, `line` its number in the file, counted from 1,
    `text` the line, and `cause` says what is wrong.

    >>> str(BadFileLine("deny.txt", 7, "10.0.0.0/33", "the prefix length is above 32"))
    "deny.txt:7: '10.0.0.0/33': the prefix length is above 32"
    """

    def __init__(self, path: str, line: int, text: str, cause: str) -> None:
        super().__init__(path, line, text, cause)
        self.path = path
        self.line = line
        self.text = text
        self.cause = cause

    def __str__(self) -> str:
        return f"{self.path}:{self.line}: {quoted(self.text)}: {self.cause}"


class ChangedFile(ValueError):
    """The file `path` has changed since its parts were planned.

    >>> str(ChangedFile("deny.txt"))
    'deny.txt: the file has changed while it was read'
    """

    def __init__(self, path: str) -> None:
        super().__init__(path)
        self.path = path

    def __str__(self) -> str:
        return f"{self.path}: the file has changed while it was read"


class Part(NamedTuple):
    """The whole lines of a file from one byte to another, and how the file was when they were planned."""

    path: str
    start: int
    end: int
    state: Tuple[int, int]


def state_of(file: Any) -> Tuple[int, int]:
    """The size of an open file, and when it was changed. A copy on another machine needs the same date."""
    found = os.fstat(file.fileno())
    return found.st_size, found.st_mtime_ns


def parts_of(path: Path, size: int) -> List[Part]:
    """The parts of a file, each of at least this size except the last one. Each ends at the end of a line."""
    name, cuts = os.fspath(path), [0]
    with open(name, "rb") as file:
        state = state_of(file)
        while cuts[-1] + size < state[0]:
            file.seek(cuts[-1] + size)
            file.readline()
            cuts.append(min(file.tell(), state[0]))
    if cuts[-1] < state[0]:
        cuts.append(state[0])
    return [Part(name, start, end, state) for start, end in zip(cuts, cuts[1:])]


def image_of(part: Part, legacy: bool) -> bytes:
    """The image of the set of a part. Raises BadFileLine if a line is not an entry, and ChangedFile."""
    with open(part.path, "rb") as file:
        file.seek(part.start)
        text = file.read(part.end - part.start)
        if len(text) != part.end - part.start or state_of(file) != part.state:
            raise ChangedFile(part.path)
        # an empty line before, so that a byte order mark is skipped only at the start of the file
        before = b"\n" if part.start else b""
        try:
            return IpSet.from_list(before + text, legacy=legacy).to_bytes()
        except BadLine as error:
            file.seek(0)
            line = newlines_in(file, part.start) + error.line - len(before)
            raise BadFileLine(part.path, line, error.text, error.cause) from None


def newlines_in(file: Any, length: int) -> int:
    """The number of newlines in the first bytes of the file."""
    count = 0
    while length > 0:
        block = file.read(min(length, 1 << 20))
        if not block:
            break
        count += block.count(b"\n")
        length -= len(block)
    return count


def union_of(images: Sequence[bytes]) -> bytes:
    """The image of the union of sets, joined in pairs, so that each address is copied seldom."""
    sets = [IpSet.from_bytes(image) for image in images]
    while len(sets) > 1:
        sets = [sets[at] | sets[at + 1] if at + 1 < len(sets) else sets[at] for at in range(0, len(sets), 2)]
    return sets[0].to_bytes()


def aggregate_files(client: Any, paths: Union[Path, Iterable[Path]], block: Union[str, int] = "64 MB",
                    legacy: bool = False) -> IpSet:
    """The set of all addresses in the files, which IpSet.from_list reads. The files are read by the workers, in parts
    of about `block` bytes. They have to be on each worker under the same path as here: on a shared file system, or as
    copies with the same date.

    If a worker is lost, others read its parts again. A part that is lost more often than the setting
    `distributed.scheduler.allowed-failures`, 3 by default, raises KilledWorker. A line that is not an entry raises
    BadFileLine, and no set is made; if several lines are wrong, it names one of them. A file whose size or date changes
    meanwhile raises ChangedFile.
    """
    files = [paths] if isinstance(paths, (str, os.PathLike)) else list(paths)
    size = parse_bytes(block)
    if size < 1:
        raise ValueError(f"a block has at least one byte, and not {block!r}")
    parts = [part for path in files for part in parts_of(path, size)]
    if not parts:
        return IpSet()
    level = client.map(image_of, parts, legacy=legacy, pure=False, key="ipnet-part")
    # only the last level is held, so that the workers forget each image after it was joined
    while len(level) > 1:
        level = [client.submit(union_of, level[at:at + WIDTH], pure=False) for at in range(0, len(level), WIDTH)]
    try:
        return IpSet.from_bytes(level[0].result())
    finally:
        # also ends the tasks that have not begun; the client's cancel would wait for a second
        level[0].release()


# the images that this process keeps, by the name of their plugin: one for each worker of the process that has it
_kept: Dict[str, List[Union[IpSet, RouteTable]]] = {}
_kept_changes = threading.Condition()


class KeepImage(WorkerPlugin):
    """Each worker keeps a set or a table while it runs, also one that starts later or again."""

    def __init__(self, name: str, made: Union[IpSet, RouteTable]) -> None:
        self.name, self._made = name, made

    def setup(self, worker: Any) -> None:
        """Called when a worker starts, or the plugin is registered."""
        with _kept_changes:
            _kept.setdefault(self.name, []).append(self._made)
            _kept_changes.notify_all()

    def teardown(self, worker: Any) -> None:
        """Called when a worker stops, or the plugin is unregistered, or before it is registered again."""
        with _kept_changes:
            held = _kept.get(self.name, [])
            if len(held) > 1:
                held.pop()
            else:
                _kept.pop(self.name, None)


class Kept:
    """A set or a table under the name of its plugin. A copy on another process is the one that this process keeps, if
    the plugin has brought it there; else the set or the table travels with the copy."""

    def __init__(self, name: str, made: Optional[Union[IpSet, RouteTable]], is_sent: bool) -> None:
        self.name, self._made, self._is_sent = name, made, is_sent

    def __reduce__(self) -> Tuple[Any, ...]:
        return Kept, (self.name, None if self._is_sent else self._made, self._is_sent)

    def get(self) -> Any:
        """The set or the table. Raises LookupError if this process does not have it, and does not get it soon."""
        if self._made is not None:
            return self._made
        with _kept_changes:
            if not _kept_changes.wait_for(lambda: self.name in _kept, PATIENCE):
                raise LookupError(f"{self.name} is not on this worker: pass the client that computes the frame")
            return _kept[self.name][-1]


def keep(made: Union[IpSet, RouteTable], client: Any = None) -> Kept:
    """Sends the set or the table to each worker of the client, or of the client of this process, unless they have it.
    If there is no client, it travels with the tasks. `client.unregister_worker_plugin(keep(made).name)` removes it from
    the workers."""
    name = f"ipnet-{hashlib.sha256(made.to_bytes()).hexdigest()[:32]}"
    if client is None:
        try:
            client = default_client()
        except ValueError:
            return Kept(name, made, False)
    if not is_registered(client, name):
        client.register_worker_plugin(KeepImage(name, made), name=name)
    return Kept(name, made, True)


def is_registered(client: Any, name: str) -> bool:
    """Whether the scheduler has a plugin of this name for its workers; false if it does not say so."""
    try:
        # a lambda travels as code, because the scheduler may lack this package
        return client.run_on_scheduler(lambda dask_scheduler: name in dask_scheduler.worker_plugins) is True
    except (AttributeError, ValueError):
        return False


def in_partition(error: BadRow, partition_info: Any) -> BadRow:
    """The error with the number of the partition, in which its row is counted."""
    number = (partition_info or {}).get("number")
    cause = error.cause if number is None else f"{error.cause}, in partition {number}"
    return BadRow(error.row, error.text, cause, error.others)


def filtered(part: Any, column: str, kept: Kept, options: Dict[str, Any], partition_info: Any = None) -> Any:
    """The rows of the part whose address lies in the set."""
    try:
        inside = kept.get().contains_all(part[column], **options)
    except BadRow as error:
        raise in_partition(error, partition_info) from None
    return part[inside.fillna(False).astype(bool)]


def matches(part: Any, column: str, name: str, kept: Kept, options: Dict[str, Any], partition_info: Any = None) -> Any:
    """The part with the values of the longest matches as a further column."""
    try:
        return part.assign(**{name: kept.get().match_all(part[column], **options)})
    except BadRow as error:
        raise in_partition(error, partition_info) from None


def filter_frame(frame: Any, column: str, ip_set: IpSet, *, client: Any = None, invalid: str = "raise",
                 mapped: bool = False) -> Any:
    """The rows of a frame of Dask whose address in the column lies in the set, as a frame. A row with a missing address
    is left out. `invalid` and `mapped` are as for IpSet.contains_all, but nobody counts the rows that are left out
    because they are not addresses; BadRow names the partition in its cause."""
    options = {"invalid": invalid, "mapped": mapped}
    return frame.map_partitions(filtered, column, keep(ip_set, client), options, meta=frame._meta)


def match_frame(frame: Any, column: str, table: RouteTable, name: str = "route", *, client: Any = None,
                default: Optional[int] = None, invalid: str = "raise", mapped: bool = False) -> Any:
    """The frame of Dask with a further column `name` of UInt32: the number of the longest network of the table that
    contains the address in the column. It is missing if the address is, and if no network contains it and there is no
    `default`. `invalid` and `mapped` are as for IpSet.contains_all; BadRow names the partition in its cause."""
    options = {"default": default, "invalid": invalid, "mapped": mapped}
    meta = frame._meta.assign(**{name: frame._meta.index.to_series().astype("object").astype("UInt32")})
    return frame.map_partitions(matches, column, name, keep(table, client), options, meta=meta)
