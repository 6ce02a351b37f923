"""Columns of NumPy and pandas, and results in their forms. This module imports neither: a caller who passes a column of
theirs has imported them."""
import sys
from typing import Any, Iterator, List, NamedTuple, Optional, Sequence, Tuple

from ._columns import Column, Items, Octets, numbers_piece
from ._rows import LARGEST, WIDTH, Piece


def module(name: str) -> Any:
    """The module if somebody has imported it; else None."""
    return sys.modules.get(name)


def is_array(column: Any) -> bool:
    """Whether the column is an array of NumPy."""
    kind = getattr(module("numpy"), "ndarray", None)
    return kind is not None and isinstance(column, kind)


def is_series(column: Any) -> bool:
    """Whether the column is a Series of pandas."""
    kind = getattr(module("pandas"), "Series", None)
    return kind is not None and isinstance(column, kind)


class ArrayNumbers(Column):
    """An array of IPv4 addresses as numbers: of 4 bytes without a sign, in any order of bytes; or of another type if
    each number fits. In an array of floats, NaN is a missing row."""

    kind = "numbers"
    is_strict = True

    def __init__(self, values: Any) -> None:
        self._values, self.count = values, len(values)

    def pieces(self) -> Iterator[Piece]:
        kind = self._values.dtype
        for start, end in self._parts():
            values = self._values[start:end]
            missing: Sequence[int] = ()
            bad: Sequence[int] = ()
            if kind.kind != "u" or kind.itemsize != 4:
                is_missing = values != values
                is_bad = (values < 0) | (values > LARGEST) | (values != values.round()) & ~is_missing
                missing, bad = places(is_missing), places(is_bad)
                if missing or bad:
                    values = values.copy()
                    values[is_missing | is_bad] = 0
            packed = values.astype("=u4", copy=False).tobytes()
            yield numbers_piece(start, packed, missing, bad, self._values[start:end].item)


def places(mask: Any) -> List[int]:
    """The places at which the mask is true."""
    found: List[int] = mask.nonzero()[0].tolist()
    return found


class Masked(Column):
    """A column with further missing rows, at which the mask is true."""

    def __init__(self, column: Column, mask: Any) -> None:
        self._column, self._mask = column, mask
        self.count, self.kind, self.is_strict = column.count, column.kind, column.is_strict

    def pieces(self) -> Iterator[Piece]:
        for piece in self._column.pieces():
            more = places(self._mask[piece.start:piece.start + piece.size])
            if more:
                missing = sorted({*piece.missing, *more})
                gaps = set(more)
                piece = piece._replace(missing=missing, bad=[place for place in piece.bad if place not in gaps])
                for place in more if piece.numbers is None else ():
                    piece.families[place] = 0
                    piece.octets[WIDTH * place:WIDTH * place + WIDTH] = bytes(WIDTH)
            yield piece


def array_column(values: Any) -> Column:
    """The column of an array of NumPy."""
    numpy = module("numpy")
    mask = numpy.ma.getmaskarray(values) if isinstance(values, numpy.ma.MaskedArray) else None
    column = _array_column(values.view(numpy.ndarray), mask)
    if mask is not None:
        column = Masked(column, mask if mask.ndim == 1 else mask.any(axis=1))
    column.form = "numpy"
    return column


def items_of(values: Any, mask: Any) -> List[Any]:
    """The items of an array. A masked object is None, because it may be of any type; there may be no mask."""
    if mask is not None and values.dtype.kind == "O":
        values = values.copy()
        values[mask] = None
    items: List[Any] = values.tolist()
    return items


def _array_column(values: Any, mask: Any) -> Column:
    """The column of an array, in which the rows of the mask may be anything; there may be no mask."""
    kind = values.dtype.kind
    if values.ndim == 2 and values.shape[1] == WIDTH and values.dtype == "uint8":
        return Octets(memoryview(values), len(values))
    if values.ndim == 1:
        if kind in "SUO":
            return Items(lambda start, end: items_of(values[start:end], None if mask is None else mask[start:end]),
                         len(values))
        if kind in "ui" and values.dtype.itemsize >= 4 or values.dtype == "float64":
            return ArrayNumbers(values)
    raise TypeError(f"an array of {values.dtype} of the shape {values.shape} is not a column of addresses, which has "
                    "numbers of 4 bytes, rows of 16 uint8, fixed-width bytes, or texts")


def series_column(series: Any) -> Column:
    """The column of a Series of pandas."""
    numpy, dtype = module("numpy"), series.dtype
    if isinstance(dtype, numpy.dtype):
        column = array_column(series.to_numpy())
    else:
        kind = getattr(dtype, "numpy_dtype", None)
        if kind is not None and numpy.dtype(kind).kind in "iuf":
            values = series.to_numpy(dtype=kind, na_value=0)
            column = Masked(array_column(values), series.isna().to_numpy())
        else:
            column = array_column(series.to_numpy(dtype=object))
    column.form = "pandas"
    return column


class Form(NamedTuple):
    """The form of a result: its name, the column that the caller has passed, and the number of rows that were not
    addresses if the caller has asked for it."""

    name: str
    given: Any
    invalid: Optional[int]

    @property
    def has_arrays(self) -> bool:
        """Whether results are arrays of NumPy or Series of pandas."""
        return self.name in ("numpy", "pandas")


def masked(values: Any, mask: Any, invalid: Optional[int]) -> Any:
    """The values as an array of NumPy, in which the rows of the mask are masked. It is a masked array if a row is, or
    if the caller has asked for the number of invalid rows."""
    if invalid is None and not mask.any():
        return values
    answer = module("numpy").ma.MaskedArray(values, mask)
    answer.invalid = invalid or 0
    return answer


def series_of(values: Any, form: Form) -> Any:
    """A Series with the index and the name of the caller's."""
    answer = module("pandas").Series(values, index=form.given.index, name=form.given.name)
    if form.invalid is not None:
        answer.attrs["invalid"] = form.invalid
    return answer


def booleans(answers: bytearray, form: Form) -> Any:
    """The answers, 1, 0 or 2 for a missing row, in the form of the column."""
    codes = module("numpy").frombuffer(answers, dtype="uint8")
    if form.name == "pandas":
        return series_of(module("pandas").arrays.BooleanArray(codes == 1, codes == 2), form)
    return masked(codes == 1, codes == 2, form.invalid)


def codes(answers: bytearray, gap: int, form: Form) -> Any:
    """The answers in the form of the column. The rows with the answer `gap` are missing."""
    values = module("numpy").frombuffer(answers, dtype="uint8")
    if form.name == "pandas":
        return series_of(module("pandas").arrays.IntegerArray(values, values == gap), form)
    return masked(values, values == gap, form.invalid)


def numbers(values: bytearray, gaps: Optional[bytearray], absent: Optional[int], form: Form) -> Any:
    """The numbers in the form of the column. The rows at which `gaps` is not 0, and those with the number `absent`, are
    missing."""
    numpy = module("numpy")
    answer = numpy.frombuffer(values, dtype="=u4")
    mask = numpy.zeros(len(answer), dtype=bool) if gaps is None else numpy.frombuffer(gaps, dtype="uint8") != 0
    if absent is not None:
        mask = mask | (answer == absent)
    if form.name == "pandas":
        return series_of(module("pandas").arrays.IntegerArray(answer, mask), form)
    return masked(answer, mask, form.invalid)


def texts(lines: Sequence[Optional[str]], form: Form) -> Any:
    """The texts in the form of the column: an array of objects, masked if the caller has asked for the number of
    invalid rows, or a Series of strings."""
    if form.name == "pandas":
        return series_of(module("pandas").array(lines, dtype="string"), form)
    numpy = module("numpy")
    answer = numpy.empty(len(lines), dtype=object)
    answer[:] = lines
    if form.invalid is None:
        return answer
    return masked(answer, numpy.array([line is None for line in lines], dtype=bool), form.invalid)


def arrays(families: bytearray, octets: bytearray) -> Tuple[Any, Any]:
    """The families and the octets as arrays of NumPy, n and n times 16 numbers."""
    numpy = module("numpy")
    return numpy.frombuffer(families, dtype="uint8"), numpy.frombuffer(octets, dtype="uint8").reshape(-1, WIDTH)
