"""Razovinto from Python: checked arithmetic on numbers of 64 bits, recipes, rows of operations, fields, blocks and
levels of raw floats.

One file over the proved shared library, by ctypes; it needs CPython 3.9 or later and no package.

    >>> import razovinto
    >>> razovinto.sum(2**64 - 1, 1)
    OVERFLOWED
    >>> razovinto.run(8, [255, 1, "sum", 0, "product"], 100)
    Run(value=0, steps=5)

Names as `sum` are Python's too, so import the module and not its names.

What is refused is the exception `Refused`, with the refusal's number, place and words. What is no number or no list at
all, or is outside 64 bits, never gets to the library: it is a TypeError, OverflowError or ValueError that names the
parameter. An overflowed value is `OVERFLOWED`.

Lists. A list that is only read may be anything with whole numbers in it. bytes, bytearray, array, memoryview, mmap and
numpy arrays are lent with no copy where their items have the right type (unsigned, of 64 bits for numbers; of 8 bits,
or bool, for kinds, marks, codes and blocks), lie one after the other and are aligned; an array of several dimensions
then counts as its items in order. Everything else is copied number by number, and each is looked at: a float is a
TypeError, a number below 0 or too large an OverflowError. So nothing is ever cast. A list that is written must be one
that can be lent, since a copy would not reach the caller. Nobody may write to a lent list during a call.

Operations of a row may stand in records. `Operation * n` is a ctypes array of n of them, and numpy takes Operation as a
dtype. Both are lent with no copy, and so is every structured array whose kind, left and right lie as Operation's do,
one record after the other and aligned to 8. Other records are copied, and each number is looked at.

Readings are 32-bit floats, and lent with no copy where they are float32. Of other lists each is looked at and copied: a
number that 32 bits don't hold exactly is a ValueError, so that nothing is rounded either. Bytes are no list of
readings: memoryview(raw).cast("f") is the floats that lie in them.

The library is looked for at RAZOVINTO_LIBRARY where that is set; otherwise in the tree that this file stands in, in
the prefix that it was installed to, and wherever the machine's loader looks.
"""
from __future__ import annotations

import ctypes
import enum
import functools
import operator
import os
import sys
from array import array
from typing import Any, Iterable, List, NamedTuple, Optional, Sequence, Tuple, Union

__version__ = "4.5.0"

__all__ = [
    "BLOCK_SIZE", "BLOCK_VALUES", "Block", "Extent", "Field", "Found", "KINDS", "OVERFLOWED", "Operation", "Overflowed",
    "PLACES", "ROW_MOST", "Range", "Refusal", "Refused", "Row", "Run", "State", "WithinLogarithm", "WithinPower",
    "level_scan", "level_to_field", "logarithm", "power", "power_fits", "product", "quotient", "read", "read_run",
    "refusal_text", "remainder", "row", "row_of_records", "run", "scan", "search", "shape", "signed_quotient",
    "signed_remainder", "sound", "sum", "write",
]

BLOCK_SIZE = 512  # bytes of a block
BLOCK_VALUES = 55  # values that a block has at most
PLACES = 32  # values that may be on hand
ROW_MOST = 4096  # operations that a row may have

# The kinds of a recipe's items, by number; from 1 on also of a row's operations.
KINDS = ("literal", "sum", "product", "quotient", "remainder", "power", "logarithm")

_MOST = 2**64 - 1
_MOST_BLOCK_NUMBER = 2**32 - 1
_LEAST_SIGNED, _MOST_SIGNED = -(2**63), 2**63 - 1


# ---- Overflowed values


class Overflowed:
    """The class of OVERFLOWED, which is its only value.

    OVERFLOWED stands for some number above the width; which one is not known. It is equal to itself alone, so that
    `value == OVERFLOWED` and `value is OVERFLOWED` ask the same. It can't be calculated with, ordered or made an int
    or a float. It has no truth either: `if value:` asks whether a number is 0, and no answer would be right.
    """

    __slots__ = ()

    def __new__(cls) -> Overflowed:
        return OVERFLOWED

    def __repr__(self) -> str:
        return "OVERFLOWED"

    def __bool__(self) -> bool:
        raise TypeError("an overflowed value is neither true nor false: ask 'value is OVERFLOWED'")

    def __reduce__(self) -> str:
        return "OVERFLOWED"  # its name here, so that a copy or a pickle of it is itself


OVERFLOWED = object.__new__(Overflowed)

Value = Union[int, Overflowed]


# ---- Refusals


class Refusal(enum.IntEnum):
    """The refusals' names."""

    DIVISOR_ZERO = 1
    BASE_BELOW_TWO = 2
    OVERFLOWED = 3
    QUOTIENT_TOO_LARGE = 4
    UNKNOWN_WIDTH = 5
    LENGTHS_DIFFER = 6
    ITEM_COUNT = 7
    UNKNOWN_KIND = 8
    LITERAL_TOO_LARGE = 9
    TOO_FEW_ON_HAND = 10
    HAND_FULL = 11
    SEVERAL_LEFT = 12
    NONE_LEFT = 13
    FIELD_EMPTY = 14
    BAD_MARK = 15
    BLOCK_LENGTH = 16
    WRONG_CHECK = 17
    BAD_LAYOUT = 18
    LIST_TOO_SHORT = 19
    ALLOWANCE_SPENT = 20
    BLOCK_NUMBER_TOO_LARGE = 21
    UNUSABLE_READING = 22
    NOT_WHOLE = 23
    OTHER_BLOCK_NUMBER = 24


_TEXTS = (
    "not refused",
    "divisor 0",
    "base below 2",
    "overflowed value where a number is needed",
    "signed quotient that doesn't fit",
    "width not 8, 16, 32 or 64",
    "lists that differ in length",
    "recipe of 0 items or above 256, or row of 0 operations or above 4,096",
    "unknown kind, literal in a row, or operation with a number not 0",
    "literal too large for the width",
    "operation with fewer than two values on hand",
    "literal that would be the 33rd on hand",
    "recipe ends with more than one value",
    "recipe ends with no value",
    "field without a value",
    "mark not 0 or 1, or overflowed with a number not 0",
    "the block is not 512 bytes",
    "the check is wrong",
    "the edition, the count, a mark or a byte that must be zero is wrong",
    "list too short for what would be written",
    "allowance spent",
    "block number above 2^32 - 1",
    "reading is NaN or infinite",
    "reading is not a whole number from 0 to 16,777,215",
    "block has another number",
)


def refusal_text(number: int) -> str:
    """A refusal in words; of 0 that nothing was refused, and of a number that is no refusal that it is none."""
    return _TEXTS[number] if 0 <= number < len(_TEXTS) else "no refusal has this number"


class Refused(Exception):
    """The library refused something.

    `number` is the refusal's (Refusal has the names), `words` says it, `place` is where: an item's index, an element's
    index, a block's position; 0 where the refusal has no place. `run` is what a refused run shows, and None otherwise.
    """

    def __init__(self, number: int, place: int = 0, run: Optional[State] = None) -> None:
        super().__init__(number, place, run)
        self.number = number
        self.place = place
        self.run = run

    @property
    def words(self) -> str:
        return refusal_text(self.number)

    def __str__(self) -> str:
        return f"{self.words} (refusal {self.number}, place {self.place})"


# ---- Answers


class WithinPower(NamedTuple):
    """What a run holds within a power."""

    first: Value
    second: Value
    exponent: int


class WithinLogarithm(NamedTuple):
    """What a run holds within a logarithm."""

    base: int
    left: int
    count: int


class State(NamedTuple):
    """What a refused run shows. Only with ALLOWANCE_SPENT is it stopped in a state; otherwise there are steps alone."""

    steps: int  # taken
    done: int  # items wholly done
    phase: Union[None, WithinPower, WithinLogarithm]  # None between items
    hand: Tuple[Value, ...]  # the values on hand, bottom first


class Run(NamedTuple):
    """A recipe's value, and how many steps it took."""

    value: Value
    steps: int


class Row(NamedTuple):
    """What a row came to: element i of each list is of operation i.

    A mark is 0 where the number fits, 1 where it is overflowed and the number 0. A code is 0, or the number of the
    refusal where the operation was refused, and number and mark are 0 then.
    """

    numbers: Sequence[int]
    marks: Sequence[int]
    codes: Sequence[int]


class Range(NamedTuple):
    """A field's least and greatest number, and its packing width.

    The width is the smallest w with greatest - least < 2**w: 0 for one number everywhere.
    """

    least: int
    greatest: int
    width: int


class Extent(NamedTuple):
    """A level's least and greatest reading, each the earliest of those that are equal to it; a zero keeps its sign."""

    least: float
    greatest: float


class Field(NamedTuple):
    """A field as two lists: a mark is 0 where the number fits, 1 where it is overflowed and the number 0."""

    numbers: Sequence[int]
    marks: Sequence[int]

    def values(self) -> List[Value]:
        """The values one by one, overflowed ones as OVERFLOWED."""
        return _values(self.numbers, self.marks)


class Block(NamedTuple):
    """A block that was read: its number, how many values it has, and the two lists that they stand in."""

    number: int
    count: int
    numbers: Sequence[int]
    marks: Sequence[int]

    def values(self) -> List[Value]:
        """The values one by one, overflowed ones as OVERFLOWED."""
        return _values(self.numbers[: self.count], self.marks[: self.count])


class Found(NamedTuple):
    """Where a search found an overflowed value: its block's position in the run, and its place in the block."""

    block: int
    place: int


def _value(overflowed: int, number: int) -> Value:
    return OVERFLOWED if overflowed else int(number)


def _values(numbers: Sequence[int], marks: Sequence[int]) -> List[Value]:
    return [_value(mark, number) for number, mark in zip(numbers, marks)]


# ---- The library


class Operation(ctypes.Structure):
    """An operation of a row as a host keeps it, in 24 bytes: kind at byte 0, left at 8, right at 16.

    (Operation * 2)((1, 270, 11), (3, 7, 0)) is an array of two, and numpy.zeros(2, Operation) one of numpy's. What the
    bytes between kind and left hold isn't looked at.
    """

    _fields_ = [("kind", ctypes.c_uint8), ("left", ctypes.c_uint64), ("right", ctypes.c_uint64)]


class _ShapeAnswer(ctypes.Structure):
    _fields_ = [(name, ctypes.c_uint64) for name in ("place", "limit")]


class _PowerAnswer(ctypes.Structure):
    _fields_ = [
        (name, ctypes.c_uint64) for name in ("first_overflowed", "first", "second_overflowed", "second", "exponent")
    ]


class _LogarithmAnswer(ctypes.Structure):
    _fields_ = [(name, ctypes.c_uint64) for name in ("base", "left", "count")]


class _RunAnswer(ctypes.Structure):
    _fields_ = [
        *((name, ctypes.c_uint64) for name in ("place", "overflowed", "number", "steps", "done", "phase")),
        ("power", _PowerAnswer),
        ("logarithm", _LogarithmAnswer),
        ("on_hand_overflowed", ctypes.c_uint8 * PLACES),
        ("on_hand", ctypes.c_uint64 * PLACES),
    ]


class _RangeAnswer(ctypes.Structure):
    _fields_ = [(name, ctypes.c_uint64) for name in ("place", "least", "greatest", "width")]


class _BlockAnswer(ctypes.Structure):
    _fields_ = [(name, ctypes.c_uint64) for name in ("place", "number", "count")]


class _WrittenAnswer(ctypes.Structure):
    _fields_ = [(name, ctypes.c_uint64) for name in ("place", "length")]


class _LevelAnswer(ctypes.Structure):
    _fields_ = [("place", ctypes.c_uint64)]


class _FoundAnswer(ctypes.Structure):
    _fields_ = [(name, ctypes.c_uint64) for name in ("place", "found", "position", "within")]


_LIST = (ctypes.c_void_p, ctypes.c_size_t)
_PAIR = (ctypes.c_uint64, ctypes.c_uint64)
_SIGNED_PAIR = (ctypes.c_int64, ctypes.c_int64)
_ENTRIES = {
    "razovinto_sum": (*_PAIR, *_LIST),
    "razovinto_product": (*_PAIR, *_LIST),
    "razovinto_quotient": (*_PAIR, *_LIST),
    "razovinto_remainder": (*_PAIR, *_LIST),
    "razovinto_power": (*_PAIR, *_LIST),
    "razovinto_logarithm": (*_PAIR, *_LIST),
    "razovinto_power_fits": _PAIR,
    "razovinto_signed_quotient": (*_SIGNED_PAIR, *_LIST),
    "razovinto_signed_remainder": (*_SIGNED_PAIR, *_LIST),
    "razovinto_run": (ctypes.c_uint64, *_LIST, *_LIST, ctypes.c_uint64, *_LIST),
    "razovinto_shape": (ctypes.c_uint64, *_LIST, *_LIST, *_LIST),
    "razovinto_row": (*_LIST, *_LIST, *_LIST, *_LIST, *_LIST, *_LIST),
    "razovinto_row_of_records": (*_LIST, *_LIST, *_LIST, *_LIST),
    "razovinto_scan": (*_LIST, *_LIST, *_LIST),
    "razovinto_sound": _LIST,
    "razovinto_read": (*_LIST, *_LIST, *_LIST, *_LIST),
    "razovinto_write": (ctypes.c_uint32, *_LIST, *_LIST, *_LIST, *_LIST),
    "razovinto_search": (*_LIST, *_LIST),
    "razovinto_level_scan": (*_LIST, *_LIST, *_LIST, *_LIST),
    "razovinto_level_to_field": (*_LIST, *_LIST, *_LIST, *_LIST, *_LIST),
}


def _places() -> List[str]:
    """Where the library may be, in the order in which it is looked for."""
    chosen = os.environ.get("RAZOVINTO_LIBRARY")
    if chosen:
        return [chosen]
    here = os.path.dirname(os.path.realpath(__file__))
    shared = "librazovinto.so." + __version__.split(".")[0]
    in_tree = os.path.join(here, "..", "target", "host", "librazovinto.so")
    installed = os.path.join(here, "..", "..", "..", "lib", shared)
    return [os.path.normpath(in_tree), os.path.normpath(installed), shared]


def _load() -> ctypes.CDLL:
    """The first library that can be loaded and has all entries."""
    tried = []
    for place in _places():
        try:
            library = ctypes.CDLL(place)
            for name, parameters in _ENTRIES.items():
                entry = getattr(library, name)
                entry.argtypes, entry.restype = parameters, ctypes.c_uint32
            return library
        except (OSError, AttributeError) as error:
            tried.append(f"  {place}: {error}")
    raise ImportError(
        "razovinto: no shared library with all entries was found. Looked at:\n"
        + "\n".join(tried)
        + "\n'tools/host-library' makes target/host/librazovinto.so in the tree, 'tools/install PREFIX' installs it,"
        + " and RAZOVINTO_LIBRARY may name its file."
    )


_library = _load()


def _answer(answer: ctypes.Structure) -> tuple:
    """An answer as the two parameters of a lent list."""
    return ctypes.byref(answer), ctypes.sizeof(answer) // 8


# ---- Numbers and lists on their way to the library


def _said(number: int) -> str:
    """A number in an error; Python refuses to write very long ones."""
    return str(number) if number.bit_length() <= 256 else f"a number of {number.bit_length()} binary digits"


def _number(name: str, value: Any, least: int = 0, greatest: int = _MOST) -> int:
    """A whole number that the parameter can be; ctypes would wrap one that it can't."""
    if value is OVERFLOWED:
        raise TypeError(f"{name} is overflowed, and must be a number; a recipe can go on from an overflowed value")
    try:
        number = operator.index(value)
    except TypeError:
        raise TypeError(f"{name} is {value!r}, and must be a whole number") from None
    if not least <= number <= greatest:
        raise OverflowError(f"{name} is {_said(number)}, and must be from {least} to {greatest}")
    return number


class _Items(NamedTuple):
    """What a list's items are: array's letter, their size, the letters of buffers that have them, the largest."""

    letter: str
    size: int
    letters: str
    greatest: int


_BYTES = _Items("B", 1, "Bc?", 255)
_NUMBERS = _Items("Q", 8, "QL", _MOST)
_FLOATS = _Items("f", 4, "f", 0)
_RECORDS = _Items("", ctypes.sizeof(Operation), "", 0)


class _Buffer(ctypes.Structure):
    """CPython's Py_buffer, through which the address of memory that is only to be read can be had as well."""

    _fields_ = [
        ("address", ctypes.c_void_p),
        ("owner", ctypes.c_void_p),
        ("length", ctypes.c_ssize_t),
        ("item_size", ctypes.c_ssize_t),
        ("read_only", ctypes.c_int),
        ("dimensions", ctypes.c_int),
        ("letter", ctypes.c_char_p),
        ("shape", ctypes.c_void_p),
        ("strides", ctypes.c_void_p),
        ("offsets", ctypes.c_void_p),
        ("internal", ctypes.c_void_p),
    ]


_get_buffer = ctypes.PYFUNCTYPE(ctypes.c_int, ctypes.py_object, ctypes.POINTER(_Buffer), ctypes.c_int)(
    ("PyObject_GetBuffer", ctypes.pythonapi)
)
_release_buffer = ctypes.PYFUNCTYPE(None, ctypes.POINTER(_Buffer))(("PyBuffer_Release", ctypes.pythonapi))


class _Lent:
    """Memory that is lent for a call. Until it is given back, its owner can neither free nor move it."""

    def __init__(self, name: str, view: memoryview, items: _Items) -> None:
        self._buffer = _Buffer()
        _get_buffer(view, ctypes.byref(self._buffer), 0)
        self.name = name
        # An empty list's address may be anything, and an entry takes a null pointer for it.
        self.address = self._buffer.address if view.nbytes else 0
        self.length = view.nbytes
        self.count = view.nbytes // items.size
        self.parameters = self.address, self.count

    def aligned(self, items: _Items) -> bool:
        """Whether it lies where such items must; of a record no field is larger than 8 bytes."""
        return self.address % min(items.size, 8) == 0

    def give_back(self) -> None:
        _release_buffer(ctypes.byref(self._buffer))

    def __enter__(self) -> _Lent:
        return self

    def __exit__(self, *_: object) -> None:
        self.give_back()


def _is_masked(given: Any) -> bool:
    """Whether it is a masked array. Where numpy was never imported, nobody can have one."""
    numpy = sys.modules.get("numpy")
    return numpy is not None and isinstance(given, numpy.ma.MaskedArray)


def _view(given: Any, items: _Items) -> Optional[memoryview]:
    """The list's own memory, where it has such items one after the other."""
    try:
        view = memoryview(given)
    except (TypeError, ValueError, BufferError):
        return None
    letter = view.format.lstrip("@=<" if sys.byteorder == "little" else "@=>")
    alike = len(letter) == 1 and letter in items.letters and view.itemsize == items.size
    return view if alike and view.ndim and view.c_contiguous else None


def _listed(name: str, given: Any, kinds: str = "buiO", what: str = "whole numbers") -> list:
    """What can be gone through as a list; a numpy array of several dimensions as its items in order."""
    numpy = sys.modules.get("numpy")
    if numpy is not None and isinstance(given, numpy.ndarray) and given.ndim:
        if given.dtype.kind not in kinds:
            raise TypeError(f"{name} is an array of {given.dtype}, and must be one of {what}")
        return given.ravel().tolist()
    try:
        return list(given)
    except (TypeError, NotImplementedError):
        raise TypeError(f"{name} is of the type {type(given).__name__}, which is no list of {what}") from None


def _copied(name: str, given: Any, items: _Items) -> array:
    """The list's numbers, each looked at, in an array of their own."""
    values = _listed(name, given)
    try:
        return array(items.letter, map(operator.index, values))
    except (TypeError, OverflowError):
        for place, value in enumerate(values):
            _number(f"{name}[{place}]", value, 0, items.greatest)
        raise


def _real(value: Any) -> Any:
    """A number that a float can be compared with exactly, or None: a float of any size, a Fraction, a Decimal; a whole
    number as Python's own, since numpy rounds its own where they are compared."""
    try:
        return operator.index(value)
    except TypeError:
        return value if hasattr(type(value), "as_integer_ratio") else None


def _shown(value: Any) -> str:
    """A number in an error, where Python may refuse to write it."""
    try:
        return _said(value) if isinstance(value, int) else repr(value)
    except ValueError:
        return f"a number of the type {type(value).__name__}"


def _float(name: str, place: int, value: Any) -> float:
    """A number that 32 bits hold exactly; array would round one that they don't."""
    real = value if type(value) is float else _real(value)
    if real is None:
        shown = "overflowed" if value is OVERFLOWED else repr(value)
        raise TypeError(f"{name}[{place}] is {shown}, and must be a number")
    try:
        held = ctypes.c_float(real).value
        exact = held == real or real != real
    except (OverflowError, ValueError):  # larger than all floats, or the NaN that Decimal doesn't let be one
        exact = False
    if not exact:
        raise ValueError(f"{name}[{place}] is {_shown(real)}, which no 32-bit float is")
    return held


def _copied_floats(name: str, given: Any) -> array:
    """The list's numbers, each looked at, in an array of 32-bit floats. Bytes would be taken for whole numbers."""
    if isinstance(given, (bytes, bytearray)) or isinstance(given, memoryview) and given.itemsize == 1:
        raise TypeError(f"{name} is bytes, and must be numbers; memoryview({name}).cast('f') is the floats in them")
    values = _listed(name, given, "buifO", "numbers")
    return array("f", [_float(name, place, value) for place, value in enumerate(values)])


def _lend(name: str, given: Any, items: _Items) -> _Lent:
    """Lends a list that is only read: its own memory where that can be, otherwise a copy."""
    if _is_masked(given):
        raise TypeError(f"{name} is a masked array, and its mask would be passed over")
    view = _view(given, items)
    if view is None:
        copy = _copied_floats(name, given) if items is _FLOATS else _copied(name, given, items)
        return _Lent(name, memoryview(copy), items)
    lent = _Lent(name, view, items)
    if lent.aligned(items):
        return lent
    lent.give_back()
    return _Lent(name, memoryview(array(items.letter, view.tobytes())), items)


_FIELDS = tuple(name for name, _ in Operation._fields_)


def _view_of_records(records: Any) -> Optional[memoryview]:
    """The records' own memory, where they stand one after the other, each with its fields where Operation has them."""
    if isinstance(records, ctypes.Array):
        return memoryview(records) if records._type_ is Operation else None
    numpy = sys.modules.get("numpy")
    if numpy is None or not isinstance(records, numpy.ndarray) or not records.ndim or not records.flags.c_contiguous:
        return None
    own, given = numpy.dtype(Operation), records.dtype
    if given.itemsize != own.itemsize or not set(_FIELDS) <= set(given.names or ()):
        return None
    alike = all(given.fields[name][:2] == own.fields[name][:2] for name in _FIELDS)
    # Seen as operations, so that other fields between them don't count.
    return memoryview(records.view(own, numpy.ndarray)) if alike else None


def _fields_of(place: int, record: Any) -> Tuple[Any, Any, Any]:
    """Kind, left and right of a record in a list."""
    numpy = sys.modules.get("numpy")
    if isinstance(record, ctypes.Structure) and all(hasattr(record, name) for name in _FIELDS):
        return tuple(getattr(record, name) for name in _FIELDS)
    if numpy is not None and isinstance(record, numpy.void) and set(_FIELDS) <= set(record.dtype.names or ()):
        return tuple(record[name] for name in _FIELDS)
    if isinstance(record, (tuple, list)) and len(record) == 3:
        return tuple(record)
    raise TypeError(f"records[{place}] is {record!r}, and must be a kind, left and right")


def _columns(records: Any) -> Sequence[Any]:
    """The kinds, lefts and rights of records in any form."""
    names = getattr(getattr(records, "dtype", None), "names", None)
    if names and records.ndim:
        missing = [name for name in _FIELDS if name not in names]
        if missing:
            raise TypeError(f"records have no field {missing[0]!r}")
        return [records[name] for name in _FIELDS]
    if isinstance(records, (bytes, bytearray)):
        raise TypeError("records is bytes, and must be operations; (Operation * n).from_buffer_copy(records) is n")
    listed = _listed("records", records, what="operations")
    return list(zip(*(_fields_of(place, record) for place, record in enumerate(listed)))) or [()] * 3


def _copied_records(records: Any) -> ctypes.Array:
    """The records' numbers, each looked at, in an array of their own."""
    kinds, lefts, rights = _columns(records)
    columns = (
        _copied("the kind of records", _kinds("the kind of records", kinds), _BYTES),
        _copied("the left of records", lefts, _NUMBERS),
        _copied("the right of records", rights, _NUMBERS),
    )
    if len(set(map(len, columns))) > 1:
        raise TypeError("records must have one kind, one left and one right each")
    return (Operation * len(columns[0]))(*zip(*columns))


def _lend_records(records: Any) -> _Lent:
    """Lends a list of records that is only read: its own memory where that can be, otherwise a copy."""
    if _is_masked(records):
        raise TypeError("records is a masked array, and its mask would be passed over")
    view = _view_of_records(records)
    if view is None:
        return _Lent("records", memoryview(_copied_records(records)), _RECORDS)
    lent = _Lent("records", view, _RECORDS)
    if lent.aligned(_RECORDS):
        return lent
    lent.give_back()
    return _Lent("records", memoryview((Operation * lent.count).from_buffer_copy(view.tobytes())), _RECORDS)


def _lend_to_write(name: str, given: Any, items: _Items) -> _Lent:
    """Lends a list that is written, which must be its own memory."""
    view = None if _is_masked(given) else _view(given, items)
    if view is None or view.readonly or view.ndim != 1:
        bits = 8 * items.size
        raise TypeError(f"{name} must be a list that can be written, of unsigned {bits}-bit items one after the other")
    lent = _Lent(name, view, items)
    if not lent.aligned(items):
        lent.give_back()
        raise ValueError(f"{name} is not aligned to {items.size} bytes")
    return lent


def _see_apart(*lists: _Lent) -> None:
    """No list that is written may share memory with another."""
    in_order = sorted((lent for lent in lists if lent.length), key=lambda lent: lent.address)
    for lower, upper in zip(in_order, in_order[1:]):
        if lower.address + lower.length > upper.address:
            raise ValueError(f"{lower.name} and {upper.name} share memory")


@functools.lru_cache(maxsize=None)  # where it isn't, looking for it takes longer than a row
def _numpy() -> Any:
    """numpy, or None where it isn't."""
    try:
        import numpy
    except ImportError:
        return None
    return numpy


def _first(count: int, given: Any) -> Any:
    """A lent list up to a count, in its own memory, so that all lists of an answer are as long as what they are of."""
    if len(given) == count:
        return given
    return (memoryview(given) if isinstance(given, (array, bytearray)) else given)[:count]


# ---- Single operations


def _operation(entry: Any, left: int, right: int) -> Value:
    result = (ctypes.c_uint8 * 16)()
    refusal = entry(left, right, result, 16)
    if refusal:
        raise Refused(refusal)
    return _value(result[8], int.from_bytes(result[:8], "little"))


def sum(left: int, right: int) -> Value:
    """left + right; OVERFLOWED from 2^64 on."""
    return _operation(_library.razovinto_sum, _number("left", left), _number("right", right))


def product(left: int, right: int) -> Value:
    """left * right; OVERFLOWED from 2^64 on."""
    return _operation(_library.razovinto_product, _number("left", left), _number("right", right))


def quotient(left: int, right: int) -> Value:
    """The whole part of left / right; refused with 1 where right is 0."""
    return _operation(_library.razovinto_quotient, _number("left", left), _number("right", right))


def remainder(left: int, right: int) -> Value:
    """What left / right leaves, from 0 to right - 1; refused with 1 where right is 0."""
    return _operation(_library.razovinto_remainder, _number("left", left), _number("right", right))


def power(base: int, exponent: int) -> Value:
    """base to the power of exponent; OVERFLOWED from 2^64 on. Every base to the power of 0 gives 1, the base 0 too."""
    return _operation(_library.razovinto_power, _number("base", base), _number("exponent", exponent))


def logarithm(base: int, argument: int) -> Value:
    """The largest e for which base to the power of e is at most argument, and 0 for the argument 0; refused with 2
    where base is below 2."""
    return _operation(_library.razovinto_logarithm, _number("base", base), _number("argument", argument))


def power_fits(base: int, exponent: int) -> bool:
    """Whether base to the power of exponent is at most 2^64 - 1; it is not worked out."""
    return bool(_library.razovinto_power_fits(_number("base", base), _number("exponent", exponent)))


def _signed(entry: Any, left: int, right: int) -> int:
    left = _number("left", left, _LEAST_SIGNED, _MOST_SIGNED)
    right = _number("right", right, _LEAST_SIGNED, _MOST_SIGNED)
    result = ctypes.c_int64()
    refusal = entry(left, right, ctypes.byref(result), 1)
    if refusal:
        raise Refused(refusal)
    return result.value


def signed_quotient(left: int, right: int) -> int:
    """The truncating quotient of two numbers from -2^63 to 2^63 - 1: -7 by 2 gives -3, where Python's // gives -4.
    Refused with 1 where right is 0, then with 4 for -2^63 by -1, whose quotient doesn't fit."""
    return _signed(_library.razovinto_signed_quotient, left, right)


def signed_remainder(left: int, right: int) -> int:
    """What the truncating quotient leaves, left - right * quotient, and 0 for -2^63 by -1; refused with 1 where right
    is 0."""
    return _signed(_library.razovinto_signed_remainder, left, right)


# ---- Recipes


def _word(place: int, word: Any) -> Tuple[int, int]:
    """The kind and the number of a recipe's word."""
    if isinstance(word, str):
        if word in KINDS[1:]:
            return KINDS.index(word), 0
        if not (word.isascii() and word.isdigit()):
            raise ValueError(f"recipe[{place}] is {word!r}, and must be a number or one of {', '.join(KINDS[1:])}")
        if len(word) > 400:
            raise OverflowError(f"recipe[{place}] is a number of {len(word)} digits, and must be from 0 to {_MOST}")
        word = int(word)
    return 0, _number(f"recipe[{place}]", word)


def _two_lists(recipe: Any) -> Tuple[Any, Any]:
    """A recipe as kinds and numbers. Two lists in a tuple are these already; everything else is words."""
    if isinstance(recipe, (str, bytes, bytearray)):
        raise TypeError("recipe is one text, and must be a list of words or a tuple of kinds and numbers")
    if isinstance(recipe, tuple) and len(recipe) == 2 and not any(_is_word(part) for part in recipe):
        return recipe
    items = [_word(place, word) for place, word in enumerate(_listed("recipe", recipe))]
    return bytes(kind for kind, _ in items), array("Q", [number for _, number in items])


def _is_word(part: Any) -> bool:
    """Whether it is a word of a recipe, and no list."""
    return isinstance(part, (int, str, Overflowed)) or getattr(part, "ndim", 1) == 0


def _state(answer: _RunAnswer, kinds: _Lent) -> State:
    """What a refused run shows. How many values are on hand follows from the items done: a literal brings one, an
    operation takes one, and a power or a logarithm at work has taken two."""
    phase: Union[None, WithinPower, WithinLogarithm] = None
    if answer.phase == 1:
        held = answer.power
        first, second = _value(held.first_overflowed, held.first), _value(held.second_overflowed, held.second)
        phase = WithinPower(first, second, held.exponent)
    elif answer.phase == 2:
        phase = WithinLogarithm(answer.logarithm.base, answer.logarithm.left, answer.logarithm.count)
    literals = ctypes.string_at(kinds.address, answer.done).count(0) if answer.done else 0
    on_hand = literals - (answer.done - literals) - (2 if phase else 0)
    hand = _values(answer.on_hand[:on_hand], answer.on_hand_overflowed[:on_hand])
    return State(answer.steps, answer.done, phase, tuple(hand))


Recipe = Union[Iterable[Union[int, str]], Tuple[Sequence[int], Sequence[int]]]


def run(width: int, recipe: Recipe, allowance: int) -> Run:
    """Runs a recipe at a width of 8, 16, 32 or 64 bits, for at most `allowance` steps.

    A recipe is a list of words in postfix order, numbers and the names of operations, as [255, 1, "sum"]; or a tuple of
    two lists, kinds and numbers, as (b"\\0\\0\\1", [255, 1, 0]), which are lent with no copy where that can be.

    Refused for its shape, in this order: 5 the width, 6 two lists that differ in length, 7 no items or above 256; item
    by item 8 the kind, then 9 too large and 11 the hand full for a literal, or 10 too few on hand for an operation;
    12 several values left, 13 none left. Then it runs, and the first item that fails is the answer: 3 an overflowed
    left of a quotient or a remainder, or an overflowed argument of a logarithm; 1 a divisor 0, 2 a base below 2. 20, the
    allowance is spent: the exception's `run` is the state in which the run was stopped.

    With any other overflowed operand the recipe goes on. Overflowed times 0 is 0; a number by an overflowed right has
    the quotient 0 and the remainder itself; anything to the power of 0 is 1, and 0 or 1 to an overflowed exponent is 0
    or 1; a number's logarithm in an overflowed base is 0; and all else is overflowed.
    """
    width, allowance = _number("width", width), _number("allowance", allowance)
    kinds, numbers = _two_lists(recipe)
    answer = _RunAnswer()
    with _lend("kinds", kinds, _BYTES) as lent_kinds, _lend("numbers", numbers, _NUMBERS) as lent_numbers:
        refusal = _library.razovinto_run(
            width,
            *lent_kinds.parameters,
            *lent_numbers.parameters,
            allowance,
            *_answer(answer),
        )
        if refusal:
            raise Refused(refusal, answer.place, _state(answer, lent_kinds))
    return Run(_value(answer.overflowed, answer.number), answer.steps)


def shape(width: int, recipe: Recipe) -> int:
    """The largest number of the width, where a recipe is well formed at it; refused as `run` is for the shape."""
    width = _number("width", width)
    kinds, numbers = _two_lists(recipe)
    answer = _ShapeAnswer()
    with _lend("kinds", kinds, _BYTES) as lent_kinds, _lend("numbers", numbers, _NUMBERS) as lent_numbers:
        refusal = _library.razovinto_shape(width, *lent_kinds.parameters, *lent_numbers.parameters, *_answer(answer))
    if refusal:
        raise Refused(refusal, answer.place)
    return answer.limit


# ---- Rows


def _kinds(name: str, kinds: Any) -> Any:
    """A row's kinds with a number for each word. What can be lent has no words, and stays as it is."""
    if isinstance(kinds, str):
        raise TypeError(f"{name} is one text, and must be a list of kinds")
    if _is_masked(kinds) or _view(kinds, _BYTES) is not None:
        return kinds
    return [
        _kind(f"{name}[{place}]", kind) if isinstance(kind, str) else kind
        for place, kind in enumerate(_listed(name, kinds))
    ]


def _kind(name: str, word: str) -> int:
    if word not in KINDS[1:]:
        raise ValueError(f"{name} is {word!r}, and must be a number or one of {', '.join(KINDS[1:])}")
    return KINDS.index(word)


def _row(entry: Any, operations: Sequence[_Lent], numbers: Any, marks: Any, codes: Any, plain: bool) -> Row:
    """Calls an entry with lent operations, and gives the three lists that it wrote."""
    count = operations[0].count
    room = min(count, ROW_MOST)
    own_numbers = array("Q", [0]) * room if numbers is None else numbers
    own_marks = bytearray(room) if marks is None else marks
    own_codes = bytearray(room) if codes is None else codes
    with _lend_to_write("numbers", own_numbers, _NUMBERS) as lent_numbers:
        with _lend_to_write("marks", own_marks, _BYTES) as lent_marks:
            with _lend_to_write("codes", own_codes, _BYTES) as lent_codes:
                written = lent_numbers, lent_marks, lent_codes
                for lent in operations:
                    _see_apart(lent, *written)
                refusal = entry(*(part for lent in (*operations, *written) for part in lent.parameters))
    if refusal:
        raise Refused(refusal)
    numpy = None if plain else _numpy()
    return Row(
        _made(numpy, own_numbers, "u8") if numbers is None else _first(count, numbers),
        _made(numpy, own_marks, "u1") if marks is None else _first(count, marks),
        _made(numpy, own_codes, "u1") if codes is None else _first(count, codes),
    )


def _made(numpy: Any, made: Any, letter: str) -> Any:
    """A list of the module's own as a numpy array over its memory, or without numpy as an array or bytes."""
    if numpy is not None:
        return numpy.frombuffer(made, letter)
    return bytes(made) if isinstance(made, bytearray) else made


def row(
    kinds: Any,
    lefts: Any,
    rights: Any,
    numbers: Any = None,
    marks: Any = None,
    codes: Any = None,
    plain: bool = False,
) -> Row:
    """Up to 4,096 single operations in one call, each equal to `sum`, `product` and so on of its left and right.

    Operation i has kinds[i], lefts[i] and rights[i]: of a power base and exponent, of a logarithm base and argument. A
    kind is a number, as KINDS counts them, or its word, as "sum". A refused operation raises nothing: its code is the
    refusal's number, 8 for a kind that is none of the six, 1 for a divisor 0, 2 for a base below 2; number and mark are
    0, and the row goes on with the next.

    Lists that are lent as `numbers`, `marks` and `codes` are written up to the row's length, and stay as they are past
    it. The answer has them up to that length: themselves, or of a longer one that part in its own memory. Where none is
    lent, it has a numpy array of uint64 or uint8; where numpy isn't, or `plain` is true, an array or bytes.

    The row is refused with 6, lists that differ in length, then 7, no operation or above 4,096, then 19, a lent list
    that is shorter than the row. Lent lists stay as they are then.
    """
    with _lend("kinds", _kinds("kinds", kinds), _BYTES) as lent_kinds:
        with _lend("lefts", lefts, _NUMBERS) as lent_lefts, _lend("rights", rights, _NUMBERS) as lent_rights:
            operations = lent_kinds, lent_lefts, lent_rights
            return _row(_library.razovinto_row, operations, numbers, marks, codes, plain)


def row_of_records(
    records: Any, numbers: Any = None, marks: Any = None, codes: Any = None, plain: bool = False
) -> Row:
    """The same row from a list of records, as a host keeps them: an array of `Operation`, which is lent with no copy,
    or any other list of kinds, lefts and rights, as [("sum", 270, 11), (3, 7, 0)].

    Refused with 7, no operation or above 4,096, then 19, a lent list that is shorter than the row.
    """
    with _lend_records(records) as lent:
        return _row(_library.razovinto_row_of_records, [lent], numbers, marks, codes, plain)


# ---- Fields


def _field(numbers: Any) -> Tuple[Any, Any]:
    """A field that is given as one thing, as numbers and marks."""
    if isinstance(numbers, Field):
        return numbers
    if _is_masked(numbers):
        numpy = sys.modules["numpy"]
        return numbers.filled(0), numpy.ma.getmaskarray(numbers)
    view = _view(numbers, _NUMBERS)
    if view is not None:
        return numbers, bytes(view.nbytes // 8)
    values = _listed("numbers", numbers)
    return [0 if value is OVERFLOWED else value for value in values], bytes(value is OVERFLOWED for value in values)


def scan(numbers: Any, marks: Any = None) -> Range:
    """The range of a field that has no overflowed place.

    A field is two lists, numbers and marks: a mark is 0 where the number fits, 1 where it is overflowed and the number
    0. Without marks it is one thing: a Field, a masked array whose masked places are the overflowed ones (its numbers
    are copied), or a list in which they are OVERFLOWED.

    Refused with 6, lists that differ in length, then 14, a field without a value; then at the earliest place that has
    a fault with 15, a mark that isn't 0 or 1, or 1 with a number not 0; or 3, an overflowed place.
    """
    if marks is None:
        numbers, marks = _field(numbers)
    answer = _RangeAnswer()
    with _lend("numbers", numbers, _NUMBERS) as lent_numbers, _lend("marks", marks, _BYTES) as lent_marks:
        refusal = _library.razovinto_scan(*lent_numbers.parameters, *lent_marks.parameters, *_answer(answer))
    if refusal:
        raise Refused(refusal, answer.place)
    return Range(answer.least, answer.greatest, answer.width)


# ---- Blocks


def sound(block: Any) -> bool:
    """True where a block is sound; otherwise refused, with 16, it isn't 512 bytes, then 17, its check is wrong, then
    18, its layout is."""
    with _lend("block", block, _BYTES) as lent:
        refusal = _library.razovinto_sound(*lent.parameters)
    if refusal:
        raise Refused(refusal)
    return True


def read(block: Any, numbers: Any = None, marks: Any = None) -> Block:
    """A block's number, its count of values, and these in two lists.

    Lists that are lent as `numbers` and `marks` are written up to the count, stay as they are past it, and stand in the
    answer. Where none is lent, the answer has an array of numbers, or bytes of marks, of just that count.

    Refused as `sound` is, then with 19 where a lent list has fewer elements than the block has values; both lists stay
    as they are then.
    """
    own_numbers = array("Q", [0]) * BLOCK_VALUES if numbers is None else numbers
    own_marks = bytearray(BLOCK_VALUES) if marks is None else marks
    answer = _BlockAnswer()
    with _lend("block", block, _BYTES) as lent_block, _lend_to_write("numbers", own_numbers, _NUMBERS) as lent_numbers:
        with _lend_to_write("marks", own_marks, _BYTES) as lent_marks:
            _see_apart(lent_block, lent_numbers, lent_marks)
            lists = (*lent_block.parameters, *lent_numbers.parameters, *lent_marks.parameters)
            refusal = _library.razovinto_read(*lists, *_answer(answer))
    if refusal:
        raise Refused(refusal, answer.place)
    count = answer.count
    return Block(
        answer.number,
        count,
        own_numbers[:count] if numbers is None else numbers,
        bytes(own_marks[:count]) if marks is None else marks,
    )


def read_run(run: Any, plain: bool = False) -> Any:
    """The values of all blocks of a run, one block after the other.

    Where numpy is, they come as a masked array of uint64 whose mask is the overflowed places; its fill value is 0.
    Where it isn't, or `plain` is true, as a Field of an array of numbers and bytes of marks.

    Refused with 16 at place 0 where the run's length is no multiple of 512, and as `sound` is at the position of the
    first bad block; no values come then. `read` reads the blocks beside a bad one.
    """
    with _lend("run", run, _BYTES) as lent:
        if lent.count % BLOCK_SIZE:
            raise Refused(int(Refusal.BLOCK_LENGTH))
        room = lent.count // BLOCK_SIZE * BLOCK_VALUES
        numbers, marks = array("Q", [0]) * room, bytearray(room)
        total = _read_blocks(lent, numbers, marks)
    del numbers[total:], marks[total:]
    numpy = None if plain else _numpy()
    if numpy is None:
        return Field(numbers, bytes(marks))
    mask = numpy.frombuffer(marks, numpy.bool_)
    return numpy.ma.MaskedArray(numpy.frombuffer(numbers, numpy.uint64), mask=mask, fill_value=0)


def _read_blocks(run: _Lent, numbers: array, marks: bytearray) -> int:
    """Reads each block behind the one before it, and gives how many values there are."""
    answer, total = _BlockAnswer(), 0
    with _lend_to_write("numbers", numbers, _NUMBERS) as to_numbers, _lend_to_write("marks", marks, _BYTES) as to_marks:
        for position in range(run.count // BLOCK_SIZE):
            refusal = _library.razovinto_read(
                run.address + BLOCK_SIZE * position,
                BLOCK_SIZE,
                to_numbers.address + 8 * total,
                to_numbers.count - total,
                to_marks.address + total,
                to_marks.count - total,
                *_answer(answer),
            )
            if refusal:
                raise Refused(refusal, position)
            total += answer.count
    return total


def write(first: int, numbers: Any, marks: Any = None, run: Any = None) -> Union[bytearray, int]:
    """A field's blocks, numbered from `first` on; each but the last has 55 values.

    A field is given as to `scan`, and what `read_run` gives is one. An overflowed value is written as every other.

    Where no run is lent, the answer is a bytearray of the blocks. A run that is lent has them in its first bytes, 512
    for each 55 values that are begun, and stays as it is past them; the answer is how many bytes were written.

    Refused with 6, lists that differ in length, then 14, a field without a value; then 15 at the earliest place with a
    mark that isn't 0 or 1, or 1 with a number not 0; then 19, a lent run shorter than the blocks, and 21, a block's
    number above 2^32 - 1. A lent run stays as it is then.
    """
    first = _number("first", first, 0, _MOST_BLOCK_NUMBER)
    if marks is None:
        numbers, marks = _field(numbers)
    answer = _WrittenAnswer()
    with _lend("numbers", numbers, _NUMBERS) as lent_numbers, _lend("marks", marks, _BYTES) as lent_marks:
        blocks = (lent_numbers.count + BLOCK_VALUES - 1) // BLOCK_VALUES
        own_run = bytearray(BLOCK_SIZE * blocks) if run is None else run
        with _lend_to_write("run", own_run, _BYTES) as lent_run:
            _see_apart(lent_numbers, lent_run)
            _see_apart(lent_marks, lent_run)
            lists = (*lent_numbers.parameters, *lent_marks.parameters, *lent_run.parameters)
            refusal = _library.razovinto_write(first, *lists, *_answer(answer))
    if refusal:
        raise Refused(refusal, answer.place)
    return own_run if run is None else answer.length


def search(run: Any) -> Optional[Found]:
    """The first overflowed value of a run of blocks, or None. Each block is looked at whole before its marks count.

    Refused with 16 at place 0 where the run's length is no multiple of 512; or as `sound` is, at the position of the
    first bad block, where no overflowed value comes before it.
    """
    answer = _FoundAnswer()
    with _lend("run", run, _BYTES) as lent:
        refusal = _library.razovinto_search(*lent.parameters, *_answer(answer))
    if refusal:
        raise Refused(refusal, answer.place)
    return Found(answer.position, answer.within) if answer.found else None


# ---- Levels


def _ground(count: int, ground: Any) -> Any:
    """The ground marks of so many readings; where none are given, all is air."""
    return bytes(count) if ground is None else ground


def level_scan(readings: Any, ground: Any = None) -> Extent:
    """The least and the greatest reading of a level.

    A level is two lists, readings and ground marks: a mark is 0 in air and 1 below ground, and without marks all is
    air. Readings under the ground count like the others. The two zeros are equal.

    Refused with 6, lists that differ in length, then 14, a level without a reading; then at the earliest place that has
    a fault with 15, a mark that isn't 0 or 1, or 22, a reading that is NaN or infinite.
    """
    answer, extent = _LevelAnswer(), (ctypes.c_float * 2)()
    with _lend("readings", readings, _FLOATS) as lent_readings:
        with _lend("ground", _ground(lent_readings.count, ground), _BYTES) as lent_ground:
            lists = (*lent_readings.parameters, *lent_ground.parameters, extent, 2)
            refusal = _library.razovinto_level_scan(*lists, *_answer(answer))
    if refusal:
        raise Refused(refusal, answer.place)
    return Extent(*extent)


def level_to_field(readings: Any, ground: Any = None, numbers: Any = None, marks: Any = None) -> Field:
    """A level turned into a field: each reading's value, all marks 0. Negative zero gives 0.

    Lists that are lent as `numbers` and `marks` are written up to the level's length, and stay as they are past it. The
    answer has them up to that length: themselves, or of a longer one that part in its own memory. Where none is lent,
    it has an array of numbers, or bytes of marks.

    Refused with 6, lists that differ in length, 14, a level without a reading, 19, a lent list that is shorter than the
    level; then at the earliest place that has a fault with 15, a mark that isn't 0 or 1, 22, a reading that is NaN or
    infinite, or 23, one that is no whole number from 0 to 16,777,215. Lent lists stay as they are then.
    """
    answer = _LevelAnswer()
    with _lend("readings", readings, _FLOATS) as lent_readings:
        count = lent_readings.count
        own_numbers = array("Q", [0]) * count if numbers is None else numbers
        own_marks = bytearray(count) if marks is None else marks
        with _lend("ground", _ground(count, ground), _BYTES) as lent_ground:
            level = (*lent_readings.parameters, *lent_ground.parameters)
            with _lend_to_write("numbers", own_numbers, _NUMBERS) as lent_numbers:
                with _lend_to_write("marks", own_marks, _BYTES) as lent_marks:
                    _see_apart(lent_readings, lent_numbers, lent_marks)
                    _see_apart(lent_ground, lent_numbers, lent_marks)
                    field = (*lent_numbers.parameters, *lent_marks.parameters)
                    refusal = _library.razovinto_level_to_field(*level, *field, *_answer(answer))
    if refusal:
        raise Refused(refusal, answer.place)
    return Field(_first(count, own_numbers), bytes(own_marks) if marks is None else _first(count, marks))
