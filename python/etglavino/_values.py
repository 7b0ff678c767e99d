"""Values with a type, and hours.

A string whose hint is `f32`, `f64` or `int` is a number; any other is its octets.

    >>> from etglavino import Form, Line, line, read, total, value, week
    >>> sheet = read(Form.ADVANCED, b'([int]#ff7f# [f64]#3ff8000000000000# abc)')
    >>> value(sheet, 1), value(sheet, 2), value(sheet, 3)
    (-129, 1.5, b'abc')
    >>> total(Line(ordinary=7.25, night=0.5, holiday=0.0))
    Total(quarters=31, hours=7.75)
    >>> total(Line.of_quarters(1, 0, 0)).fraction
    Fraction(1, 4)
"""

from __future__ import annotations

import ctypes
import functools
import struct
from dataclasses import dataclass
from fractions import Fraction
from numbers import Real
from typing import Any, Literal, Union

from ._entries import RECORD, Refusal, count_of
from ._library import load
from ._sheet import Sheet

Value = Union[float, int, bytes]
"""A single or a double, a whole number, or raw octets."""

Hint = Literal["f32", "f64", "int"]
"""What tells a number's type."""

_SINGLE, _DOUBLE, _WHOLE = 1, 2, 3
_KINDS = {"f32": _SINGLE, "f64": _DOUBLE, "int": _WHOLE}


@dataclass(frozen=True)
class Line:
    """A shift line: hours, each 0 to 24 in whole quarters."""

    ordinary: float
    night: float
    holiday: float

    @classmethod
    def of_quarters(cls, ordinary: int, night: int, holiday: int) -> Line:
        """The line of so many quarters of an hour. Like any line that was made
        up it may be none: `total` says so."""
        return cls(*(_double(Fraction(count, 4)) for count in (ordinary, night, holiday)))


@dataclass(frozen=True)
class Total:
    """A sum of hours, exact."""

    quarters: int
    """Quarters of an hour."""
    hours: float
    """The double that is exactly a quarter of them."""

    @property
    def fraction(self) -> Fraction:
        """The hours, as a fraction."""
        return Fraction(self.quarters, 4)


@dataclass(frozen=True)
class Week:
    """The sum of a list of lines."""

    lines: int
    """How many lines there are."""
    total: Total


class NoLine(Refusal):
    """Refusal 12 of a list of lines. `node` is the first element that is no
    line, or the node asked for where it is a string."""

    def __init__(self, node: int) -> None:
        super().__init__(12)
        self.node = node
        # What a copy is made of.
        self.args = (node,)


def value(sheet: Sheet, node: int) -> Value:
    """A node's value. Refusals, the first that applies: 7, 8, 11."""
    kind, single, double = ctypes.c_uint32(), ctypes.c_float(), ctypes.c_double()
    whole, start, end = ctypes.c_int64(), ctypes.c_size_t(), ctypes.c_size_t()
    _check(_functions().etg_value(*_lent(sheet, node), kind, single, double, whole, start, end))
    if kind.value == _SINGLE:
        return single.value
    if kind.value == _DOUBLE:
        return double.value
    if kind.value == _WHOLE:
        return whole.value
    return sheet.canonical[start.value : end.value]


def octets(hint: Hint, number: Union[float, int, Fraction]) -> bytes:
    """The data octets of a number of a type. NaN and infinity: refusal 11. A
    number that the type does not hold exactly is a ValueError."""
    kind = _KINDS[hint]
    single, double, whole = 0.0, 0.0, 0
    if kind == _WHOLE:
        if not isinstance(number, int) or not -(2**63) <= number < 2**63:
            raise ValueError(f"{number!r} is no whole number of 64 bits")
        whole = number
    elif kind == _DOUBLE:
        double = _double(number)
    else:
        single = _single(_double(number))
    out, written = ctypes.create_string_buffer(8), ctypes.c_size_t()
    _check(
        _functions().etg_put_value(
            kind, single, double, whole, 0, 0, b"", 0, out, len(out), written
        )
    )
    return out.raw[: written.value]


def line(sheet: Sheet, node: int) -> Line:
    """A node's shift line. Refusals, the first that applies: 7, 8, 12."""
    return _line(sheet, node)[0]


def line_total(sheet: Sheet, node: int) -> Total:
    """The total of a node's shift line. Refusals as those of `line`."""
    return _line(sheet, node)[1]


def total(made: Line) -> Total:
    """The total of a line that was made up. Refusal: 12. Hours may be fractions
    too; what no double holds exactly is a ValueError."""
    quarters, hours = ctypes.c_uint32(), ctypes.c_double()
    fields = (_double(field) for field in (made.ordinary, made.night, made.holiday))
    _check(_functions().etg_total(*fields, quarters, hours))
    return Total(quarters.value, hours.value)


def week(sheet: Sheet, node: int) -> Week:
    """The sum of a list of lines. Refusals, the first that applies: 7, 8, and
    12, which is a `NoLine`."""
    lines, quarters = ctypes.c_size_t(), ctypes.c_uint32()
    hours, bad = ctypes.c_double(), ctypes.c_size_t()
    number = _functions().etg_week(*_lent(sheet, node), lines, quarters, hours, bad)
    if number == 12:
        raise NoLine(bad.value)
    _check(number)
    return Week(lines.value, Total(quarters.value, hours.value))


def _line(sheet: Sheet, node: int) -> tuple[Line, Total]:
    fields = [ctypes.c_double() for _ in range(3)]
    quarters, hours = ctypes.c_uint32(), ctypes.c_double()
    _check(_functions().etg_line(*_lent(sheet, node), *fields, quarters, hours))
    return Line(*(field.value for field in fields)), Total(quarters.value, hours.value)


def _double(number: Union[float, int, Fraction]) -> float:
    """The number, if a double holds it. NaN stays, for the library to refuse."""
    if not isinstance(number, Real):
        raise TypeError(f"{number!r} is no number")
    try:
        held: Union[float, None] = float(number)
    except OverflowError:
        held = None
    if held is None or held != number and number == number:
        raise ValueError("no double holds this number exactly")
    return held


def _single(number: float) -> float:
    """The number, if a single holds it."""
    try:
        (held,) = struct.unpack(">f", struct.pack(">f", number))
    except OverflowError:
        held = None
    if held != number and number == number:
        raise ValueError(f"{number!r} is no single")
    return number


def _lent(sheet: Sheet, node: int) -> tuple[Any, ...]:
    canonical, table = sheet.canonical, sheet._table
    nodes = len(table) // RECORD
    return canonical, len(canonical), len(canonical), table, len(table), nodes, count_of(node)


def _check(number: int) -> None:
    if number != 0:
        raise Refusal(number)


@functools.cache
def _functions() -> ctypes.CDLL:
    """The library, with these functions' types declared."""
    library = load()
    number, count, octet = ctypes.c_uint32, ctypes.c_size_t, ctypes.c_char_p
    single, double, whole = ctypes.c_float, ctypes.c_double, ctypes.c_int64
    to = ctypes.POINTER
    lent = [octet, count, count, to(number), count, count, count]
    declared = {
        "etg_value": [*lent, to(number), to(single), to(double), to(whole), to(count), to(count)],
        "etg_put_value": [
            number, single, double, whole, count, count, octet, count, octet, count, to(count),
        ],
        "etg_line": [*lent, to(double), to(double), to(double), to(number), to(double)],
        "etg_total": [double, double, double, to(number), to(double)],
        "etg_week": [*lent, to(count), to(number), to(double), to(count)],
    }  # fmt: skip
    for name, arguments in declared.items():
        function = getattr(library, name)
        function.argtypes = arguments
        function.restype = number
    return library
