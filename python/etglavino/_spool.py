"""A spool: sheets that wait in lent octets, which stand a power cut after any
octet that is stored."""

from __future__ import annotations

import ctypes
import functools
import mmap
from typing import Any, NamedTuple, Union

from ._entries import Octets, Refusal, check, count_of, octets_of
from ._library import load

Area = Union[bytearray, mmap.mmap, memoryview]
"""Octets that can be stored to."""

State = ctypes.c_uint64 * 4


class Opened(NamedTuple):
    """What opening an area tells."""

    count: int
    """How many entries there are."""
    start: int
    """Where the sheet asked for starts in the area."""
    end: int
    """Where it ends. Both are 0 if there is none such."""


def spool_open(area: Octets | Area, number: int = 0) -> Opened:
    """Opens an area at the sheet of a number from 0. Raises `Refusal` 10 where
    the area is damaged. An area of zeros is an empty spool."""
    count, start, end = ctypes.c_size_t(), ctypes.c_size_t(), ctypes.c_size_t()
    out = (count_of(number), count, start, end)
    check(_lend(_library().etg_spool_open, area, after=out))
    return Opened(count.value, start.value, end.value)


def spool_shown(area: Octets | Area, number: int) -> bytes:
    """The octets of the sheet of a number from 0: none if the area is damaged or
    there is none such."""
    octets = octets_of(area)
    try:
        opened = spool_open(octets, number)
    except Refusal:
        return b""
    return octets[opened.start : opened.end]


def spool_sheets(area: Octets | Area) -> list[bytes]:
    """All sheets of an area, in order. Raises `Refusal` 10 where it is damaged.
    The area is opened once, which judges every entry; what is left is to go from
    one to the next."""
    octets = octets_of(area)
    sheets, at = [], 0
    for _ in range(spool_open(octets).count):
        length, bits = 0, 0
        while octets[at] >= 128:
            length, bits, at = length | (octets[at] - 128) << bits, bits + 7, at + 1
        length, at = length | octets[at] << bits, at + 1
        sheets.append(octets[at : at + length])
        at += length
    return sheets


def spool_add(area: Area, sheet: Octets) -> None:
    """Adds a sheet, in place, to an area that nobody sees meanwhile; one that has
    to stand a cut is added to by `Adding`. Raises `Refusal` 10, 7 or 6, the
    first that applies; the area then holds what it held."""
    canonical = octets_of(sheet)
    size = len(canonical)
    check(_lend(_library().etg_spool_add, area, after=(canonical, size, size), stores=True))


class Adding:
    """An addition under way, one octet store at a time. Whichever store a cut
    comes behind, opening shows the old entries alone or with the new one.

    Making one only makes the checks: it raises `Refusal` 10, 7 or 6, the first
    that applies."""

    def __init__(self, area: Octets | Area, sheet: Octets) -> None:
        self._state = State()
        self._sheet = octets_of(sheet)
        size = len(self._sheet)
        lent = (self._sheet, size, size, self._state)
        check(_lend(_library().etg_spool_add_start, area, after=lent))

    def step(self, area: Area) -> bool:
        """Stores one octet. Whether the addition is done, which is told with its
        last store; one that is done stores nothing."""
        return self._asked(_library().etg_spool_add_step, area, stores=True)

    def commits(self, area: Octets | Area) -> bool:
        """Whether the next step makes the last store, which shows the entry. An
        area on a disk is synced before it and after it."""
        return self._asked(_library().etg_spool_add_commits, area, stores=False)

    def _asked(self, function: Any, area: Octets | Area, stores: bool) -> bool:
        lent = (self._sheet, len(self._sheet))
        return _lend(function, area, (self._state,), lent, stores) == 1


def _lend(
    function: Any,
    area: Octets | Area,
    before: tuple[Any, ...] = (),
    after: tuple[Any, ...] = (),
    stores: bool = False,
) -> int:
    """What the function returns of an area, which it is lent where it lies if it
    can be stored to; a TypeError if it stores and the area cannot. Nothing keeps
    hold of the area afterwards, not even a traceback, so that a map can be
    closed."""
    octets: Any
    with memoryview(area) as view:
        if not view.readonly and view.c_contiguous:
            octets = (ctypes.c_char * view.nbytes).from_buffer(view)
        elif stores:
            raise TypeError("the area cannot be stored to")
        else:
            octets = octets_of(area)
        try:
            return int(function(*before, octets, view.nbytes, *after))
        finally:
            del octets


@functools.cache
def _library() -> ctypes.CDLL:
    """The library, with the types of the spool's functions declared."""
    library = load()
    count, octets = ctypes.c_size_t, ctypes.c_char_p
    out, state = ctypes.POINTER(ctypes.c_size_t), ctypes.POINTER(ctypes.c_uint64)
    area, sheet = [octets, count], [octets, count]
    functions = {
        "etg_spool_open": [*area, count, out, out, out],
        "etg_spool_add_start": [*area, *sheet, count, state],
        "etg_spool_add_step": [state, *area, *sheet],
        "etg_spool_add_commits": [state, *area, *sheet],
        "etg_spool_add": [*area, *sheet, count],
    }
    for name, arguments in functions.items():
        function = getattr(library, name)
        function.argtypes = arguments
        function.restype = ctypes.c_uint32
    return library
