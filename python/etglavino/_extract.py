"""Extracts for foremen: what a sheet shows of itself."""

from __future__ import annotations

import ctypes
from typing import Union

from ._entries import RECORD, Octets, Table, _room, _taken, check
from ._library import load
from ._sheet import Sheet, _canonical


def extract(sheet: Union[Sheet, Octets]) -> Sheet:
    """The sheet, or canonical octets, with every list whose first element is
    the unhinted string `private` replaced by `()`. A sheet's own records are
    looked at too. Refusal: 7.

    >>> from etglavino import read
    >>> extract(read(3, b'(shift (private sick) "8")')).canonical
    b'(5:shift()1:8)'
    """
    canonical = _canonical(sheet)
    octets, numbers = _room(len(canonical))
    length, nodes = ctypes.c_size_t(), ctypes.c_size_t()
    lent = (octets, len(octets), numbers, len(numbers), length, nodes)
    own = (canonical, len(canonical), len(canonical))
    if isinstance(sheet, Sheet):
        rows: Table = sheet._table
        number = load().etg_extract_own(*own, rows, len(rows), len(rows) // RECORD, *lent)
    else:
        number = load().etg_extract(*own, *lent)
    check(number)
    return Sheet._of(*_taken(octets, length, numbers, nodes))
