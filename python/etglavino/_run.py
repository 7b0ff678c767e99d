"""Sheets written back to back: where the first of them ends, and all of them one
after another."""

from __future__ import annotations

import ctypes
import functools
from typing import Any, Iterator, Optional

from ._entries import Octets, octets_of
from ._library import load


def split(run: Octets) -> Optional[int]:
    """How many octets of a run of sheets are its first one; None where none
    begins. The sheet may have any size and depth: whether it fits the limits is
    for whoever reads it to say.

    >>> split(b"(1:a)0:"), split(b"(1:a")
    (5, None)
    """
    octets = octets_of(run)
    return _split()(octets, len(octets)) or None


class Run:
    """The sheets of a run, one after another; `rest` has what is left where none
    begins, nothing if the run is whole.

    >>> run = Run(b"(1:a)0:2:x")
    >>> list(run), run.rest
    ([b'(1:a)', b'0:'], b'2:x')
    """

    def __init__(self, run: Octets) -> None:
        self._octets = octets_of(run)
        self._at = 0

    def __iter__(self) -> Iterator[bytes]:
        return self

    def __next__(self) -> bytes:
        # What is left is lent where it lies: a copy for each sheet would take
        # time that grows with the square of their number.
        start = ctypes.cast(ctypes.c_char_p(self._octets), ctypes.c_void_p).value or 0
        taken = _split()(start + self._at, len(self._octets) - self._at)
        if taken == 0:
            raise StopIteration
        sheet = self._octets[self._at : self._at + taken]
        self._at += taken
        return sheet

    @property
    def rest(self) -> bytes:
        """The octets that no sheet has been taken from."""
        return self._octets[self._at :]


@functools.cache
def _split() -> Any:
    function = load().etg_split
    function.argtypes = [ctypes.c_void_p, ctypes.c_size_t]
    function.restype = ctypes.c_size_t
    return function
