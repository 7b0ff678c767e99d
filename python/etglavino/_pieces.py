"""A canonical text that comes in pieces, some of them empty."""

from __future__ import annotations

import ctypes
import functools
from collections.abc import Iterable

from ._entries import MAX_CANONICAL, MAX_NODES, RECORD, Octets, _taken, check, octets_of
from ._library import load
from ._sheet import Sheet

State = ctypes.c_uint64 * 10

NUMBERS = MAX_NODES * RECORD
"""Numbers of a table that is enough for any sheet."""


class Pieces:
    """A canonical text on its way. Its end is what reading the whole gives,
    wherever it was cut.

    >>> pieces = Pieces()
    >>> for piece in (b"(5:sh", b"", b"ift3:ann)"):
    ...     print(pieces.feed(piece))
    5
    5
    14
    >>> pieces.end().data(2)
    b'ann'
    """

    def __init__(self, pieces: Iterable[Octets] = ()) -> None:
        self._state = State()
        self._canonical = ctypes.create_string_buffer(MAX_CANONICAL)
        self._taken = 0
        _library().etg_pieces_start(self._state, MAX_CANONICAL, NUMBERS)
        for piece in pieces:
            self.feed(piece)

    def feed(self, piece: Octets) -> int:
        """Takes a piece; how many octets have been taken so far. The count stops
        at 32,769, and then the end refuses with 2, whatever else comes."""
        octets, taken = octets_of(piece), ctypes.c_size_t()
        number = _library().etg_pieces_feed(
            self._state, octets, len(octets), self._canonical, MAX_CANONICAL, NUMBERS, taken
        )
        check(number)
        self._taken = taken.value
        return self._taken

    @property
    def taken(self) -> int:
        """How many octets have been taken so far; the count stops at 32,769."""
        return self._taken

    @property
    def octets(self) -> bytes:
        """The octets taken so far, the first 16,384 of them at most. Nothing has
        been said yet of whether they begin a sheet."""
        return self._canonical.raw[: self._taken]

    def end(self) -> Sheet:
        """The sheet of what was fed. More may be fed afterwards, and another end
        then speaks of it all. Refusals, the first that applies: 2 to 6, with the
        place that reading the whole tells."""
        # Lent only now: until an end accepts, the library is told its size alone.
        table = (ctypes.c_uint32 * NUMBERS)()
        length, nodes, place = ctypes.c_size_t(), ctypes.c_size_t(), ctypes.c_size_t()
        number = _library().etg_pieces_end(
            self._state, self._canonical, MAX_CANONICAL, table, NUMBERS, length, nodes, place
        )
        check(number, place.value)
        return Sheet._of(*_taken(self._canonical, length, table, nodes))


def read_pieces(pieces: Iterable[Octets]) -> Sheet:
    """The sheet of a canonical text in pieces: a list of them, a file that is open
    for octets, or whatever else gives them one by one. Refusals, the first that
    applies: 2 to 6.

    >>> read_pieces([b"(1:", b"a)"]).canonical
    b'(1:a)'
    """
    return Pieces(pieces).end()


@functools.cache
def _library() -> ctypes.CDLL:
    """The library, with the types of the functions for pieces declared."""
    library = load()
    count, octets = ctypes.c_size_t, ctypes.c_char_p
    numbers, out = ctypes.POINTER(ctypes.c_uint32), ctypes.POINTER(ctypes.c_size_t)
    state = ctypes.POINTER(ctypes.c_uint64)
    functions = {
        "etg_pieces_start": ([state, count, count], None),
        "etg_pieces_feed": ([state, octets, count, octets, count, count, out], ctypes.c_uint32),
        "etg_pieces_end": (
            [state, octets, count, numbers, count, out, out, out],
            ctypes.c_uint32,
        ),
    }
    for name, (arguments, result) in functions.items():
        function = getattr(library, name)
        function.argtypes = arguments
        function.restype = result
    return library
