"""S-expressions (RFC 9804) read, written, changed and compared by a library
whose every answer is proved.

A text comes in one of four forms and becomes a `Sheet`: the canonical octets
of a tree, with a record for each of its nodes.

    >>> from etglavino import Form, read
    >>> sheet = read(Form.ADVANCED, b'(abc [x]"")')
    >>> sheet.canonical
    b'(3:abc[1:x]0:)'
    >>> sheet.hint(2), sheet.data(1)
    (b'x', b'abc')
    >>> sheet.replace(Form.ADVANCED, b'"hi"', 1).write(Form.ADVANCED)
    b'(hi [x]"")'
    >>> sheet.insert(Form.ADVANCED, b"(d e)", 0, 1).remove(1).canonical
    b'((1:d1:e)[1:x]0:)'

A canonical text that comes in scraps, from a slow line, is fed to `Pieces` as
it comes, or read by `read_pieces`.

    >>> from etglavino import read_pieces
    >>> read_pieces([b"(3:a", b"", b"bc)"]).data(1)
    b'abc'

Sheets wait in a spool, which stands a power cut: `SpoolFile` keeps one in a
file, and `spool_open`, `spool_add` and `Adding` work in octets of the caller's.

    >>> from etglavino import spool_add, spool_open
    >>> area = bytearray(32)
    >>> spool_add(area, sheet.canonical)
    >>> spool_open(area, 0)
    Opened(count=1, start=1, end=15)

Whatever is bad raises `Refusal`, which has a number and a sentence.

A wheel carries the library. In the repository it is found in the target folder
and built by `rt` where it is missing; or it is in the folder that the environment
variable ETGLAVINO_LIB names. A C compiler makes a shared object of it, once.
"""

from ._entries import MAX_CANONICAL, MAX_DEPTH, MAX_NODES, MAX_SOURCE
from ._entries import Form, Octets, Refusal
from ._extract import extract
from ._library import LibraryMissing
from ._pieces import Pieces, read_pieces
from ._run import Run, split
from ._sheet import Node, Sheet, insert, read, remove, replace, same, write
from ._spool import Adding, Opened, spool_add, spool_open, spool_sheets, spool_shown
from ._spool_file import SpoolFile, SpoolInUse
from ._values import Line, NoLine, Total, Value, Week
from ._values import line, line_total, octets, total, value, week

__all__ = [
    "Adding",
    "MAX_CANONICAL",
    "MAX_DEPTH",
    "MAX_NODES",
    "MAX_SOURCE",
    "Form",
    "LibraryMissing",
    "Line",
    "NoLine",
    "Node",
    "Octets",
    "Opened",
    "Pieces",
    "Refusal",
    "Run",
    "Sheet",
    "SpoolFile",
    "SpoolInUse",
    "extract",
    "insert",
    "read",
    "read_pieces",
    "remove",
    "replace",
    "same",
    "split",
    "spool_add",
    "spool_open",
    "spool_sheets",
    "spool_shown",
    "Total",
    "Value",
    "Week",
    "line",
    "line_total",
    "octets",
    "total",
    "value",
    "week",
    "write",
]
