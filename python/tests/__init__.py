"""Tests of the package. Expected values are those of docs/SPECIFICATION.md, which
"S 16.1" cites, or worked out from it by hand."""

from etglavino import Node

LIST = b"(3:abc[1:x]0:)"
"""The list of S 16.1."""

LIST_NODES = (
    Node(2, 0, 14, 3, 0, 0, 1, 13, 0),
    Node(0, 1, 6, 1, 0, 0, 3, 6, 0),
    Node(1, 6, 13, 1, 9, 10, 13, 13, 0),
)
"""Its records, as S 16.1 has them."""


def nested(depth: int) -> bytes:
    """That many lists, each the only element of the one around it."""
    return b"(" * depth + b")" * depth


def empties(count: int) -> bytes:
    """A list of that many empty strings."""
    return b"(" + b"0:" * count + b")"


def verbatim(count: int) -> bytes:
    """A string of that many octets in canonical form."""
    return b"%d:" % count + b"v" * count
