"""The library's functions over Python's values: octets and a table of numbers
come in, octets and a table go out, a refusal is raised."""

from __future__ import annotations

import ctypes
from collections.abc import Sequence
from enum import IntEnum
from typing import Any, ClassVar, Union

from ._library import load

MAX_SOURCE = 32_768
"""Most octets of a source."""
MAX_CANONICAL = 16_384
"""Most octets of a canonical form."""
MAX_NODES = MAX_CANONICAL // 2
"""Most nodes that a sheet can have, since each takes two octets or more; there is
no limit of its own."""
MAX_DEPTH = 128
"""How deep lists may nest; an outermost list is 1."""
RECORD = 9
"""Numbers to a node."""

Octets = Union[bytes, bytearray, memoryview]
"""What is taken where octets are asked for."""

Table = ctypes.Array[ctypes.c_uint32]
"""Nine numbers to a node, as the library is lent them."""


class Form(IntEnum):
    """How a text is spelled."""

    CANONICAL = 1
    """Lengths and octets, one way for each tree."""
    BASIC = 2
    """Canonical, or base-64 of it in braces."""
    ADVANCED = 3
    """What people write."""
    TERMINAL_1997 = 4
    """What the terminals of 1997 send: advanced, with base-64 of one
    tree's canonical form in braces wherever a value may stand. It is read and never written."""


class Refusal(ValueError):
    """Something was refused. `number` is the one that every interface of the
    library gives it; `sentence` says what is wrong. `place` is, with number 3 in
    the canonical form, and in the basic form where the text does not begin with
    `{`, how many octets of the text begin some canonical form, of any size; else
    it is 0."""

    SENTENCES: ClassVar[dict[int, str]] = {
        1: "the form is not 1 to 4, or in writing not 1 to 3",
        2: "the source has over 32,768 octets",
        3: "the source is not in the form's language",
        4: "lists nest over 128 deep",
        5: "over 8,192 nodes, more than the octets of a sheet hold",
        6: "over 16,384 canonical octets, or over the room that there is",
        7: "not one tree's canonical form with its own table, or a place outside what is lent",
        8: "there is no node of that number",
        9: "not a list, no such place in it, or node 0 to be removed",
        10: "the area of the spool is damaged",
        11: "not a value of its type, or not finite",
        12: "not a line of three hours in whole quarters",
    }
    """Sentences by number."""

    def __init__(self, number: int, place: int = 0) -> None:
        super().__init__(number, place)
        self.number = number
        self.place = place
        self.sentence = self.SENTENCES[number]

    def __str__(self) -> str:
        return f"refused {self.number}: {self.sentence}"


def octets_of(value: Octets) -> bytes:
    """A value's octets. A string or a number has none, and is a TypeError."""
    return value if isinstance(value, bytes) else memoryview(value).tobytes()


def table_of(numbers: Sequence[int]) -> Table:
    """A table that the library can be lent."""
    if not all(0 <= number < 2**32 for number in numbers):
        raise ValueError("a number of a record is not in 0 to 2**32 - 1")
    return (ctypes.c_uint32 * len(numbers))(*numbers)


def read(form: int, source: bytes) -> tuple[bytes, Table]:
    """Canonical octets of a text and their table."""
    canonical, table = _room(3 * len(source))
    length, nodes, place = ctypes.c_size_t(), ctypes.c_size_t(), ctypes.c_size_t()
    number = load().etg_read(
        _form(form), source, len(source), canonical, len(canonical),
        table, len(table), length, nodes, place,
    )  # fmt: skip
    check(number, place.value)
    return _taken(canonical, length, table, nodes)


def write(form: int, canonical: bytes) -> bytes:
    """A sheet's text in a form."""
    # Room enough in each: the two more are for braces around the smallest.
    out = ctypes.create_string_buffer(2 * len(canonical) + 2)
    written = ctypes.c_size_t()
    number = load().etg_write(
        _form(form), canonical, len(canonical), len(canonical), out, len(out), written
    )
    check(number)
    return out.raw[: written.value]


def replace(
    form: int, text: bytes, canonical: bytes, table: Table, node: int
) -> tuple[bytes, Table]:
    """Canonical octets and table with one node replaced by a text's tree."""
    return _changed(
        load().etg_replace, [_form(form), text, len(text)], 3 * len(text), canonical, table, [node]
    )


def insert(
    form: int, text: bytes, canonical: bytes, table: Table, node: int, k: int
) -> tuple[bytes, Table]:
    """Canonical octets and table with a text's tree as element k of a list."""
    return _changed(
        load().etg_insert, [_form(form), text, len(text)], 3 * len(text), canonical, table, [node, k]
    )


def remove(canonical: bytes, table: Table, node: int) -> tuple[bytes, Table]:
    """Canonical octets and table without a node."""
    return _changed(load().etg_remove, [], 0, canonical, table, [node])


def _changed(
    call: Any, text: list[Any], more: int, canonical: bytes, table: Table, where: list[int]
) -> tuple[bytes, Table]:
    """A copy of the sheet changed, in room for so many octets more. Only what has a text tells a place."""
    octets, numbers = _room(len(canonical) + more, len(canonical), len(table))
    ctypes.memmove(octets, canonical, len(canonical))
    ctypes.memmove(numbers, table, ctypes.sizeof(table))
    length, nodes, told = ctypes.c_size_t(), ctypes.c_size_t(), ctypes.c_size_t()
    number = call(
        *text, octets, len(octets), numbers, len(numbers), len(canonical), len(table) // RECORD,
        *map(count_of, where), length, nodes, *([told] if text else []),
    )  # fmt: skip
    check(number, told.value)
    return _taken(octets, length, numbers, nodes)


def same(a: bytes, b: bytes, default_hint: bytes) -> bool:
    """Whether two sheets are the same, by shape, data and hints."""
    answer = ctypes.c_uint32()
    number = load().etg_same(
        a, len(a), len(a), b, len(b), len(b), default_hint, len(default_hint), answer
    )
    check(number)
    return answer.value == 1


def hint(canonical: bytes, table: Table, node: int) -> bytes | None:
    """A node's hint, if it is a string with a hint."""
    return _part(load().etg_hint, canonical, table, node)


def data(canonical: bytes, table: Table, node: int) -> bytes | None:
    """A node's data, if there is such a node."""
    return _part(load().etg_data, canonical, table, node)


def _part(look: Any, canonical: bytes, table: Table, node: int) -> bytes | None:
    start, end = ctypes.c_size_t(), ctypes.c_size_t()
    found = look(
        canonical, len(canonical), len(canonical), table, len(table),
        len(table) // RECORD, count_of(node), start, end,
    )  # fmt: skip
    return canonical[start.value : end.value] if found else None


def _room(octets: int, least: int = 0, numbers: int = 0) -> tuple[Any, Any]:
    """Room for any tree that fits and takes at most so many octets, two of which
    make a node at most, and for what is there already."""
    fitting = min(octets, MAX_CANONICAL)
    records = fitting // 2
    return (
        ctypes.create_string_buffer(max(fitting, least)),
        (ctypes.c_uint32 * max(RECORD * records, numbers))(),
    )


def _taken(canonical: Any, length: Any, table: Any, nodes: Any) -> tuple[bytes, Table]:
    records = (ctypes.c_uint32 * (RECORD * nodes.value)).from_buffer_copy(table)
    return canonical.raw[: length.value], records


def check(number: int, place: int = 0) -> None:
    """Raises what a number refuses, with the place that was told."""
    if number != 0:
        raise Refusal(number, place)


def _form(form: int) -> int:
    """What the C type can't hold is no form either."""
    return form if form in (1, 2, 3, 4) else 0


def count_of(node: int) -> int:
    """What the C type can't hold is the number of no node, no place and no entry."""
    most: int = ctypes.c_size_t(-1).value
    return node if 0 <= node <= most else most
