"""Sheets, and the functions that make and compare them."""

from __future__ import annotations

from collections.abc import Iterable, Iterator
from itertools import chain
from typing import NamedTuple, Union, final

from . import _entries
from ._entries import RECORD, Octets, Refusal, Table, octets_of, table_of


class Node(NamedTuple):
    """The record of a node. Offsets are into the canonical octets; an end is
    one past."""

    kind: int
    """0 string, 1 string with a hint, 2 list."""
    start: int
    end: int
    nodes: int
    """Nodes in it, counting itself."""
    hint_start: int
    """0, like the end, where there is no hint."""
    hint_end: int
    data_start: int
    """A list's data is what stands between its parentheses."""
    data_end: int
    parent: int
    """The number of the list directly around it; 0 for node 0, which is in none."""


@final
class Sheet:
    """A tree's canonical octets and the records of its nodes, kept together.
    Sheets never change. Two are equal if their octets are. One iterates over its
    records, and its length is how many there are.

    >>> sheet = read(3, b"(a (b c) d)")
    >>> [node.kind for node in sheet]
    [2, 0, 2, 0, 0, 0]
    >>> sheet.children(0), sheet.parent(4), sheet.path(4), sheet.at("0/1/1")
    ((1, 2, 5), 2, '0/1/1', 4)

    `read` makes them. One that is put together by hand is taken as it is: what
    is wrong with it shows when it is used, as refusal 7."""

    __slots__ = ("_canonical", "_nodes", "_own", "_table")

    _canonical: bytes
    _table: Table
    _nodes: tuple[Node, ...] | None
    _own: bool
    """Whether the table is known to be the octets' own."""

    def __init__(self, canonical: Octets, nodes: Iterable[Node]) -> None:
        self._canonical = octets_of(canonical)
        self._nodes = tuple(Node(*node) for node in nodes)
        self._table = table_of(list(chain.from_iterable(self._nodes)))
        self._own = False

    @classmethod
    def _of(cls, canonical: bytes, table: Table) -> Sheet:
        sheet = cls.__new__(cls)
        sheet._canonical, sheet._table, sheet._nodes = canonical, table, None
        sheet._own = True
        return sheet

    @property
    def canonical(self) -> bytes:
        """The canonical octets."""
        return self._canonical

    @property
    def nodes(self) -> tuple[Node, ...]:
        """The records, in the order in which nodes begin; node 0 is the whole."""
        if self._nodes is None:
            numbers = self._table[:]
            places = range(0, len(numbers), RECORD)
            self._nodes = tuple(Node(*numbers[at : at + RECORD]) for at in places)
        return self._nodes

    def __iter__(self) -> Iterator[Node]:
        return iter(self.nodes)

    def __len__(self) -> int:
        return len(self._table) // RECORD

    def children(self, node: int) -> tuple[int, ...]:
        """The numbers of a list's elements; a string has none. Refusals: 7, 8."""
        end = node + self._record(node).nodes
        found, at = [], node + 1
        while at < end:
            found.append(at)
            at += self.nodes[at].nodes
        return tuple(found)

    def parent(self, node: int) -> int | None:
        """The number of the list directly around a node; the whole has none.
        Refusals: 7, 8."""
        record = self._record(node)
        return record.parent if node else None

    def ancestors(self, node: int) -> tuple[int, ...]:
        """The numbers of the lists around a node, from the innermost to the whole.
        Refusals: 7, 8.

        >>> read(3, b"(week (mon (from a)))").ancestors(5)
        (4, 2, 0)
        """
        found, above = [], self.parent(node)
        while above is not None:
            found.append(above)
            above = self.parent(above)
        return tuple(found)

    def path(self, node: int) -> str:
        """A node's path from the whole, as `0/3/1`: elements level by level, each
        by its place from 0. Refusals: 7, 8."""
        parent = self.parent(node)
        if parent is None:
            return "0"
        return f"{self.path(parent)}/{self.children(parent).index(node)}"

    def at(self, path: str) -> int:
        """The number of the node at a path, which starts at any node's number.
        Refusals: 7, 8."""
        start, *places = (int(part) for part in path.split("/"))
        self._record(start)
        for place in places:
            children = self.children(start)
            if not 0 <= place < len(children):
                raise Refusal(8)
            start = children[place]
        return start

    def _record(self, node: int) -> Node:
        """A node's record, of a table that is the octets' own."""
        if not self._own:
            if _entries.data(self._canonical, self._table, 0) is None:
                raise Refusal(7)
            self._own = True
        if not 0 <= node < len(self):
            raise Refusal(8)
        return self.nodes[node]

    def hint(self, node: int, default: Octets = b"") -> bytes:
        """The node's hint if it is a string with one, which may be empty; in
        every other case the default."""
        hint = _entries.hint(self._canonical, self._table, node)
        return octets_of(default) if hint is None else hint

    def data(self, node: int) -> bytes:
        """A string's octets, or what stands between a list's parentheses;
        nothing where there is no such node."""
        return _entries.data(self._canonical, self._table, node) or b""

    def write(self, form: int) -> bytes:
        """The text in a form. Refusals: 1, 7."""
        return _entries.write(form, self._canonical)

    def replace(self, form: int, text: Octets, node: int) -> Sheet:
        """The sheet with the node replaced by the tree of a text.

        Refusals, the first that applies: 1, 2, 3, 7, 8, 4, 5, 6, where 4 to 6
        are of the tree with the node replaced."""
        return Sheet._of(
            *_entries.replace(form, octets_of(text), self._canonical, self._table, node)
        )

    def insert(self, form: int, text: Octets, node: int, k: int) -> Sheet:
        """The sheet with the tree of a text as element k, from 0, of the list
        that the node is; the list's element count puts it at the end.

        Refusals, the first that applies: 1, 2, 3, 7, 8, 9, 4, 5, 6, where 4 to 6
        are of the tree with the element in it."""
        return Sheet._of(
            *_entries.insert(form, octets_of(text), self._canonical, self._table, node, k)
        )

    def remove(self, node: int) -> Sheet:
        """The sheet without a node, which is any but node 0, and all that is in
        it. Refusals, the first that applies: 7, 8, 9."""
        return Sheet._of(*_entries.remove(self._canonical, self._table, node))

    def same(self, other: Sheet, default_hint: Octets = b"") -> bool:
        """Whether both have the same shape, and at each string the same data
        and hint. A missing hint counts as the default; an empty one is not
        missing. Refusal: 7."""
        return same(self, other, default_hint)

    def __reduce__(self) -> tuple[type[Sheet], tuple[bytes, tuple[Node, ...]]]:
        return Sheet, (self._canonical, self.nodes)

    def __bytes__(self) -> bytes:
        return self._canonical

    def __eq__(self, other: object) -> bool:
        if not isinstance(other, Sheet):
            return NotImplemented
        return self._canonical == other._canonical

    def __hash__(self) -> int:
        return hash(self._canonical)

    def __repr__(self) -> str:
        return f"<Sheet {self._canonical!r}>"


def read(form: int, source: Octets) -> Sheet:
    """The sheet of a text. Refusals, the first that applies: 1 to 6."""
    return Sheet._of(*_entries.read(form, octets_of(source)))


def write(form: int, canonical: Union[Sheet, Octets]) -> bytes:
    """The text of a sheet, or of canonical octets, in a form. Refusals: 1, 7."""
    return _entries.write(form, _canonical(canonical))


def replace(form: int, text: Octets, sheet: Sheet, node: int) -> Sheet:
    """The sheet with the node replaced by the tree of a text: `Sheet.replace`."""
    return sheet.replace(form, text, node)


def insert(form: int, text: Octets, sheet: Sheet, node: int, k: int) -> Sheet:
    """The sheet with the tree of a text as an element of a list: `Sheet.insert`."""
    return sheet.insert(form, text, node, k)


def remove(sheet: Sheet, node: int) -> Sheet:
    """The sheet without a node: `Sheet.remove`."""
    return sheet.remove(node)


def same(a: Union[Sheet, Octets], b: Union[Sheet, Octets], default_hint: Octets = b"") -> bool:
    """Whether two sheets, or canonical octets, are the same: `Sheet.same`."""
    return _entries.same(_canonical(a), _canonical(b), octets_of(default_hint))


def _canonical(sheet: Union[Sheet, Octets]) -> bytes:
    return sheet.canonical if isinstance(sheet, Sheet) else octets_of(sheet)
