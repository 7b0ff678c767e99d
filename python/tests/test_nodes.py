"""Sheets that iterate, and their nodes' children, parents and paths."""

import doctest
import unittest

from etglavino import Form, Node, Refusal, Sheet, _sheet, read

from . import LIST, LIST_NODES, empties, nested


class Nodes(unittest.TestCase):
    # 0 ( 1 a 2 ( 3 b 4 ( 5 c ) 6 () ) 7 d )
    sheet = read(Form.ADVANCED, b"(a (b (c) ()) d)")

    def refused(self, number: int, call, *arguments) -> None:
        with self.assertRaises(Refusal) as raised:
            call(*arguments)
        self.assertEqual(raised.exception.number, number)

    def test_a_sheet_iterates_over_its_records(self) -> None:
        sheet = read(Form.CANONICAL, LIST)
        self.assertEqual((tuple(sheet), len(sheet)), (LIST_NODES, 3))
        self.assertEqual(len(read(Form.CANONICAL, empties(100))), 101)

    def test_children(self) -> None:
        self.assertEqual(self.sheet.children(0), (1, 2, 7))
        self.assertEqual(self.sheet.children(2), (3, 4, 6))
        self.assertEqual(self.sheet.children(6), ())
        self.assertEqual(self.sheet.children(1), ())

    def test_ancestors(self) -> None:
        self.assertEqual(self.sheet.ancestors(5), (4, 2, 0))
        self.assertEqual(self.sheet.ancestors(6), (2, 0))
        self.assertEqual(self.sheet.ancestors(7), (0,))
        self.assertEqual(self.sheet.ancestors(0), ())

    def test_parents(self) -> None:
        parents = [self.sheet.parent(node) for node in range(8)]
        self.assertEqual(parents, [None, 0, 0, 2, 2, 4, 2, 0])
        deep = read(Form.CANONICAL, nested(32))
        self.assertEqual([deep.parent(node) for node in range(1, 32)], list(range(31)))

    def test_paths(self) -> None:
        paths = ["0", "0/0", "0/1", "0/1/0", "0/1/1", "0/1/1/0", "0/1/2", "0/2"]
        self.assertEqual([self.sheet.path(node) for node in range(8)], paths)
        self.assertEqual([self.sheet.at(path) for path in paths], list(range(8)))
        self.assertEqual((self.sheet.at("4/0"), self.sheet.at("7")), (5, 7))

    def test_refusals(self) -> None:
        for node in (8, -1, 2**70):
            for ask in (self.sheet.children, self.sheet.parent, self.sheet.ancestors, self.sheet.path):
                self.refused(8, ask, node)
        for path in ("8", "0/3", "0/-1", "1/0"):
            self.refused(8, self.sheet.at, path)
        with self.assertRaises(ValueError):
            self.sheet.at("0/x")

    def test_a_table_that_is_not_the_octets_own(self) -> None:
        good = Sheet(LIST, LIST_NODES)
        self.assertEqual(good.children(0), (1, 2))
        endless = Node(2, 0, 14, 0, 0, 0, 1, 13, 0)
        for nodes in ((LIST_NODES[0], endless, endless), LIST_NODES[:2], ()):
            bad = Sheet(LIST, nodes)
            for ask in (bad.children, bad.parent, bad.ancestors, bad.path):
                self.refused(7, ask, 0)
            self.refused(7, bad.at, "0")

    def test_the_documentations_examples(self) -> None:
        tried = doctest.testmod(_sheet)
        self.assertEqual((tried.failed, tried.attempted), (0, 4))


if __name__ == "__main__":
    unittest.main()
