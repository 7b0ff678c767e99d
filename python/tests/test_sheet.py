"""What a sheet can do, and the functions over sheets."""

import copy
import doctest
import pickle
import unittest
from typing import Any, Callable

import etglavino
from etglavino import MAX_SOURCE, Form, Node, Refusal, Sheet, read, replace, same, write

from . import LIST, LIST_NODES, empties, nested, verbatim


class Case(unittest.TestCase):
    def refused(self, number: int, call: Callable[..., Any], *arguments: Any) -> None:
        with self.assertRaises(Refusal) as caught:
            call(*arguments)
        self.assertEqual(caught.exception.number, number)


class Write(Case):
    def test_outputs(self) -> None:
        for form, canonical, text in (
            (Form.CANONICAL, LIST, LIST),
            (Form.BASIC, LIST, b"{KDM6YWJjWzE6eF0wOik=}"),
            (Form.ADVANCED, LIST, b'(abc [x]"")'),
            (Form.BASIC, b"()", b"{KCk=}"),
            (Form.BASIC, b"2:ab", b"{MjphYg==}"),
            (Form.ADVANCED, b"4:1997", b'"1997"'),
            (Form.ADVANCED, b'3:a"\\', rb'"a\"\\"'),
            (Form.ADVANCED, b"[0:]1:\xff", b'[""]#ff#'),
            (Form.ADVANCED, b"0:", b'""'),
            (Form.BASIC, b"0:", b"{MDo=}"),
        ):
            self.assertEqual(write(form, canonical), text)
            self.assertEqual(write(form, bytearray(canonical)), text)
            self.assertEqual(write(form, read(1, canonical)), text)
            self.assertEqual(read(1, canonical).write(form), text)

    def test_largest_outputs(self) -> None:
        marks = b"16378:" + b'"' * 16_378
        self.assertEqual(write(3, marks), b'"' + rb"\"" * 16_378 + b'"')
        # 16,384 octets are 5,461 groups of three and one over.
        self.assertEqual(len(write(2, marks)), 21_848 + 2)

    def test_refusals(self) -> None:
        for form in (0, 4, -1, 2**32 + 1):
            self.refused(1, write, form, b"abc")
        for bad in (b"", b"abc", b"()()", nested(129), empties(8_192), verbatim(16_379)):
            for form in (1, 2, 3):
                self.refused(7, write, form, bad)
        self.refused(1, write, Form.TERMINAL_1997, LIST)


class Replace(Case):
    def test_correction_of_the_specification(self) -> None:
        sheet = read(1, LIST)
        corrected = replace(Form.ADVANCED, b'"hi"', sheet, 1)
        self.assertEqual(corrected.canonical, b"(2:hi[1:x]0:)")
        nodes = (
            Node(2, 0, 13, 3, 0, 0, 1, 12, 0),
            Node(0, 1, 5, 1, 0, 0, 3, 5, 0),
            Node(1, 5, 12, 1, 8, 9, 12, 12, 0),
        )
        self.assertEqual(corrected.nodes, nodes)
        self.assertEqual((sheet.canonical, sheet.nodes), (LIST, LIST_NODES))

    def test_growing_and_shrinking(self) -> None:
        sheet = read(1, LIST).replace(1, empties(8_186), 1)
        self.assertEqual(len(sheet.nodes), 8_189)
        self.assertEqual(sheet.replace(1, b"3:abc", 1).nodes, LIST_NODES)
        self.assertEqual(read(1, LIST).replace(2, b"{KCk=}", 0).canonical, b"()")
        # What a text grows by, in octets and in nodes.
        sheet = read(1, b"(0:)").replace(3, b"(a b c)", 1)
        self.assertEqual(sheet.canonical, b"((1:a1:b1:c))")
        sheet = read(1, empties(3_000)).replace(1, b"(())", 1)
        self.assertEqual(len(sheet.nodes), 3_002)
        sheet = read(1, LIST).replace(1, verbatim(16_369), 1)
        self.assertEqual(len(sheet.canonical), 16_384)

    def test_refusals(self) -> None:
        sheet = read(1, LIST)
        self.refused(1, sheet.replace, 0, b"hi", 1)
        self.refused(2, sheet.replace, 3, b"hi".ljust(MAX_SOURCE + 1), 1)
        self.refused(3, sheet.replace, 1, b"hi", 1)
        for node in (3, -1, 2**64, 2**64 + 1, -(2**64) + 1):
            self.refused(8, sheet.replace, 3, b"hi", node)
        self.refused(4, sheet.replace, 1, nested(128), 1)
        self.refused(5, sheet.replace, 1, empties(8_192), 1)
        self.refused(6, sheet.replace, 1, empties(8_187), 1)
        self.refused(6, sheet.replace, 1, verbatim(16_370), 1)

    def test_a_sheet_that_is_not_its_own(self) -> None:
        first, second, third = LIST_NODES
        for nodes in (
            (first, second),
            (first, second, third, third),
            (first, second, third._replace(data_end=14)),
            (first, second, third._replace(parent=1)),
            (),
        ):
            bad = Sheet(LIST, nodes)
            self.refused(7, bad.replace, 3, b"hi", 9)
            self.refused(3, bad.replace, 3, b"(", 9)
            self.assertEqual(bad.hint(2, b"none"), b"none")
            self.assertEqual(bad.data(1), b"")
        self.refused(7, Sheet(b"(3:abc", LIST_NODES).replace, 3, b"hi", 1)
        self.refused(7, Sheet(verbatim(16_379), LIST_NODES).replace, 3, b"hi", 1)
        with self.assertRaises(ValueError):
            Sheet(LIST, (first._replace(end=2**32 + 14), second, third))


class Same(Case):
    def test_answers(self) -> None:
        for a, b, default_hint, answer in (
            (LIST, LIST, b"", True),
            (b"(1:a)", b"(1:b)", b"", False),
            (b"()", b"0:", b"", False),
            (b"1:a", b"[1:x]1:a", b"x", True),
            (b"1:a", b"[1:x]1:a", b"", False),
            (b"1:a", b"[0:]1:a", b"x", False),
            (b"1:a", b"[0:]1:a", b"", True),
        ):
            self.assertIs(same(a, b, default_hint), answer)
            self.assertIs(read(1, a).same(read(1, b), default_hint), answer)
        self.assertIs(read(1, b"1:a").same(read(1, b"[0:]1:a")), True)

    def test_refusals(self) -> None:
        for bad in (b"", b"abc", nested(129), empties(8_192), verbatim(16_379)):
            self.refused(7, same, bad, LIST)
            self.refused(7, same, LIST, bad)


class Looks(Case):
    def test_hint_and_data(self) -> None:
        sheet = read(1, LIST)
        nodes = (0, 1, 2, 3, -1, 2**64 + 2)
        none = b"none"
        hints = [none, none, b"x", none, none, none]
        self.assertEqual([sheet.hint(node, none) for node in nodes], hints)
        data = [b"3:abc[1:x]0:", b"abc", b"", b"", b"", b""]
        self.assertEqual([sheet.data(node) for node in nodes], data)
        self.assertEqual(sheet.hint(0), b"")
        self.assertEqual(read(1, b"[0:]1:a").hint(0, none), b"")

    def test_equal_by_octets(self) -> None:
        one, other = read(1, LIST), read(3, b"(abc [x] ||)")
        self.assertEqual(one, other)
        self.assertEqual(len({one, other, read(1, b"()")}), 2)
        self.assertNotEqual(one, read(1, b"()"))
        self.assertNotEqual(one, LIST)
        self.assertEqual(bytes(one), LIST)
        self.assertIn("abc", repr(one))

    def test_never_changes(self) -> None:
        sheet = read(1, LIST)
        for name in ("canonical", "nodes", "other"):
            with self.assertRaises(AttributeError):
                setattr(sheet, name, b"()")
        for twin in (copy.deepcopy(sheet), pickle.loads(pickle.dumps(sheet))):
            self.assertEqual((twin.canonical, twin.nodes), (LIST, LIST_NODES))
            self.assertEqual(twin.hint(2), b"x")


class Words(Case):
    def test_refusals(self) -> None:
        for number in (*range(1, 9), 10):
            refusal = Refusal(number)
            self.assertEqual(str(refusal), f"refused {number}: {refusal.sentence}")
            self.assertEqual(pickle.loads(pickle.dumps(refusal)).number, number)
        self.assertEqual(len(set(Refusal.SENTENCES.values())), len(Refusal.SENTENCES))

    def test_the_documentations_examples(self) -> None:
        tried = doctest.testmod(etglavino)
        self.assertEqual((tried.failed, tried.attempted), (0, 12))


if __name__ == "__main__":
    unittest.main()
