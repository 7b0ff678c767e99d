"""Extracts. Expected values are worked out from S 11 by hand."""

import doctest
import unittest

from etglavino import Node, Refusal, Sheet, _extract, extract, read

from . import LIST, LIST_NODES, empties, nested, verbatim


class Extract(unittest.TestCase):
    def test_what_is_hidden(self) -> None:
        for sheet, shown in (
            (b"(7:private1:a)", b"()"),
            (b"(1:a(7:private1:b)1:c)", b"(1:a()1:c)"),
            (b"((1:a(7:private(7:private)))())", b"((1:a())())"),
            (b"((7:private)7:private)", b"(()7:private)"),
            (b"([1:h]7:private1:a)", b"([1:h]7:private1:a)"),
            (b"([0:]7:private)", b"([0:]7:private)"),
            (b"(1:a7:private)", b"(1:a7:private)"),
            (b"(7:Private)", b"(7:Private)"),
            (b"7:private", b"7:private"),
            (LIST, LIST),
        ):
            for given in (sheet, bytearray(sheet), read(1, sheet)):
                left = extract(given)
                self.assertEqual(left.canonical, shown)
                self.assertEqual(left.nodes, read(1, shown).nodes)

    def test_refusals(self) -> None:
        for bad in (b"", b"abc", b"()()", nested(129), empties(8_192), verbatim(16_379)):
            with self.assertRaises(Refusal) as caught:
                extract(bad)
            self.assertEqual(caught.exception.number, 7)
        foreign = [*LIST_NODES[:2], Node(1, 6, 13, 1, 9, 10, 13, 12, 0)]
        with self.assertRaises(Refusal) as caught:
            extract(Sheet(LIST, foreign))
        self.assertEqual(caught.exception.number, 7)

    def test_example(self) -> None:
        done = doctest.testmod(_extract)
        self.assertEqual((done.failed, done.attempted > 0), (0, True))


if __name__ == "__main__":
    unittest.main()
