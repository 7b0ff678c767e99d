"""Runs of sheets. Expected values are worked out by hand."""

import doctest
import unittest

from etglavino import Run, _run, split

from . import LIST, empties, nested, verbatim


class First(unittest.TestCase):
    def test_where_it_ends(self) -> None:
        for run, first in (
            (b"", None),
            (b"0:", 2),
            (b"0:0:", 2),
            (b"2:ab(", 4),
            (b"(1:a)()0:", 5),
            (b"(()(1:b))x", 9),
            (b"[1:h]0:x", 7),
            (b"10:abcdefghij3:", 13),
            (b"(()", None),
            (b")0:", None),
            (b"3:ab", None),
            (b"01:a", None),
            (b"[1:h](1:a)", None),
            (b" 0:", None),
            (b"18446744073709551618:ab", None),
        ):
            for given in (run, bytearray(run), memoryview(run)):
                self.assertEqual(split(given), first, run)

    def test_past_every_limit(self) -> None:
        for sheet in (nested(1_000), empties(5_000), verbatim(70_000)):
            self.assertEqual(split(sheet + LIST), len(sheet))
            self.assertIsNone(split(sheet[:-1]))


class All(unittest.TestCase):
    def test_one_after_another(self) -> None:
        sheets = [LIST, b"0:", nested(40), b"()", verbatim(12)]
        run = Run(b"".join(sheets))
        self.assertEqual(list(run), sheets)
        self.assertEqual(run.rest, b"")
        self.assertEqual(list(run), [])

    def test_what_is_left(self) -> None:
        run = Run(b"0:(1:a)2:x")
        self.assertEqual((list(run), run.rest), ([b"0:", b"(1:a)"], b"2:x"))
        self.assertEqual((list(Run(b"")), Run(b"x").rest), ([], b"x"))

    def test_examples(self) -> None:
        done = doctest.testmod(_run)
        self.assertEqual((done.failed, done.attempted > 0), (0, True))


if __name__ == "__main__":
    unittest.main()
