"""Values with a type, and hours."""

import doctest
import pickle
import struct
import unittest
from fractions import Fraction
from typing import Any, Callable

import etglavino._values
from etglavino import Form, Line, NoLine, Refusal, Sheet, Total, Week
from etglavino import line, line_total, octets, read, total, value, week


def hinted(hint: bytes, data: bytes) -> bytes:
    return b"[%d:%s]%d:%s" % (len(hint), hint, len(data), data)


def hours(*fields: float) -> bytes:
    return b"(%s)" % b"".join(hinted(b"f64", struct.pack(">d", field)) for field in fields)


def sheet(canonical: bytes) -> Sheet:
    return read(Form.CANONICAL, canonical)


class Case(unittest.TestCase):
    def refused(self, number: int, call: Callable[..., Any], *arguments: Any) -> None:
        with self.assertRaises(Refusal) as caught:
            call(*arguments)
        self.assertEqual(caught.exception.number, number)


class Values(Case):
    def test_by_hint(self) -> None:
        for canonical, expected in (
            (hinted(b"f32", b"\x3f\xc0\0\0"), 1.5),
            (hinted(b"f64", b"\x3f\xf8\0\0\0\0\0\0"), 1.5),
            (hinted(b"int", b"\xff\x7f"), -129),
            (hinted(b"int", b""), 0),
            (hinted(b"Int", b"\xff"), b"\xff"),
            (b"[0:]2:ab", b"ab"),
            (b"2:ab", b"ab"),
        ):
            found = value(sheet(canonical), 0)
            self.assertEqual((type(found), found), (type(expected), expected))

    def test_refused(self) -> None:
        for canonical in (
            b"()",
            hinted(b"f32", b"\0\0\0"),
            hinted(b"f32", b"\x7f\x80\0\0"),
            hinted(b"f64", b"\x7f\xf8\0\0\0\0\0\0"),
            hinted(b"int", b"\0"),
            hinted(b"int", b"\xff\x80"),
            hinted(b"int", b"\x01" * 9),
        ):
            self.refused(11, value, sheet(canonical), 0)
        self.refused(8, value, sheet(b"()"), 1)
        self.refused(8, value, sheet(b"()"), -1)
        self.refused(7, value, Sheet(b"()x", sheet(b"()").nodes), 0)

    def test_written(self) -> None:
        self.assertEqual(octets("f32", 1.5), b"\x3f\xc0\0\0")
        self.assertEqual(octets("f64", -0.0), b"\x80\0\0\0\0\0\0\0")
        self.assertEqual(octets("f64", 3), struct.pack(">d", 3.0))
        for number, expected in ((0, b""), (127, b"\x7f"), (128, b"\0\x80"), (-129, b"\xff\x7f")):
            self.assertEqual(octets("int", number), expected)
        self.refused(11, octets, "f64", float("nan"))
        self.refused(11, octets, "f32", float("-inf"))

    def test_written_exactly_or_not(self) -> None:
        self.assertEqual(octets("f64", 2**53 + 2), b"\x43\x40\0\0\0\0\0\x01")
        self.assertEqual(octets("f32", 2**24 + 2), b"\x4b\x80\0\x01")
        self.assertEqual(octets("f64", Fraction(-3, 4)), b"\xbf\xe8\0\0\0\0\0\0")
        inexact: tuple[tuple[Any, Any], ...] = (
            ("int", 2**63),
            ("int", -(2**63) - 1),
            ("int", 1.0),
            ("f32", 0.1),
            ("f32", 1e300),
            ("f32", 2**24 + 1),
            ("f32", 2**53 + 1),
            ("f64", 2**53 + 1),
            ("f64", Fraction(1, 3)),
            ("f64", 10**400),
            ("f32", -(10**400)),
            ("int", 10**400),
        )
        for hint, number in inexact:
            with self.subTest(hint=hint), self.assertRaises(ValueError):
                octets(hint, number)
        wrong: Any = "1.5"
        with self.assertRaises(TypeError):
            octets("f64", wrong)


class Hours(Case):
    def test_line(self) -> None:
        kept = sheet(hours(7.25, 0.5, 24.0))
        self.assertEqual(line(kept, 0), Line(7.25, 0.5, 24.0))
        self.assertEqual(line_total(kept, 0), Total(127, 31.75))
        self.assertEqual(line_total(kept, 0).fraction, Fraction(127, 4))
        for bad in (-0.0, 24.25, 0.1, -1.0):
            self.refused(12, line, sheet(hours(0.0, bad, 0.0)), 0)
            self.refused(12, total, Line(bad, 0.0, 0.0))
        self.refused(12, line, sheet(hours(1.0, 1.0)), 0)
        self.refused(8, line, sheet(b"()"), 7)
        self.assertEqual(total(Line(24.0, 24.0, 24.0)), Total(288, 72.0))

    def test_made_up(self) -> None:
        self.assertEqual(Line.of_quarters(29, 2, 96), Line(7.25, 0.5, 24.0))
        self.refused(12, total, Line.of_quarters(97, 0, 0))
        self.refused(12, total, Line.of_quarters(0, -1, 0))
        self.refused(12, total, Line(0.0, 0.0, float("nan")))
        quarter: Any = Fraction(1, 4)
        self.assertEqual(total(Line(quarter, 1, 0)), Total(5, 1.25))
        for inexact in (Fraction(1, 3), 2**53 + 1, 10**400):
            made: Any = inexact
            with self.assertRaises(ValueError):
                total(Line(0.0, made, 0.0))
        for count in (2**60 + 1, 10**400):
            with self.assertRaises(ValueError):
                Line.of_quarters(count, 0, 0)
        for wrong in ("8", None, b"8"):
            kept: Any = wrong
            with self.assertRaises(TypeError):
                total(Line(kept, 0.0, 0.0))

    def test_week(self) -> None:
        day = hours(8.0, 0.25, 0.0)
        self.assertEqual(week(sheet(b"(" + 3 * day + b")"), 0), Week(3, Total(99, 24.75)))
        self.assertEqual(week(sheet(b"()"), 0), Week(0, Total(0, 0.0)))
        with self.assertRaises(NoLine) as caught:
            week(sheet(b"(" + day + b"2:no" + day + b")"), 0)
        copied = pickle.loads(pickle.dumps(caught.exception))
        for refusal in (caught.exception, copied):
            self.assertEqual((refusal.number, refusal.node), (12, 5))
        self.refused(8, week, sheet(b"()"), 1)


class Documented(unittest.TestCase):
    def test_examples(self) -> None:
        self.assertEqual(doctest.testmod(etglavino._values).failed, 0)
