"""Spools in lent octets: the examples of S 16.6, and each store."""

from __future__ import annotations

import unittest

from etglavino import Adding, Opened, Refusal
from etglavino import spool_add, spool_open, spool_sheets, spool_shown

from . import verbatim


def sheets(area: bytes) -> list[bytes]:
    return [spool_shown(area, number) for number in range(spool_open(area).count)]


class Spool(unittest.TestCase):
    def refused(self, number: int, area: bytes, sheet: bytes) -> None:
        lent = bytearray(area)
        for add in (spool_add, Adding):
            with self.assertRaises(Refusal, msg=area) as caught:
                add(lent, sheet)
            self.assertEqual(caught.exception.number, number, area)
        self.assertEqual(lent, area)

    def test_lengths(self) -> None:
        for groups, sheet in (
            (b"\x02", b"()"),
            (b"\x7f", verbatim(123)),
            (b"\x80\x01", verbatim(124)),
            (b"\xff\x7f", verbatim(16_377)),
            (b"\x80\x80\x01", verbatim(16_378)),
        ):
            area = bytearray(len(groups) + len(sheet))
            spool_add(area, sheet)
            self.assertEqual(area, groups + sheet)
            self.assertEqual(spool_sheets(area + b"\x02()\0"), [sheet, b"()"])
            self.refused(6, bytes(len(area) - 1), sheet)

    def test_opening(self) -> None:
        area = b"\x02()\x020:\0\x09"
        self.assertEqual(spool_open(area, 1), Opened(2, 4, 6))
        for number in (2, -1, 2**64, 2**64 + 1):
            self.assertEqual(spool_open(area, number), Opened(2, 0, 0))
        self.assertEqual(sheets(memoryview(area)), [b"()", b"0:"])
        self.assertEqual(spool_sheets(area), [b"()", b"0:"])
        self.assertEqual(spool_open(b"", 0), Opened(0, 0, 0))
        for damaged in (b"\x82\0()", b"\x80\0", b"\x82", b"\x02(", b"\x02((\0"):
            with self.assertRaises(Refusal) as caught:
                spool_open(damaged)
            self.assertEqual(caught.exception.number, 10)
            self.assertEqual(spool_shown(damaged, 0), b"")
            self.refused(10, damaged, b"(")

    def test_order_of_refusals(self) -> None:
        self.refused(7, b"\x02()", b"(")
        self.refused(6, b"\x02()\0\0", b"()")

    def test_each_store(self) -> None:
        area = bytearray(b"\x02()\0\x09\x09\x09\x09")
        adding = Adding(area, b"0:")
        for after in (
            b"\x02()\0\x09\x09\0\x09",
            b"\x02()\x000\x09\0\x09",
            b"\x02()\x000:\0\x09",
            b"\x02()\x020:\0\x09",
        ):
            last = adding.commits(area)
            self.assertEqual(adding.step(area), last)
            self.assertEqual(area, after)
        self.assertTrue(last)
        self.assertFalse(adding.commits(area))
        self.assertTrue(adding.step(area))
        self.assertEqual(area, after)

    def test_octets_that_cannot_be_stored_to(self) -> None:
        """They stay as they are, and are not passed over in silence."""
        area = bytes(8)
        views = (memoryview(area), memoryview(bytearray(16))[::2])
        for lent in (area, *views):
            with self.assertRaises(TypeError):
                spool_add(lent, b"()")
            with self.assertRaises(TypeError):
                Adding(lent, b"()").step(lent)
            self.assertEqual(spool_open(lent), Opened(0, 0, 0))
        self.assertEqual(area, bytes([0] * 8))

    def test_views_of_wide_items(self) -> None:
        """An area has as many octets as a view, however they are counted."""
        area = bytearray(8)
        view = memoryview(area).cast("I")
        spool_add(view, b"(1:a)")
        self.assertEqual(area, b"\x05(1:a)\0\0")
        self.assertEqual((spool_shown(view, 0), spool_sheets(view)), (b"(1:a)", [b"(1:a)"]))
