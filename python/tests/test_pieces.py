"""Texts in pieces: what S 13 says of them, worked out by hand."""

from __future__ import annotations

import doctest
import io
import random
import unittest

from etglavino import Form, Pieces, Refusal, _pieces, read, read_pieces

from . import LIST, LIST_NODES, empties, nested, verbatim


def chunks(text: bytes, size: int) -> list[bytes]:
    return [text[at : at + size] for at in range(0, len(text), size)]


class Texts(unittest.TestCase):
    def refused(self, text: bytes, number: int, place: int = 0) -> None:
        for size in (1, 3, 511, 40_000):
            with self.assertRaises(Refusal) as caught:
                read_pieces(chunks(text, size))
            self.assertEqual((caught.exception.number, caught.exception.place), (number, place))

    def test_the_list_in_every_two_pieces(self) -> None:
        for cut in range(len(LIST) + 1):
            pieces = Pieces()
            self.assertEqual(pieces.feed(LIST[:cut]), cut)
            self.assertEqual((pieces.taken, pieces.octets), (cut, LIST[:cut]))
            self.assertEqual(pieces.feed(b""), cut)
            self.assertEqual(pieces.feed(LIST[cut:]), 14)
            sheet = pieces.end()
            self.assertEqual((sheet.canonical, sheet.nodes), (LIST, LIST_NODES))

    def test_whatever_gives_octets(self) -> None:
        for of in (bytes, bytearray, memoryview):
            pieces = Pieces()
            for piece in chunks(LIST, 5):
                pieces.feed(of(piece))
            self.assertEqual(pieces.end().canonical, LIST)
        for wrong in ("(1:a)", 5, None):
            with self.assertRaises(TypeError):
                Pieces().feed(wrong)  # type: ignore[arg-type]
        # A piece is an octet string; a string of them would be numbers.
        with self.assertRaises(TypeError):
            read_pieces(b"(1:a)")  # type: ignore[arg-type]

    def test_a_file(self) -> None:
        text = b"(" + verbatim(9) + b"4:a\nb\n" + b")"
        self.assertEqual(read_pieces(io.BytesIO(text)).data(2), b"a\nb\n")
        self.assertEqual(read_pieces(iter([LIST[:3], b"", LIST[3:]])).nodes, LIST_NODES)

    def test_an_end_and_more(self) -> None:
        pieces = Pieces([b"(1:a"])
        with self.assertRaises(Refusal) as caught:
            pieces.end()
        self.assertEqual((caught.exception.number, caught.exception.place), (3, 4))
        pieces.feed(b")")
        self.assertEqual(pieces.end().canonical, b"(1:a)")
        self.assertEqual(pieces.end().canonical, b"(1:a)")

    def test_where_it_goes_wrong(self) -> None:
        for text, place in (
            (b"", 0),
            (b"3:abcX", 5),
            (b"03:", 1),
            (b"(3:ab", 5),
            (b"99999999999999999999:a", 22),
            (b"[1:x](", 5),
            (b"()()", 2),
            (b"(" * 32_768, 32_768),
        ):
            self.refused(text, 3, place)
        self.refused(verbatim(20_000) + b"x", 3, 20_006)

    def test_each_limit_and_one_past_it(self) -> None:
        for text in (nested(128), empties(8_191), verbatim(16_378)):
            for size in (1, 511, 40_000):
                self.assertEqual(read_pieces(chunks(text, size)).canonical, text)
        self.refused(nested(129), 4)
        self.refused(empties(8_192), 5)
        self.refused(verbatim(16_379), 6)
        self.refused(verbatim(32_762), 6)
        self.refused(verbatim(32_763), 2)

    def test_the_count_stops(self) -> None:
        pieces = Pieces()
        self.assertEqual(pieces.feed(b"(" * 32_768), 32_768)
        self.assertEqual(len(pieces.octets), 16_384)
        for more in (b"(", b"(", b"(" * 40_000):
            self.assertEqual(pieces.feed(more), 32_769)
        with self.assertRaises(Refusal) as caught:
            pieces.end()
        self.assertEqual((caught.exception.number, caught.exception.place), (2, 0))

    def test_any_cutting_is_as_the_whole(self) -> None:
        drawn = random.Random(9804)
        text = b"(" + b"".join(verbatim(drawn.randrange(40)) for _ in range(200)) + b")"
        whole = read(Form.CANONICAL, text)
        for _ in range(50):
            cuts = sorted(drawn.randrange(len(text) + 1) for _ in range(drawn.randrange(40)))
            ends = [*cuts, len(text)]
            sheet = read_pieces(text[start:end] for start, end in zip([0, *cuts], ends))
            self.assertEqual((sheet, sheet.nodes), (whole, whole.nodes))

    def test_examples(self) -> None:
        done = doctest.testmod(_pieces)
        self.assertEqual((done.failed, done.attempted > 0), (0, True))


if __name__ == "__main__":
    unittest.main()
