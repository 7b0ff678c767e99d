"""Reading: the examples of S 16, the limits, the order of refusals."""

import unittest

from etglavino import MAX_SOURCE, Form, Node, Refusal, read

from . import LIST, LIST_NODES, empties, nested, verbatim


class Read(unittest.TestCase):
    def refused(self, number: int, form: int, source: bytes) -> None:
        with self.assertRaises(Refusal, msg=source[:40]) as caught:
            read(form, source)
        self.assertEqual(caught.exception.number, number, source[:40])

    def test_empty_list_and_empty_string(self) -> None:
        for form in Form:
            self.assertEqual(read(form, b"()").nodes, (Node(2, 0, 2, 1, 0, 0, 1, 1, 0),))
            self.assertEqual(read(form, b"0:").nodes, (Node(0, 0, 2, 1, 0, 0, 2, 2, 0),))
        self.assertEqual(read(Form.BASIC, b"{KCk=}").canonical, b"()")

    def test_the_list_in_each_form(self) -> None:
        for form, source in (
            (Form.CANONICAL, LIST),
            (Form.BASIC, b"{KDM6YWJjWzE6eF0wOik=}"),
            (Form.ADVANCED, b' ( abc [ x ] "" ) '),
            (Form.TERMINAL_1997, b"({MzphYmM=}{WzE6eF0wOg==})"),
        ):
            sheet = read(form, source)
            self.assertEqual(sheet.canonical, LIST)
            self.assertEqual(sheet.nodes, LIST_NODES)

    def test_advanced_strings(self) -> None:
        for source, canonical in (
            (b"a3:xyz", b"6:a3:xyz"),
            (b"|YWJjZA|", b"4:abcd"),
            (rb'"\377"', b"1:\xff"),
            (b"3:abc\n", b"3:abc"),
            (b"# 0 0 #", b"1:\0"),
            (b'[""]a', b"[0:]1:a"),
        ):
            self.assertEqual(read(3, source).canonical, canonical)

    def test_not_in_the_language(self) -> None:
        starred = (b"03:abc", b'3"ab"', b"#616#", b"(1997)", b"[1:x](1:a)", b"")
        for source in (*starred, rb'"\400"', b"4294967299:abc", b"18446744073709551619:abc"):
            self.refused(3, Form.ADVANCED, source)
        self.refused(3, Form.CANONICAL, b"3:abc\n")
        self.refused(3, Form.CANONICAL, b"{KCk=}")
        self.refused(3, Form.BASIC, b"{K}")

    def test_where_it_went_wrong(self) -> None:
        for source, place in (
            (b"3:abcX", 5),
            (b"03:", 1),
            (b"(3:ab", 5),
            (b"99999999999999999999:a", 22),
            (b"[1:xx", 4),
            (b"[1:x](", 5),
            (b"()()", 2),
            (b"(" * 1000, 1000),
            (b"", 0),
        ):
            for form, told in ((1, place), (2, place), (3, 0)):
                try:
                    read(form, source)
                except ValueError as refusal:
                    assert isinstance(refusal, Refusal)
                    self.assertEqual((refusal.number, refusal.place), (3, told), source[:40])
                else:
                    self.fail(source[:40])
        with self.assertRaises(Refusal) as caught:
            read(Form.BASIC, b"{KCk=")
        self.assertEqual(caught.exception.place, 0)

    def test_each_limit_and_one_past_it(self) -> None:
        for most in (nested(128), empties(8_191), verbatim(16_378)):
            self.assertEqual(read(1, most).canonical, most)
        self.refused(4, 1, nested(129))
        self.refused(5, 1, empties(8_192))
        self.refused(6, 1, verbatim(16_379))
        self.assertEqual(read(3, LIST.ljust(MAX_SOURCE)).canonical, LIST)
        self.refused(2, 3, LIST.ljust(MAX_SOURCE + 1))
        # The shortest source of each octet and node that come of it.
        self.assertEqual(read(3, b"a").canonical, b"1:a")
        self.assertEqual(len(read(3, b"(" + b"()" * 8_191 + b")").nodes), 8_192)

    def test_the_first_refusal_that_applies(self) -> None:
        for form in (0, 5, -1, 2**32 + 1, 2**64 + 3):
            self.refused(1, form, b")" * (MAX_SOURCE + 1))
        self.refused(2, 1, b")" * (MAX_SOURCE + 1))
        self.refused(3, 1, b"(" * 129)
        self.refused(3, 1, empties(8_192)[:-1])
        self.refused(3, 1, b"(" + verbatim(16_379))
        self.refused(4, 1, b"(" + nested(129) + b"0:" * 8_192 + b")")
        self.refused(5, 1, b"(" + verbatim(15_000) + b"0:" * 8_192 + b")")

    def test_what_octets_are(self) -> None:
        for source in (bytearray(b"()"), memoryview(b"()"), memoryview(b"( ) ")[::2]):
            self.assertEqual(read(3, source).canonical, b"()")
        for wrong in ("()", 5, None):
            with self.assertRaises(TypeError):
                read(3, wrong)  # type: ignore[arg-type]


if __name__ == "__main__":
    unittest.main()
