"""Elements put into lists, and nodes removed."""

import unittest

from etglavino import Form, Refusal, Sheet, insert, read, remove


class Corrections(unittest.TestCase):
    def setUp(self) -> None:
        self.sheet = read(Form.ADVANCED, b"(a (b c) d)")

    def refused(self, number: int, call: object, *arguments: object) -> None:
        with self.assertRaises(Refusal) as caught:
            call(*arguments)  # type: ignore[operator]
        self.assertEqual(caught.exception.number, number)

    def test_an_element_at_each_place(self) -> None:
        expected = [b"(1:x1:b1:c)", b"(1:b1:x1:c)", b"(1:b1:c1:x)"]
        for k, inner in enumerate(expected):
            sheet = self.sheet.insert(Form.ADVANCED, b"x", 2, k)
            self.assertEqual(sheet.canonical, b"(1:a" + inner + b"1:d)")
            self.assertEqual(sheet.nodes, read(Form.CANONICAL, sheet.canonical).nodes)

    def test_a_node_goes_with_all_that_is_in_it(self) -> None:
        sheet = self.sheet.remove(2)
        self.assertEqual(sheet.canonical, b"(1:a1:d)")
        self.assertEqual(sheet.nodes, read(Form.CANONICAL, sheet.canonical).nodes)

    def test_what_was_inserted_goes_again(self) -> None:
        changed = insert(Form.TERMINAL_1997, b"(x {KDE6eSk=})", self.sheet, 0, 1)
        self.assertEqual(changed, insert(Form.ADVANCED, b"(x (y))", self.sheet, 0, 1))
        self.assertEqual(changed.data(2), b"1:x(1:y)")
        again = remove(changed, 2)
        self.assertEqual((again, again.nodes), (self.sheet, self.sheet.nodes))

    def test_where_the_text_went_wrong(self) -> None:
        for call in (
            lambda form, text: self.sheet.insert(form, text, 0, 1),
            lambda form, text: self.sheet.replace(form, text, 1),
        ):
            for form, text, place in (
                (Form.CANONICAL, b"3:abcX", 5),
                (Form.BASIC, b"(3:ab", 5),
                (Form.BASIC, b"{", 0),
                (Form.ADVANCED, b"(", 0),
                (Form.TERMINAL_1997, b"3:abcX", 0),
            ):
                with self.assertRaises(Refusal) as caught:
                    call(form, text)
                self.assertEqual((caught.exception.number, caught.exception.place), (3, place))
        with self.assertRaises(Refusal) as caught:
            self.sheet.insert(Form.CANONICAL, b"1:x", 6, 0)
        self.assertEqual((caught.exception.number, caught.exception.place), (8, 0))

    def test_refusals_in_order(self) -> None:
        insert_ = self.sheet.insert
        self.refused(1, insert_, 9, b"(", 9, 9)
        self.refused(3, insert_, Form.ADVANCED, b"(", 9, 9)
        self.refused(8, insert_, Form.ADVANCED, b"x", 6, 9)
        self.refused(9, insert_, Form.ADVANCED, b"x", 1, 0)
        self.refused(9, insert_, Form.ADVANCED, b"x", 2, 3)
        self.refused(9, insert_, Form.ADVANCED, b"x", 2, -1)
        self.refused(9, insert_, Form.ADVANCED, b"x", 2, 2**80)
        self.refused(4, insert_, Form.ADVANCED, 128 * b"(" + 128 * b")", 0, 0)
        self.refused(8, self.sheet.remove, 6)
        self.refused(9, self.sheet.remove, 0)
        self.refused(7, Sheet(b"0:", self.sheet.nodes).remove, 0)
