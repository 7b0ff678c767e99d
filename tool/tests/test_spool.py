"""Sheets in a spool file."""

import fcntl
import unittest

from tool import LIST, LIST_ADVANCED, SYNTAX, Case


class Spool(Case):
    def test_added_listed_and_taken_out(self) -> None:
        self.file("list", LIST)
        self.file("long", b"(" + b"abcdefghi " * 20 + b")")
        self.gives(b"", "spool", "add", "--size", "1000", "desk", "list", "long")
        self.gives(b"", "spool", "add", "desk", "list")
        self.assertEqual((self.folder / "desk").stat().st_size, 1000)
        beginning = (b"(" + b"abcdefghi " * 6)[:60]
        lines = b'   0     14  (abc [x]"")\n   1    222  %s...\n   2     14  (abc [x]"")\n'
        self.gives(lines % beginning, "spool", "list", "desk")
        self.gives(LIST, "spool", "get", "desk", "2", "--to", "canonical")
        self.gives(LIST_ADVANCED, "spool", "get", "desk", "0")
        self.gives(b"", "spool", "check", "desk")

    def test_full_grown_and_damaged(self) -> None:
        self.file("list", LIST)
        self.gives(b"", "spool", "add", "--size", "20", "desk", "list")
        self.fails(1, b"desk, adding list: refused 6: ", "spool", "add", "desk", "list")
        # Room for one more, and not for two: neither is added.
        two = ("spool", "add", "--size", "30", "desk", "list", "list")
        self.fails(1, b"desk, adding list: refused 6: ", *two)
        self.assertEqual((self.folder / "desk").stat().st_size, 20)
        self.fails(1, b"none, adding list: refused 6: ", "spool", "add", "--size", "3", "none", "list")
        self.assertFalse((self.folder / "none").exists())
        self.gives(b"", "spool", "add", "--size", "30", "desk", "list")
        _, out, _ = self.run_tool("spool", "list", "desk")
        self.assertEqual(out.count(b"\n"), 2)
        self.file("bad", b"\x82\x00()")
        for arguments in (["list", "bad"], ["get", "bad", "0"], ["check", "bad"], ["add", "bad", "list"]):
            self.fails(1, b"bad: refused 10: ", "spool", *arguments)
        self.assertEqual((self.folder / "bad").read_bytes(), b"\x82\x00()")

    def test_sizes_that_no_disk_has(self) -> None:
        self.file("list", LIST)
        self.gives(b"", "spool", "add", "--size", "20", "old", "list")
        before = self.names()
        for size in (2**64 - 1, 2**63, 2**63 - 1, 2**62):
            for desk in ("new", "old"):
                said = desk.encode() + b": "
                self.fails(2, said, "spool", "add", "--size", str(size), desk, "list")
                self.assertEqual(self.names(), before)
                self.assertEqual((self.folder / "old").stat().st_size, 20)
        self.fails(2, b"is no number", "spool", "add", "--size", str(2**64), "new", "list")

    def test_room_to_the_last_octet(self) -> None:
        # An entry is a length, of an octet for each seven bits, and the sheet.
        self.file("empty", b"()")
        self.file("longer", b"123:" + b"a" * 123)
        self.file("long", b"124:" + b"a" * 124)
        self.file("longest", b"16378:" + b"a" * 16_378)
        for room, *sheets in (
            (3, "empty"),
            (128 + 3, "longer", "empty"),
            (130 + 3, "long", "empty"),
            (16_387, "longest"),
            (2 * 16_387 + 130 + 3, "longest", "long", "longest", "empty"),
        ):
            refused = b"desk, adding %s: refused 6: " % sheets[-1].encode()
            self.fails(1, refused, "spool", "add", "--size", str(room - 1), "desk", *sheets)
            self.assertFalse((self.folder / "desk").exists())
            self.gives(b"", "spool", "add", "--size", str(room), "desk", *sheets)
            _, out, _ = self.run_tool("spool", "list", "desk")
            self.assertEqual(out.count(b"\n"), len(sheets))
            # And the same again behind these.
            self.fails(1, refused, "spool", "add", "--size", str(2 * room - 1), "desk", *sheets)
            self.assertEqual((self.folder / "desk").stat().st_size, room)
            self.gives(b"", "spool", "add", "--size", str(2 * room), "desk", *sheets)
            self.gives(b"", "spool", "check", "desk")
            (self.folder / "desk").unlink()

    def test_a_refused_file_adds_none(self) -> None:
        self.file("list", LIST)
        self.file("open", b"(")
        self.fails(1, b"open: " + SYNTAX, "spool", "add", "desk", "list", "open")
        self.assertEqual(self.names(), ["list", "open"])
        answer = self.run_tool("spool", "add", "desk", "open", "list", "missing", "open")
        self.assertEqual(answer[:2], (2, b""))
        said = answer[2].splitlines()
        line = b"etglavino: open: " + SYNTAX + b"cut short after 1 octet"
        self.assertEqual((said[0], said[2]), (line, line))
        self.assertTrue(said[1].startswith(b"etglavino: missing: No such file"), said)
        self.assertEqual(said[3:], [b"4 files: 1 good, 2 refused, 1 not read"])
        self.assertEqual(self.names(), ["list", "open"])

    def test_in_use(self) -> None:
        self.file("list", LIST)
        self.gives(b"", "spool", "add", "desk", "list")
        with open(self.folder / "desk", "rb") as desk:
            fcntl.flock(desk, fcntl.LOCK_EX)
            self.fails(2, b"desk: it is in use", "spool", "add", "desk", "list")
            # Whoever reads takes no lock.
            self.gives(LIST_ADVANCED, "spool", "get", "desk", "0")
            self.gives(b"", "spool", "check", "desk")
        self.gives(b"", "spool", "add", "desk", "list")

    def test_wrong_use(self) -> None:
        self.file("list", LIST)
        self.run_tool("spool", "add", "desk", "list")
        self.fails(2, b"there is no sheet 1", "spool", "get", "desk", "1")
        for number in ("x", "+0", "-0", "", "18446744073709551616"):
            self.fails(2, b"is no number", "spool", "get", "--", "desk", number)
            self.fails(2, b"is no number from 1", "spool", "add", f"--size={number}", "desk", "list")
        self.fails(2, b"standard input can be one", "spool", "add", "desk", "-", "list", "-", source=LIST)
        self.fails(2, b"which?", "spool")
        self.fails(2, b"there is no command spool open", "spool", "open")
        self.fails(2, b"missing", "spool", "list", "missing")


if __name__ == "__main__":
    unittest.main()
