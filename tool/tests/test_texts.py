"""Texts converted, checked, shown and compared. Expected values are those
of docs/SPECIFICATION.md, or worked out from it by hand."""

import unittest

from tool import LIST, LIST_ADVANCED, LIST_BASIC, LIST_TABLE, SYNTAX, Case

FORMS = {"canonical": LIST, "basic": LIST_BASIC, "advanced": LIST_ADVANCED}


class Convert(Case):
    def test_every_form_to_every_form(self) -> None:
        for given, source in FORMS.items():
            for wanted, text in FORMS.items():
                self.gives(text, "convert", "--from", given, "--to", wanted, source=source)

    def test_from_a_file_and_to_a_file(self) -> None:
        self.file("list", b' ( abc [ x ] "" ) ')
        self.gives(LIST, "convert", "list")
        self.gives(LIST, "convert", "--", "list")
        self.gives(b"", "convert", "--to=basic", "--output=new", "list")
        self.assertEqual((self.folder / "new").read_bytes(), LIST_BASIC)
        self.assertEqual(self.names(), ["list", "new"])

    def test_the_form_is_seen(self) -> None:
        for source in FORMS.values():
            self.gives(LIST, "convert", source=source)
            self.gives(LIST_ADVANCED, "convert", "-s", "advanced", source=source)
            self.gives(LIST_ADVANCED, "convert", "--syntax=advanced", source=source)
            # Of several the last is heeded, however it is spelled.
            self.gives(LIST_ADVANCED, "convert", "--to=basic", "-s", "advanced", source=source)
            self.gives(LIST_ADVANCED, "convert", "-s", "xml", "--syntax=basic", "--to=advanced", source=source)
            self.gives(LIST_BASIC, "convert", "--to=advanced", "--syntax=basic", source=source)
        # Nothing may stand outside the braces, and brackets and braces don't mix.
        for source in (LIST_BASIC + b"\n", b" " + LIST_BASIC, b"{", b"({MzphYmM=})"):
            self.fails(1, SYNTAX, "convert", source=source)

    def test_what_terminals_send(self) -> None:
        for name in ("terminal", "4"):
            self.gives(b"(1:a3:abc)", "convert", "--from", name, source=b"(a{MzphYmM=})\n")
            self.fails(2, b"none of canonical, basic and advanced", "convert", "--to", name, source=LIST)
        for source in FORMS.values():
            self.gives(LIST, "convert", "--from", "terminal", source=source)
        self.fails(1, SYNTAX, "convert", "--from", "terminal", source=b"[x]{MzphYmM=}")
        # It is written back as advanced text.
        self.file("sheet", b"(a{MzphYmM=})")
        self.gives(b"", "replace", "--from", "terminal", "--text", "terminal", "1", "{MTpi}", "sheet")
        self.assertEqual((self.folder / "sheet").read_bytes(), b"(b abc)\n")
        self.gives(b"(b abc)\n", "extract", "--from", "terminal", source=b"(b {MzphYmM=})")

    def test_the_names_of_forms(self) -> None:
        for name in ("2", "transport", "basic"):
            self.gives(LIST_BASIC, "convert", "--to", name, source=LIST)

    def test_empty_input(self) -> None:
        self.fails(1, b"standard input: " + SYNTAX, "convert")

    def test_the_place_of_what_is_wrong(self) -> None:
        sentence = b"etglavino: standard input: " + SYNTAX
        for form, words, source, lines in (
            ("canonical", b"from octet 5 on", b"3:abcX", b"  3:abcX\n       ^\n"),
            ("canonical", b"from octet 1 on", b"03:", b"  03:\n   ^\n"),
            ("canonical", b"cut short after 5 octets", b"(3:ab", b"  (3:ab\n       ^\n"),
            ("canonical", b"from octet 0 on", b"\xff", b"  \\xff\n  ^\n"),
            ("basic", b"from octet 5 on", b"3:abcX", b"  3:abcX\n       ^\n"),
            ("basic", b"from octet 3 on", b"{KC}", b"  {KC}\n     ^\n"),
            ("basic", b"from octet 6 on", b"{KCk=}\n", b"  {KCk=}\\x0a\n        ^\n"),
            ("canonical", b"from octet 2 on", b"()\n()\n", b"  ()\\x0a\n    ^\n"),
            ("advanced", b"from octet 9 on", b"(shift\n  ]ann)", b"    ]ann)\n    ^\n"),
            ("advanced", b"cut short after 8 octets", b"(a\n(b c\n", b"  (b c\\x0a\n          ^\n"),
            ("terminal", b"from octet 2 on", b"({})", b"  ({})\n    ^\n"),
        ):
            answer = self.run_tool("convert", "--from", form, source=source)
            self.assertEqual(answer, (1, b"", sentence + words + b"\n" + lines))

    def test_sizes(self) -> None:
        longest = b"a".ljust(32_768)
        self.gives(b"1:a", "convert", source=longest)
        for size in (32_769, 40_000):
            self.fails(1, b"refused 2: ", "convert", source=b"a".ljust(size))
        self.fails(1, b"refused 4: ", "convert", source=b"(" * 200 + b")" * 200)
        self.fails(1, b"refused 6: ", "convert", source=b"a" * 16_379)
        self.gives(b"16378:" + b"a" * 16_378, "convert", source=b"a" * 16_378)

    def test_refusals_leave_the_output(self) -> None:
        self.file("new", b"old")
        self.fails(1, SYNTAX, "convert", "--output", "new", source=b"(")
        self.assertEqual((self.folder / "new").read_bytes(), b"old")


class Check(Case):
    def test_good_files(self) -> None:
        self.file("list", LIST)
        self.gives(b"", "check", "list")
        status, out, said = self.run_tool("check", "list", "list", "--threads", "1")
        self.assertEqual((status, out), (0, b""))
        self.assertEqual(said, b"2 files: 2 good, 0 refused, 0 not read\n")

    def test_each_refused_file_has_a_line_in_order(self) -> None:
        names = [f"{number:02}" for number in range(40)]
        for number, name in enumerate(names):
            self.file(name, b"(" if number % 3 == 0 else b"()")
        for threads in ("1", "2", "7"):
            status, out, said = self.run_tool("check", "--threads", threads, *names)
            self.assertEqual((status, out), (1, b""))
            lines = [b"etglavino: %s: %scut short after 1 octet\n" % (name.encode(), SYNTAX) for name in names[::3]]
            self.assertEqual(said, b"".join(lines) + b"40 files: 26 good, 14 refused, 0 not read\n")

    def test_what_cannot_be_read(self) -> None:
        self.file("bad", b"(")
        (self.folder / "folder").mkdir()
        self.fails(2, b"missing: No such file", "check", "missing")
        self.fails(2, b"folder: Is a directory", "check", "folder")
        self.fails(2, b"3 files: 0 good, 1 refused, 2 not read", "check", "bad", "missing", "folder")

    def test_the_form(self) -> None:
        self.file("basic", LIST_BASIC)
        self.gives(b"", "check", "basic")
        self.gives(b"", "check", "--from", "any", "basic")
        self.gives(b"", "check", "--from", "basic", "basic")
        for form in ("advanced", "canonical"):
            self.fails(1, SYNTAX, "check", "--from", form, "basic")
        self.fails(2, b"none of canonical, basic, advanced and terminal", "check", "--from", "xml", "basic")


class Show(Case):
    def test_documents_table(self) -> None:
        self.gives(LIST_TABLE, "table", source=LIST)

    def test_the_tree(self) -> None:
        text = b'(a (b [int]#ff7f#) [""]"\\t" [f32]#3fc00000# [f64]x ())'
        lines = b"""\
0  list    6 elements
1  string    a
2  list      2 elements
3  string      b
4  hinted      [int]#ff7f# = -129
5  hinted    [""]#09#
6  hinted    [f32]#3fc00000# = 1.5
7  hinted    [f64]x = refused 11: not a value of its type, or not finite
8  list      no elements
"""
        self.gives(lines, "show", source=text)
        self.gives(b"0  string  a  at 0\n", "show", "--paths", source=b"a")

    def test_hours_of_a_line_and_of_a_week(self) -> None:
        line = b"([f64]#401d000000000000# [f64]#3fe0000000000000# [f64]#0000000000000000#)"
        _, out, _ = self.run_tool("show", source=b"(%s %s)" % (line, line))
        shown = out.splitlines()
        self.assertEqual(shown[0], b"0  list    2 elements = 2 lines: 15.50 hours")
        said = b"1  list      3 elements = 7.25 ordinary, 0.50 night, 0.00 holiday: 7.75 hours"
        self.assertEqual(shown[1], said)


class Same(Case):
    def test_same_and_different(self) -> None:
        self.file("list", LIST)
        self.file("other", b'("abc" [x]"")')
        self.file("bare", b'(abc "")')
        self.gives(b"same\n", "same", "list", "other")
        self.gives(b"same\n", "same", "--hint", "x", "list", "bare")
        answer = self.run_tool("same", "list", "bare")
        self.assertEqual(answer, (1, b"different\n", b""))
        self.gives(b"same\n", "same", "-", "list", source=LIST)

    def test_refusals(self) -> None:
        self.file("list", LIST)
        self.fails(1, b"standard input: " + SYNTAX, "same", "list", "-", source=b"(")
        self.fails(2, b"one of the two", "same", "-", "-")
        self.fails(2, b"missing", "same", "list", "missing")


class Split(Case):
    def test_sheets_back_to_back(self) -> None:
        run = LIST + b"0:" + LIST
        lines = LIST_ADVANCED + b'""\n' + LIST_ADVANCED
        self.gives(lines, "split", source=run)
        self.gives(run, "split", "--to", "canonical", source=run)
        self.gives(LIST_BASIC + b"\n{MDo=}\n" + LIST_BASIC + b"\n", "split", "--to", "basic", source=run)
        self.gives(b"", "split", source=b"")
        # Longer than one source may be.
        self.gives(lines * 1000, "split", source=run * 1000)

    def test_refusals(self) -> None:
        self.fails(1, b"standard input, sheet 1: " + SYNTAX, "split", source=LIST + b"(")
        self.fails(1, b"standard input, sheet 0: refused 4: ", "split", source=b"(" * 200 + b")" * 200)
        # However much stands behind it, and what is too long whether it ends or not.
        wrong = b"sheet 1: " + SYNTAX + b"from octet 2 on\n  (3a(3:abc[1:x]0:)(3:ab\n    ^\n"
        self.fails(1, wrong, "split", source=LIST + b"(3a" + LIST * 5000)
        for long in (b"40000:" + b"a" * 40_000, b"40000:" + b"a" * 39_000):
            self.fails(1, b"sheet 1: refused 2: ", "split", source=LIST + long)


class Extract(Case):
    def test_private_lists(self) -> None:
        text = b"(shift (private sick) (a (private)) (public) private)"
        self.gives(b"(shift () (a ()) (public) private)\n", "extract", source=text)
        self.gives(b"()", "extract", "--to", "canonical", source=b"(private x)")
        self.gives(b"{KCk=}", "extract", source=b"{KDc6cHJpdmF0ZSk=}")


if __name__ == "__main__":
    unittest.main()
