"""Files edited and totalled."""

import random
import subprocess
import time
import unittest

from tool import LIST, LIST_ADVANCED, ROOT, SYNTAX, TOOL, Case

LINE = b"([f64]#401d000000000000# [f64]#3fe0000000000000# [f64]#0000000000000000#)"
WEEK = ROOT / "examples/week/week.sexp"


class Replace(Case):
    def test_by_number_and_by_path(self) -> None:
        for node in ("1", "0/0"):
            self.gives(b'(hi [x]"")\n', "replace", node, '"hi"', source=LIST)
        self.gives(b"(2:hi[1:x]0:)", "replace", "--from=canonical", "1", "hi", source=LIST)
        self.gives(b'(-hi [x]"")\n', "replace", "--", "1", "-hi", source=LIST)

    def test_a_file_is_replaced_as_a_whole(self) -> None:
        path = self.file("list", LIST)
        path.chmod(0o640)
        (self.folder / "link").symlink_to("list")
        before = path.stat().st_ino
        self.gives(b"", "replace", "0/1", "()", "link")
        self.assertEqual(path.read_bytes(), b"(abc ())\n")
        self.assertNotEqual(path.stat().st_ino, before)
        self.assertEqual(path.stat().st_mode & 0o777, 0o640)
        self.assertEqual(self.names(), ["link", "list"])
        self.assertTrue((self.folder / "link").is_symlink())

    def test_to_another_place(self) -> None:
        path = self.file("list", LIST)
        self.gives(b'(hi [x]"")\n', "replace", "--output", "-", "1", "hi", "list")
        self.gives(b"", "replace", "--to=canonical", "--output", "new", "1", "hi", "list")
        self.assertEqual((self.folder / "new").read_bytes(), b"(2:hi[1:x]0:)")
        self.assertEqual(path.read_bytes(), LIST)

    def test_refusals_leave_the_file(self) -> None:
        path = self.file("list", LIST)
        for said, node, text in (
            (b"TEXT: " + SYNTAX, "1", "("),
            (b"TEXT: " + SYNTAX, "0/9", "("),
            (b"list: refused 8: ", "3", "a"),
            (b"list: refused 8: ", "0/2", "a"),
            (b"list: refused 4: ", "0/1", "(" * 200 + ")" * 200),
            (b"list: refused 6: ", "0/1", "a" * 16_372),
        ):
            self.fails(1, said, "replace", node, text, "list")
            self.assertEqual(path.read_bytes(), LIST)
        self.fails(2, b"is no node's number", "replace", "0/x", "a", "list")
        self.fails(2, b"missing", "replace", "0", "a", "missing")
        self.fails(2, b"folder/new: No such", "replace", "--output", "folder/new", "0", "a", "list")
        (self.folder / "folder").mkdir()
        self.fails(2, b"folder: it is no plain file", "replace", "--output", "folder", "0", "a", "list")
        self.assertEqual(self.names(), ["folder", "list"])

    def test_a_process_killed_at_any_moment_leaves_the_old_file_or_the_new_one(self) -> None:
        path = self.file("list", LIST)
        texts, seen = (LIST_ADVANCED, b'(hi [x]"")\n'), set()
        moments = random.Random(9804)
        for _ in range(60):
            for word in ("hi", "abc"):
                run = subprocess.Popen([TOOL, "replace", "1", word, "list"], cwd=self.folder)
                time.sleep(moments.uniform(0, 0.004))
                run.kill()
                run.wait()
                seen.add(path.read_bytes())
        self.assertLessEqual(seen, {LIST, *texts})


class InsertAndRemove(Case):
    def test_into_a_file_and_out_of_it(self) -> None:
        path = self.file("list", LIST)
        self.gives(b"", "insert", "0", "1", "(d)", "list")
        self.assertEqual(path.read_bytes(), b'(abc (d) [x]"")\n')
        self.gives(b"", "insert", "0/1", "1", "e", "list")
        self.gives(b"", "remove", "0/0", "list")
        self.assertEqual(path.read_bytes(), b'((d e) [x]"")\n')
        self.gives(b"((d e))\n", "remove", "0/1", source=path.read_bytes())

    def test_refusals_leave_the_file(self) -> None:
        path = self.file("list", LIST)
        for said, *arguments in (
            (b"TEXT: " + SYNTAX, "insert", "0/9", "0", "("),
            (b"list: refused 8: ", "insert", "0/9", "0", "a"),
            (b"list: refused 9: ", "insert", "0/0", "0", "a"),
            (b"list: refused 9: ", "insert", "0", "3", "a"),
            (b"list: refused 8: ", "remove", "3"),
            (b"list: refused 9: ", "remove", "0"),
        ):
            self.fails(1, said, *arguments, "list")
            self.assertEqual(path.read_bytes(), LIST)
        for number in ("x", "+1", "-1", "", "1 ", "18446744073709551616"):
            self.fails(2, b"is no number", "insert", "0", "--", number, "a", "list")
        self.assertEqual(path.read_bytes(), LIST)

    def test_the_form_of_the_text(self) -> None:
        self.gives(b'(d abc [x]"")\n', "insert", "--text", "canonical", "0", "0", "1:d", source=LIST)
        self.gives(b'(d abc [x]"")\n', "insert", "--text", "terminal", "0", "0", "{MTpk}", source=LIST)
        self.fails(1, b"TEXT: " + SYNTAX, "insert", "--text", "canonical", "0", "0", "d", source=LIST)
        self.fails(2, b"--text: xml is none of", "insert", "--text", "xml", "0", "0", "d", source=LIST)


class Hours(Case):
    def test_a_week(self) -> None:
        _, out, _ = self.run_tool("hours", str(WEEK))
        lines = out.decode().splitlines()
        self.assertEqual(lines[0].split()[:4], ["node", "path", "what", "name"])
        weeks = [line.split()[3:] for line in lines if " week " in line]
        # As the example of a week has them in its own table.
        self.assertEqual(weeks[0], ["ann", "28.25", "8.25", "0.00", "36.50", "146"])
        self.assertEqual(weeks[2], ["cyn", "26.75", "1.25", "0.00", "28.00", "112"])
        self.assertEqual(lines[-1].split(), ["all", "55.00", "25.00", "6.25", "86.25", "345"])

    def test_csv(self) -> None:
        head = b"node,path,what,name,ordinary,night,holiday,hours,quarters\r\n"
        hours = b"7.25,0.50,0.00,7.75,31\r\n"
        # The name in its advanced spelling, whose quotes are doubled.
        rows = b'2,0/1,week,"""a, b""",%s3,0/1/0,line,,%s,,all,,%s' % (hours, hours, hours)
        self.gives(head + rows, "hours", "--csv", source=b'("a, b" (%s))' % LINE)
        self.gives(head + b",,all,,0.00,0.00,0.00,0.00,0\r\n", "hours", "--csv", source=b"(a (b))")
        # What a spreadsheet would compute is spelled as a quoted string, here and not in a table.
        for name in (b"=a+b", b"+a", b"-a"):
            rows = b'2,0/1,week,"""%s""",%s3,0/1/0,line,,%s,,all,,%s' % (name, hours, hours, hours)
            self.gives(head + rows, "hours", "--csv", source=b"(%s (%s))" % (name, LINE))
            _, out, _ = self.run_tool("hours", source=b"(%s (%s))" % (name, LINE))
            self.assertEqual(out.splitlines()[1].split()[3], name)

    def test_what_is_meant_as_a_line_is_never_left_out(self) -> None:
        long = LINE.replace(b"401d000000000000", b"4038400000000000")
        for node, text in (
            (1, b"(%s %s)" % (long, LINE)),
            (0, long),
            (2, b"(a ([f64]#3fe0000000000000#))"),
            (5, b"(%s ())" % LINE),
            # Something beside the hours, and hours without a list.
            (0, LINE[:-1] + b" note)"),
            (0, b"(ann " + LINE[1:]),
            (1, b"(" + LINE[:-1] + b" (note)))"),
            (1, b"((rate [f64]#401d000000000000#) %s)" % LINE),
            (0, b"[f64]#401d000000000000#"),
        ):
            self.fails(1, b", node %d: refused 12: " % node, "hours", source=text)

    def test_what_is_no_f64_string_is_none_of_its_business(self) -> None:
        for text in (b"(a [int]#01# ([f32]#3fc00000#) [F64]x ())", b"[int]#01#", b"()"):
            status, out, said = self.run_tool("hours", source=text)
            self.assertEqual((status, said), (0, b""))
            self.assertEqual(out.splitlines()[-1].split(), [b"all", b"0.00", b"0.00", b"0.00", b"0.00", b"0"])

    def test_a_name_is_of_the_same_list(self) -> None:
        # The last string before the second week stands in another list; nothing is before the third.
        text = b"(ann (%s) (bob) (%s) ((%s)))" % (LINE, LINE, LINE)
        _, out, _ = self.run_tool("hours", "--csv", source=text)
        weeks = [row.split(b",")[1:4] for row in out.splitlines() if b",week," in row]
        self.assertEqual(weeks, [[b"0/1", b"week", b"ann"], [b"0/3", b"week", b""], [b"0/4/0", b"week", b""]])


if __name__ == "__main__":
    unittest.main()
