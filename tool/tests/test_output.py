"""What `--output` writes, and what it leaves."""

import os
import shutil
import subprocess
import unittest

from tool import LIST, LIST_ADVANCED, TOOL, Case

NOBODY = 65_534
"""A user who may do nothing beside what a mode grants."""


class OntoItself(Case):
    """What a command says of a sheet never takes the sheet's place."""

    def refused(self, path, *arguments) -> None:
        before = path.read_bytes()
        for output in (path.name, f"./{path.name}", "link"):
            self.fails(2, b"is the file that is read", *arguments, "--output", output)
            self.assertEqual(path.read_bytes(), before)

    def test_the_page_of_a_refused_text(self) -> None:
        (self.folder / "link").symlink_to("sheet")
        for text in (b"(shift ann", LIST):
            path = self.file("sheet", text)
            self.refused(path, "show", "--html", "sheet")
            self.refused(path, "show", "--html", "link")
            self.refused(path, "show", "sheet")
            self.refused(path, "hours", "--csv", "sheet")
            with path.open("rb") as source:
                arguments = ("show", "--html", "--output", "link")
                status, _, said = self.run_tool(*arguments, stdin=source)
            self.assertEqual(status, 2)
            self.assertIn(b"link is the file that is read", said)
            self.assertEqual(path.read_bytes(), text)

    def test_a_sheet_of_a_spool(self) -> None:
        self.file("list", LIST)
        self.gives(b"", "spool", "add", "--size", "40", "desk", "list")
        (self.folder / "link").symlink_to("desk")
        self.refused(self.folder / "desk", "spool", "get", "--to=basic", "desk", "0")

    def test_a_sheet_may_take_its_own_place(self) -> None:
        path = self.file("list", b"(a (private b))\n")
        self.gives(b"", "convert", "--to", "basic", "--output", "list", "list")
        self.gives(b"", "convert", "--to", "advanced", "--output", "list", "list")
        self.gives(b"", "extract", "--output", "list", "list")
        self.assertEqual(path.read_bytes(), b"(a ())\n")


class Written(Case):
    def test_every_command_that_has_it(self) -> None:
        line = b"([f64]#401d000000000000# [f64]#3fe0000000000000# [f64]#0000000000000000#)"
        self.file("list", LIST)
        self.file("private", b"(a (private b))")
        self.file("run", LIST + b"0:")
        self.file("line", line)
        self.gives(b"", "spool", "add", "desk", "list")
        head = b"node,path,what,name,ordinary,night,holiday,hours,quarters\r\n"
        hours = b"7.25,0.50,0.00,7.75,31\r\n"
        nodes = b'0  list    2 elements\n1  string    abc\n2  hinted    [x]""\n'
        before = self.names()
        for out, *arguments in (
            (LIST_ADVANCED, "convert", "--to", "advanced", "list"),
            (nodes, "show", "list"),
            (b"(a ())\n", "extract", "private"),
            (LIST_ADVANCED + b'""\n', "split", "run"),
            (head + b"0,0,line,," + hours + b",,all,," + hours, "hours", "--csv", "line"),
            (LIST, "spool", "get", "--to", "canonical", "desk", "0"),
        ):
            self.file("new", b"something longer that stood there before, in " + out)
            self.gives(b"", *arguments, "--output", "new")
            self.assertEqual((self.folder / "new").read_bytes(), out)
            (self.folder / "new").unlink()
            self.gives(b"", *arguments, "--output=new")
            self.assertEqual((self.folder / "new").read_bytes(), out)
            (self.folder / "new").unlink()
            self.gives(out, *arguments, "--output", "-")
            self.assertEqual(self.names(), before)


class Links(Case):
    def test_a_link_to_nothing_stays_and_its_file_is_made(self) -> None:
        self.file("list", LIST)
        (self.folder / "sub").mkdir()
        (self.folder / "link").symlink_to("sub/next")
        (self.folder / "sub/next").symlink_to("new")
        self.gives(b"", "convert", "--to", "advanced", "--output", "link", "list")
        self.assertTrue((self.folder / "link").is_symlink())
        self.assertTrue((self.folder / "sub/next").is_symlink())
        self.assertEqual((self.folder / "sub/new").read_bytes(), LIST_ADVANCED)
        self.assertEqual(sorted(os.listdir(self.folder / "sub")), ["new", "next"])

    def test_links_that_lead_nowhere(self) -> None:
        self.file("list", LIST)
        (self.folder / "circle").symlink_to("circle")
        (self.folder / "away").symlink_to("missing/new")
        for name, said in (("circle", b"circle: Too many levels"), ("away", b"away: No such file")):
            self.fails(2, said, "convert", "--output", name, "list")
            self.assertTrue((self.folder / name).is_symlink())
        self.assertEqual(self.names(), ["away", "circle", "list"])


class Folders(Case):
    def test_a_folder_that_cannot_be_opened_is_left_as_it_was(self) -> None:
        sub = self.folder / "sub"
        sub.mkdir()
        path = self.file("sub/list", LIST)
        tool = shutil.copy(TOOL, self.folder / "tool")
        user = {}
        if os.geteuid() == 0:
            user = {"user": NOBODY}
            self.folder.chmod(0o755)
            os.chown(sub, NOBODY, NOBODY)
            os.chown(path, NOBODY, NOBODY)

        def replace() -> tuple[int, bytes]:
            command = [tool, "replace", "1", "hi", "sub/list"]
            done = subprocess.run(command, cwd=self.folder, capture_output=True, check=False, **user)
            return done.returncode, done.stdout + done.stderr

        sub.chmod(0o300)
        self.addCleanup(sub.chmod, 0o700)
        status, said = replace()
        self.assertEqual(status, 2)
        self.assertIn(b"sub/list: Permission denied", said)
        sub.chmod(0o700)
        self.assertEqual(path.read_bytes(), LIST)
        self.assertEqual(os.listdir(sub), ["list"])
        # Nothing else was in the way.
        self.assertEqual(replace(), (0, b""))
        self.assertEqual(path.read_bytes(), b'(hi [x]"")\n')


if __name__ == "__main__":
    unittest.main()
