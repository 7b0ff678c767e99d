"""The command as Python starts it, and what is said where the library is
missing."""

import contextlib
import io
import os
import shutil
import subprocess
import sys
import tempfile
import unittest
from pathlib import Path
from unittest import mock

from etglavino import LibraryMissing, __main__, _library

from . import LIST

PACKAGE = Path(__file__).resolve().parents[1]
READS = """\
import sys
from etglavino import LibraryMissing, read
try:
    sys.stdout.buffer.write(read(3, sys.stdin.buffer.read()).canonical)
except LibraryMissing as error:
    print(error, file=sys.stderr)
    sys.exit(2)
"""


def run(source: bytes, *python: str, **environment: str) -> tuple[int, bytes, bytes]:
    """Exit status, standard output and standard error of a Python in the
    package's folder."""
    done = subprocess.run(
        [sys.executable, *(python or ("-c", READS))],
        cwd=PACKAGE,
        input=source,
        capture_output=True,
        env=os.environ | environment,
        check=False,
    )
    return done.returncode, done.stdout, done.stderr


class Command(unittest.TestCase):
    """One command line, whoever starts it. What it does is tested with it."""

    def test_the_command_is_started(self) -> None:
        module = ("-m", "etglavino")
        self.assertEqual(run(b'(abc [x] "")', *module, "convert"), (0, LIST, b""))
        status, out, said = run(b"(", *module, "convert", "--to", "basic")
        self.assertEqual((status, out), (1, b""))
        self.assertIn(b"refused 3: ", said)
        self.assertEqual(run(b"", *module)[0], 2)

    def test_no_command(self) -> None:
        with tempfile.TemporaryDirectory() as empty:
            nowhere = mock.patch.dict(os.environ, {"PATH": empty})
            with mock.patch.object(__main__, "ROOT", Path(empty)), nowhere:
                self.assertIsNone(__main__.command())
                with mock.patch("sys.stderr"):
                    self.assertEqual(__main__.main(), 2)


class Missing(unittest.TestCase):
    def setUp(self) -> None:
        folder = tempfile.TemporaryDirectory()
        self.addCleanup(folder.cleanup)
        self.folder = Path(folder.name)

    def test_no_archive_where_one_is_named(self) -> None:
        status, out, said = run(b"()", ETGLAVINO_LIB=str(self.folder))
        self.assertEqual((status, out), (2, b""))
        self.assertIn(b"there is no ", said)
        self.assertIn(b"libetglavino_c.a", said)

    def test_an_archive_that_is_none(self) -> None:
        (self.folder / _library.ARCHIVE).write_bytes(b"no archive")
        status, _, said = run(b"()", ETGLAVINO_LIB=str(self.folder))
        self.assertEqual(status, 2)
        self.assertIn(b" failed: ", said)

    def test_the_archive_that_is_named_is_used(self) -> None:
        shutil.copy(_library._archive(), self.folder)
        self.assertEqual(run(b"()", ETGLAVINO_LIB=str(self.folder)), (0, b"()", b""))

    def test_no_compiler(self) -> None:
        (self.folder / _library.ARCHIVE).write_bytes(b"another archive")
        status, _, said = run(b"()", ETGLAVINO_LIB=str(self.folder), CC="no-such-compiler")
        self.assertEqual(status, 2)
        self.assertIn(b"cannot run `no-such-compiler`", said)
        self.assertIn(b"install a C compiler", said)

    def test_the_shared_object_is_made_once_for_an_archive(self) -> None:
        archive = _library._archive()
        with mock.patch.object(_library, "ROOT", self.folder):
            made = _library._shared_object(archive)
            with mock.patch.object(_library, "_compile", side_effect=AssertionError):
                self.assertEqual(_library._shared_object(archive), made)
        self.assertEqual(os.listdir(made.parent), [made.name])


class Built(unittest.TestCase):
    """What has `rt` build the archive, in a repository of three files with an `rt`
    that notes its calls."""

    def setUp(self) -> None:
        folder = tempfile.TemporaryDirectory()
        self.addCleanup(folder.cleanup)
        self.root = Path(folder.name)
        self.archive = self.root / "crates/etglavino_c/out" / _library.ARCHIVE
        (self.root / "bin").mkdir()
        (self.root / "crates/etglavino_c/must-fail").mkdir(parents=True)
        for name in ("crates.txt", "crates/etglavino_c/lib.rt", "crates/etglavino_c/must-fail/a.edit"):
            (self.root / name).touch()
        self.rt("echo 'rt: base proved'; echo 'rt: done' >&2; mkdir -p out; touch out/" + _library.ARCHIVE)
        environment = {"PATH": f"{self.root / 'bin'}:/usr/bin:/bin"}
        for patch in (mock.patch.dict(os.environ, environment), mock.patch.object(_library, "ROOT", self.root)):
            patch.start()
            self.addCleanup(patch.stop)
        os.environ.pop("ETGLAVINO_LIB", None)

    def rt(self, script: str) -> None:
        path = self.root / "bin/rt"
        path.write_text(f'#!/bin/sh\necho "$@" >> {self.root}/calls\n{script}\n')
        path.chmod(0o755)

    def said(self) -> str:
        """What is shown while the archive is asked for; that it is given."""
        with contextlib.redirect_stderr(io.StringIO()) as shown:
            self.assertEqual(_library._archive(), self.archive)
        return shown.getvalue()

    def calls(self) -> list[str]:
        noted = self.root / "calls"
        return noted.read_text().splitlines() if noted.exists() else []

    def age(self, name: str, seconds: int) -> None:
        """Makes a file so much younger than the archive."""
        when = self.archive.stat().st_mtime + seconds
        os.utime(self.root / name, (when, when))

    def test_where_it_is_missing_and_once(self) -> None:
        said = self.said()
        self.assertIn("there is no archive yet: `cd crates/etglavino_c && rt lib` builds it\n", said)
        self.assertTrue(said.endswith("\nrt: base proved\nrt: done\n"), said)
        self.assertEqual(self.calls(), ["lib"])
        self.assertEqual(self.said(), "")
        self.assertEqual(len(self.calls()), 1)

    def test_where_it_is_older_than_what_it_is_made_of(self) -> None:
        self.said()
        for count, name in enumerate(("crates.txt", "crates/etglavino_c/lib.rt"), 2):
            self.age(name, -1)
            self.assertEqual(self.said(), "")
            self.age(name, 1)
            self.assertIn("the archive is older than the crates: ", self.said())
            self.assertEqual(len(self.calls()), count)
            self.age(name, -1)
        # An edit that must fail is no part of it.
        self.age("crates/etglavino_c/must-fail/a.edit", 1)
        self.assertEqual(self.said(), "")

    def test_an_rt_that_fails(self) -> None:
        self.rt("echo 'rt: base: not proved' >&2; exit 1")
        with self.assertRaisesRegex(LibraryMissing, "`cd crates/etglavino_c && rt lib` failed: rt: base: not proved"):
            self.said()

    def test_no_rt(self) -> None:
        (self.root / "bin/rt").unlink()
        os.environ["PATH"] = str(self.root / "bin")
        with self.assertRaisesRegex(LibraryMissing, "cannot run `rt`.*ETGLAVINO_LIB"):
            self.said()

    def test_outside_a_repository(self) -> None:
        shutil.rmtree(self.root / "crates")
        with self.assertRaisesRegex(LibraryMissing, "there is no "):
            self.said()
        self.assertEqual(self.calls(), [])


if __name__ == "__main__":
    unittest.main()
