"""A spool in a file: kept, locked, shared, full and cut."""

from __future__ import annotations

import errno
import os
import random
import shutil
import signal
import subprocess
import sys
import tempfile
import threading
import unittest
from pathlib import Path

from etglavino import Refusal, SpoolFile, SpoolInUse

from . import verbatim

PACKAGE = Path(__file__).resolve().parents[1]


class File(unittest.TestCase):
    def setUp(self) -> None:
        folder = tempfile.TemporaryDirectory()
        self.addCleanup(folder.cleanup)
        self.path = Path(folder.name) / "spool"

    def test_entries_stay(self) -> None:
        with SpoolFile.create(self.path, 12) as spool:
            spool.add(b"()")
            spool.add(b"1:a")
            with self.assertRaises(Refusal) as caught:
                spool.add(b"(1:b)")
            self.assertEqual(caught.exception.number, 6)
        self.assertEqual(self.path.read_bytes(), b"\x02()\x031:a\0\0\0\0\0")
        with SpoolFile(self.path) as spool:
            spool.grow(14)
            spool.add(b"(1:b)")
            self.assertEqual(list(spool), [b"()", b"1:a", b"(1:b)"])
            self.assertEqual((len(spool), spool.sheet(1), spool.sheet(3)), (3, b"1:a", b""))
        self.assertEqual(self.path.read_bytes(), b"\x02()\x031:a\x05(1:b)\0")

    def test_one_writer_at_a_time(self) -> None:
        with SpoolFile.create(self.path, 64):
            with self.assertRaises(SpoolInUse):
                SpoolFile(self.path)
            with self.assertRaises(FileExistsError):
                SpoolFile.create(self.path, 64)
        SpoolFile(self.path).close()

    def test_damaged_and_empty(self) -> None:
        self.path.write_bytes(b"\x82\0()")
        with SpoolFile(self.path) as spool:
            with self.assertRaises(Refusal):
                spool.add(b"()")
            self.assertEqual(spool.area, b"\x82\0()")
            self.assertEqual(spool.sheet(0), b"")
        self.path.write_bytes(b"")
        with SpoolFile(self.path) as spool:
            with self.assertRaises(Refusal):
                spool.add(b"()")
            spool.grow(3)
            spool.add(b"()")
        for use in (lambda: spool.grow(9), lambda: spool.add(b"()"), lambda: len(spool)):
            self.assertRaises(ValueError, use)

    def test_a_refusal_leaves_the_file_free(self) -> None:
        """The refusal is held on to, with all that its traceback holds."""
        SpoolFile.create(self.path, 4).close()
        for sheet, number in ((b"(", 7), (b"(1:a)", 6)):
            caught = None
            try:
                with SpoolFile(self.path) as spool:
                    spool.add(sheet)
            except Refusal as refusal:
                caught = refusal
            self.assertEqual(caught and caught.number, number)
            SpoolFile(self.path).close()
        self.path.write_bytes(b"\x82")
        caught = None
        try:
            with SpoolFile(self.path) as spool:
                len(spool)
        except Refusal as refusal:
            caught = refusal
        SpoolFile(self.path).close()
        self.assertEqual(caught and caught.number, 10)

    def test_threads(self) -> None:
        """Threads take turns: all entries of all of them are kept, in order."""
        with SpoolFile.create(self.path, 4_096) as spool:

            def adds(name: int) -> None:
                for number in range(20):
                    spool.add(b"4:%02d%02d" % (name, number), lambda _: len(spool) and None)

            threads = [threading.Thread(target=adds, args=(name,)) for name in range(4)]
            for thread in threads:
                thread.start()
            for thread in threads:
                thread.join()
            shown = list(spool)
        self.assertEqual(len(shown), 80)
        for name in range(4):
            own = [sheet for sheet in shown if sheet[2:4] == b"%02d" % name]
            self.assertEqual(own, [b"4:%02d%02d" % (name, number) for number in range(20)])

    def test_within_an_addition(self) -> None:
        """What `stored` calls may look, and change nothing."""
        raised = []
        with SpoolFile.create(self.path, 64) as spool:

            def stored(_: int) -> None:
                for change in (lambda: spool.add(b"1:b"), lambda: spool.grow(99), spool.close):
                    try:
                        change()
                    except RuntimeError:
                        raised.append(len(spool))

            spool.add(b"1:a", stored)
            self.assertEqual(list(spool), [b"1:a"])
        self.assertEqual(raised, [0] * 12 + [1] * 3)

    def test_a_forked_process(self) -> None:
        """It shares the lock: it may change nothing, and closing leaves the lock."""
        with SpoolFile.create(self.path, 64) as spool:
            child = os.fork()
            if child == 0:
                refused = 0
                for use in (lambda: spool.add(b"()"), lambda: spool.grow(99), lambda: len(spool)):
                    try:
                        use()
                    except SpoolInUse:
                        refused += 1
                spool.close()
                os._exit(40 + refused)
            self.assertEqual(os.waitstatus_to_exitcode(os.waitpid(child, 0)[1]), 43)
            with self.assertRaises(SpoolInUse):
                SpoolFile(self.path)
            spool.add(b"1:a")
            self.assertEqual((list(spool), len(spool.area)), ([b"1:a"], 64))

    def test_no_space(self) -> None:
        """A process whose files may not grow."""
        SpoolFile.create(self.path, 16_000).close()
        child = os.fork()
        if child == 0:
            os._exit(self.without_space())
        self.assertEqual(os.waitpid(child, 0)[1], 0)
        with SpoolFile(self.path) as spool:
            self.assertEqual(list(spool), [b"1:a", b"1:b"])
        self.assertEqual(os.listdir(self.path.parent), ["spool"])

    def without_space(self) -> int:
        import resource

        resource.setrlimit(resource.RLIMIT_FSIZE, (32_768, 32_768))
        with SpoolFile(self.path) as spool:
            spool.add(b"1:a")
            for size in (2**20, 2**30):
                for grown in (spool.grow, lambda size: SpoolFile.create(f"{self.path}2", size)):
                    try:
                        grown(size)
                        return 1
                    except OSError:
                        pass
            spool.add(b"1:b")
            return 0 if list(spool) == [b"1:a", b"1:b"] else 1

    def test_a_small_disk(self) -> None:
        """A disk that is full, where the system lets us have one."""
        if not shutil.which("unshare") or subprocess.run(
            ["unshare", "-rm", "mount", "-t", "tmpfs", "tmpfs", self.path.parent],
            capture_output=True,
        ).returncode:
            self.skipTest("no small disk can be had")
        script = 'mount -t tmpfs -o size=64k tmpfs "$0" && exec "$@"'
        command = [sys.executable, "-m", "tests.test_spool_file", self.path]
        fill = ["unshare", "-rm", "sh", "-c", script, self.path.parent, *command]
        done = subprocess.run(fill, cwd=PACKAGE, capture_output=True, text=True)
        self.assertEqual((done.returncode, done.stdout), (0, "filled\n"), done.stderr)

    def test_killed_at_a_store(self) -> None:
        """A child is killed after a store, two hundred times."""
        rng = random.Random(6)
        shown: list[bytes] = []
        SpoolFile.create(self.path, 2_048).close()
        for cut in range(200):
            sheets = [verbatim(rng.randrange(150)) for _ in range(20)]
            stores = rng.randrange(1, 250)
            child = os.fork()
            if child == 0:
                self.adds(sheets, stores)
            self.assertEqual(os.waitpid(child, 0)[1], signal.SIGKILL, cut)
            for sheet in sheets:
                stores -= len(sheet) + (1 if len(sheet) < 128 else 2) + 1
                if stores < 0:
                    break
                shown.append(sheet)
            with SpoolFile(self.path) as spool:
                self.assertEqual(list(spool), shown, cut)
            if sum(map(len, shown)) > 1_400:
                octets = bytearray(self.path.read_bytes())
                octets[0] = 0  # Emptied, with the old octets behind its end.
                self.path.write_bytes(octets)
                shown = []

    def adds(self, sheets: list[bytes], left: int) -> None:
        """Adds until so many stores are made, and is killed there."""

        def stored(_: int) -> None:
            nonlocal left
            left -= 1
            if left == 0:
                os.kill(os.getpid(), signal.SIGKILL)

        try:
            with SpoolFile(self.path) as spool:
                for sheet in sheets:
                    spool.add(sheet, stored)
        finally:
            os._exit(1)


def fill(path: Path) -> None:
    """A full disk loses nothing, and says that it is full."""
    with SpoolFile.create(path, 16_000) as spool:
        spool.add(b"1:a")
        other = path.with_name("other")
        for size in (2**20, 2**30):
            for grown in (spool.grow, lambda size: SpoolFile.create(other, size)):
                try:
                    grown(size)
                except OSError as error:
                    assert error.errno == errno.ENOSPC, error
                else:
                    raise AssertionError(size)
        spool.add(b"1:b")
        assert list(spool) == [b"1:a", b"1:b"]
    other.touch()
    os.truncate(other, 2**20)
    try:
        SpoolFile(other)
    except OSError as error:
        assert error.errno == errno.ENOSPC, error
    else:
        raise AssertionError("holes")
    assert sorted(os.listdir(path.parent)) == ["other", "spool"]
    print("filled")


if __name__ == "__main__":
    fill(Path(sys.argv[1]))
