"""The system's calls that a spool in a file makes: what is stored when each sync
comes, what follows one that fails, and who may come between."""

from __future__ import annotations

import errno
import fcntl
import mmap
import os
import tempfile
import unittest
from collections.abc import Callable, Iterator
from contextlib import contextmanager
from pathlib import Path
from unittest import mock

from etglavino import SpoolFile, SpoolInUse


class Map(mmap.mmap):
    """A map that tells what it holds when it is synced, or fails to be."""

    syncs: list[bytes]
    failing: Callable[[], bool]

    def flush(self, *part: int) -> None:
        self.syncs.append(bytes(self))
        if self.failing():
            raise OSError(errno.EIO, "no sync")
        super().flush(*part)


@contextmanager
def watched(failing: Callable[[], bool] = lambda: False) -> Iterator[list[bytes]]:
    """Maps made now tell what they hold when they are synced."""
    syncs: list[bytes] = []
    of = type("Of", (Map,), {"syncs": syncs, "failing": staticmethod(failing)})
    with mock.patch("etglavino._spool_file.mmap.mmap", of):
        yield syncs


class Sync(unittest.TestCase):
    def setUp(self) -> None:
        folder = tempfile.TemporaryDirectory()
        self.addCleanup(folder.cleanup)
        self.path = Path(folder.name).resolve() / "spool"

    def test_an_addition_syncs_twice(self) -> None:
        """Before the commit store all the rest, and then the commit store."""
        self.path.write_bytes(b"\x02()\0\x09\x09\x09\x09")
        with watched() as syncs, SpoolFile(self.path) as spool:
            syncs.clear()
            spool.add(b"0:")
        self.assertEqual(syncs, [b"\x02()\x000:\0\x09", b"\x02()\x020:\0\x09"])

    def test_opening_syncs_file_and_folder(self) -> None:
        self.path.write_bytes(b"\x02()\0")
        with watched() as syncs, self.synced() as files:
            SpoolFile(self.path).close()
        self.assertEqual((syncs, files), ([b"\x02()\0"], [self.path, self.path.parent]))

    @contextmanager
    def synced(self, failing: int = 0) -> Iterator[list[Path]]:
        """What is synced besides maps; the one of that number fails."""
        files: list[Path] = []
        fsync = os.fsync

        def sync(file: int) -> None:
            files.append(Path(os.readlink(f"/proc/self/fd/{file}")))
            if len(files) == failing:
                raise OSError(errno.EIO, "no sync")
            fsync(file)

        with mock.patch("os.fsync", sync):
            yield files

    def test_opening_writes_what_is_shown(self) -> None:
        """Each page that holds entries or the 0 behind them."""
        sheet, page = b"8186:" + bytes(8_186), mmap.PAGESIZE
        with SpoolFile.create(self.path, 5 * 4_096) as spool:
            spool.add(sheet)
        stored: list[int] = []

        def put(_: mmap.mmap, at: int, octet: int) -> None:
            stored.append(at)

        with mock.patch.object(Map, "__setitem__", put, create=True), watched():
            SpoolFile(self.path).close()
        self.assertEqual(stored, list(range(0, 8_195, page)))

    def test_nothing_is_added_after_a_failed_sync(self) -> None:
        for good, shown in ((1, [b"1:a"]), (2, [b"1:a", b"1:b"])):
            with SpoolFile.create(self.path, 64) as spool:
                spool.add(b"1:a")
            left = iter([False] * good + [True])
            with watched(lambda: next(left)) as syncs, SpoolFile(self.path) as spool:
                self.assertRaises(OSError, spool.add, b"1:b")
                self.assertRaises(OSError, spool.add, b"1:c")
                self.assertRaises(OSError, spool.grow, 99)
                self.assertEqual(len(syncs), good + 1)
            with SpoolFile(self.path) as spool:
                self.assertEqual(list(spool), shown)
                spool.add(b"1:c")
                self.assertEqual(list(spool), [*shown, b"1:c"])
            self.path.unlink()

    def test_a_file_that_cannot_be_made(self) -> None:
        """It leaves no name and no open file, and lets be what is there."""
        before = os.listdir("/proc/self/fd")
        for failing in (1, 2):
            with self.synced(failing), self.assertRaises(OSError):
                SpoolFile.create(self.path, 64)
            self.assertEqual(os.listdir(self.path.parent), [])
        self.path.write_bytes(b"\x02()")
        self.assertRaises(FileExistsError, SpoolFile.create, self.path, 64)
        self.assertEqual(os.listdir(self.path.parent), ["spool"])
        self.assertEqual(self.path.read_bytes(), b"\x02()")
        self.assertEqual(os.listdir("/proc/self/fd"), before)

    def test_nobody_comes_between_making_and_locking(self) -> None:
        flock, there = fcntl.flock, []

        def lock(file: int, how: int) -> None:
            there.append(self.path.exists())
            flock(file, how)

        with mock.patch("fcntl.flock", lock), SpoolFile.create(self.path, 64):
            self.assertEqual(there, [False])
            self.assertRaises(SpoolInUse, SpoolFile, self.path)

    def test_a_file_that_is_replaced(self) -> None:
        """Between opening it and locking it."""
        flock, other = fcntl.flock, self.path.with_name("other")

        def lock(file: int, how: int) -> None:
            other.replace(self.path)
            flock(file, how)

        for name in (self.path, other):
            name.write_bytes(b"\x02()\0")
        with mock.patch("fcntl.flock", lock), self.assertRaises(FileNotFoundError):
            SpoolFile(self.path)
        SpoolFile(self.path).close()
