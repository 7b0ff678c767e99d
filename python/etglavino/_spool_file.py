"""A spool in a file. The file is mapped into memory and is the area: each store
of an addition is a step of the library, made where the file lies.

What is synced, and when: all stores but the last go to the map; `flush`, which
is `msync` with `MS_SYNC`, has them on the disk; then the last one, which shows
the entry, goes to the map, and `flush` again has it there. A disk may make the
stores before the first sync in any order, or some of them only: the old entries
are shown all the same. It must not make the last one before them.

A sync that failed may have lost stores that a later one reports nothing of. So
nothing is added after it until the file is opened anew, and opening has what the
file shows written again."""

from __future__ import annotations

import contextlib
import errno
import fcntl
import itertools
import mmap
import os
import threading
from collections.abc import Callable, Iterator
from pathlib import Path
from typing import Union

from ._entries import Octets, Refusal
from ._spool import Adding, spool_open, spool_sheets, spool_shown

Name = Union[str, "os.PathLike[str]"]

_numbers = itertools.count()


class SpoolInUse(Exception):
    """Another process, or this one, has the spool file open; or this process was
    forked from the one that opened it."""


class SpoolFile:
    """A spool in a file, open for one writer at a time; `close` it, or use it in
    a `with`. The file is locked (`flock`) until then, and its whole size is
    reserved on the disk. Threads may share it: they take turns.

    Raises `SpoolInUse`, and `OSError` where the file cannot be used; with errno
    ENOSPC where the disk is full: of `create` and `grow`, and of opening a file
    with holes. What is wrong with entries raises `Refusal`: 10 for a damaged
    file, 7 for a bad sheet, 6 where an entry has no room. A process forked from
    this one shares the lock, and may only close the file."""

    def __init__(self, path: Name) -> None:
        """Opens a file that is there. What it shows is then on the disk, and its
        name."""
        self._take(os.open(path, os.O_RDWR | os.O_CLOEXEC))
        try:
            here, there = os.fstat(self._file), os.stat(path)
            if here.st_nlink == 0 or not os.path.samestat(here, there):
                gone = "the spool file was removed or replaced while it was opened"
                raise FileNotFoundError(errno.ENOENT, gone, os.fspath(path))
            self._map(here.st_size)
            self._write_again()
            os.fsync(self._file)
            _sync_folder(Path(path).resolve())
        except BaseException:
            self._release()
            raise

    @classmethod
    def create(cls, path: Name, size: int) -> SpoolFile:
        """A new file of that many octets, an empty spool; it and its name are
        then on the disk. It is made under another name, `.spool-` and numbers,
        and gets its own when it is whole and locked. A process that is killed
        meanwhile may leave the other name."""
        path, linked = Path(path), False
        aside, file = _aside(path.parent)
        spool = cls.__new__(cls)
        try:
            try:
                spool._take(file)
                spool._map(size)
                os.fsync(file)
                os.link(aside, path)
                linked = True
            finally:
                os.unlink(aside)
            _sync_folder(path)
        except BaseException:
            # Nobody else has it: it is still locked, and who waits for the lock
            # finds no name.
            if linked:
                os.unlink(path)
            spool._release()
            raise
        return spool

    def _take(self, file: int) -> None:
        """Locks the file, which is this spool's from now on."""
        self._file = file
        self._area: mmap.mmap | bytearray = bytearray()
        self._process = os.getpid()
        self._failed = False
        self._turn = threading.Lock()
        self._thread: int | None = None
        try:
            fcntl.flock(file, fcntl.LOCK_EX | fcntl.LOCK_NB)
        except BaseException as error:
            self._release()
            if isinstance(error, BlockingIOError):
                raise SpoolInUse("the spool file is in use") from error
            raise

    def _release(self) -> None:
        if self._file >= 0:
            file, self._file = self._file, -1
            try:
                self._unmap()
            finally:
                os.close(file)

    def _map(self, size: int) -> None:
        """Maps the file's octets, of this size at least. Without reserving them
        a store to the map would end the process where the disk is full."""
        if size == 0:
            return  # Nothing can be mapped.
        os.posix_fallocate(self._file, 0, size)
        self._area = mmap.mmap(self._file, size)

    def _unmap(self) -> None:
        if isinstance(self._area, mmap.mmap):
            self._area.close()

    def _write_again(self) -> None:
        """Has the pages of the entries, and of the 0 behind them, on the disk,
        though their writing may have failed before now."""
        try:
            count = spool_open(self._area).count
            used = spool_open(self._area, max(count - 1, 0)).end + 1
        except Refusal:
            used = 0  # A damaged area is never added to.
        for at in range(0, min(used, len(self._area)), mmap.PAGESIZE):
            self._area[at] = self._area[at]
        self._sync()

    @contextlib.contextmanager
    def _held(self, changes: bool = False) -> Iterator[None]:
        """One thread at a time. Within an addition its own thread may look, but
        change nothing."""
        if self._process != os.getpid():
            raise SpoolInUse("the spool file is another process's")
        if self._thread == threading.get_ident():
            if changes:
                raise RuntimeError("the spool file is being added to")
            yield
            return
        with self._turn:
            self._thread = threading.get_ident()
            try:
                if self._file < 0:
                    raise ValueError("the spool file is closed")
                if changes and self._failed:
                    raise OSError(errno.EIO, "a sync failed; open the spool file anew")
                yield
            finally:
                self._thread = None

    def __enter__(self) -> SpoolFile:
        return self

    def __exit__(self, *_: object) -> None:
        self.close()

    def close(self) -> None:
        """Gives the file up, and its lock; more than once does no harm."""
        if self._process != os.getpid():
            self._release()  # A thread of the other process may have the turn.
            return
        if self._thread == threading.get_ident():
            raise RuntimeError("the spool file is being added to")
        with self._turn:
            self._release()

    def __len__(self) -> int:
        """How many entries there are. Raises `Refusal` 10 where it is damaged."""
        with self._held():
            return spool_open(self._area).count

    def __iter__(self) -> Iterator[bytes]:
        """The sheets that there are now, in order. The area is opened once, and
        raises `Refusal` 10 where it is damaged."""
        with self._held():
            return iter(spool_sheets(self._area))

    def sheet(self, number: int) -> bytes:
        """The sheet of a number from 0: no octets if there is none such or the
        file is damaged. The area is opened for each; to have all, iterate."""
        with self._held():
            return spool_shown(self._area, number)

    @property
    def area(self) -> bytes:
        """A copy of the whole area."""
        with self._held():
            return bytes(self._area)

    def add(self, sheet: Octets, stored: Callable[[int], None] | None = None) -> None:
        """Adds a sheet. When this returns, the entry is on the disk. `stored` is
        called after each store, with how many have been made. Where a sync
        raises an `OSError`, the file shows the old entries, or those and the new
        one, and has to be opened anew before anything is added."""
        with self._held(changes=True):
            adding = Adding(self._area, sheet)
            stores, done = 0, False
            while not done:
                if adding.commits(self._area):
                    self._sync()
                done = adding.step(self._area)
                stores += 1
                if stored:
                    stored(stores)
            self._sync()

    def _sync(self) -> None:
        """After a sync that failed it is unknown what the disk has."""
        if isinstance(self._area, mmap.mmap):
            failed, self._failed = self._failed, True
            self._area.flush()
            self._failed = failed

    def grow(self, size: int) -> None:
        """Makes the area longer, with zeros; a shorter size changes nothing. No
        entry is lost where that fails."""
        with self._held(changes=True):
            old = self._area
            if size <= len(old):
                return
            try:
                self._map(size)
            except OSError:
                # A part may have been reserved. Zeros behind the area do no harm.
                os.truncate(self._file, len(old))
                raise
            if isinstance(old, mmap.mmap):
                old.close()
            self._failed = True
            os.fsync(self._file)
            self._failed = False


def _aside(folder: Path) -> tuple[Path, int]:
    """A new file in the folder, under a name that nobody asks for."""
    while True:
        path = folder / f".spool-{os.getpid()}-{next(_numbers)}"
        with contextlib.suppress(FileExistsError):
            flags = os.O_RDWR | os.O_CREAT | os.O_EXCL | os.O_CLOEXEC
            return path, os.open(path, flags, 0o666)


def _sync_folder(path: Path) -> None:
    """Has the file's name on the disk."""
    folder = os.open(path.parent, os.O_RDONLY | os.O_CLOEXEC)
    try:
        os.fsync(folder)
    finally:
        os.close(folder)
