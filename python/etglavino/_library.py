"""Loads the library: the shared object that a wheel carries; or the archive,
made a shared object by a C compiler. In the repository `rt` builds the archive
where it is missing, or older than what it is made of."""

from __future__ import annotations

import ctypes
import functools
import hashlib
import os
import subprocess
import sys
import tempfile
from pathlib import Path
from typing import Iterator

ARCHIVE = "libetglavino_c.a"
RT = ("rt", "lib")
ROOT = Path(__file__).resolve().parents[2]
CRATE = Path("crates", "etglavino_c")
"""Where `rt` makes the archive, in the repository."""
BUNDLED = Path(__file__).resolve().with_name("libetglavino.so")
"""What a wheel carries."""


class LibraryMissing(Exception):
    """The library cannot be found, built or loaded; the text says why."""


@functools.cache
def load() -> ctypes.CDLL:
    """The library, with its functions' types declared."""
    carried = BUNDLED.is_file() and not os.environ.get("ETGLAVINO_LIB")
    shared = BUNDLED if carried else _shared_object(_archive())
    try:
        library = ctypes.CDLL(str(shared))
    except OSError as error:
        raise LibraryMissing(f"cannot load {shared}: {error}") from error
    _declare(library)
    return library


def _archive() -> Path:
    named = os.environ.get("ETGLAVINO_LIB")
    archive = Path(named or ROOT / CRATE / "out") / ARCHIVE
    if not named and (ROOT / CRATE).is_dir():
        if not archive.is_file():
            _build("there is no archive yet")
        elif max(_changed()) > archive.stat().st_mtime_ns:
            _build("the archive is older than the crates")
    if not archive.is_file():
        raise LibraryMissing(f"there is no {archive}")
    return archive


def _changed() -> Iterator[int]:
    """When each file that the archive is made of was changed."""
    yield (ROOT / "crates.txt").stat().st_mtime_ns
    for folder, folders, names in os.walk(ROOT / "crates"):
        folders[:] = [inner for inner in folders if inner != "out"]
        for name in names:
            if name.endswith((".rt", ".antt")):
                yield os.stat(os.path.join(folder, name)).st_mtime_ns


def _build(why: str) -> None:
    """Has `rt` build the archive. It may take minutes: what it says is shown as
    it comes, on standard error."""
    shown = f"cd {CRATE.as_posix()} && {' '.join(RT)}"
    print(f"etglavino: {why}: `{shown}` builds it", file=sys.stderr, flush=True)
    try:
        rt = subprocess.Popen(RT, cwd=ROOT / CRATE, stdout=subprocess.PIPE, stderr=subprocess.STDOUT, text=True)
    except OSError as error:
        advice = f"install the Rattle kit, or set ETGLAVINO_LIB to the folder that has {ARCHIVE}"
        raise LibraryMissing(f"cannot run `rt`: {error}; {advice}") from error
    said = []
    with rt:
        assert rt.stdout is not None
        for line in rt.stdout:
            print(line, end="", file=sys.stderr, flush=True)
            said.append(line)
    if rt.returncode != 0:
        raise LibraryMissing(f"`{shown}` failed: {''.join(said[-20:]).strip()}")


def _shared_object(archive: Path) -> Path:
    """The archive as a shared object. A digest of the archive is in its name,
    so that another archive never meets an old one."""
    digest = hashlib.sha256(archive.read_bytes()).hexdigest()[:16]
    folder = ROOT / "target" / "python"
    shared = folder / f"libetglavino_c-{digest}.so"
    if not shared.is_file():
        folder.mkdir(parents=True, exist_ok=True)
        # Made aside and then renamed: another process may be at it as well.
        with tempfile.TemporaryDirectory(dir=folder) as aside:
            made = Path(aside) / shared.name
            whole = ["-Wl,--whole-archive", str(archive), "-Wl,--no-whole-archive"]
            _compile(["-shared", "-o", str(made), *whole])
            made.replace(shared)
    return shared


def _compile(arguments: list[str]) -> None:
    command = [os.environ.get("CC", "cc"), *arguments]
    try:
        done = subprocess.run(command, cwd=ROOT, capture_output=True, text=True, check=False)
    except OSError as error:
        advice = "install a C compiler, or set CC to one"
        raise LibraryMissing(f"cannot run `{command[0]}`: {error}; {advice}") from error
    if done.returncode != 0:
        said = (done.stdout + done.stderr).strip()
        raise LibraryMissing(f"`{' '.join(command)}` failed: {said}")


def _declare(library: ctypes.CDLL) -> None:
    """The types of include/etglavino.h."""
    number, count, octets = ctypes.c_uint32, ctypes.c_size_t, ctypes.c_char_p
    numbers, out = ctypes.POINTER(ctypes.c_uint32), ctypes.POINTER(ctypes.c_size_t)
    sheet, table = [octets, count], [numbers, count]
    functions = {
        "etg_read": [number, *sheet, *sheet, *table, out, out, out],
        "etg_write": [number, *sheet, count, *sheet, out],
        "etg_replace": [number, *sheet, *sheet, *table, count, count, count, out, out, out],
        "etg_insert": [number, *sheet, *sheet, *table, count, count, count, count, out, out, out],
        "etg_remove": [*sheet, *table, count, count, count, out, out],
        "etg_same": [*sheet, count, *sheet, count, *sheet, numbers],
        "etg_hint": [*sheet, count, *table, count, count, out, out],
        "etg_data": [*sheet, count, *table, count, count, out, out],
        "etg_extract": [*sheet, count, *sheet, *table, out, out],
        "etg_extract_own": [*sheet, count, *table, count, *sheet, *table, out, out],
    }
    for name, arguments in functions.items():
        function = getattr(library, name)
        function.argtypes = arguments
        function.restype = number
