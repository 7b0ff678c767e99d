"""What the tests of the command share: running it, and a folder for its files."""

import contextlib
import os
import pty
import subprocess
import tempfile
import unittest
from pathlib import Path

ROOT = Path(__file__).resolve().parents[2]
TOOL = os.environ.get("ETGLAVINO_TOOL", str(ROOT / "tool/target/release/etglavino"))

LIST = b"(3:abc[1:x]0:)"
"""The list of S 16.1 (docs/SPECIFICATION.md); its other spellings and its table follow."""
LIST_BASIC = b"{KDM6YWJjWzE6eF0wOik=}"
LIST_ADVANCED = b'(abc [x]"")\n'
LIST_TABLE = b"2 0 14 3 0 0 1 13 0\n0 1 6 1 0 0 3 6 0\n1 6 13 1 9 10 13 13 0\n"

SYNTAX = b"refused 3: the source is not in the form's language, "
"""Behind it stands where, in words."""


def seen(command, folder) -> bytes:
    """What a terminal sees on standard error of a command that is done."""
    ours, theirs = pty.openpty()
    run = subprocess.Popen(command, cwd=folder, stderr=theirs)
    os.close(theirs)
    text = b""
    with contextlib.suppress(OSError):  # What a terminal gives when nobody has it any more.
        while True:
            text += os.read(ours, 4096)
    os.close(ours)
    assert run.wait() == 0, text
    return text


class Case(unittest.TestCase):
    def setUp(self) -> None:
        folder = tempfile.TemporaryDirectory()
        self.addCleanup(folder.cleanup)
        self.folder = Path(folder.name)

    def run_tool(self, *arguments, source=b"", **more):
        """Exit status, standard output and standard error."""
        given = more if "stdin" in more else {"input": source, **more}
        done = subprocess.run([TOOL, *arguments], capture_output=True, cwd=self.folder, check=False, **given)
        return done.returncode, done.stdout, done.stderr

    def gives(self, out, *arguments, source=b"") -> None:
        """The command is done, and prints just this."""
        self.assertEqual(self.run_tool(*arguments, source=source), (0, out, b""))

    def fails(self, status, said, *arguments, source=b"") -> None:
        """The command fails with this status, says something with this in it, and
        has nothing on standard output."""
        got, out, error = self.run_tool(*arguments, source=source)
        self.assertEqual((got, out), (status, b""), error)
        self.assertIn(said, error)
        self.assertNotIn(b"panicked", error)

    def file(self, name, octets) -> Path:
        path = self.folder / name
        path.write_bytes(octets)
        return path

    def names(self):
        return sorted(os.listdir(self.folder))
