"""What has the Rust crate build the archive by `rt`, and when: a copy of the crate
in a repository of three files, with an `rt` that notes its calls. The Python
package has tests of its own for this."""

import contextlib
import os
import pty
import shutil
import subprocess
import tempfile
import unittest
from pathlib import Path

ROOT = Path(__file__).resolve().parents[2]
ARCHIVE = "crates/etglavino_c/out/libetglavino_c.a"
RT = """\
#!/bin/sh
echo "$@" >> ../../calls
echo 'rt: base proved'
mkdir -p out
ar rc out/libetglavino_c.a && touch out/libetglavino_c.a
"""


class Archive(unittest.TestCase):
    def setUp(self) -> None:
        folder = tempfile.TemporaryDirectory()
        self.addCleanup(folder.cleanup)
        self.root = Path(folder.name)
        for name in ("src", "build.rs", "Cargo.toml", "Cargo.lock"):
            source, copy = ROOT / "rust" / name, self.root / "rust" / name
            copy.parent.mkdir(exist_ok=True)
            shutil.copytree(source, copy) if source.is_dir() else shutil.copy(source, copy)
        (self.root / "crates/etglavino_c/src").mkdir(parents=True)
        self.source = self.root / "crates/etglavino_c/src/lib.rt"
        for path in (self.source, self.root / "crates.txt"):
            path.touch()
        (self.root / "bin").mkdir()
        rt = self.root / "bin/rt"
        rt.write_text(RT)
        rt.chmod(0o755)
        self.environment = os.environ | {"PATH": f"{self.root / 'bin'}:{os.environ['PATH']}"}
        for name in ("ETGLAVINO_LIB", "CARGO_TARGET_DIR"):
            self.environment.pop(name, None)
        self.cargo = ["cargo", "check", "--offline", "--manifest-path", str(self.root / "rust/Cargo.toml")]

    def check(self) -> subprocess.CompletedProcess:
        """Has cargo check the crate, where there is no terminal."""
        return subprocess.run(
            self.cargo, env=self.environment, capture_output=True, text=True, start_new_session=True, check=False
        )

    def calls(self) -> int:
        noted = self.root / "calls"
        return noted.read_text().count("lib\n") if noted.exists() else 0

    def age(self, path: Path, seconds: int) -> None:
        """Makes a file so much younger than the archive."""
        when = (self.root / ARCHIVE).stat().st_mtime + seconds
        os.utime(path, (when, when))

    def test_where_it_is_missing_or_old(self) -> None:
        self.assertEqual(self.check().returncode, 0)
        self.assertEqual(self.calls(), 1)
        self.assertEqual(self.check().returncode, 0)
        self.assertEqual(self.calls(), 1)
        for path in (self.source, self.root / "crates.txt"):
            before = self.calls()
            self.age(path, 5)
            self.assertEqual(self.check().returncode, 0)
            self.assertEqual(self.calls(), before + 1)
            self.age(path, -5)
            self.assertEqual(self.check().returncode, 0)
            self.assertEqual(self.calls(), before + 1)

    def test_a_terminal_sees_what_rt_says(self) -> None:
        child, terminal = pty.fork()
        if child == 0:
            os.execvpe(self.cargo[0], self.cargo, self.environment)
        seen = b""
        with contextlib.suppress(OSError):  # What a terminal gives when nobody has it any more.
            while octets := os.read(terminal, 4096):
                seen += octets
        os.close(terminal)
        self.assertEqual(os.waitstatus_to_exitcode(os.waitpid(child, 0)[1]), 0, seen)
        self.assertIn(b"there is no archive yet: `cd crates/etglavino_c && rt lib` builds it\r\n", seen)
        self.assertIn(b"rt: base proved\r\n", seen)

    def test_an_rt_that_fails(self) -> None:
        (self.root / "bin/rt").write_text("#!/bin/sh\necho 'rt: base: not proved'\nexit 1\n")
        done = self.check()
        self.assertNotEqual(done.returncode, 0)
        self.assertIn("rt: base: not proved", done.stderr)
        self.assertIn("`cd crates/etglavino_c && rt lib` failed", done.stderr)

    def test_outside_a_repository(self) -> None:
        shutil.rmtree(self.root / "crates")
        done = self.check()
        self.assertNotEqual(done.returncode, 0)
        self.assertIn("there is no ", done.stderr)
        self.assertIn("set ETGLAVINO_LIB", done.stderr)
        self.assertEqual(self.calls(), 0)


if __name__ == "__main__":
    unittest.main()
