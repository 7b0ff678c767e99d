"""The wheel: made from the repository, installed in a fresh environment without
network, and used there with neither `rt` nor the repository in sight."""

import os
import subprocess
import sys
import tempfile
import unittest
import venv
import zipfile
from pathlib import Path

ROOT = Path(__file__).resolve().parents[2]
OFFLINE = ("--no-index", "--disable-pip-version-check", "--quiet")

USES = """\
import etglavino, sys
sheet = etglavino.read(etglavino.Form.ADVANCED, b'(abc [x]"")')
assert sheet.canonical == b"(3:abc[1:x]0:)", sheet
assert sheet.replace(3, b'"hi"', 1).write(3) == b'(hi [x]"")'
assert [sheet.parent(node) for node in sheet.children(0)] == [0, 0]
print(etglavino.__file__)
"""


class Wheel(unittest.TestCase):
    @classmethod
    def setUpClass(cls) -> None:
        folder = tempfile.TemporaryDirectory()
        cls.addClassCleanup(folder.cleanup)
        cls.folder = Path(folder.name)
        pip = (sys.executable, "-m", "pip", "wheel", *OFFLINE, "--no-deps")
        cls.run_one(*pip, "-w", str(cls.folder), str(ROOT / "python"))
        (cls.wheel,) = cls.folder.glob("*.whl")
        cls.home = cls.folder / "home"
        venv.create(cls.home)
        cls.pip_there("install", *OFFLINE, str(cls.wheel))

    @staticmethod
    def run_one(*command: str, **more) -> str:
        done = subprocess.run(command, capture_output=True, text=True, check=False, **more)
        if done.returncode != 0:
            raise AssertionError(f"{command} gave {done.returncode}: {done.stdout}{done.stderr}")
        return done.stdout

    @classmethod
    def pip_there(cls, *arguments: str) -> str:
        """This Python's pip, at work in the environment."""
        pip = (sys.executable, "-m", "pip", "--python", str(cls.home))
        return cls.run_one(*pip, *arguments)

    def run_there(self, program: str, *arguments: str, **more) -> str:
        """Runs something of the environment that sees nothing but it."""
        bare = {"PATH": str(self.home / "bin")}
        return self.run_one(str(self.home / "bin" / program), *arguments, env=bare, cwd=self.folder, **more)

    def test_the_package(self) -> None:
        where = self.run_there("python", "-c", USES).strip()
        self.assertTrue(where.startswith(str(self.home)), where)

    def test_the_command_and_its_front(self) -> None:
        for start in (("etglavino",), ("python", "-m", "etglavino")):
            out = self.run_there(*start, "convert", input='(abc [x] "")')
            self.assertEqual(out, "(3:abc[1:x]0:)")

    def test_what_it_carries(self) -> None:
        with zipfile.ZipFile(self.wheel) as wheel:
            names = set(wheel.namelist())
        package = {f"etglavino/{name}" for name in os.listdir(ROOT / "python/etglavino")}
        package.discard("etglavino/__pycache__")
        self.assertLessEqual(package | {"etglavino/libetglavino.so"}, names)

    def test_pip_knows_it(self) -> None:
        shown = self.pip_there("show", "--files", "etglavino")
        self.assertIn("bin/etglavino", shown)
        self.assertIn("License: MIT", shown)


if __name__ == "__main__":
    unittest.main()
