"""`make install` into a folder of its own: what is there, and that C programs
are built from it by pkg-config alone."""

import os
import re
import subprocess
import tempfile
import unittest
from pathlib import Path

ROOT = Path(__file__).resolve().parents[2]
EXAMPLES = ROOT / "examples/c"
CC = os.environ.get("CC", "cc")

TEXT = """\
#include <stdio.h>
#include <etglavino.h>

int main(void)
{
    uint32_t number;
    puts(etg_version());
    for (number = 0; number < 14; number++)
        puts(etg_refusal_text(number));
    return 0;
}
"""


def run(*command, **more) -> str:
    done = subprocess.run(command, capture_output=True, text=True, check=False, **more)
    if done.returncode != 0:
        raise AssertionError(f"{command} gave {done.returncode}: {done.stdout}{done.stderr}")
    return done.stdout


def make(goal: str, **names) -> None:
    named = [f"{name}={value}" for name, value in names.items()]
    run("make", "-s", "--no-print-directory", "-C", str(ROOT), goal, *named)


class Installed(unittest.TestCase):
    @classmethod
    def setUpClass(cls) -> None:
        folder = tempfile.TemporaryDirectory()
        cls.addClassCleanup(folder.cleanup)
        cls.folder = Path(folder.name)
        cls.prefix = cls.folder / "usr"
        make("install", PREFIX=cls.prefix)

    def pkg_config(self, *asked: str) -> list[str]:
        path = str(self.prefix / "lib/pkgconfig")
        environment = os.environ | {"PKG_CONFIG_LIBDIR": path, "PKG_CONFIG_PATH": ""}
        return run("pkg-config", *asked, "etglavino", env=environment).split()

    def built(self, source: Path, *static: str) -> Path:
        """A program built from what is installed; the header and the library of
        the repository are out of its sight."""
        program = self.folder / (source.stem + "".join(static))
        flags = self.pkg_config(*(["--static"] if static else []), "--cflags", "--libs")
        copy = self.folder / source.name
        copy.write_text(source.read_text().replace('"etglavino.h"', "<etglavino.h>"))
        warnings = ("-std=c99", "-Wall", "-Wextra", "-Werror", "-pedantic")
        run(CC, *warnings, *static, "-o", str(program), str(copy), *flags)
        return program

    def run_built(self, program: Path, *arguments: str) -> str:
        return run(str(program), *arguments, env={"LD_LIBRARY_PATH": str(self.prefix / "lib")})

    def test_the_c_example_static_and_shared(self) -> None:
        text = '(shift ann (from "22:00") (to "06:00") (private sick))'
        expected = (EXAMPLES / "expected").read_text()
        for static in ((), ("-static",)):
            program = self.built(EXAMPLES / "correct.c", *static)
            out = self.run_built(program, text, "5", '"21:45"')
            self.assertTrue(out.count("\n") > 4 and expected.startswith(out), out)
            needed = run("readelf", "-d", str(program))
            self.assertEqual("[libetglavino.so." in needed, not static)

    def test_the_version_and_the_sentences(self) -> None:
        source = self.folder / "text.c"
        source.write_text(TEXT)
        version, *sentences = self.run_built(self.built(source)).splitlines()
        self.assertEqual(self.pkg_config("--modversion"), [version])
        for folder in ("rust", "tool"):
            self.assertIn(f'\nversion = "{version}"\n', (ROOT / folder / "Cargo.toml").read_text())
        self.assertIn(f'\nversion = "{version}"\n', (ROOT / "python/pyproject.toml").read_text())
        self.assertIn(f'"etglavino {version}"', (ROOT / "tool/etglavino.1").read_text())
        self.assertEqual(run(str(self.prefix / "bin/etglavino"), "--version"), f"etglavino {version}\n")
        # As the Rust crate has them.
        rust = (ROOT / "rust/src/refusal.rs").read_text()
        numbers = dict(re.findall(r"^ +(?:Refusal::)?([A-Z]\w+)(?: \{ \.\. \})? =>? (\d+),$", rust, re.M))
        said = dict(re.findall(r'Refusal::(\w+)(?: \{ \.\. \})? => (?:\{\s*)?"(.*)"', rust))
        self.assertEqual(set(numbers), set(said))
        expected = ["accepted"] + ["no refusal has this number"] * 13
        for name, number in numbers.items():
            expected[int(number)] = said[name]
        self.assertEqual(sentences, expected)

    def test_what_the_shared_object_shows(self) -> None:
        library = self.prefix / "lib/libetglavino.so"
        (version,) = self.pkg_config("--modversion")
        self.assertEqual(library.resolve().name, f"libetglavino.so.{version}")
        shown = run("nm", "-D", "--defined-only", str(library))
        names = {line.split()[2].split("@")[0] for line in shown.splitlines() if " T " in line}
        header = (self.prefix / "include/etglavino.h").read_text()
        self.assertEqual(names, set(re.findall(r"^[\w ]+[ *](etg_\w+)\(", header, re.M)))
        self.assertIn("SONAME", run("readelf", "-d", str(library)))

    def test_what_is_there_and_goes_again(self) -> None:
        self.assertTrue(os.access(self.prefix / "bin/etglavino", os.X_OK))
        with tempfile.TemporaryDirectory() as stage:
            make("install", PREFIX="/usr/etg", DESTDIR=stage)
            there = Path(stage, "usr/etg")
            self.assertIn("prefix=/usr/etg\n", (there / "lib/pkgconfig/etglavino.pc").read_text())
            for name in ("share/man/man1/etglavino.1", "share/bash-completion/completions/etglavino"):
                self.assertTrue((there / name).is_file(), name)
            make("uninstall", PREFIX="/usr/etg", DESTDIR=stage)
            left = [path for path in there.rglob("*") if not path.is_dir()]
            self.assertEqual(left, [])


if __name__ == "__main__":
    unittest.main()
