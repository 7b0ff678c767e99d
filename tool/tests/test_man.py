"""The man page and the completion: every example gives what it says, and both
have every command and flag that help has."""

import os
import re
import subprocess
import unittest

from tool import ROOT, TOOL, Case

PAGE = (ROOT / "tool/etglavino.1").read_text()
COMPLETION = ROOT / "tool/completion.bash"
ESCAPES = {r"\-": "-", r"\(aq": "'", r"\e": "\\", r"\&": ""}


def unescaped(text: str) -> str:
    """What a reader sees of it."""
    return re.sub(r"\\\(aq|\\[-e&]", lambda found: ESCAPES[found.group()], text)


def examples():
    """Each command of an example with what it prints, in the page's order."""
    for block in re.findall(r"^\.EX\n(.*?)^\.EE$", PAGE, re.M | re.S):
        for example in re.findall(r"^\$ .*\n(?:(?!\$ ).*\n)*", unescaped(block), re.M):
            command, _, printed = example.partition("\n")
            yield command[2:], printed


class Man(Case):
    def commands(self):
        """Every command with its flags, as help has them."""
        _, whole, _ = self.run_tool("--help")
        for line in whole.decode().splitlines():
            if line.startswith("  "):
                name = line[2:14].strip()
                _, out, _ = self.run_tool(*name.split(), "--help")
                yield name, re.findall(r"^  (--\w+)", out.decode(), re.M)

    def test_examples(self) -> None:
        path = os.path.dirname(TOOL) + os.pathsep + os.environ["PATH"]
        ran = []
        for command, printed in examples():
            done = subprocess.run(
                ["bash", "-c", command],
                cwd=self.folder,
                stdout=subprocess.PIPE,
                stderr=subprocess.STDOUT,
                env=os.environ | {"PATH": path},
                check=False,
            )
            # Octets in other forms than advanced have no line feed behind them.
            out = done.stdout.decode().replace("\r", "")
            self.assertEqual(out.removesuffix("\n"), printed.removesuffix("\n"), command)
            ran.append(command)
        for name, _ in self.commands():
            shown = any(f"etglavino {name} " in command + " " for command in ran)
            self.assertTrue(shown, f"no example of {name}")

    def test_every_command_and_flag_is_in_the_page(self) -> None:
        text = re.sub(r"\\f[BIR]", "", unescaped(PAGE))
        for name, flags in self.commands():
            entry = re.search(rf"^\.TP\n{name}\b(.*)$", text, re.M)
            self.assertIsNotNone(entry, name)
            whole = re.search(rf"^\.TP\n{name}\b(?:.*\n)+?(?=\.TP|\.PP|\.SH)", text, re.M)
            for flag in flags:
                self.assertIn(flag, whole.group() + " --help")

    def test_the_page_is_well_made(self) -> None:
        try:
            done = subprocess.run(
                ["man", "--warnings", "-l", str(ROOT / "tool/etglavino.1")],
                capture_output=True,
                env=os.environ | {"LC_ALL": "C.UTF-8", "MANWIDTH": "120"},
                check=False,
            )
        except FileNotFoundError:
            self.skipTest("there is no man")
        self.assertEqual((done.returncode, done.stderr), (0, b""))

    def complete(self, *words: str):
        """What bash offers for the last of the words."""
        script = (
            'source "$1"; shift; COMP_WORDS=("$@"); COMP_CWORD=$(($# - 1)); '
            "_etglavino; printf '%s\\n' \"${COMPREPLY[@]}\""
        )
        done = subprocess.run(
            ["bash", "-c", script, "bash", str(COMPLETION), *words],
            capture_output=True,
            text=True,
            cwd=self.folder,
            check=True,
        )
        self.assertEqual(done.stderr, "")
        return done.stdout.split()

    def test_completion(self) -> None:
        first, second = [], []
        for name, flags in self.commands():
            words = name.split()
            first.append(words[0])
            second += words[1:]
            self.assertEqual(sorted(self.complete("etglavino", *words, "-")), sorted(flags), name)
        self.assertEqual(set(self.complete("etglavino", "")), {*first, "--help", "--version"})
        self.assertEqual(set(self.complete("etglavino", "spool", "")), {*second, "--help"})
        self.assertEqual(self.complete("etglavino", "convert", "--to", "b"), ["basic"])
        self.file("ann", b"()")
        self.assertEqual(self.complete("etglavino", "show", "a"), ["ann"])


if __name__ == "__main__":
    unittest.main()
