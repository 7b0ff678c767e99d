"""The program `canon` as it is built, against docs/SPECIFICATION.md (S 8.6): what it writes for what comes from standard input.

Run from the repository's root, once `rt ci`, or `rt run` in crates/canon, has made the program: python3 -m unittest discover -s tests
"""

import base64
import os
import subprocess
import tempfile
import unittest
from pathlib import Path

CANON = Path(__file__).parent.parent / "crates" / "canon" / "out" / "canon"
OCTETS = bytes(range(256))

# S 6.1: a source has at most 32,768 octets, lists nest at most 128 deep, a canonical form has at most 16,384 octets;
# S 8.6: the program's table has 2,048 records.
SOURCE, DEPTH, RECORDS, CANONICAL = 32768, 128, 2048, 16384


def output(stdin) -> bytes:
    """What the program writes when its standard input is this file or descriptor."""
    run = subprocess.run([CANON], stdin=stdin, stdout=subprocess.PIPE, timeout=60, check=False)
    return run.stdout


def canon(text: bytes) -> bytes:
    """What the program writes for a text in a file."""
    with tempfile.TemporaryFile() as file:
        file.write(text)
        file.seek(0)
        return output(file)


def spaced(length: int) -> bytes:
    """An empty list, as a text of this many octets."""
    return b"(" + b" " * (length - 2) + b")"


def nested(depth: int) -> bytes:
    return b"(" * depth + b")" * depth


def list_of(nodes: int) -> bytes:
    """A list of empty strings, of this many nodes with itself."""
    return b"(" + b"0:" * (nodes - 1) + b")"


def string(length: int) -> bytes:
    """A string whose canonical form has this many octets, of which six are `NNNNN:`."""
    return b"%d:" % (length - 6) + b"x" * (length - 6)


class Accepted(unittest.TestCase):
    def test_canonical_octets_and_nothing_else(self):
        self.assertEqual(canon(b' ( abc [ x ] "" ) '), b"(3:abc[1:x]0:)")
        self.assertEqual(canon(b"a3:xyz"), b"6:a3:xyz")
        self.assertEqual(canon(b"3:abc\n"), b"3:abc")

    def test_every_octet_value(self):
        spellings = {
            "verbatim": b"256:" + OCTETS,
            "hexadecimal": b"#" + OCTETS.hex().encode() + b"#",
            "base-64": b"|" + base64.b64encode(OCTETS) + b"|",
            "octal": b'"' + b"".join(b"\\%03o" % octet for octet in OCTETS) + b'"',
            "escaped": b'"' + b"".join(b"\\x%02x" % octet for octet in OCTETS) + b'"',
        }
        for name, text in spellings.items():
            with self.subTest(name):
                self.assertEqual(canon(text), b"256:" + OCTETS)

    def test_up_to_each_limit(self):
        self.assertEqual(canon(spaced(SOURCE)), b"()")
        for text in nested(DEPTH), list_of(RECORDS), string(CANONICAL):
            with self.subTest(text[:8]):
                self.assertEqual(canon(text), text)

    def test_a_text_that_comes_in_pieces(self):
        text = string(CANONICAL)
        with subprocess.Popen([CANON], stdin=subprocess.PIPE, stdout=subprocess.PIPE) as run:
            for start in range(0, len(text), 5000):
                run.stdin.write(text[start : start + 5000])
                run.stdin.flush()
            written, _ = run.communicate(timeout=60)
        self.assertEqual(written, text)


class Refused(unittest.TestCase):
    def refused(self, number: int, *texts: bytes):
        for text in texts:
            with self.subTest(text[:8], length=len(text)):
                self.assertEqual(canon(text), b"refused %d\n" % number)

    def test_2_source_size(self):
        self.refused(2, spaced(SOURCE + 1), spaced(3 * SOURCE), b"(" * (SOURCE + 1))

    def test_3_syntax(self):
        self.refused(3, b"", b" \n", b"(1997)", b"03:abc", b'3"ab"', b"#616#", b"[1:x](1:a)", b"(a", b"a b")
        # 4 to 6 are given for texts of the language only
        self.refused(3, nested(DEPTH + 1)[:-1], list_of(RECORDS + 1)[:-1], string(CANONICAL + 1) + b")")

    def test_4_depth(self):
        self.refused(4, nested(DEPTH + 1), nested(SOURCE // 2))

    def test_5_nodes(self):
        self.refused(5, list_of(RECORDS + 1))

    def test_6_size(self):
        self.refused(6, string(CANONICAL + 1), string(SOURCE))


class Failed(unittest.TestCase):
    """A read that fails is not the end of the input: nothing of a sheet is written, and nothing is refused."""

    MESSAGE = b"read failed\n"

    def test_standard_input_closed(self):
        run = subprocess.run(["sh", "-c", 'exec "$0" <&-', CANON], stdout=subprocess.PIPE, timeout=60, check=False)
        self.assertEqual(run.stdout, self.MESSAGE)

    def test_a_folder(self):
        folder = os.open("/", os.O_RDONLY)
        try:
            self.assertEqual(output(folder), self.MESSAGE)
        finally:
            os.close(folder)

    def test_after_a_whole_text(self):
        # The pipe stays open and does not wait, so that the read after `(a)` fails.
        source, sink = os.pipe()
        try:
            os.set_blocking(source, False)
            os.write(sink, b"(a)")
            self.assertEqual(output(source), self.MESSAGE)
        finally:
            os.close(source)
            os.close(sink)


if __name__ == "__main__":
    unittest.main()
