"""seeds.py CORPUS FOLDER: the texts of a corpus's cases as inputs of entries.c, a
file each, named by its digest. reference/README.md has the corpus's format."""

import hashlib
import struct
import sys
from pathlib import Path

READ, REPLACE = 1, 3
LONGEST = 4096


def cases(corpus: bytes):
    """Each case, without its size."""
    at = 0
    while at < len(corpus):
        (size,) = struct.unpack_from("<I", corpus, at)
        yield corpus[at + 4 : at + 4 + size]
        at += 4 + size


def inputs(corpus: bytes):
    """The form and the text of what is read, or put in a node's place."""
    for number, case in enumerate(cases(corpus)):
        if case[0] in (READ, REPLACE):
            form, size = struct.unpack_from("<II", case, 1)
            text = case[9 : 9 + size]
            if form < 6 and len(text) <= LONGEST:
                yield bytes([form, number % 251, number % 256]) + text


def main(corpus: str, folder: str) -> None:
    Path(folder).mkdir(parents=True)
    for octets in inputs(Path(corpus).read_bytes()):
        Path(folder, hashlib.sha256(octets).hexdigest()[:16]).write_bytes(octets)


if __name__ == "__main__":
    main(*sys.argv[1:])
