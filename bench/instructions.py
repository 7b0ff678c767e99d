#!/usr/bin/env python3
"""instructions.py ARCHIVE [ARCHIVE]: instructions of one reading, counted by callgrind.

For changes too small for a clock. Each archive is what `rt lib` makes in crates/etglavino_c; with two, the third number is what the
second takes beyond the first, in per cent. Only what runs inside etg_read is counted. Takes a C compiler and valgrind.
"""
import os
import re
import subprocess
import sys
import tempfile

HEADER = os.path.join(os.path.dirname(os.path.abspath(__file__)), "..", "include")

PROGRAM = r"""
#include <stdio.h>
#include <stdlib.h>
#include "etglavino.h"

static uint8_t text[1 << 16], sheet[ETG_MOST_CANONICAL];
static uint32_t table[ETG_MOST_NODES * ETG_RECORD];

int main(int argc, char **argv)
{
    FILE *file = fopen(argv[2], "rb");
    size_t size, length, nodes, place;

    if (argc != 3 || !file)
        return 2;
    size = fread(text, 1, sizeof text, file);
    return etg_read(atoi(argv[1]), text, size, sheet, sizeof sheet, table, sizeof table / sizeof *table, &length, &nodes, &place) != 0;
}
"""


def verbatim(data):
    return b"%d:%s" % (len(data), data)


def words(count):
    """Words of 3 to 10 letters, the same in every run."""
    seed, made = 9804, []
    for _ in range(count):
        seed = (seed * 1103515245 + 12345) % 2**31
        size = 3 + seed // 65536 % 8
        made.append(bytes(97 + (seed // 7 + 31 * i) % 26 for i in range(size)))
    return made


def texts():
    """Name, form and text of each row."""
    many = words(1700)
    short = "(shift ann (from \"22:00\") (to \"06:00\"))"
    nine = "(5:shift3:ann(4:from5:22:00)(2:to5:06:00))"
    yield "canonical, short strings", 1, b"(" + b"".join(map(verbatim, many)) + b")"
    yield "canonical, hints", 1, b"(" + b"".join(b"[%s]%s" % (verbatim(a), verbatim(b)) for a, b in zip(many[:700], many[700:])) + b")"
    yield "canonical, long strings", 1, b"(" + b"".join(verbatim(b"x" * 500) for _ in range(32)) + b")"
    yield "canonical, lists in lists", 1, b"(" + b"(((1:a)))" * 1600 + b")"
    yield "canonical, 100 deep", 1, b"(" * 100 + b")" * 100
    yield "canonical, nine nodes", 1, nine.encode()
    yield "advanced, tokens", 3, b"(" + b" ".join(many) + b")"
    yield "advanced, quoted", 3, b"(" + b" ".join(b'"%s"' % word for word in many) + b")"
    yield "advanced, hints and lists", 3, b"(" + b" ".join(b"([%s]%s (#6162# |YWJj|))" % pair for pair in zip(many[:400], many[400:])) + b")"
    yield "advanced, nine nodes", 3, short.encode()


def counted(folder, archive, form, text):
    program, path, out = (os.path.join(folder, name) for name in ("program", "text", "out"))
    with open(program + ".c", "w", encoding="utf-8") as file:
        file.write(PROGRAM)
    subprocess.run(["cc", "-O1", "-I", HEADER, "-o", program, program + ".c", archive], check=True)
    with open(path, "wb") as file:
        file.write(text)
    subprocess.run(
        ["valgrind", "-q", "--tool=callgrind", "--toggle-collect=etg_read", "--callgrind-out-file=" + out, program, str(form), path],
        check=True, stderr=subprocess.DEVNULL)
    with open(out, encoding="utf-8") as file:
        return int(re.search(r"^(?:summary|totals): (\d+)", file.read(), re.M).group(1))


def main(archives):
    if len(archives) not in (1, 2):
        sys.exit(__doc__.splitlines()[0])
    with tempfile.TemporaryDirectory() as folder:
        for name, form, text in texts():
            counts = [counted(folder, archive, form, text) for archive in archives]
            more = " %+6.2f %%" % (100 * counts[1] / counts[0] - 100) if len(counts) == 2 else ""
            print("%-28s" % name + "".join("%12s" % f"{count:,}" for count in counts) + more)


if __name__ == "__main__":
    main(sys.argv[1:])
