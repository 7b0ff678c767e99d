#!/usr/bin/env python3
"""crates.py: which crates each crate of crates/ cites, held against crates.txt.

A crate cites another where its code names it (`texts::take`), or its contracts, definitions or proofs do (`Rattle.texts.specs`).
Run without words it says where crates.txt names too few or too many, and exits with 1; with --print it writes the lines that are right,
for crates.txt to be made of.
"""
import os
import re
import sys

ROOT = os.path.join(os.path.dirname(os.path.abspath(__file__)), "..")
# Libraries of the kit that a crate may cite. rt ci refuses libc and os.
KIT = ("check", "libc", "io", "os", "bytes")


def sources(crate):
    for folder, folders, names in os.walk(os.path.join(ROOT, "crates", crate)):
        folders[:] = sorted(inner for inner in folders if inner != "out")
        for name in sorted(names):
            if name.endswith((".rt", ".antt")):
                with open(os.path.join(folder, name), encoding="utf-8") as file:
                    yield name, file.read()


def in_paths(text):
    """The crates that contracts, definitions or proofs name.

    >>> sorted(in_paths("use Rattle.texts.specs.Text.{text}\\nuse Rattle.model.proofs.Laws as laws"))
    ['model', 'texts']
    """
    return set(re.findall(r"(?<![\w.])Rattle\.([a-z0-9_]+)\.", text))


def in_code(text):
    """The crates that code may name: each word before `::`, but for what a file brings in under that word.

    >>> sorted(in_code("mod lines; use std::{fs, io}; use cases::wire::{octet, past}; fn f() { io::f(lines::g(texts::h())) } // walk::f"))
    ['cases', 'std', 'texts']
    """
    code = re.sub(r"//.*", "", text)
    called = set(re.findall(r"(?<![\w:])([a-z0-9_]+)::", code))
    # a module hides a crate of its name, one of std's too
    own = set(re.findall(r"\bmod ([a-z0-9_]+);", code))
    for brought in re.findall(r"\buse (?:std|core|crate)::([^;]+);", code):
        own.update(re.findall(r"[a-z0-9_]+", brought))
    return called - own


def cited(crate, names):
    found, called, own = set(), set(), set()
    for name, text in sources(crate):
        found |= in_paths(text)
        if name.endswith(".rt"):
            called |= in_code(text)
            own.update(re.findall(r"^(?:pub )?mod ([a-z0-9_]+);", text, re.M))
    # a module of the crate's own hides a crate of its name
    return (found | called - own) & (set(names) | set(KIT)) - {crate}


def named():
    """The crates that each line of crates.txt names, by the line's crate and its words before the colon."""
    lines = {}
    with open(os.path.join(ROOT, "crates.txt"), encoding="utf-8") as file:
        for line in file:
            line = line.split("#")[0].strip()
            if line:
                crate, deps = line.split(":")
                lines[crate.split()[0]] = crate.strip(), deps.split()
    return lines


def main(words):
    lines = named()
    wrong = False
    for crate, (head, deps) in lines.items():
        right = cited(crate, lines)
        order = [name for name in lines if name in right] + [name for name in KIT if name in right]
        if words == ["--print"]:
            print(f"{head}: {' '.join(order)}".rstrip())
            continue
        for name in order:
            if name not in deps:
                wrong = True
                print(f"crates.txt: {crate} cites {name} and does not name it")
        for name in deps:
            if name not in right:
                wrong = True
                print(f"crates.txt: {crate} names {name} and does not cite it")
    return 1 if wrong else 0


if __name__ == "__main__":
    sys.exit(main(sys.argv[1:]))
