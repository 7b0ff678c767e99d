#!/usr/bin/env python3
"""named.py: whether what docs/DEMANDS.md and docs/DECISIONS.md name is there.

A word in backticks that looks like a name is looked for: `CRATE/specs/FILE` and `CRATE/proofs/FILE` as a file or a folder,
`CRATE/NAME` and, behind it in the same list, `NAME` as an edit that must fail, `CRATE::NAME` as a function of that crate, a name
with a hyphen, which only theorems have, as something that a .antt file declares, and any other of several words, as `one_tree`, as
such a declaration, a function, or a name of the code beside the crates. Says what it does not find, and exits with 1.
"""
import os
import re
import sys

ROOT = os.path.join(os.path.dirname(os.path.abspath(__file__)), "..")
PAGES = ("docs/DEMANDS.md", "docs/DECISIONS.md")
# What an edit is refused at: goals, which no file has to name.
GOAL = re.compile(r"returns(-[a-z0-9_]+)+|loop-again(-\d+)?|loop-[a-z0-9_-]+-(init|preserved|smaller)")
OTHERS = ("bench", "c", "compare", "examples", "fuzz", "include", "python", "reference", "rust", "tests", "tool", "tools")


def read(path):
    with open(os.path.join(ROOT, path), encoding="utf-8") as file:
        return file.read()


def sources(ending):
    for top in ("crates", *OTHERS):
        for folder, folders, names in os.walk(os.path.join(ROOT, top)):
            folders[:] = sorted(inner for inner in folders if inner not in ("out", "target", "__pycache__"))
            for name in sorted(names):
                if name.endswith(ending):
                    yield read(os.path.join(folder, name))


def declared():
    """Every name that a .antt file declares.

    >>> {'decode-exact', 'one-tree', 'count_left'} <= declared()
    True
    """
    found = set()
    for text in sources(".antt"):
        found.update(re.findall(r"^\s*(?:pub |abbrev |unfoldable |record |data )*([^\s:(){}]+) (?:\(.*\) )?:", text, re.M))
    return found


def functions():
    """Every name of a function, one under which it is passed on too.

    >>> {'read', 'spool_open'} <= functions()
    True
    """
    found = set()
    for text in sources(".rt"):
        found.update(re.findall(r"\bfn ([a-z0-9_]+)", text))
        for passed in re.findall(r"^pub use ([^;]+);", text, re.M):
            found.update(re.findall(r"\bas (\w+)", passed))
    return found


def beside():
    """Every name of several words in the code beside the crates.

    >>> {'etg_read', 'build_wheel'} <= beside()
    True
    """
    found = set()
    for text in sources((".rs", ".py", ".h", ".c")):
        found.update(re.findall(r"\b[a-z0-9]+(?:_[a-z0-9]+)+\b", text))
    return found


def edit(crate, name):
    return os.path.isfile(os.path.join(ROOT, "crates", crate, "must-fail", name + ".edit"))


def missing(text, names, codes, others=frozenset()):
    """What a page names and nothing has, line by line.

    >>> missing("by `no-such-law`, `one_tree` and `no_such` (`model/proofs/Laws`)", {"one_tree"}, set())
    ['no-such-law', 'no_such']
    >>> missing("edits `model/vertical_tab`, `no_such_edit`", set(), set())
    ['model/no_such_edit']
    """
    lost, crate = [], None
    for word in re.findall(r"`([^`\n]+)`|\n\s*\n", text):
        if not word:
            crate = None
        elif re.fullmatch(r"[a-z0-9_]+/(specs|proofs|src)(/[\w+]+)*", word):
            if not any(os.path.exists(os.path.join(ROOT, "crates", word + end)) for end in ("", ".antt", ".rt")):
                lost.append(word)
        elif re.fullmatch(r"[a-z0-9_]+/[a-z0-9_]+", word) and os.path.isdir(os.path.join(ROOT, "crates", word.split("/")[0])):
            crate, name = word.split("/")
            if not edit(crate, name):
                lost.append(word)
        elif re.fullmatch(r"[a-z0-9]+(_[a-z0-9]+)+", word) and word not in names | codes | others:
            if not crate:
                lost.append(word)
            elif not edit(crate, word):
                lost.append(f"{crate}/{word}")
        elif re.fullmatch(r"[a-z0-9_]+(::[a-z0-9_]+)+", word):
            if word.split("::")[-1] not in codes:
                lost.append(word)
        elif "-" in word and re.fullmatch(r"[a-z0-9]+([-_][a-z0-9]+)+", word) and word not in names:
            if not GOAL.fullmatch(word):
                lost.append(word)
    return lost


def main():
    names, codes, others = declared(), functions(), beside()
    bad = [f"{page}: {word}" for page in PAGES for word in missing(read(page), names, codes, others)]
    for line in bad:
        print(f"{line} is nowhere")
    return 1 if bad else 0


if __name__ == "__main__":
    sys.exit(main())
