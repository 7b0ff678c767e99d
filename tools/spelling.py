#!/usr/bin/env python3
"""Brings the repository's own names to Rattle's spelling, once: python3 tools/spelling.py, at the top.

- A definition or lemma in camel case goes to snake case (`maxSource` to `max_source`), in .antt and .rt files, in edits, and in backticks
  in documents. Types, facts and modules keep their capitals; functions of src/, strings and data are not touched.
- The numbers of refusals, which were spelled as types, are `refusal_depth` and so on; 0 is `no_refusal`.
- Crate base64 is crate radix64, since Rattle's library has a base64.

It lists names that fall together in one .antt file; a function of src/ may have its definition's name.
"""

import os
import re
import sys

NAME = re.compile(r"[^\s(){}\[\];,.λ:→⊢`\"|&*+/<>=!?#@$%^~\\]+")
CAMEL = re.compile(r"^(?:.*[-_])?[a-z][a-z0-9]*[A-Z]")
REFUSALS = {
    "Rattle.model.specs.Limits": ["Accepted", "Form", "SourceSize", "Syntax", "Depth", "Nodes", "Size", "NotOwn", "NoNode", "NoPlace"],
    "Rattle.spools.specs.Spool": ["Damaged"],
    "Rattle.typed.specs.Coding": ["NotLine", "NotTyped"],
}
# Lemmas that would have their function's name, and names that would fall together.
EXTRA = [
    (r"", r"\bnode_at\b", "node_at_lem"),
    (r"", r"\bnode_in\b", "node_in_lem"),
    (r"crates/octets/", r"\bsame_bool\b", "same_bool_lem"),
    (r"crates/demands/proofs/Shown", r"\bplain_row\b", "plain_row_lem"),
    (r"crates/demands/", r"\bnoLine\b", "not_line"),
    (r"", r"\bgetD-", "get_or-"),
]
OLD_CRATE, NEW_CRATE = "base64", "radix64"
USE = re.compile(r"(?m)^(?:pub |ghost )?use (Rattle[\w.+]*)\.\{([^}]*)\};?$")


def snake(name):
    return re.sub(r"(?<=[a-z0-9])([A-Z])", lambda m: "_" + m[1].lower(), name)


def refusal(name):
    return "no_refusal" if name == "Accepted" else "refusal_" + re.sub(r"(?<!^)([A-Z])", r"_\1", name).lower()


def files(*endings):
    for top in ("crates", "docs", "."):
        for folder, dirs, names in os.walk(top):
            dirs[:] = sorted(d for d in dirs if d not in ("out", "target") and not d.startswith(".")) if top != "." else []
            for name in sorted(names):
                if name.endswith(endings) and (top != "." or name.endswith(".md")):
                    yield os.path.join(folder, name)


def read(path):
    with open(path, encoding="utf-8") as f:
        return f.read()


def module_of(path):
    parts = path[:-5].split(os.sep)
    return "Rattle." + ".".join(parts[1:])


def refusals_in(path, text):
    """The numbers of refusals that a file has by their own names."""
    own = set(REFUSALS.get(module_of(path), [])) if path.endswith(".antt") else set()
    for m in USE.finditer(text):
        for item in m[2].split(","):
            if item.strip() in REFUSALS.get(m[1], []):
                own.add(item.strip())
    return own


def rename_refusals(path, text):
    own, out, at = refusals_in(path, text), [], 0
    for m in [*USE.finditer(text), None]:
        piece = text[at : m.start() if m else len(text)]
        out.append(NAME.sub(lambda w: refusal(w[0]) if w[0] in own and piece[w.start() - 1 : w.start()] != "." else w[0], piece))
        if m is None:
            return "".join(out)
        here = m[0]
        for name in REFUSALS.get(m[1], []):
            here = re.sub(rf"(?<=[{{ ,]){name}(?=[,}} ])", refusal(name), here)
        out.append(here)
        at = m.end()


def camel(text):
    """Outside of strings: a name in camel case goes to snake case."""
    parts = re.split(r'("(?:[^"\\\n]|\\.)*")', text)
    return "".join(p if i % 2 else NAME.sub(lambda w: snake(w[0]) if CAMEL.match(w[0]) else w[0], p) for i, p in enumerate(parts))


def fall_together(path, old, new):
    before, after = set(NAME.findall(old)), {}
    for name in before:
        if CAMEL.match(name):
            after[snake(name)] = name
    return [f"{path}: {after[n]} and {n}" for n in after if n in before]


def main():
    clash = []
    for path in files(".antt", ".rt", ".edit"):
        first = old = read(path)
        for where, name, to in EXTRA if path.endswith(".antt") else []:
            if where in path:
                old = re.sub(name, to, old)
        new = camel(rename_refusals(path, old) if not path.endswith(".edit") else old)
        if path.endswith(".antt"):
            clash += fall_together(path, re.sub(r"(?m)(?:--|//).*", "", old), new)
        new = re.sub(rf"\bRattle\.{OLD_CRATE}\b", f"Rattle.{NEW_CRATE}", new)
        new = re.sub(rf"(?m)^((?:pub )?use ){OLD_CRATE}::", rf"\1{NEW_CRATE}::", new)
        if new != first:
            with open(path, "w", encoding="utf-8") as f:
                f.write(new)
    for path in files(".md"):
        old = read(path)
        new = re.sub(r"`[^`\n]+`", lambda m: camel(m[0]), old)
        if new != old:
            with open(path, "w", encoding="utf-8") as f:
                f.write(new)
    print("\n".join(clash))
    if os.path.isdir(f"crates/{OLD_CRATE}"):
        os.rename(f"crates/{OLD_CRATE}", f"crates/{NEW_CRATE}")
    text = read("crates.txt")
    with open("crates.txt", "w", encoding="utf-8") as f:
        f.write(re.sub(rf"\b{OLD_CRATE}\b", NEW_CRATE, text))
    return 1 if clash else 0


if __name__ == "__main__":
    sys.exit(main())
