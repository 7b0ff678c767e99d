#!/usr/bin/env python3
"""needs.py [FILE..]: proof files without the needs, or goals, that nothing names.

A goal that an Answers.antt answers by `search rules` alone is dropped, since the check tries that itself; a file with no other goes. In a
Proof.antt, whose walk lists every need, one that is answered by `search rules` or `omega arith` alone takes three lines and one in the list
at the end; as `(λ c. search rules)` in that list it takes one. Names stay for needs that have a lemma. Without words every proof file of
crates/ is done; a file that has nothing to shorten is left as it is.

>>> print(shorten('''use Rattle.a.proofs.f.Goals as goal
...
... pub overflow_add-i : goal.overflow_add-i
... overflow_add-i c = search rules
...
... pub returns : goal.returns
... returns c = search (law, arith)
... '''), end='')
use Rattle.a.proofs.f.Goals as goal
<BLANKLINE>
pub returns : goal.returns
returns c = search (law, arith)

>>> print(shorten('''a : tie.Need-a
... a c = search rules
...
... b : tie.Need-b
... b c = search (law, arith)
...
... pub f-spec : {M : Type 1} → statement M
... f-spec = tie.close (tie.spec a b)
... '''), end='')
b : tie.Need-b
b c = search (law, arith)
<BLANKLINE>
pub f-spec : {M : Type 1} → statement M
f-spec =
    tie.close
    (tie.spec
    (λ c. search rules)
    b)
"""
import glob
import os
import re
import sys

ROOT = os.path.join(os.path.dirname(os.path.abspath(__file__)), "..")
NEED = re.compile(r"^(\S+) : tie\.Need-\S+(?: invariant-\S+ decreases-\S+)*\n\1((?: \S+)+) = (search rules|omega arith)\n\n?", re.M)
GOAL = re.compile(r"^pub (\S+) : goal\.\1\n\1 c = search rules\n\n?", re.M)
CLOSE = re.compile(r"=\s+tie\.close\s+\(tie\.spec\s+([^()]*(?:\(λ[^()]*\)[^()]*)*)\)\s*\Z")


def shorten(text):
    if GOAL.search(text):
        return GOAL.sub("", text).rstrip("\n") + "\n"
    plain = {name: (args.strip(), term) for name, args, term in NEED.findall(text)}
    last = CLOSE.search(text)
    if not plain or not last:
        return text
    listed = re.findall(r"\(λ[^()]*\)|\S+", last.group(1))
    if any(listed.count(name) != 1 for name in plain):
        return text
    text = text[: last.start()]
    text = NEED.sub("", text)
    lines = [f"(λ {plain[name][0]}. {plain[name][1]})" if name in plain else name for name in listed]
    return text + "=\n    tie.close\n    (tie.spec\n    " + "\n    ".join(lines) + ")\n"


def main(words):
    every = os.path.join(ROOT, "crates", "*", "proofs", "**")
    files = words or [path for name in ("Proof.antt", "Answers.antt") for path in glob.glob(os.path.join(every, name), recursive=True)]
    for path in files:
        with open(path, encoding="utf-8") as file:
            old = file.read()
        new = shorten(old)
        if new != old and ": goal." in old and ": goal." not in new:
            os.remove(path)
        elif new != old:
            with open(path, "w", encoding="utf-8") as file:
                file.write(new)


if __name__ == "__main__":
    main(sys.argv[1:])
