#!/usr/bin/env python3
"""seconds.py LOG: the table of docs/PROOFS.md, made from what the gate printed.

The older kit's `rt ci` told the seconds of each crate and edit. Today's tells none: of its log the table says which crates were proved,
or kept from an earlier run, and how many edits were refused.

>>> log = '''rt: base proved (2 s)
... rt: scan proved (4 s)
... rt: must-fail scan/token_stops_at_digit: refused, as it must be (first at proofs/a/Proof.antt:1:2; 5 s)
... '''
>>> print(table(log))
2 crates 6 seconds, 1 edits 5 seconds
<BLANKLINE>
| Crate | Proved in | Edits | Edits refused in |
|---|--:|--:|--:|
| `base` | 2 |  |  |
| `scan` | 4 | 1 | 5 |
>>> log = '''rt: base is kept: an earlier run on this machine proved the same files over the same libraries
... rt: scan proved
... rt: must-fail scan/token_stops_at_digit.edit: refused, as it must be: ./proofs/a/Answers.antt:8:13: error: `returns`: expected type
... '''
>>> print(table(log))
2 crates, 1 edits, and no seconds
<BLANKLINE>
| Crate | Proved | Edits |
|---|---|--:|
| `base` | in an earlier run |  |
| `scan` | in this run | 1 |
"""
import re
import sys


def timed(log):
    proved = {name: int(seconds) for name, seconds in re.findall(r"^rt: (\w+) proved \((\d+) s\)$", log, re.M)}
    edits = {}
    for name, seconds in re.findall(r"^rt: must-fail (\w+)/\w+: refused, .*; (\d+) s\)$", log, re.M):
        edits.setdefault(name, []).append(int(seconds))
    every = [seconds for listed in edits.values() for seconds in listed]
    rows = [f"{len(proved)} crates {sum(proved.values())} seconds, {len(every)} edits {sum(every)} seconds", ""]
    rows += ["| Crate | Proved in | Edits | Edits refused in |", "|---|--:|--:|--:|"]
    for name, seconds in proved.items():
        listed = edits.get(name, [])
        rows.append(f"| `{name}` | {seconds} | {len(listed) or ''} | {sum(listed) or ''} |")
    return rows


def counted(log):
    proved = dict(re.findall(r"^rt: (\w+) (proved|is kept)(?:$|:)", log, re.M))
    edits = re.findall(r"^rt: must-fail (\w+)/\w+\.edit: refused|^rt: must-fail (\w+)/\w+: refused", log, re.M)
    every = [one or other for one, other in edits]
    rows = [f"{len(proved)} crates, {len(every)} edits, and no seconds", "", "| Crate | Proved | Edits |", "|---|---|--:|"]
    for name, how in proved.items():
        when = "in this run" if how == "proved" else "in an earlier run"
        rows.append(f"| `{name}` | {when} | {every.count(name) or ''} |")
    return rows


def table(log):
    return "\n".join(timed(log) if re.search(r"^rt: \w+ proved \(\d+ s\)$", log, re.M) else counted(log))


if __name__ == "__main__":
    if len(sys.argv) != 2:
        sys.exit(__doc__)
    with open(sys.argv[1], encoding="utf-8") as file:
        print(table(file.read()))
