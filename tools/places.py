#!/usr/bin/env python3
"""places.py LTS [NEED...]: the places behind each need of a function, nearest first, with the fields that a path may name there.

LTS is a function's `Lts.antt`, as `rt check --generated DIR` writes it in the crate's folder. A line's number is how many `.before` lead
to it from `c` in a Proof.antt; in an Answers.antt `c` has every step by its name.

>>> print(listed('''
...       pub record Start : Type 0 where
...         pub args : Args
...         pub pre : Pre
...       pub record At-loop : Type 0 where
...         pub before : Start
...         pub loop : At-loop·own before
...       Need-returns =
...           (c : At-loop) → Post
... ''', []))
returns
   0 At-loop: loop
   1 Start: args pre
"""
import re
import sys


def records(lines):
    """The fields of each record, and the place that each need begins at."""
    fields, needs, name = {}, [], None
    for line, following in zip(lines, lines[1:] + [""]):
        if found := re.match(r"\s+pub record (\S+) .*where$", line):
            name = found.group(1)
            fields[name] = []
        elif name and (found := re.match(r"\s+pub (\S+) : (\S+)", line)):
            fields[name].append(found.groups())
        elif found := re.match(r"\s+Need-(\S+) =(.*)", line):
            place = re.search(r"\(c : (\S+)\)", found.group(2) or following)
            if place:
                needs.append((found.group(1), place.group(1)))
    return fields, needs


def listed(text, wanted):
    fields, needs = records(text.splitlines())
    rows = []
    for need, place in needs:
        if wanted and need not in wanted:
            continue
        rows.append(need)
        count = 0
        while place in fields:
            rows.append(f"{count:4} {place}: {' '.join(name for name, _ in fields[place] if name != 'before')}")
            place = dict(fields[place]).get("before")
            count += 1
    return "\n".join(rows)


if __name__ == "__main__":
    with open(sys.argv[1], encoding="utf-8") as file:
        print(listed(file.read(), sys.argv[2:]))
