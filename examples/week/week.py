"""A week of shift lines: read, one line corrected, totalled and printed.

    python3 week.py week.sexp

The text is `(week YEAR WEEK (NAME (LINE ..)) ..)` in advanced form. A line is a
list of three `f64` strings, its ordinary, night and holiday hours, each 0 to 24
in whole quarters. Totals count quarters. The three columns add doubles, which is
exact for hours in whole quarters: a double holds each of their sums.
"""

import sys
from pathlib import Path

sys.path.insert(0, str(Path(__file__).resolve().parents[2] / "python"))

from etglavino import Form, Line, NoLine, Sheet, line, octets, read, value, week  # noqa: E402


def elements(sheet: Sheet, node: int) -> list[int]:
    """The node numbers of a list's elements."""
    found, at = [], node + 1
    while at < node + sheet.nodes[node].nodes:
        found.append(at)
        at += sheet.nodes[at].nodes
    return found


def spelled(made: Line) -> bytes:
    """A line as text."""
    fields = (made.ordinary, made.night, made.holiday)
    return b"(%s)" % b" ".join(b"[f64]#%s#" % octets("f64", x).hex().encode() for x in fields)


def lines_of(sheet: Sheet, name: bytes) -> int:
    """The list of a worker's lines."""
    for worker in elements(sheet, 0)[3:]:
        who, lines = elements(sheet, worker)
        if sheet.data(who) == name:
            return lines
    raise SystemExit(f"there is no {name.decode()}")


def show(sheet: Sheet) -> None:
    """The table, a row to a worker."""
    _, year, number = elements(sheet, 0)[:3]
    print(f"week {value(sheet, number)} of {value(sheet, year)}")
    print(f"{'':8}{'lines':>8}{'ordinary':>10}{'night':>8}{'holiday':>9}{'total':>8}")
    quarters = 0
    for worker in elements(sheet, 0)[3:]:
        who, lines = elements(sheet, worker)
        kept = [line(sheet, at) for at in elements(sheet, lines)]
        summed = week(sheet, lines)
        quarters += summed.total.quarters
        print(
            f"{sheet.data(who).decode():8}{summed.lines:8}"
            f"{sum(x.ordinary for x in kept):10.2f}{sum(x.night for x in kept):8.2f}"
            f"{sum(x.holiday for x in kept):9.2f}{summed.total.hours:8.2f}"
        )
    print(f"{'all':8}{'':35}{quarters / 4:8.2f} = {quarters} quarters")


def main(path: str) -> None:
    sheet = read(Form.ADVANCED, Path(path).read_bytes())
    show(sheet)

    # Bob's first shift: the last half hour was on the holiday, and he stayed
    # five quarters longer.
    wrong = elements(sheet, lines_of(sheet, b"bob"))[0]
    sheet = sheet.replace(Form.ADVANCED, spelled(Line(0.0, 7.0, 1.75)), wrong)
    print("\ncorrected:", line(sheet, wrong))
    show(sheet)

    # A line over 24 hours can be written down, and no sum takes it.
    sheet = sheet.replace(Form.ADVANCED, spelled(Line(24.25, 0.0, 0.0)), wrong)
    try:
        week(sheet, lines_of(sheet, b"bob"))
    except NoLine as refusal:
        print(f"\n24.25 hours: {refusal}, node {refusal.node}")


if __name__ == "__main__":
    main(sys.argv[1])
