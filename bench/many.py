"""many.py [COUNT]: how many sheets a second the command checks, by one thread and by
two, beside a process for each sheet of the command and of Nettle's sexp-conv.

The sheets are advanced texts of 2 KiB, made from a seed, in files that have just been
written and are in memory. SEXP_CONV names a sexp-conv that is not found by its name;
without one its row is left out. The best round counts: of fifteen for a check, in
each of which both run in turn, and of one for so many processes."""

import os
import random
import resource
import shutil
import subprocess
import sys
import tempfile
import time
from pathlib import Path

TOOL = str(Path(__file__).resolve().parents[1] / "tool/target/release/etglavino")
SEXP_CONV = os.environ.get("SEXP_CONV") or shutil.which("sexp-conv")
SIZE, ROUNDS = 2048, 15


def text(rng: random.Random) -> str:
    """A list of tokens, quoted strings, lists and hinted hexadecimal."""

    def word() -> str:
        return "".join(rng.choices("abcdefghijklmnopqrstuvwxyz", k=rng.randint(3, 9)))

    kinds = (
        lambda: word(),
        lambda: f'"{word()} {word()}"',
        lambda: f"({word()} {word()})",
        lambda: f"[f64]#{rng.getrandbits(60):016x}#",
    )
    made = "(sheet"
    while len(made) < SIZE - 40:
        made += " " + rng.choices(kinds, (5, 3, 1, 1))[0]()
    return made.ljust(SIZE - 1) + ")"


def each(command: list[str], files: list[str]) -> None:
    """A process for each file, its output thrown away."""
    for file in files:
        with open(file, "rb") as source:
            subprocess.run(command, stdin=source, stdout=subprocess.DEVNULL, check=True)


def processor() -> float:
    """Seconds that processes we started have had of the processors."""
    used = resource.getrusage(resource.RUSAGE_CHILDREN)
    return used.ru_utime + used.ru_stime


def timed(rows, rounds: int):
    """The best seconds of each, by the clock and of the processors."""
    best = dict.fromkeys(rows, (float("inf"), float("inf")))
    for _ in range(rounds):
        for name, run in rows.items():
            start, used = time.perf_counter(), processor()
            run()
            took = (time.perf_counter() - start, processor() - used)
            best[name] = tuple(map(min, best[name], took))
    return best


def main(count: int) -> None:
    rng = random.Random(9804)
    with tempfile.TemporaryDirectory() as folder:
        files = [os.path.join(folder, f"{number:05}") for number in range(count)]
        for file in files:
            Path(file).write_text(text(rng))
        check = [TOOL, "check", *files, "--threads"]
        quiet = {"check": True, "stderr": subprocess.DEVNULL}
        threads = {
            "etglavino check, 1 thread": lambda: subprocess.run([*check, "1"], **quiet),
            "etglavino check, 2 threads": lambda: subprocess.run([*check, "2"], **quiet),
        }
        processes = {"etglavino convert, a process each": lambda: each([TOOL, "convert"], files)}
        if SEXP_CONV:
            processes["sexp-conv, a process each"] = lambda: each([SEXP_CONV, "-s", "canonical"], files)
        best = {**timed(threads, ROUNDS), **timed(processes, 1)}
    for name, (seconds, used) in best.items():
        print(f"{name:<34} {count / seconds:>8,.0f} sheets a second, {used / count * 1e6:>6,.0f} us of processor each")


if __name__ == "__main__":
    main(int(sys.argv[1]) if len(sys.argv) > 1 else 10_000)
