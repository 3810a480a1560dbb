#!/usr/bin/env python3
"""Looks on while `rt ci` runs, and takes down what processor time each crate's proof, tests and edits took.

Each check that `rt ci` has started is looked at five times a second for its time so far; what came behind the last look is
not seen. A check that works in its crate's folder is one of the proof, or of the tests where it says so; any other is one of
the edits: also that of the crate as it stands, with which its edits begin. What is left of the whole run, `rt` itself, linking
and the runs of tests, is no crate's: a hundredth of it. Nothing of the run depends on this script.

Crates that it proved get new lines in out/minutes.txt. For one that it took from an earlier run the line is kept, with what
was tried of its edits in this run where that took longer.

Usage: .ci/minutes.py SHELL     waits for an `rt ci` that the process of this number starts, and looks on until that ends
       .ci/minutes.py --write   writes the table of docs/developing.md from out/minutes.txt
"""
import collections
import contextlib
import glob
import os
import sys
import time

TOP = os.path.dirname(os.path.dirname(os.path.abspath(__file__)))
PAGE = os.path.join(TOP, "docs", "developing.md")
FIGURES = os.path.join(TOP, "out", "minutes.txt")
MARKS = "<!-- what .ci/minutes.py --write writes -->\n", "<!-- up to here -->\n"
KINDS = ("proof", "tests", "edits")
EACH = 0.2  # the seconds between two looks
LEAST = 0.5  # the minutes from which on a crate has a row
TICKS = os.sysconf("SC_CLK_TCK")


def text(path):
    with open(path, encoding="utf-8", errors="replace") as file:
        return file.read()


def children(process):
    """The numbers of the processes that this one has started."""
    numbers = []
    for file in glob.glob(f"/proc/{process}/task/*/children"):
        with contextlib.suppress(OSError):  # it has ended
            numbers += text(file).split()
    return numbers


def started(shell):
    """The number of the `rt ci` that the shell has started, if there is one."""
    for number in children(shell):
        with contextlib.suppress(OSError):  # it has ended
            words = text(f"/proc/{number}/cmdline").split("\0")
            if "ci" in words and "rt" in map(os.path.basename, words):
                return number
    return None


def looked_at(run, kinds, times):
    """Takes down the time so far of each check that the run has started, and of the children of these that have ended."""
    for number in children(run):
        with contextlib.suppress(OSError, IndexError):  # it has ended
            # (a name between brackets stands before the fields, and may have spaces)
            fields = text(f"/proc/{number}/stat").rpartition(")")[2].split()
            process = number, fields[19]  # with the moment when it began: numbers are used again
            kinds[process] = kinds.get(process) or what(number)
            times[process] = sum(map(int, fields[11:15])) / TICKS


def what(number):
    """The crate and the kind of a check, or nothing where the process is none."""
    words, folder = text(f"/proc/{number}/cmdline").split("\0"), os.readlink(f"/proc/{number}/cwd")
    if "--crate-name" not in words[:-1]:
        return None
    crate = words[words.index("--crate-name") + 1]
    if not folder.endswith(f"/crates/{crate}"):
        return crate, "edits"
    return crate, "tests" if "--test" in words else "proof"


def measured(shell):
    """The seconds of each crate and kind, once the `rt ci` of the shell has ended."""
    kinds, times, totals, run = {}, {}, collections.Counter(), None
    while run is None and os.path.exists(f"/proc/{shell}"):
        run = started(shell)
        time.sleep(EACH)
    while run is not None and run in children(shell):
        looked_at(run, kinds, times)
        time.sleep(EACH)
    for process, kind in kinds.items():
        if kind:
            totals[kind] += times[process]
    return totals


def figures():
    """What out/minutes.txt has: the seconds of each kind, by crate."""
    if not os.path.exists(FIGURES):
        return {}
    return {crate: [float(one) for one in seconds] for crate, *seconds in map(str.split, text(FIGURES).splitlines())}


def keep(totals):
    kept = figures()
    for crate in {crate for crate, _ in totals}:
        before = [0] * len(KINDS) if (crate, "proof") in totals else kept.get(crate, [0] * len(KINDS))
        kept[crate] = [max(old, totals[crate, kind]) for old, kind in zip(before, KINDS)]
    os.makedirs(os.path.dirname(FIGURES), exist_ok=True)
    with open(FIGURES, "w", encoding="utf-8") as file:
        for crate, seconds in sorted(kept.items()):
            print(crate, *(f"{one:.1f}" for one in seconds), file=file)


def table():
    """The table, the dearest crate first."""
    kept = figures()
    lines = text(os.path.join(TOP, "crates.txt")).splitlines()
    crates = [line.partition(":")[0] for line in lines if ":" in line and not line.startswith("#")]
    rows = sorted((crate for crate in crates if crate in kept), key=lambda crate: -sum(kept[crate]))
    few = [crate for crate in rows if sum(kept[crate]) < 60 * LEAST]

    def row(name, of):
        seconds = [sum(kept[crate][at] for crate in of) for at in range(len(KINDS))]
        return f"| {name} | {' | '.join(f'{one / 60:.1f}' for one in [*seconds, sum(seconds)])} |"

    lines = ["| Crate | Proof | Tests of its own | Mutants | Together |", "|---|---|---|---|---|"]
    lines += [row(f"`{crate}`", [crate]) for crate in rows if crate not in few]
    lines += [row(f"{len(few)} crates with less than {LEAST} together each", few)] if few else []
    lines += [row("All of these", rows)]
    lacking = [f"`{crate}`" for crate in crates if crate not in kept]
    lines += ["", f"Not measured: {', '.join(lacking)}."] if lacking else []
    return "\n".join(lines) + "\n"


def main():
    if sys.argv[1:] == ["--write"]:
        before, mark, behind = text(PAGE).partition(MARKS[0])
        end = behind.index(MARKS[1])
        with open(PAGE, "w", encoding="utf-8") as file:
            file.write(before + mark + "\n" + table() + "\n" + behind[end:])
        return 0
    try:
        keep(measured(sys.argv[1]))
    except (OSError, ValueError) as error:
        print(f"out/minutes.txt is not written: {error}", file=sys.stderr)
        return 1
    return 0


if __name__ == "__main__":
    sys.exit(main())
