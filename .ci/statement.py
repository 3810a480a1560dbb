#!/usr/bin/env python3
"""Writes each tier of what has to be believed as one text, in an order in which it can be read.

A tier is a statement, of the list TIERS of `.ci/reading.py`. Its text has the items that are reached from the statement, as `.ci/reading.py` finds
them, in the words of their files and with their comments: each file behind those whose items it names, and the statement last.
`use` lines are left out, and so is what is a proof. Types of the program that stand in definitions come in the words of the
program. The text begins with its contents, each file with its number of lines and its first sentence.

Usage: .ci/statement.py           compares the texts with those of docs/statement; ends with 1 where one differs
       .ci/statement.py --write   writes them
"""
import importlib.util
import os
import re
import sys

TOP = os.path.dirname(os.path.dirname(os.path.abspath(__file__)))
FOLDER = "docs/statement"
specification = importlib.util.spec_from_file_location("reading", os.path.join(TOP, ".ci", "reading.py"))
reading = importlib.util.module_from_spec(specification)
specification.loader.exec_module(reading)

def named(found, path):
    """The files whose items those of the file name, among what is reached."""
    items = [name for at, name in found.reached if at == path and (path, name) not in found.determined]
    again = reading.Reading()
    for name in items:
        again.follow_text(path, name, found.file(path).items[name])
    for at, name in found.determined:
        if at == path and (at, name) in found.reached:
            again.reach(path, found.determined[at, name][0], (at, name))
    return {at for at, _ in again.reached} - {path}


def ordered(found):
    """The files that are reached, each behind those whose items it names."""
    place = {crate: at for at, crate in enumerate(crate for crates in reading.layers().values() for crate in crates)}
    order, begun = [], set()

    def visit(path):
        if path in begun:
            return
        begun.add(path)
        for below in sorted(named(found, path), key=lambda one: (place[one.split("/")[1]], one)):
            visit(below)
        order.append(path)

    for path in sorted({at for at, _ in found.reached}, key=lambda one: (place[one.split("/")[1]], one)):
        visit(path)
    return order


def items_of(found, path):
    """The texts of the items that are reached in the file, in the order of the file; none is there twice."""
    file = found.file(path)
    wanted = {name for at, name in found.reached if at == path and (path, name) not in found.determined}
    texts = []
    for name, item in file.items.items():
        if name in wanted and item not in texts:
            texts.append(item)
    whole = reading.read(path)
    texts.sort(key=lambda item: whole.find(item.strip("\n")))
    return [re.sub(r"^[ \t]*(?:pub )?(?:ghost )?use .*\n", "", item, flags=re.M).strip("\n") for item in texts]


def text_of(words, tier):
    """The text of a tier."""
    found = reading.of_tier(tier)
    parts, contents, total = [], [], 0
    for path in ordered(found):
        lines = found.lines_reached(path)
        total += lines
        file = found.file(path)
        contents.append(f"--   {lines:>4}  {path}" + (f": {file.said}" if path.endswith(".antt") else ""))
        parts += ["", f"---- {path}", *(line for item in items_of(found, path) for line in ("", item))]
    if len(tier) == 3:
        path, function, clauses = tier
        stated = [text for (name, clause), text in found.file(path).clauses.items() if name == function and (clauses is None or clause in clauses)]
        parts += ["", f"---- {path}: the contract of the function `{function}`", "", *(re.sub(r"\s+\Z", "", text) for text in stated)]
    head = [
        f"-- {words}: what has to be read for it, {total:,} lines that are not blank, each file behind those whose items it names.",
        "-- `.ci/statement.py` writes this out of the files, of which it has the items that are reached. Left out are `use` lines,",
        "-- proofs that definitions cite, and the words of the library.",
        "--",
    ]
    return "\n".join([*head, *contents, *parts]) + "\n"


def main():
    status = 0
    for name, words, tier in reading.TIERS:
        path = os.path.join(TOP, FOLDER, f"{name}.antt.txt")
        text = text_of(words, tier)
        if sys.argv[1:] == ["--write"]:
            os.makedirs(os.path.dirname(path), exist_ok=True)
            with open(path, "w", encoding="utf-8") as file:
                file.write(text)
        elif not os.path.exists(path) or open(path, encoding="utf-8").read() != text:
            print(f"{FOLDER}/{name}.antt.txt is not what `.ci/statement.py --write` writes")
            status = 1
    sys.exit(status)


if __name__ == "__main__":
    main()
