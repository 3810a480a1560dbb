#!/usr/bin/env python3
"""Holds docs/definitions.md to the files of definitions.

The page has the order and the headings, by hand. An entry, a line `- [`CRATE/FILE`](PATH): WORDS`, has as its words the
comment with which the file begins. Other lines link to files by their names alone. Each link is named as its file, and
each file begins with a comment; .ci/pages.py sees that each file stands there once.
Usage: .ci/definitions.py           compares; ends with 1 where an entry differs
       .ci/definitions.py --write   writes the words of the entries
"""
import os
import re
import sys

TOP = os.path.dirname(os.path.dirname(os.path.abspath(__file__)))
PAGE = os.path.join(TOP, "docs", "definitions.md")
ENTRY = re.compile(r"^(- \[`[^`]+`\]\(\.\./([^)]+)\)): (.*)$", re.M)
LINK = re.compile(r"\[`([\w/]+)`\]\(\.\./(crates/(\w+)/specs/([\w/]+)\.antt)\)")


def head(path):
    """The comment with which the file begins, as one line."""
    lines = []
    with open(os.path.join(TOP, path), encoding="utf-8") as file:
        for line in file:
            if not line.startswith("--"):
                break
            lines.append(line[2:].strip())
    return " ".join(lines)


def main():
    with open(PAGE, encoding="utf-8") as file:
        page = file.read()
    wrong = []
    for name, path, crate, inner in LINK.findall(page):
        if os.path.exists(os.path.join(TOP, path)) and not head(path):
            wrong.append(f"{path} begins with no comment")
        if name not in (inner, f"{crate}/{inner}"):
            wrong.append(f"{path} is named {name}")
    written = ENTRY.sub(lambda entry: f"{entry[1]}: {head(entry[2])}", page)
    if "--write" in sys.argv[1:]:
        with open(PAGE, "w", encoding="utf-8") as file:
            file.write(written)
    elif written != page:
        wrong.append("docs/definitions.md has not the comments of the files: .ci/definitions.py --write")
    for one in wrong:
        print(one)
    sys.exit(1 if wrong else 0)


main()
