#!/usr/bin/env python3
"""Checks the examples of docs/language.md, docs/codes.md and docs/from_scala.md with the built program.

Each block of indented lines that begins with `def` or `import` is a module that has to be accepted; each row of a table
`| CODE | .. | `TEXT` .. | LINE:COL |`, or with one more cell, is a module that has to be refused so; and each row
`| CODE | .. | `COMMAND` .. | .. |` a command that has to be. Beside the modules stand the devices `out console`,
`in file 1 2` and `hits counter`. In docs/codes.md each code of a module has such a row but E18.
Where the last cell of a table is `Why`, it has the lines with which `capi` has to tell why the module is refused, each between
backticks. In docs/language.md each code of a module has such a row but E18.
Usage: .ci/documents.py [--test] [--capi PROGRAM] PROGRAM ..
Prints a line for each example that is answered otherwise, and ends with 1 where there is one. With --test each row of
docs/codes.md is bent, by another code and by another place, and has to be found; and with --capi each line of a reason, by
another one, by none and by one more. Without --capi no reason is tried.
"""
import argparse
import os
import re
import subprocess
import sys

TOP = os.path.dirname(os.path.dirname(os.path.abspath(__file__)))
DEVICES = b"device out console\ndevice in file 1 2\ndevice hits counter\n"
PAGES = ("docs/language.md", "docs/codes.md", "docs/from_scala.md")
ROW = re.compile(r"^\| (E\d\d |)\|.*?\| `([^`]+)`(.*?) \| (\d+:\d+) \|(?: [^|]* \|)?$")
COMMAND = re.compile(r"^\| (E3\d) \| .*? \| `([a-z]+ [^`]+)`([^|]*) \| [^|]* \|$")


def put(name, text):
    """The lines that put the text, which gets a line feed at its end, under the name."""
    text += b"\n"
    return b"put %s %d\n" % (name, text.count(b"\n")) + text


def verdicts(program, modules):
    """The verdicts of the modules, by name."""
    job = b"capc 1\n" + DEVICES + b"".join(put(*one) for one in modules) + b"check\n"
    run = subprocess.run([program], input=job, capture_output=True, timeout=120)
    lines = run.stdout.decode().splitlines()
    return dict(line[2:].split(" ", 1) for line in lines if line.startswith("  "))


def told(capi, modules):
    """The lines that tell why the last module is refused, behind its code and place."""
    name = modules[-1][0]
    talk = b"capc 1\n" + DEVICES + b"".join(put(*one) for one in modules) + b"why %s\n" % name
    run = subprocess.run([capi], input=talk, capture_output=True, timeout=120)
    head, _, answer = run.stdout.rpartition(b"why %s\n" % name)
    return [line.removeprefix("  ") for line in answer.decode().splitlines()[:-1]] if head else [run.stderr.decode().strip()]


def refusal(program, command, text):
    """The code with which the command is refused, beside the module `m` of the text."""
    job = b"capc 1\n" + DEVICES + (put(b"m", text) if text is not None else b"") + command + b"\n"
    run = subprocess.run([program], input=job, capture_output=True, timeout=120)
    lines = run.stdout.decode().splitlines()
    return lines[-1].partition(" refused ")[2] if lines else run.stderr.decode().strip()


def read(page):
    with open(os.path.join(TOP, page), encoding="utf-8") as file:
        return file.read()


def commands(text):
    """The commands of a page's text, each with the line where it stands, the module `m` beside it and its code."""
    for number, line in enumerate(text.splitlines(), 1):
        row = COMMAND.match(line)
        if row:
            code, command, words = row.groups()
            beside = re.search(r"where `m` is `([^`]+)`", words)
            yield number, command.encode(), beside.group(1).encode() if beside else None, code


def examples(text):
    """The modules of a page's text, each with the line where it stands, the verdict that it has to have, and the lines that have
    to tell why, if its table has them."""
    block = []
    code, has_reasons = "", False
    for number, line in enumerate(text.splitlines() + [""], 1):
        if line.startswith("    ") and (block or re.match(r"    (def|import) ", line)):
            block.append(line[4:])
            continue
        if block:
            yield number - len(block), [(b"example", "\n".join(block).encode())], "ok", None
            block = []
        if line.startswith("| Code |"):
            has_reasons = line.endswith("| Why |")
        row = ROW.match(line)
        if row:
            code = row.group(1).strip() or code
            text, words, place = row.groups()[1:]
            others = [(b"m", b"")] if "is empty" in words else []
            other = re.search(r"where `m` is `([^`]+)`", words)
            if other:
                others = [(b"m", other.group(1).encode())]
            name = b"m" if "itself" in words else b"example"
            bytes_behind = re.search(r"and the byte ([0-9A-F]{2})", words)
            times = re.search(r"(\d+) times `(.)`, `(.)`", words)
            module = text.encode()
            if bytes_behind:
                module += bytes([int(bytes_behind.group(1), 16)])
            if times:
                module += times.group(2).encode() * int(times.group(1)) + times.group(3).encode()
            reason = re.findall("`([^`]+)`", line.split(" | ")[-1]) if has_reasons else None
            yield number, others + [(name, module)], code + " " + place, reason


def wrong(program, text, only=None):
    """How many examples the text has, and the lines of those that are answered otherwise, with the answers; those of one line alone
    where it is named."""
    count, found = 0, []
    for line, modules, wanted, _ in examples(text):
        if only not in (None, line):
            continue
        count += 1
        answer = verdicts(program, modules).get(modules[-1][0].decode())
        if answer != wanted:
            found.append((line, f"{answer}, not {wanted}"))
    for line, command, beside, wanted in commands(text):
        if only not in (None, line):
            continue
        count += 1
        answer = refusal(program, command, beside)
        if answer != wanted:
            found.append((line, f"{answer}, not {wanted}"))
    return count, found


def wrong_reasons(capi, text, only=None):
    """The codes whose reasons the text tells, and the lines of those that are told otherwise, with what is told."""
    codes, found = set(), []
    for line, modules, wanted, reason in examples(text):
        if reason is None or only not in (None, line):
            continue
        codes.add(wanted.split()[0])
        answer = told(capi, modules)
        if answer != [wanted] + reason:
            found.append((line, f"why: {answer}, not {[wanted] + reason}"))
    return codes, found


def bent_reasons(text):
    """The text with one line of a reason bent, and where it stands."""
    lines = text.split("\n")
    for number, _, _, reason in examples(text):
        front = lines[number - 1].rpartition(" | ")[0]
        for at in range(len(reason or [])):
            for way in (reason[:at] + [reason[at] + "s"] + reason[at + 1 :], reason[:at] + reason[at + 1 :], reason[:at] + ["more"] + reason[at:]):
                row = front + " | " + ", ".join(f"`{one}`" for one in way) + " |"
                yield number, "\n".join([*lines[: number - 1], row, *lines[number:]])


def bent(text):
    """The text with one row bent, for each row with an example, and the line of it."""
    lines = text.split("\n")
    for number, line in enumerate(lines, 1):
        ways = [re.sub(r"^\| E\d\d ", "| E29 ", line)]
        if ROW.match(line):
            ways.append(re.sub(r" \| (\d+):(\d+) \|", lambda place: f" | {place.group(1)}:{int(place.group(2)) + 1} |", line))
        elif not COMMAND.match(line):
            continue
        for way in ways if line.startswith("| E") else []:
            yield number, "\n".join([*lines[: number - 1], way if ROW.match(line) else way.replace("| E29 ", "| E38 "), *lines[number:]])


def main():
    failures = []
    options = argparse.ArgumentParser(usage=__doc__.split("Usage: ")[1].split("\n")[0])
    options.add_argument("--test", action="store_true")
    options.add_argument("--capi")
    options.add_argument("programs", nargs="+")
    options = options.parse_args()
    programs = options.programs
    for program in programs:
        for page in PAGES:
            count, found = wrong(program, read(page))
            failures += [f"{page}:{line}: {words}" for line, words in found]
            if count == 0:
                failures.append(f"{page}: no example was found")
    codes = read("docs/codes.md")
    shown = {verdict.split()[0] for _, _, verdict, _ in examples(codes)} | {code for _, _, _, code in commands(codes)}
    examined = {f"E{number:02}" for number in range(1, 20)} - {"E18"}
    failures += [f"docs/codes.md: no example of {code}" for code in sorted(examined - shown)]
    if options.capi:
        language = read("docs/language.md")
        reasons, found = wrong_reasons(options.capi, language)
        failures += [f"docs/language.md:{line}: {words}" for line, words in found]
        failures += [f"docs/language.md: no reason of {code}" for code in sorted(examined - reasons)]
        if options.test:
            tried = 0
            for number, text in bent_reasons(language):
                tried += 1
                if not wrong_reasons(options.capi, text, number)[1]:
                    failures.append(f"docs/language.md:{number}: a reason that is bent is not found")
            if tried < 80:
                failures.append(f"docs/language.md: only {tried} reasons could be bent")
    if options.test:
        tried = 0
        for number, text in bent(codes):
            tried += 1
            if not wrong(programs[0], text, number)[1]:
                failures.append(f"docs/codes.md:{number}: a row that is bent is not found")
        if tried < 40:
            failures.append(f"docs/codes.md: only {tried} rows could be bent")
    for failure in failures:
        print(failure)
    sys.exit(1 if failures else 0)


main()
