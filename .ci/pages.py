#!/usr/bin/env python3
"""Checks the pages: README.md and docs/*.md.

- Each link leads to a file that exists, and to a heading of it where it names one.
- Each path between backticks exists: from the top, from `crates/`, or of a crate that its line, or else its section, names.
- docs/definitions.md links to each file of definitions once.
- README.md and docs/certificates.md show their examples as they are.
- In crates.txt each crate stands behind those that it names, which are those that its files name, and in
  docs/architecture.md under its layer.
- In the tables of docs/developing.md each name of a file stands in its crate's folder.
- In a row of docs/rules.md that has one link to a file, the names between backticks before it stand in that file.
- docs/codes.md has a row for each code of the programs, and no others, and names each message of `capc` and `certify`;
  docs/conversation.md names each of `capi`.
- Each clause and function that README.md names in a row, and docs/proved.md in what carries a claim, stands in a file
  or crate that is named there; and each claim of docs/proved.md is carried by something.
Usage: .ci/pages.py
Prints a line for each place that is wrong, and ends with 1 where there is one.
"""
import glob
import os
import re
import sys

TOP = os.path.dirname(os.path.dirname(os.path.abspath(__file__)))
PATH = re.compile(r"^[\w.-]+(?:/[\w.-]+)*/?$")
ENDINGS = (".antt", ".rt", ".md", ".sh", ".py", ".job", ".cert", ".edit", ".txt", ".c")
# what is built, and what is in many crates
BUILT = re.compile(r"(?:^|/)out/")
OF_MANY = ("src/", "specs/", "proofs/", "must-fail/", "Answers.antt", "Invariants.antt", "Lib.antt", "proofs/Lib.antt")
PLACEHOLDER = re.compile(r"(?:^|/)[A-Z_]{2,}(?:[/.]|$)")
failures = []


def fail(page, number, words):
    failures.append(f"{page}:{number}: {words}")


def exists(*parts):
    return os.path.exists(os.path.join(TOP, *parts))


def read(path):
    with open(os.path.join(TOP, path), encoding="utf-8") as file:
        return file.read()


CRATES = sorted(os.listdir(os.path.join(TOP, "crates")))
PAGES = ["README.md"] + sorted(os.path.relpath(path, TOP) for path in glob.glob(os.path.join(TOP, "docs", "*.md")))


def headings(page):
    """The anchors of a page's headings."""
    found = re.findall(r"^#+ (.*)$", re.sub(r"^```.*?^```", "", read(page), flags=re.M | re.S), re.M)
    return {re.sub(r"[^\w -]", "", one.lower()).replace(" ", "-") for one in found}


def crates_in(text):
    """The crates that a text names, between backticks or in a path. `capc` is also the call that stands in `cc_program`."""
    named = set(re.findall(r"[`/](\w+)(?=[`/])", text))
    named |= {"cc_program"} if "capc" in named else set()
    return [crate for crate in CRATES if crate in named]


def is_path(token):
    if not PATH.match(token) or PLACEHOLDER.search(token) or BUILT.search(token) or token in ENDINGS + OF_MANY:
        return False
    return token.endswith(ENDINGS) or "/" in token


def stands(token, crates):
    """Whether the path exists, from the top or in one of the crates."""
    ways = ["{}", "crates/{}", "docs/{}", "examples/{}"]
    ways += [f"crates/{crate}/{way}" for crate in crates for way in ("{}", "specs/{}", "src/{}", "proofs/{}")]
    return any(exists(way.format(token + ending)) for way in ways for ending in ("", ".antt", ".rt"))


def check_links_and_paths(page):
    folder = os.path.dirname(page)
    section, is_code = "", False
    lines = read(page).split("\n")
    for number, line in enumerate(lines, 1):
        if line.startswith("#"):
            behind = lines[number:]
            to = next((at for at, other in enumerate(behind) if other.startswith("#")), len(behind))
            section = "\n".join([line] + behind[:to])
        if line.startswith("```"):
            is_code = not is_code
        if is_code or line.startswith("    "):
            continue
        for target in re.findall(r"\]\(([^)\s]+)\)", line):
            path, _, anchor = target.partition("#")
            if re.match(r"\w+:", target):
                continue
            path = os.path.normpath(os.path.join(folder, path)) if path else page
            if not exists(path):
                fail(page, number, f"no file {path}")
            elif anchor and anchor not in headings(path):
                fail(page, number, f"no heading {anchor} in {path}")
        for opener, token in re.findall(r"(\[?)`([^`]+)`", line):
            if not opener and is_path(token) and not stands(token, crates_in(line)) and not stands(token, crates_in(section)):
                fail(page, number, f"no path {token}")


def check_definitions():
    page = "docs/definitions.md"
    links = re.findall(r"\]\(\.\./(crates/\w+/specs/[\w/]+\.antt)\)", read(page))
    files = [os.path.relpath(path, TOP) for path in glob.glob(os.path.join(TOP, "crates/*/specs/**/*.antt"), recursive=True)]
    for file in sorted(files):
        times = links.count(file)
        if times != 1 and os.path.basename(file) != "Lib.antt":
            fail(page, 1, f"{file} stands there {times} times")


def has_name(name, text):
    return re.search(rf"(?<![\w-]){re.escape(name)}(?![\w-])", text)


def check_rules():
    page = "docs/rules.md"
    for number, line in enumerate(read(page).split("\n"), 1):
        links = re.findall(r"\]\(\.\./(crates/[\w/.]+)\)", line)
        if not line.startswith("|") or len(links) != 1 or not exists(links[0]):
            continue
        text = re.sub(r"--.*$|//.*$|^(?:ghost )?use .*$", "", read(links[0]), flags=re.M)
        for name in re.findall(r"`([^`]+)`", line[: line.index("[`")]):
            if not has_name(name, text):
                fail(page, number, f"no {name} in {links[0]}")


def named_in(crate):
    """The words of a crate's files, comments apart."""
    words = set()
    for file in glob.glob(os.path.join(TOP, f"crates/{crate}/[sp]*/**/*.*t"), recursive=True):
        comment = "//" if file.endswith(".rt") else "--"
        words.update(re.findall(r"\w+", re.sub(comment + r"[^\n]*", "", read(os.path.relpath(file, TOP)))))
    return words


def check_crates():
    """In crates.txt each crate stands behind those that it names, which are those that its files name, and
    docs/architecture.md has it under its layer."""
    page, layer, before = "docs/architecture.md", "", []
    listed = {other for line in read("crates.txt").splitlines() for other in line.partition(":")[2].split()}
    sections = dict(re.findall(r"^## (.*)\n((?:(?!## ).*\n)*)", read(page), re.M))
    for number, line in enumerate(read("crates.txt").splitlines(), 1):
        if line.startswith("# "):
            layer = line[2:]
        elif line:
            crate, _, others = line.partition(":")
            for other in others.split():
                if other in CRATES and other not in before:
                    fail("crates.txt", number, f"{crate} names {other}, which does not stand before it")
            differing = set(others.split()) ^ (listed & named_in(crate) - {crate})
            if differing:
                fail("crates.txt", number, f"the line of {crate} and its files differ in {', '.join(sorted(differing))}")
            if f"`{crate}`" not in sections.get(layer, ""):
                fail(page, 1, f"no {crate} under {layer}")
            before.append(crate)


def check_shown():
    """What a page shows of a file is what the file has."""
    for page, file in (("README.md", "overreach.job"), ("README.md", "overreach.out"), ("docs/certificates.md", "identity.cert")):
        shown = "\n".join("    " + line if line else "" for line in read("examples/" + file).rstrip("\n").split("\n"))
        if shown not in read(page):
            fail(page, 1, f"examples/{file} is not shown as it is")


def check_tables():
    """In rows of docs/developing.md with a crate, definitions, code and proofs each name is a file of the crate's folder."""
    page = "docs/developing.md"
    for number, line in enumerate(read(page).split("\n"), 1):
        row = re.match(r"\| `(\w+)` \|([^|]*)\|([^|]*)\|([^|]*)\|$", line)
        for folder, cell in zip(("specs", "src", "proofs"), row.groups()[1:] if row else ()):
            for name in re.findall(r"`([^`]+)`", re.sub(r"\([^)]*\)", "", cell)):
                if not any(exists("crates", row.group(1), folder, name + ending) for ending in ("", ".antt", ".rt")):
                    fail(page, number, f"no {folder}/{name} in {row.group(1)}")


def check_clauses(page):
    """The names in the last cell of a row, or in a line of what a claim is carried by, stand in the code or the
    definitions of the crates that the row or line names."""
    texts = {}
    for number, line in enumerate(read(page).split("\n"), 1):
        if not re.match(r"\| .* \| .*`.* \|$|Carried by ", line):
            continue
        cell = line.rsplit(" | ", 1)[-1]
        for name in re.findall(r"`([a-zA-Z_:]+)`", cell):
            if is_path(name) or name in CRATES or name in ("specs", "src"):
                continue
            found = False
            for crate in crates_in(line) or ["cc_program"]:
                if crate not in texts:
                    files = glob.glob(os.path.join(TOP, f"crates/{crate}/s*/**/*.*t*"), recursive=True)
                    texts[crate] = "\n".join(read(os.path.relpath(file, TOP)) for file in files)
                found = found or all(has_name(part, texts[crate]) for part in name.split("::"))
            if not found:
                fail(page, number, f"no {name} in {', '.join(crates_in(line))}")


def check_claims():
    """Each section of docs/proved.md that has a claim ends with the line of what carries it."""
    page = "docs/proved.md"
    for title, text in re.findall(r"^### (.*)\n((?:(?!#).*\n)*)", read(page), re.M):
        if not re.match(r"Carried by .*\.$", text.rstrip().split("\n")[-1]):
            fail(page, 1, f"nothing carries the claim: {title}")


def check_codes():
    """docs/codes.md has a row for each code, with its cause and what to do next, and the messages of both programs."""
    page = "docs/codes.md"
    text = read(page)
    codes = re.findall(r"^    (E\d\d),$", read("crates/cc_base/src/code.rt"), re.M)
    codes += re.findall(r" refused (E\d\d) ", read("crates/cc_hosting/src/texts.rt"))
    rows = re.findall(r"^\| (E\d\d) \| [^|]+ \|.* \| [^|]+ \|$", text, re.M)
    if sorted(rows) != sorted(codes):
        fail(page, 1, f"its codes are not those of cc_base/src/code.rt and cc_hosting/src/texts.rt: {' '.join(sorted(set(rows) ^ set(codes)))}")
    for crate, page in (("cc_program", page), ("certify", page), ("capi", "docs/conversation.md")):
        for message in re.findall(r'"(\w+: [^"{]*)', read(f"crates/{crate}/src/status.rt")):
            if f"`{message}" not in read(page):
                fail(page, 1, f"no message {message}")


def main():
    for page in PAGES:
        check_links_and_paths(page)
    check_definitions()
    check_rules()
    check_shown()
    check_tables()
    check_crates()
    check_codes()
    check_claims()
    check_clauses("docs/proved.md")
    check_clauses("README.md")
    for failure in failures:
        print(failure)
    sys.exit(1 if failures else 0)


main()
