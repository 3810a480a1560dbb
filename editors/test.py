#!/usr/bin/env python3
"""Holds the TextMate grammar and the Vim file to the tokens of docs/language.md.

The reserved words and the symbols are read from the page. A text is cut into tokens by the rules of the page, and, apart from
that, by the grammar as an editor does: line by line, at each place by the first pattern that fits there. Both have to find
the same tokens of the same kinds, in every module of examples and tests and in lines for what these do not have. With one
pattern left out, or one word of it, the comparison has to fail.
Usage: editors/test.py
The last line tells how many passed and failed; the status is 1 where one failed.
"""
import glob
import json
import os
import re
import shutil
import subprocess
import sys
import tempfile
import unicodedata

HERE = os.path.dirname(os.path.abspath(__file__))
TOP = os.path.dirname(HERE)
# the kinds of tokens, by the beginnings of scopes
KINDS = {"comment": "comment", "string": "string", "constant.numeric": "number", "keyword.declaration": "word",
         "keyword.control": "word", "constant.language": "word", "support.type": "word", "entity.name": "name",
         "support.function": "name", "variable.other": "name", "keyword.operator": "symbol", "punctuation": "symbol",
         "invalid": "none"}
LINES = """def define = fun (importer: Int) => value + boxes + unboxed + ifx + thenx + elsewhere + exits + repeated + truely
def rec recursive: (funny: Integer) -> Units = Boxes + Exits + Strange + Anything + Boolean + Console1 + Files + Counters
def é = falsehood def unité = capital def val_ = 1 def élan = 2 def x = 12ab def y = 12def z = 3
def a<:b c=>d e->f g==h i<j k+l m-n o*p [q] {r} (s), t: u; v.w ^? ^{x}
def ﬀ = 1 // a comment with def and "text"
def s = "a text with def and // no comment" + "" + "a" "b"
def rec\tf\u0301: T = x.print(1) + x.say ("a") + print + x.printed(1) + y.read() + z.tick() + w.write(2) + say(1)
def def\u0301 = 1 def unit_\u0301 = 2
// only a comment
""".split("\n")


def of_page():
    """The reserved words and the symbols that the page tells."""
    with open(os.path.join(TOP, "docs/language.md"), encoding="utf-8") as file:
        page = file.read()
    words = re.search(r"\*\*reserved words\*\* are `([^`]+)`", page).group(1).split()
    symbols = re.search(r"\*\*symbols\*\* are `([^`]+)`", page).group(1).split()
    return words, symbols


def is_start(char):
    return char != "_" and char.isidentifier()


def cut(line, words, symbols):
    """The tokens of a line by the rules of the page: kind and text. Where no token begins there is a `none` of one character."""
    at, found = 0, []
    while at < len(line):
        rest = line[at:]
        if rest[0] in " \t\r":
            at += 1
            continue
        text = re.match(r'"[^"\\\x00-\x1f\x7f]{0,200}"', rest)
        if rest.startswith("//"):
            token = ("comment", rest)
        elif text:
            token = ("string", text.group())
        elif rest[0] in "0123456789":
            token = ("number", re.match("[0-9]+", rest).group())
        elif is_start(rest[0]):
            to = 1
            while to < len(rest) and ("a" + rest[to]).isidentifier():
                to += 1
            token = ("word" if rest[:to] in words else "name", rest[:to])
        else:
            fitting = [one for one in symbols if rest.startswith(one)]
            token = ("symbol", max(fitting, key=len)) if fitting else ("none", rest[0])
        found.append(token)
        at += len(token[1])
    return found


def classes():
    """For each Unicode class that the patterns name the characters of it, as ranges for `re`."""
    names, ranges, last = ("L", "M", "N", "Pc", "Nl"), {}, None
    for code in range(0x110000):
        category = unicodedata.category(chr(code))
        if category != last:
            ranges.setdefault(category, []).append([code, code])
            last = category
        ranges[category][-1][1] = code
    return {name: "".join("\\U%08x-\\U%08x" % (first, to) for category, found in sorted(ranges.items())
                          if category.startswith(name) for first, to in found) for name in names}


def patterns_of(grammar, members):
    """The grammar's patterns, with scopes, in `re`."""
    found = []
    for one in grammar["patterns"]:
        pattern = re.sub(r"\\p\{(\w+)\}", lambda name: members[name.group(1)], one["match"])
        found.append((one["name"], re.compile(pattern)))
    return found


def scoped(line, patterns):
    """The tokens of a line as an editor finds them: at each place the pattern that fits first, the first of these."""
    at, found = 0, []
    while at < len(line):
        matches = [(match.start(), order, match) for order, (_, pattern) in enumerate(patterns)
                   for match in [pattern.search(line, at)] if match and match.end() > match.start()]
        if not matches:
            break
        _, order, match = min(matches, key=lambda one: one[:2])
        kind = next((KINDS[begin] for begin in KINDS if patterns[order][0].startswith(begin)), "?")
        found.append((kind, match.group()))
        at = match.end()
    return found


def texts():
    """The lines of modules that the project has: the files, and what stands behind each `put` of a job or a conversation."""
    found = set(LINES)
    for path in glob.glob(os.path.join(TOP, "examples/**/*.cap"), recursive=True):
        with open(path, "rb") as file:
            found.update(file.read().decode("utf-8", "replace").split("\n"))
    for path in glob.glob(os.path.join(TOP, "examples/*.job")) + glob.glob(os.path.join(TOP, "tests/*/*.job")) + glob.glob(
            os.path.join(TOP, "tests/*/*.talk")):
        with open(path, "rb") as file:
            lines = file.read().split(b"\n")
        at = 0
        while at < len(lines):
            put = re.match(rb"put \S+ ([0-9]{1,5})$", lines[at])
            to = at + 1 + (int(put.group(1)) if put else 0)
            for line in lines[at + 1:to]:
                try:
                    found.add(line.decode("utf-8"))
                except UnicodeDecodeError:
                    pass
            at = to
    return sorted(line for line in found if len(line) < 2000)


def differing(lines, patterns, cuts):
    """The first line that both cut otherwise."""
    for line in lines:
        if scoped(line, patterns) != cuts[line]:
            return line
    return None


def vim_kinds(lines):
    """The group that Vim gives each character."""
    vim = shutil.which("vim")
    with tempfile.TemporaryDirectory() as work:
        with open(os.path.join(work, "a.cap"), "w", encoding="utf-8") as file:
            file.write("\n".join(lines) + "\n")
        script = """set nocompatible encoding=utf-8
set runtimepath^=%s/vim
filetype on
syntax on
edit %s/a.cap
let found = []
for row in range(1, line('$'))
  let groups = []
  for col in range(1, len(getline(row)))
    call add(groups, synIDattr(synID(row, col, 1), 'name'))
  endfor
  call add(found, join(groups, ','))
endfor
call writefile(found, '%s/found')
quitall!
""" % (HERE, work, work)
        with open(os.path.join(work, "s.vim"), "w", encoding="utf-8") as file:
            file.write(script)
        subprocess.run([vim, "-u", "NONE", "-N", "-es", "-S", os.path.join(work, "s.vim")], timeout=60, stdin=subprocess.DEVNULL,
                       stdout=subprocess.DEVNULL, stderr=subprocess.DEVNULL, env=dict(os.environ, HOME=work))
        if not os.path.exists(os.path.join(work, "found")):
            return []
        with open(os.path.join(work, "found"), encoding="utf-8") as file:
            return [line.split(",") for line in file.read().split("\n")[:-1]]


VIM_KINDS = {"capDeclaration": "word", "capControl": "word", "capConstant": "word", "capType": "word", "capNumber": "number",
             "capOperator": "symbol", "capString": "string", "capComment": "comment", "": "other", "capDefinition": "name",
             "capOperation": "name"}


def vim_wrong(lines, cuts):
    """The first token that Vim colours as another kind; None where there is none."""
    found = vim_kinds(lines)
    if len(found) != len(lines):
        return "Vim gave %d lines of %d" % (len(found), len(lines))
    for line, groups in zip(lines, found):
        at = 0
        for kind, text in cuts[line]:
            at = line.index(text, at)
            group = groups[len(line[:at].encode())] if line else ""
            seen = VIM_KINDS.get(group, group)
            if seen != kind and not (kind in ("name", "symbol", "none") and seen == "other"):
                return "%s: %s is %s and not %s" % (line, text, seen, kind)
            at += len(text)
    return None


def main():
    words, symbols = of_page()
    with open(os.path.join(HERE, "cap.tmLanguage.json"), encoding="utf-8") as file:
        grammar = json.load(file)
    members = classes()
    patterns = patterns_of(grammar, members)
    lines = texts()
    cuts = {line: cut(line, words, symbols) for line in lines}
    results = []

    def result(name, wrong):
        results.append(wrong is None)
        if wrong is not None:
            print("FAILED %s: %s" % (name, wrong))

    for line in lines:
        is_same = scoped(line, patterns) == cuts[line]
        result("a line of a module", None if is_same else "%r: %s and not %s" % (line, scoped(line, patterns), cuts[line]))
    met = {text for tokens in cuts.values() for kind, text in tokens if kind in ("word", "symbol")}
    result("each word and symbol is met", None if met == set(words + symbols) else str(sorted(set(words + symbols) - met)))
    result("there are many lines", None if len(lines) > 1000 else str(len(lines)))
    # what is left out is missed
    for at, one in enumerate(grammar["patterns"][:-1]):
        if one["name"].startswith(("entity", "support.function")):
            continue
        fewer = patterns[:at] + patterns[at + 1:]
        result("without %s" % one["name"], None if differing(lines, fewer, cuts) is not None else "nothing is missed")
    for word in words:
        without = [(name, re.sub(r"(?<=[:|])%s(?=[|)])" % word, "%%", pattern.pattern, count=1), pattern) for name, pattern in patterns]
        fewer = [(name, pattern if text == pattern.pattern else re.compile(text)) for name, text, pattern in without]
        with_word = [line for line in lines if word in line]
        result("without %s" % word, None if differing(with_word, fewer, cuts) is not None else "nothing is missed")
    with open(os.path.join(HERE, "vim/syntax/cap.vim"), encoding="utf-8") as file:
        vim_words = re.findall(r"^syntax keyword \w+ (.*)$", file.read(), re.M)
    result("the words of the Vim file", None if sorted(" ".join(vim_words).split()) == sorted(words) else str(vim_words))
    if shutil.which("vim"):
        # a word behind a digit, as in 12def, is none for Vim, whose words begin behind what is no letter and no digit
        plain = [line for line in lines if line.isprintable() and not re.search(r"[0-9][^\W0-9_]", line)]
        result("Vim", vim_wrong(plain, cuts))
    else:
        print("Vim is not there: only the words of its file were compared")
    print("%d passed, %d failed" % (sum(results), len(results) - sum(results)))
    sys.exit(0 if all(results) else 1)


main()
