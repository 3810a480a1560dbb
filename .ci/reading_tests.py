#!/usr/bin/env python3
"""Tests of .ci/reading.py on a copy of the definitions and of the program: what is moved into a file of its own must be listed
with this file, however it is named where it is used, and a law that does not say what a function is must not stand for it.

Usage: .ci/reading_tests.py
Prints a line for each failure, and ends with 1 where there is one.
"""
import importlib.util
import os
import re
import shutil
import sys
import tempfile

sys.dont_write_bytecode = True
HERE = os.path.dirname(os.path.abspath(__file__))
TOP = os.path.dirname(HERE)
spec = importlib.util.spec_from_file_location("reading", os.path.join(HERE, "reading.py"))
reading = importlib.util.module_from_spec(spec)
spec.loader.exec_module(reading)
failures = []


def check(is_so, words):
    if not is_so:
        failures.append(words)


class Copy:
    """A copy of what .ci/reading.py reads, in which files can be changed."""

    def __init__(self, top):
        self.top = top
        for crate in os.listdir(os.path.join(TOP, "crates")):
            for folder in ("specs", "src"):
                if os.path.isdir(os.path.join(TOP, "crates", crate, folder)):
                    shutil.copytree(os.path.join(TOP, "crates", crate, folder), os.path.join(top, "crates", crate, folder))
        shutil.copytree(os.path.join(TOP, "docs"), os.path.join(top, "docs"))
        shutil.copy(os.path.join(TOP, "crates.txt"), top)
        self.kept = {}
        reading.TOP = top
        self.forget()

    def forget(self):
        reading.Reading.files.clear()
        reading.exists.cache_clear()
        reading.is_crate.cache_clear()

    def read(self, path):
        with open(os.path.join(self.top, path), encoding="utf-8") as file:
            return file.read()

    def write(self, path, text):
        full = os.path.join(self.top, path)
        self.kept.setdefault(path, self.read(path) if os.path.exists(full) else None)
        with open(full, "w", encoding="utf-8") as file:
            file.write(text)
        self.forget()

    def change(self, path, old, new):
        text = self.read(path)
        if old not in text:
            sys.exit(f"{path} has no {old}")
        self.write(path, text.replace(old, new, 1))

    def restore(self):
        for path, text in self.kept.items():
            if text is None:
                os.remove(os.path.join(self.top, path))
            else:
                with open(os.path.join(self.top, path), "w", encoding="utf-8") as file:
                    file.write(text)
        self.kept = {}
        self.forget()


def of_capc():
    return reading.of_clauses(*reading.CAPC)


def is_listed(found, path):
    return any(at == path for at, _ in found.reached)


def test_what_do_stands_for(copy):
    """Each operator that a `do` may stand for, in a file of its own and bent by a line."""
    before = of_capc()
    used = {path for path, name in before.reached if path.endswith(".antt") and re.search(r"\bdo\b|>>", reading.bare(before.file(path).items[name]))}
    from_modules = {module for path in used for meant in before.file(path).names.values() for module, own in meant if own in reading.OF_DO}
    moved = []
    for path in sorted(before.specs()):
        text = copy.read(path)
        if path not in used and "Rattle." + path[len("crates/") : -len(".antt")].replace("/", ".") not in from_modules:
            continue
        for operator in reading.OF_DO:
            block = re.search(rf"^infixl \d+ {operator}\n(?:--.*\n)*(?:[a-z]+ )*{operator} :.*\n(?:\S.*\n)+", text, re.M)
            if not block:
                continue
            name = "MovedThen" if operator == "◌>>◌" else "MovedNext"
            own = os.path.dirname(path) + f"/{name}.antt"
            module = "Rattle." + own[len("crates/") : -len(".antt")].replace("/", ".")
            copy.write(own, text[: text.index("\n\n")] + "\n\n" + block.group(0) + "-- bent\n")
            text = text.replace(block.group(0), "").replace("\n\n", f"\nuse {module}.{{{operator}}}\n\n", 1)
            copy.write(path, text)
            moved.append((own, operator, copy.read(own).count("\n")))
    after = of_capc()
    check(len(moved) >= 4, f"only {len(moved)} operators of `do` blocks were found")
    for own, operator, lines in moved:
        check(is_listed(after, own), f"{operator} in {own} is not listed")
    copy.restore()
    # bent where it stands, by a line more
    path = "crates/cc_mnf/specs/Steps.antt"
    lines = before.lines_reached(path)
    copy.change(path, "step >>= next = followed step next", "step >>= next =\n    followed step next")
    check(of_capc().lines_reached(path) == lines + 1, "a line more of ◌>>=◌ is not counted")
    copy.restore()


def test_operators(copy):
    """An operator with gaps, used between its operands, at its front, and as a name."""
    ways = {
        "Between": ("use M.{◌⊕◌}", "a ⊕ b"),
        "Joined": ("use M.{◌⊕ℤ◌}", "a ⊕ℤ b"),
        "Named": ("use M.{◌⊕◌}", "map (◌⊕◌ a) b"),
        "Around": ("use M.{when◌then◌}", "when a then b"),
        "Renamed": ("use M.{◌⊕◌ as ◌⊗◌}", "a ⊗ b"),
        "RenamedDo": ("use M.{◌>>=◌ as ◌>>>◌}", "do"),
        "Aliased": ("use M as moved", "moved.◌⊕◌ a b"),
        "Whole": ("use M", "MovedWhole.added a b"),
        "Pathed": ("", "M.added a b"),
    }
    path = "crates/cc_policy/specs/Policies.antt"
    text = copy.read(path)
    first = re.search(r"^(?:[a-z]+ )*(\w+) :", text, re.M).group(1)
    for way, (use, body) in ways.items():
        module = f"Rattle.cc_policy.specs.Moved{way}"
        declared = re.findall(r"◌\S+◌|when◌then◌|added", use + " " + body) or ["◌⊕◌"]
        copy.write(f"crates/cc_policy/specs/Moved{way}.antt", f"-- moved\n\nabbrev pub {declared[0]} : ℕ → ℕ → ℕ\n")
        use = re.sub(r"\bM\b", module, use)
        body = re.sub(r"\bM\b", module, body)
        copy.write(path, (use + "\n" if use else "") + text + f"\nabbrev pub {first}_again : ℕ\n{first}_again = {body}\n")
        one = reading.Reading()
        one.reach(path, first + "_again", ("test", "test"))
        one.go()
        check(is_listed(one, f"crates/cc_policy/specs/Moved{way}.antt"), f"an operator that is used thus is not listed: {use}; {body}")
    copy.restore()


def test_paths(copy):
    """Types in files of their own that are written with their paths."""
    diag = "pub struct Diag {\n    pub code: Code,\n"
    text = copy.read("crates/cc_base/src/code.rt")
    check(diag in text, "there is no such type as is changed")
    ways = {
        "crate": ("", "    pub moved: crate::moved_crate::Moved,\n"),
        "itself": ("", "    pub moved: super::moved_itself::Moved,\n"),
        "module": ("use crate::moved_module;\n", "    pub moved: moved_module::Moved,\n"),
        "renamed": ("use crate::moved_renamed::Moved as Other;\n", "    pub moved: Other,\n"),
        "listed": ("use crate::moved_listed::{Moved as Other};\n", "    pub moved: Vec<Other>,\n"),
        "other": ("", "    pub moved: cc_base::moved_other::Moved,\n"),
        "constant": ("use crate::moved_constant::MOVED;\n", "    pub moved: [u8; MOVED],\n"),
    }
    for way, (use, field) in ways.items():
        own = f"crates/cc_base/src/moved_{way}.rt"
        copy.write(own, "pub const MOVED: usize = 3;\n\npub struct Moved {\n    pub line: u32,\n}\n")
        copy.write("crates/cc_base/src/code.rt", use + text.replace(diag, diag + field))
        check(is_listed(of_contract(), own), f"a type that is named thus is not listed: {use}{field}")
    copy.restore()

    # in the view of a type, and in a clause
    view = "    ghost Value = { List ℕ };\n\n    ghost view = { λ t. t.bytes.items };\n"
    views = {
        "path": ("", "Rattle.cc_base.specs.declared.moved_path.Moved"),
        "variant": ("", "Rattle.cc_base.specs.declared.moved_variant.Moved.TheVariants.First"),
        "alias": ("    ghost use Rattle.cc_base.specs.declared.moved_alias as moved;\n", "moved.Moved"),
        "variants": ("    ghost use Rattle.cc_base.specs.declared.moved_variants.Moved.TheVariants as moved;\n", "moved.First"),
        "bare": ("    ghost use Rattle.cc_base.specs.declared.moved_bare.Moved;\n", "Moved.Moved"),
    }
    text = copy.read("crates/cc_base/src/text.rt")
    check(view in text, "there is no such view as is changed")
    for way, (use, named) in views.items():
        own = f"crates/cc_base/src/moved_{way}.rt"
        copy.write(own, "pub enum Moved {\n    First,\n}\n")
        copy.write("crates/cc_base/src/text.rt", text.replace(view, use + view.replace("List ℕ", f"List ({named})")))
        check(is_listed(of_contract(), own), f"a type that a view names thus is not listed: {use}{named}")
    copy.restore()

    run = copy.read(reading.CAPC[0])
    bad = "Asked.Nothing }"
    check(bad in run, "there is no such clause as is changed")
    clauses = {
        "Rattle.cc_program.specs.declared.moved.Moved.TheVariants.First": "crates/cc_program/src/moved.rt",
        "Rattle.cc_program.specs.Moved.nothing": "crates/cc_program/specs/Moved.antt",
        "crate::moved::Moved.First": "crates/cc_program/src/moved.rt",
        "cc_arguments::moved::Moved::First": "crates/cc_arguments/src/moved.rt",
    }
    for named, own in clauses.items():
        copy.write(own, "pub enum Moved {\n    First,\n}\n" if own.endswith(".rt") else "-- moved\n\nabbrev pub nothing : ℕ\nnothing = 0\n")
        copy.write(reading.CAPC[0], run.replace(bad, named + " }"))
        check(is_listed(reading.of_clauses(*reading.CAPC, {"words"}), own), f"what a clause names thus is not listed: {named}")
        copy.restore()
    # a name that a block of its own takes from another module
    own = "crates/cc_program/specs/Moved.antt"
    copy.write(own, "-- moved\n\nabbrev pub nothing : ℕ\nnothing = 0\n")
    copy.write("crates/cc_program/specs/Other.antt", "-- other\n\nabbrev pub nothing : ℕ\nnothing = 1\n")
    block = "\nimpl Other {\n    ghost use Rattle.cc_program.specs.Other.{nothing};\n}\n"
    use = "ghost use Rattle.cc_program.specs.Moved.{nothing}; // what is moved\n"
    copy.write(reading.CAPC[0], use + run.replace(bad, "nothing }") + block)
    check(is_listed(reading.of_clauses(*reading.CAPC, {"words"}), own), "a name is not followed that another block has from elsewhere")
    copy.restore()
    # the type whose variant a clause names where only its function's crate is imported by it
    copy.change(reading.CAPC[0], "use cc_arguments::words::{Asked, ", "use cc_arguments::words::{")
    copy.change(reading.CAPC[0], bad, "cc_arguments::words::Asked.Nothing }")
    check(is_listed(reading.of_clauses(*reading.CAPC, {"words"}), "crates/cc_arguments/src/words.rt"), "Asked.Nothing is not followed")
    copy.restore()


def of_contract():
    return reading.of_clauses(*reading.CAPC)


def test_laws(copy):
    """What does not say what a function is."""
    (path, name), (law, proved_in) = next(iter(reading.DETERMINED.items()))
    said = "(text : List ℕ) (reading : TextReading) → HasReading text reading ↔ (reading ≡ reading_of_text text)"
    check(said in copy.read(path), f"{law} says something else than the test takes it to say")

    def lacks():
        return reading.no_law_of(path, name, law, proved_in)

    check(lacks() is None, f"{law} is not taken for what it is: {lacks()}")
    for same in (
        "(text : List ℕ) (reading : TextReading) → HasReading text reading ↔ (reading_of_text text ≡ reading)",
        "(reading : TextReading) (text : List ℕ) → (reading ≡ reading_of_text text) ↔ HasReading text reading",
    ):
        copy.change(path, said, same)
        check(lacks() is None, f"a law that says the same is not taken: {same}: {lacks()}")
        copy.restore()
    hidden = (
        "\n-- hidden\nabbrev pub Hidden : List ℕ → TextReading → Type 0\n"
        "Hidden text reading = reading ≡ again text\n\nabbrev pub again : List ℕ → TextReading\nagain text = reading_of_text text\n"
    )
    binders = "(text : List ℕ) (reading : TextReading) → "
    for wrong in (
        binders + "(reading_of_text text ≡ reading) ↔ (reading ≡ reading_of_text text)",
        binders + "(HasReading text reading × (reading ≡ reading_of_text text)) ↔ (reading ≡ reading_of_text text)",
        binders + "Hidden text reading ↔ (reading ≡ reading_of_text text)",
        binders + "HasReading text reading → (reading ≡ reading_of_text text)",
        binders + "IsUtf8 text → HasReading text reading ↔ (reading ≡ reading_of_text text)",
        binders + "(IsUtf8 text → HasReading text reading) ↔ (reading ≡ reading_of_text text)",
        binders + "HasReading text reading ↔ (reading ≡ reading_of_text [])",
        binders + "HasReading text reading ↔ (reading ≡ of_tokens (reading_of_text text))",
        binders + "HasReading text (IsNoModule E01 start) ↔ (reading ≡ reading_of_text text)",
        "(text : List ℕ) → HasReading text (IsNoModule E01 start) ↔ (IsNoModule E01 start ≡ reading_of_text text)",
        "(text : List ℕ) → HasReading text (reading_of_text text)",
    ):
        copy.change(path, said, wrong)
        copy.write(path, copy.read(path) + hidden)
        check(lacks() is not None, f"a law is taken that does not say what the function is: {wrong}")
        copy.restore()
    copy.write(path, copy.read(path) + "\nabbrev pub ◌↔◌ : Type 0 → Type 0 → Type 0\na ↔ b = ℕ\n")
    check(lacks() is not None, "a law is taken whose equivalence is not the library's")
    copy.restore()
    clause = "    ensures { readings.ATextHasOneReading }\n{}\n"
    for wrong in (
        "    ensures { readings.ATextHasOneReading ⊎ ℕ }\n{}\n",
        "    ensures { ℕ → readings.ATextHasOneReading }\n{}\n",
        "    requires { 0 < 0 }\n" + clause,
        "    ensures { law.ATextHasOneReading }\n{}\n",
        "    ensures { readings.ATextHasOneReading }\n{\n    loop {}\n}\n",
        "{}\n",
    ):
        copy.change(proved_in, clause, wrong)
        check(lacks() is not None, f"a law is taken that no function has as its clause alone: {wrong}")
        copy.restore()


def test_counts(copy):
    """Lines of types and names of the library."""
    lines = of_contract().lines_of_types()
    copy.change("crates/cc_base/src/device.rt", "    Counter,\n}", "    Counter,\n    Clock,\n}")
    check(of_contract().lines_of_types() == lines + 1, "a variant more is no line more of the types")
    copy.restore()
    copy.change("crates/cc_base/src/text.rt", "ghost use Rattle.std.specs.Prelude.{List, ℕ};", "ghost use Rattle.std.specs.Another.{List, ℕ};")
    after = reading.of_clauses(*reading.CAPC)
    check(after.library.get("Rattle.std.specs.Another") == {"List", "ℕ"}, "names of the library are not told by their module")
    copy.restore()


def main():
    with tempfile.TemporaryDirectory() as top:
        copy = Copy(top)
        for test in (test_what_do_stands_for, test_operators, test_paths, test_laws, test_counts):
            test(copy)
    for failure in failures:
        print(".ci/reading.py: " + failure)
    sys.exit(1 if failures else 0)


main()
