#!/usr/bin/env python3
"""Draws the pictures of the pages, as docs/crates.svg and docs/ways.svg.

- The crates by their layers, from crates.txt, with those that each stands on, where no other of these leads to them.
  A line joins crates of one layer; those of the layers above are named in the box.
- The ways of five commands through the functions, from the tables below. Each function has to stand in its file, and
  to be called in the crate of one before it.
No text stands over another one, and no line goes through one.
Usage: .ci/pictures.py           compares the pictures with those that stand there; ends with 1 where they differ, where
                                 a table names what is not there, or where something cannot be read
       .ci/pictures.py --write   writes them
"""
import glob
import os
import re
import sys

TOP = os.path.dirname(os.path.dirname(os.path.abspath(__file__)))
INK, GREY, PALE, PAPER, BAND, BOX = "#22303c", "#566573", "#8795a1", "#ffffff", "#f1f4f7", "#ffffff"
# the width of a letter, great and small, and the heights of a name and of a line of small letters
LETTER, SMALL, NAME, LINE = 7.3, 6.1, 22, 13
# between boxes of a column, between columns, and round a layer
GAP, SIDE, ROUND = 10, 46, 16
# so many small letters go into a line of a box
MOST = 26

# The ways. Each step is a function with its file and with what it does there.
HEAD = [
    ("program", "crates/cc_program/src/program.rt", "what the words ask for; messages"),
    ("capc", "crates/cc_program/src/run.rt", "one call, from bytes to a status"),
    ("read_job", "crates/cc_job/src/read.rt", "the job, or its first bad line"),
    ("carry_out", "crates/cc_answers/src/commands.rt", "each command, on one session"),
    ("answer", "crates/cc_answers/src/commands.rt", "writes a reply before the next"),
]
PUT = [
    ("put_module", "crates/cc_answers/src/commands.rt", "copies the name and the text"),
    ("put", "crates/cc_session/src/session.rt", "within the limits of a session"),
    ("put_text", "crates/cc_session/src/texts.rt", "at its place among the names"),
    ("put_reply", "crates/cc_replies/src/modules.rt", "the text was not read yet"),
]
JUDGING = [
    ("ask", "crates/cc_answers/src/commands.rt", "each question judges first"),
    ("check", "crates/cc_session/src/session.rt", "verdicts of the present texts"),
    ("judge_all", "crates/cc_judge/src/judging.rt", "finds those that are stale"),
    ("read", "crates/cc_text_reading/src/reading.rt", "a text whose tree is not kept"),
    ("lex", "crates/cc_lex/src/lexer.rt", "bytes to tokens"),
    ("parse", "crates/cc_parse/src/parser.rt", "tokens to the one tree"),
    ("order", "crates/cc_graph/src/imports.rt", "imported modules come first"),
    ("plan_module", "crates/cc_judge/src/plans.rt", "keeps a verdict, or judges"),
    ("check_read", "crates/cc_module/src/judging.rt", "one module, counted as a step"),
    ("elaborate", "crates/cc_mnf/src/elaborate.rt", "names, and normal form"),
    ("check_known", "crates/cc_check/src/definition.rt", "one definition after another"),
    ("infer_known", "crates/cc_infer/src/infer.rt", "the type of a right side"),
    ("application", "crates/cc_type/src/rows.rt", "as one of the forms of terms"),
    ("below", "crates/cc_type/src/comparing.rt", "compares, and logs demands"),
    ("solve", "crates/cc_solve/src/solving.rt", "the least filling of the holes"),
    ("first_failed", "crates/cc_solve/src/judging.rt", "accepted where none fails"),
]
QUESTIONS = {
    "check": [
        ("show_verdicts", "crates/cc_answers/src/questions.rt", "of all present modules"),
        ("check_reply", "crates/cc_replies/src/verdicts.rt", "ok, or a code with its place"),
    ],
    "run": [
        ("show_run", "crates/cc_answers/src/questions.rt", "of one definition"),
        ("entry", "crates/cc_session/src/session.rt", "with its authority, or refused"),
        ("link", "crates/cc_link/src/linking.rt", "its modules to one program"),
        ("load", "crates/cc_machine/src/machine.rt", "a machine at the start"),
        ("run", "crates/cc_machine/src/runs.rt", "step by step, on devices"),
        ("write_run", "crates/cc_replies/src/runs.rt", "events, the end, the steps"),
    ],
    "explain": [
        ("show_explanation", "crates/cc_answers/src/questions.rt", "of one definition"),
        ("standing", "crates/cc_session/src/session.rt", "where it stands, or refused"),
        ("links_of", "crates/cc_link/src/module_links.rt", "what definitions link to"),
        ("chain", "crates/cc_explain/src/chain.rt", "the first of the shortest"),
        ("write_explanation", "crates/cc_replies/src/explanations.rt", "a line for each element"),
    ],
    "derive": [
        ("show_derivation", "crates/cc_answers/src/questions.rt", "of one definition"),
        ("standing", "crates/cc_session/src/session.rt", "its context, or refused"),
        ("write_derivation", "crates/cc_replies/src/derivations.rt", "where it has not too many nodes"),
        ("derive", "crates/cc_derive/src/definition.rt", "the canonical derivation"),
        ("write_cert", "crates/cc_certificate_writing/src/certificates.rt", "a line for each node"),
    ],
}


def read(path):
    with open(os.path.join(TOP, path), encoding="utf-8") as file:
        return file.read()


# ---- drawing

def escaped(words):
    return words.replace("&", "&amp;").replace("<", "&lt;").replace(">", "&gt;")


def text(x, y, words, more="", colour=INK):
    return f'<text x="{x:.0f}" y="{y:.0f}" fill="{colour}"{more} xml:space="preserve">{escaped(words)}</text>'


def small(x, y, words):
    return text(x, y, words, ' font-size="10"', GREY)


def box(x, y, wide, high, fill=BOX, stroke=INK):
    return (f'<rect x="{x:.0f}" y="{y:.0f}" width="{wide:.0f}" height="{high:.0f}" rx="4" fill="{fill}" '
            f'stroke="{stroke}"/>')


def svg(wide, high, lines):
    head = (f'<svg xmlns="http://www.w3.org/2000/svg" width="{wide:.0f}" height="{high:.0f}" '
            f'viewBox="0 0 {wide:.0f} {high:.0f}" font-family="monospace" font-size="12">')
    arrow = (f'<defs><marker id="end" viewBox="0 0 8 8" refX="8" refY="4" markerWidth="7" markerHeight="7" '
             f'orient="auto"><path d="M 0 0 L 8 4 L 0 8 z" fill="{PALE}"/></marker></defs>')
    paper = f'<rect width="{wide:.0f}" height="{high:.0f}" fill="{PAPER}"/>'
    return "\n".join([head, arrow, paper] + lines + ["</svg>", ""])


# ---- the crates

def layers():
    """The layers with their crates, and of each crate those that it stands on, where no other of them leads there."""
    found, others, below = {}, {}, {}
    for line in read("crates.txt").splitlines():
        if line.startswith("# "):
            layer = found.setdefault(line[2:], [])
        elif ":" in line:
            crate, _, named = line.partition(":")
            layer.append(crate)
            others[crate] = [other for other in named.split() if other in others]
            below[crate] = set(others[crate]).union(*(below[other] for other in others[crate]))
    least = {crate: [one for one in named if not any(one in below[other] for other in named)]
             for crate, named in others.items()}
    return {layer: crates for layer, crates in found.items() if crates}, least


def short(crate):
    return crate.removeprefix("cc_")


def wrapped(words, most):
    lines = [""]
    for word in words:
        if lines[-1] and len(lines[-1]) + 1 + len(word) > most:
            lines.append("")
        lines[-1] += (" " if lines[-1] else "") + word
    return lines


class Layer:
    """A layer as columns of boxes, each to the right of those that it stands on. A line that passes a column has a way
    through it, which all lines from the same crate share."""

    def __init__(self, crates, least):
        self.inner = {crate: [other for other in least[crate] if other in crates] for crate in crates}
        self.notes, columns = {}, {}
        for crate in crates:
            outer = [short(other) for other in least[crate] if other not in crates]
            outer = [one + "," for one in outer[:-1]] + outer[-1:]
            self.notes[crate] = wrapped(["on"] + outer, MOST) if outer else []
            columns[crate] = max((columns[other] + 1 for other in self.inner[crate]), default=0)
        self.order = [[] for _ in range(max(columns.values()) + 1)]
        for crate in crates:
            self.order[columns[crate]].append(crate)
        self.pieces = set()
        for crate in crates:
            for other in self.inner[crate]:
                points = [other]
                for column in range(columns[other] + 1, columns[crate]):
                    way = (other, column)
                    if way not in self.order[column]:
                        self.order[column].append(way)
                    points.append(way)
                self.pieces.update(zip(points, points[1:] + [crate]))
        self.pieces = sorted(self.pieces, key=str)
        self.arrange()

    def high(self, node):
        return 4 if isinstance(node, tuple) else NAME + LINE * len(self.notes[node])

    def wide(self, node):
        if isinstance(node, tuple):
            return 0
        return max([len(short(node)) * LETTER] + [len(line) * SMALL for line in self.notes[node]]) + 16

    def near(self, node, side):
        return [piece[side] for piece in self.pieces if piece[1 - side] == node]

    def crossings(self):
        count = 0
        for column in self.order:
            place = {node: at for at, node in enumerate(column)}
            for left in self.order:
                at_left = {node: at for at, node in enumerate(left)}
                pairs = [(at_left[a], place[b]) for a, b in self.pieces if a in at_left and b in place]
                count += sum(1 for a, b in pairs for c, d in pairs if a < c and b > d)
        return count

    def arrange(self):
        """The order in each column by the middle of what its nodes are joined with, to and fro: of those that were
        tried the one with the fewest crossings. Then the heights, as near to that middle as the gaps allow."""
        best = self.crossings(), [list(column) for column in self.order]
        for turn in range(40):
            side = turn % 2
            for column in self.order if side == 0 else self.order[::-1]:
                places = {node: at for other in self.order for at, node in enumerate(other)}
                wanted = {}
                for node in column:
                    found = [places[other] for other in self.near(node, side)]
                    wanted[node] = sum(found) / len(found) if found else places[node]
                column.sort(key=lambda node: wanted[node])
            here = self.crossings()
            if here < best[0]:
                best = here, [list(column) for column in self.order]
        self.order = best[1]
        self.middle = {}
        for column in self.order:
            self.stack(column, {node: 0 for node in column})
        for turn in range(60):
            for column in self.order if turn % 2 == 0 else self.order[::-1]:
                wanted = {}
                for node in column:
                    found = [self.middle[other] for other in self.near(node, 0) + self.near(node, 1)]
                    wanted[node] = sum(found) / len(found) if found else self.middle[node]
                self.stack(column, wanted)
        top = min(self.middle[node] - self.high(node) / 2 for column in self.order for node in column)
        self.middle = {node: at - top for node, at in self.middle.items()}
        self.height = max(self.middle[node] + self.high(node) / 2 for column in self.order for node in column)
        self.widths = [max(map(self.wide, column)) for column in self.order]
        self.width = sum(self.widths) + SIDE * (len(self.widths) - 1)

    def stack(self, column, wanted):
        """Puts the nodes of the column as near to the wanted heights as the gaps between them allow."""
        blocks, before = [], 0
        for at, node in enumerate(column):
            if at:
                before += (self.high(column[at - 1]) + self.high(node)) / 2 + GAP
            blocks.append([wanted[node] - before, 1, [(node, before)]])
            while len(blocks) > 1 and blocks[-2][0] > blocks[-1][0]:
                mean, count, nodes = blocks.pop()
                first = blocks[-1]
                first[0] = (first[0] * first[1] + mean * count) / (first[1] + count)
                first[1] += count
                first[2] += nodes
        for mean, _, nodes in blocks:
            for node, behind in nodes:
                self.middle[node] = mean + behind

    def drawn(self, left, top):
        lines, lefts, at = [], {}, left
        for column, wide in zip(self.order, self.widths):
            for node in column:
                lefts[node] = at, at + (wide if isinstance(node, tuple) else self.wide(node)), at + wide
            at += wide + SIDE
        for one, other in self.pieces:
            x, to = lefts[one][1], lefts[other][0]
            turn = lefts[one][2]
            y, to_y = top + self.middle[one], top + self.middle[other]
            way = f" L {lefts[other][1]:.0f} {to_y:.1f}" if isinstance(other, tuple) else ""
            lines.append(f'<path d="M {x:.0f} {y:.1f} L {turn:.0f} {y:.1f} C {turn + SIDE / 2:.0f} {y:.1f} '
                         f'{to - SIDE / 2:.0f} {to_y:.1f} {to:.0f} {to_y:.1f}{way}" fill="none" stroke="{PALE}" '
                         f'stroke-width="1.2"/>')
        for column in self.order:
            for node in column:
                if isinstance(node, tuple):
                    continue
                x, y = lefts[node][0], top + self.middle[node] - self.high(node) / 2
                lines.append(box(x, y, self.wide(node), self.high(node)))
                lines.append(text(x + 8, y + 15, short(node), ' font-weight="bold"'))
                lines += [small(x + 8, y + 14 + LINE * (at + 1), line) for at, line in enumerate(self.notes[node])]
        return lines


def crates_picture():
    found, least = layers()
    drawn = {layer: Layer(crates, least) for layer, crates in found.items()}
    wide = max(one.width for one in drawn.values()) + 2 * ROUND
    lines = [text(ROUND, 22, "The crates, without the cc_ of their names, from the lowest layer on. "
                             "A line leads from a crate to one at its right that stands on it;"),
             text(ROUND, 38, "'on' names those of layers before. "
                             "One that another of these stands on already is left out.")]
    # layers that are narrow enough stand side by side
    together = []
    for layer in drawn:
        taken = sum(drawn[other].width + 2 * ROUND + GAP for other in together[-1]) if together else wide
        if taken + drawn[layer].width + 2 * ROUND > wide:
            together.append([])
        together[-1].append(layer)
    top = 52
    for beside in together:
        left, high = ROUND, max(drawn[layer].height for layer in beside) + 26 + 2 * ROUND - GAP
        for layer in beside:
            own = drawn[layer].width + 2 * ROUND if layer != beside[-1] else ROUND + wide - left
            lines.append(box(left, top, own, high, BAND, BAND))
            lines.append(text(left + ROUND, top + 20, layer, ' font-size="14" font-weight="bold"'))
            lines += drawn[layer].drawn(left + ROUND, top + 32)
            left += own + GAP
        top += high + GAP
    return svg(wide + 2 * ROUND, top + ROUND - GAP, lines)


# ---- the ways

STEP, BETWEEN, WIDTH, APART, TITLE = 50, 18, 216, 24, 44


def step(x, y, one):
    name, path, words = one
    return [box(x, y, WIDTH, STEP), text(x + 8, y + 15, name, ' font-weight="bold"'),
            small(x + 8, y + 29, path.split("/")[1]), small(x + 8, y + 42, words)]


def line(points, has_end=True):
    path = " L ".join(f"{x:.0f} {y:.0f}" for x, y in points)
    end = ' marker-end="url(#end)"' if has_end else ""
    return f'<path d="M {path}" fill="none" stroke="{PALE}" stroke-width="1.2"{end}/>'


def rows(way, lefts, top):
    """The steps in rows, at each of the lefts; with the height below them."""
    lines, many = [], len(lefts)
    for at, one in enumerate(way):
        x, y = lefts[at % many], top + at // many * (STEP + BETWEEN)
        if at % many:
            lines.append(line([(lefts[at % many - 1] + WIDTH, y + STEP / 2), (x, y + STEP / 2)]))
        elif at:
            middle, other = x + WIDTH / 2, lefts[-1] + WIDTH / 2
            turn = y - BETWEEN / 2
            round_about = [(other, turn), (middle, turn)] if many > 1 else []
            lines.append(line([(other, y - BETWEEN)] + round_about + [(middle, y)]))
        lines += step(x, y, one)
    return lines, top + (len(way) - 1) // many * (STEP + BETWEEN) + STEP


def branches(start, ends, bar):
    """From a start down to the bar, along it, and from there down to each end, each with its words beside."""
    lines = [line([start, (start[0], bar)], False)]
    for x, y, words in ends:
        lines.append(line([(start[0], bar), (x, bar), (x, y)]))
        lines.append(text(x + 10, y - 8, words, ' font-weight="bold"'))
    return lines


def ways_picture():
    lefts = [ROUND + at * (WIDTH + APART) for at in range(5)]
    middles = [left + WIDTH / 2 for left in lefts]
    lines = [text(ROUND, 22, "The ways of five commands through the functions: each box has a function, its crate, "
                             "and what it does there.")]
    drawn, low = rows(HEAD, lefts, 36)
    lines += drawn
    first = low + TITLE
    lines += branches((middles[4], low), [(middles[0], first, "put"),
                                          (middles[1], first, "check, run, explain and derive")], low + 14)
    drawn, end = rows(PUT, lefts[:1], first)
    lines += drawn
    drawn, low = rows(JUDGING, lefts[1:], first)
    lines += drawn
    second = low + TITLE
    lines += branches((middles[4], low), [(x, second, word) for x, word in zip(middles[1:], QUESTIONS)], low + 14)
    for left, way in zip(lefts[1:], QUESTIONS.values()):
        drawn, low = rows(way, [left], second)
        lines += drawn
        end = max(end, low)
    return svg(lefts[-1] + WIDTH + ROUND, end + ROUND, lines)


def failures_of_ways():
    """What the table names that is not there."""
    wrong = []
    for way in [HEAD + PUT] + [HEAD + JUDGING + way for way in QUESTIONS.values()]:
        calls = ""
        for at, (name, path, _) in enumerate(way):
            if not os.path.exists(os.path.join(TOP, path)):
                wrong.append(f"no file {path}")
                continue
            if not re.search(rf"\bfn {name}\b", read(path)):
                wrong.append(f"no function {name} in {path}")
            if at and not re.search(rf"(?<!fn )\b{name}\(", calls):
                wrong.append(f"{name} of {path} is called in no crate of a step before it")
            for file in sorted(glob.glob(os.path.join(TOP, os.path.dirname(path), "*.rt"))):
                calls += re.sub("//.*", "", read(os.path.relpath(file, TOP)))
    return sorted(set(wrong))


# ---- whether all can be read

def points_of(path):
    """Points along a path of moves, lines and curves."""
    found, here = [], None
    for kind, numbers in re.findall(r"([MLC])([-\d. ]+)", path):
        values = [float(one) for one in numbers.split()]
        to = list(zip(values[::2], values[1::2]))
        if kind != "M":
            knots = [here] + to if kind == "C" else [here, here, to[0], to[0]]
            for at in range(101):
                t = at / 100
                weights = (1 - t) ** 3, 3 * t * (1 - t) ** 2, 3 * t ** 2 * (1 - t), t ** 3
                found.append(tuple(sum(weight * knot[axis] for weight, knot in zip(weights, knots)) for axis in (0, 1)))
        here = to[-1]
    return found


def unreadable(picture):
    """Texts that stand over one another, or leave the picture, and lines that go through one."""
    wide = float(re.search(r'width="(\d+)"', picture)[1])
    texts = []
    for x, y, more, words in re.findall(r'<text x="(\d+)" y="(\d+)"([^>]*)>([^<]*)<', picture):
        size = int((re.findall(r'font-size="(\d+)"', more) or ["12"])[0])
        letter, high = SMALL if size == 10 else LETTER * size / 12, size - 1
        texts.append((float(x), float(y) - high, float(x) + letter * len(words), float(y) + 2, words))
    wrong = [f"'{one[4]}' leaves the picture" for one in texts if one[2] > wide]
    for at, one in enumerate(texts):
        for other in texts[:at]:
            if one[0] < other[2] and other[0] < one[2] and one[1] < other[3] and other[1] < one[3]:
                wrong.append(f"'{one[4]}' and '{other[4]}' stand over one another")
    for path in re.findall(r'<path d="([^"]*)" fill="none"', picture):
        for x, y in points_of(path):
            wrong += [f"a line goes through '{one[4]}'" for one in texts if one[0] < x < one[2] and one[1] < y < one[3]]
    return sorted(set(wrong))


def main():
    pictures = {"docs/crates.svg": crates_picture(), "docs/ways.svg": ways_picture()}
    wrong = failures_of_ways()
    wrong += [f"{path}: {one}" for path, picture in pictures.items() for one in unreadable(picture)]
    for one in wrong:
        print(one)
    for path, picture in pictures.items():
        if "--write" in sys.argv[1:]:
            with open(os.path.join(TOP, path), "w", encoding="utf-8") as file:
                file.write(picture)
        elif not os.path.exists(os.path.join(TOP, path)) or read(path) != picture:
            wrong.append(path)
            print(f"{path} is not what .ci/pictures.py draws: .ci/pictures.py --write")
    sys.exit(1 if wrong else 0)


main()
