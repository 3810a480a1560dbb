"""Asks capi why modules are refused, and holds what it tells to what it answers of other texts.

The modules are those of the jobs and conversations in tests/, of random jobs as checks/conversations.py makes them, and of
jobs in other folders, each beside those that were present then. It holds that
- code and place are those of a check, and what is accepted is told so;
- E03: the token at the place is the one that is found, and behind the text before it a token goes on exactly if its kind is
  wanted;
- E05 to E08: the import is the one at the place; why the module that is imported from is refused is what a check says of it;
  the circle is the first of the shortest, by the imports that the texts have;
- E09 to E11: the name is the one at the place, and stands where it is said to stand first;
- E14: the two types differ, and so do the parts;
- E15: no element is one of the allowed set, and each that is no device and not `cap` has its chain, which ends at one that is
  not allowed. Where the set is written at the place, each element is put to the proof: with it written into the set the
  refusal moves or goes, or the others alone are told; and with all of them it moves or goes.
And it measures `why` on texts of up to 65,536 bytes, each at its bar. It prints a line for what is wrong, and the counts. The
exit status is 1 where something is wrong, or too little was held. With --test what is told is bent in several ways, each of
which has to be found.

Usage: python3 checks/reasons.py PROGRAM_CAPI [--jobs COUNT] [--first FIRST] [--cases FOLDER ..] [--test] [--no-times]
"""
import argparse
import collections
import glob
import os
import random
import re
import subprocess
import sys
import time

import conversations

TOP = os.path.join(os.path.dirname(os.path.abspath(__file__)), '..')
WORDS = '''import def rec fun val if then else box unbox boundary exit repeat true false unit cap Unit Bool Int Str Any Console File
    Counter Exit Box'''.split()
SYMBOLS = '( ) [ ] { } , : ; . ^ ? = == => -> <: < + - *'.split()
KINDS = ['NAME', 'NUMBER', 'TEXT'] + WORDS + SYMBOLS
# a token of each kind: of names those of the operations, too, since behind a point no other goes on
SAMPLES = dict({kind: [kind] for kind in KINDS}, NAME=['x', 'print', 'read'], NUMBER=['1'], TEXT=['"a"'])
TOKEN = re.compile(r'\s+|//[^\n]*|("[^"\n]*"|(?:[^\W\d_]|[^\x00-\x7f])(?:\w|[^\x00-\x7f])*|[0-9]+|==|=>|->|<:|.)', re.S)
BINDER = re.compile(r'\bval\s+({0})|[(\[]\s*({0})\s*(?::|<:)|\]\s*({0})\s*=>'.format(r'(?:[^\W\d_]|[^\x00-\x7f])(?:\w|[^\x00-\x7f])*'))
# refusals that come before those of types
EARLY = ['E%02d' % number for number in range(1, 13)] + ['E19']


class Talk:
    """A conversation with capi. What it tells of a reason goes through `bend`."""

    def __init__(self, capi, devices, bend=None):
        self.run = subprocess.Popen([capi], stdin=subprocess.PIPE, stdout=subprocess.PIPE)
        self.bend = bend or (lambda lines: lines)
        self.run.stdin.write(b'capc 1\n' + b''.join(devices))

    def ask(self, command, text=b''):
        """The head of the answer, and the lines behind it."""
        self.run.stdin.write(command + b'\n' + text)
        self.run.stdin.flush()
        lines = []
        for line in iter(self.run.stdout.readline, b'\n'):
            if not line:
                raise SystemExit('capi ended behind %r with status %d' % (command, self.run.wait()))
            lines.append(line[:-1].decode())
        return lines[0], [line[2:] for line in lines[1:]]

    def put(self, name, text):
        return ' refused ' not in self.ask(b'put %s %d' % (name.encode(), text.count(b'\n')), text)[0]

    def check(self):
        return dict(line.split(' ', 1) for line in self.ask(b'check')[1])

    def why(self, name):
        """The code and the place, and the lines of the reason; none where the module is accepted."""
        head, lines = self.ask(b'why ' + name.encode())
        if head != 'why ' + name:
            raise SystemExit('%r is no answer to why %s' % (head, name))
        return self.bend(lines)

    def end(self):
        self.run.stdin.close()
        self.run.wait()


# ---- texts

def placed(text):
    """The tokens of a text, each with where it stands, by its offset and by line and column."""
    tokens, line, start = [], 1, 0
    for found in TOKEN.finditer(text):
        if found.group(1):
            tokens.append((found.group(1), found.start(), '%d:%d' % (line, found.start() - start + 1)))
        ends = found.group().count('\n')
        if ends:
            line, start = line + ends, found.start() + found.group().rindex('\n') + 1
    return tokens + [('', len(text), '%d:%d' % (line, len(text) - start + 1))]


class NoType(Exception):
    """What stands there is no type."""


def type_from(tokens, at):
    """Where a type ends that begins there, whether its shape is an arrow that stands free, and its set: none, or where it is
    written with its elements; `?` for one that is omitted."""
    def wanted(at, *symbols):
        for symbol in symbols:
            if tokens[at][0] != symbol:
                raise NoType
            at += 1
        return at

    word, is_arrow = tokens[at][0], False
    if word in ('Exit', 'Box'):
        end = wanted(type_from(tokens, wanted(at + 1, '['))[0], ']')
    elif word in ('(', '[') and tokens[at + 2][0] in (':', '<:'):
        inner = type_from(tokens, at + 3)[0]
        end, is_arrow = type_from(tokens, wanted(inner, ')' if word == '(' else ']', '->'))[0], True
    elif word == '(':
        end = wanted(type_from(tokens, at + 1)[0], ')')
    elif word in SYMBOLS or not word or word[0] in '"0123456789':
        raise NoType
    else:
        end = at + 1
    if tokens[end][0] != '^':
        return end, is_arrow, None
    if tokens[end + 1][0] == '?':
        return end + 2, is_arrow, '?'
    elements, end = [], wanted(end + 1, '{')
    while tokens[end][0] != '}':
        elements.append(tokens[end][0])
        end += 1
    return end + 1, is_arrow, (end, [one for one in elements if one != ','])


def written_at(tokens, place):
    """The type that is written for the right side at the place: where it begins and ends, whether it is a free arrow, and its
    set."""
    for at, (word, _, _) in enumerate(tokens[:-4]):
        if word in ('def', 'val'):
            name = at + 2 if tokens[at + 1][0] == 'rec' else at + 1
            if tokens[name + 1][0] == ':':
                try:
                    end, is_arrow, written = type_from(tokens, name + 2)
                except (NoType, IndexError):
                    continue
                if tokens[end][0] == '=' and tokens[end + 1][2] == place:
                    return name + 2, end, is_arrow, written
    return None


def with_elements(text, tokens, written, elements):
    """The text with these elements in the set of that type besides."""
    start, end, is_arrow, one = written
    words = ', '.join(elements)
    if one:
        at = tokens[one[0]][1]
        return text[:at] + (', ' if one[1] else '') + words + text[at:]
    first, last = tokens[start][1], tokens[end - 1][1] + len(tokens[end - 1][0])
    shape = text[first:last]
    return text[:first] + ('(%s)' % shape if is_arrow else shape) + '^{%s}' % words + text[last:]


def imports_of(text):
    """The imports at the front of a text: modules, as they stand."""
    tokens = [word for word, _, _ in placed(text)]
    ends = next((at for at in range(0, len(tokens), 4) if tokens[at] != 'import'), len(tokens))
    return tokens[1:ends:4]


# ---- what is held

class Held:
    """What was held, and what is wrong."""

    def __init__(self, capi, bend=None):
        self.capi, self.bend = capi, bend
        self.counts, self.wrong = collections.Counter(), []
        self.fronts = {}

    def fail(self, name, text, words):
        self.wrong.append('%s: %s\n%s' % (name, words, text[:2000]))
        if not self.bend:
            print('WRONG ' + self.wrong[-1], flush=True)

    def modules(self, devices, texts):
        """Holds what is told of modules that are present together."""
        talk = Talk(self.capi, devices, self.bend)
        present = {name: text for name, text in texts.items() if talk.put(name, text)}
        verdicts = talk.check()
        for name in present:
            lines = talk.why(name)
            self.counts['modules'] += 1
            said = present[name].decode('utf-8', 'replace')
            if verdicts[name] == 'ok':
                if lines:
                    self.fail(name, said, 'it is accepted, and %r is told' % lines)
                continue
            self.counts[verdicts[name][:3]] += 1
            if lines[:1] != [verdicts[name]]:
                self.fail(name, said, '%r is told, and a check says %r' % (lines[:1], verdicts[name]))
                continue
            words = self.reason(talk, name, said, present, verdicts, lines)
            if words:
                self.fail(name, said, '%s: %r' % (words, lines))
        talk.end()

    def reason(self, talk, name, text, present, verdicts, lines):
        """What is wrong with a reason."""
        code, place = lines[0].split(' ')
        told = dict(line.partition(' ')[::2] for line in lines[1:])
        at = {where: word for word, _, where in placed(text)}.get(place)
        if code == 'E03':
            found = at.lstrip('0') or '0' if at and at[0] in '0123456789' else at
            if told.get('found') != (found or 'end'):
                return 'another token stands there'
            return self.wanted(text, place, told.get('wanted', '').split(' '))
        if code in ('E05', 'E06', 'E07', 'E08'):
            source = told.get('import', '').split('.')[0]
            if source != at:
                return 'another import stands there'
            if code == 'E07' and told.get('refused') != verdicts[source]:
                return 'a check says %r of %s' % (verdicts[source], source)
            if code == 'E08' and told.get('circle', '').split(' ') != circle(name, source, present, verdicts):
                return 'the circle is %r' % circle(name, source, present, verdicts)
        if code in ('E09', 'E10', 'E11'):
            if told.get('name') != at:
                return 'another name stands there'
            first = {where: word for word, _, where in placed(text)}.get(told.get('first'))
            if code == 'E09' and told.get('first') != 'device' and first != at:
                return 'another name stands first'
        if code == 'E14' and (told.get('found') == told.get('wanted') or len(lines) not in (3, 5)):
            return 'there is no mismatch'
        if code == 'E15':
            return self.captured(talk, name, text, lines)
        if code in ('E12', 'E13', 'E16', 'E17', 'E18', 'E19') and len(lines) != (2 if code in ('E12', 'E16', 'E19') else 3):
            return 'there are other lines'
        return None

    def wanted(self, text, place, told):
        """What is wrong with the kinds that are wanted at the place, by texts that have a token of each kind there."""
        end = {where: offset for _, offset, where in placed(text)}[place]
        front = text[:end]
        if told != [kind for kind in KINDS if kind in told]:
            return 'the kinds stand in another order'
        if front not in self.fronts and len(self.fronts) < 400 and len(front) < 3000:
            talk = Talk(self.capi, [])
            there = placed(front + ' ')[-1][2]
            self.fronts[front] = []
            for kind in KINDS:
                for sample in SAMPLES[kind]:
                    talk.put('m', ('%s %s\n' % (front, sample)).encode())
                    if talk.check()['m'] != 'E03 ' + there:
                        self.fronts[front].append(kind)
                        break
            talk.end()
        if told != self.fronts.get(front, told):
            return 'behind it go on %r' % self.fronts[front]
        self.counts['fronts'] += 1
        return None

    def captured(self, talk, name, text, lines):
        """What is wrong with what is told of a set."""
        place = lines[0].split(' ')[1]
        if len(lines) < 3 or not lines[1].startswith('captured ') or not lines[2].startswith('allowed {'):
            return 'there are other lines'
        captured, allowed = lines[1].split(' ')[1:], [one for one in lines[2][len('allowed {'):-1].split(', ') if one]
        chains = dict(line.split(': ', 1) for line in lines[3:])
        if not captured or set(captured) & set(allowed):
            return 'an element is allowed'
        if [one for one in captured if one in chains] != list(chains) or 'cap' in chains:
            return 'the chains stand in another order'
        ends = [one for one in captured if one not in chains] + [chain.split(' ')[-1] for chain in chains.values()]
        devices = [device.split(b' ')[1].decode() for device in self.devices]
        if any(one in allowed or one not in devices + ['cap'] for one in ends):
            return 'a chain ends at what is no end, or allowed'
        self.counts['sets'] += 1
        tokens = placed(text)
        written = written_at(tokens, place)
        plain = [one.split('@')[0] for one in allowed]
        if not written or written[3] == '?' or sorted(set(written[3][1]) if written[3] else []) != sorted(plain):
            return None

        at = next(offset for _, offset, where in tokens if where == place)

        def answer(elements):
            """What is told with the elements in the set, as if the place of the right side were the same; none where the text is
            refused for another kind of reason."""
            other = with_elements(text, tokens, written, elements)
            talk.put(name, other.encode())
            told = talk.why(name)
            if told and told[0] == 'E15 ' + place_of(other, at + len(other) - len(text)):
                told = lines[:1] + told[1:]
            return told if not told or told[0][:3] not in EARLY else None

        try:
            # With `cap` in it nothing is beyond this set: where the same is told then, it is told of another one. What flows
            # through it may be more then, so that something before it is refused.
            free = answer(['cap'])
            if free in (None, lines) or free and by_place(free) < by_place(lines):
                return None
            binders = collections.Counter(one for found in BINDER.findall(text) for one in found if one)
            plain = {one: one.split('@')[0] for one in captured}
            can = [one for one in captured if plain[one] not in ('', '_', 'cap') and binders[plain[one]] == ('@' in one)]
            for one in can:
                after = answer([plain[one]])
                if after is None:
                    continue
                self.counts['elements'] += 1
                # the same set, with this element
                if after and after[0] == lines[0] and told_set(after) == told_set(lines) | {one}:
                    rest = after[1].split(' ')[1:]
                    if one in rest or not set(rest) <= set(captured):
                        return 'with %s in the set %r is told' % (one, after)
                elif after == lines:
                    return 'with %s in the set nothing changes' % one
            for one in captured if len(captured) > 1 else []:
                others = [plain[other] for other in captured if other != one]
                if not set(captured) - {one} <= set(can):
                    continue
                # with all but this one this one alone is told, if it is; a device or `cap` is
                after = answer(others)
                stays = after and after[0] == lines[0] and told_set(after) == told_set(lines) | set(captured) - {one}
                if after is not None and (after[1:2] != ['captured ' + one] if stays else one in ends and one not in chains):
                    if stays or not after or by_place(after) >= by_place(lines):
                        return 'with all but %s in the set %r is told' % (one, after)
                self.counts['others'] += 1
            if can == captured:
                after = answer([plain[one] for one in can])
                if after and after[0] == lines[0] and told_set(after) == told_set(lines) | set(captured):
                    return 'with all in the set %r is told' % after
                self.counts['whole sets'] += after is not None
        finally:
            talk.put(name, text.encode())
        return None

    def jobs(self, found):
        for devices, states in found:
            self.devices = devices
            for texts in states:
                self.modules(devices, texts)


def place_of(text, offset):
    return '%d:%d' % (text.count('\n', 0, offset) + 1, offset - text.rfind('\n', 0, offset))


def by_place(lines):
    return [int(one) for one in lines[0].split(' ')[1].split(':')]


def told_set(lines):
    return set(lines[2][len('allowed {'):-1].split(', ')) - {''}


def circle(name, source, present, verdicts):
    """The first of the shortest circles from the module through one that it imports from, by breadth."""
    ways, seen = collections.deque([[source]]), {source}
    while ways:
        way = ways.popleft()
        if way[-1] == name:
            return [name] + way
        if way[-1] in present and verdicts[way[-1]][:3] not in ('E01', 'E02', 'E03', 'E04'):
            for one in imports_of(present[way[-1]].decode()):
                if one not in seen:
                    seen.add(one)
                    ways.append(way + [one])
    return None


# ---- jobs

def states_of(commands):
    """The texts that are present at each check behind a change, and at the end."""
    texts, is_new = {}, False
    for command in commands + [b'check\n']:
        words = command.lstrip(b'\n').partition(b'\n')[0].split(b' ')
        if words[0] == b'put' and len(words) == 3:
            text = command.lstrip(b'\n').partition(b'\n')[2]
            if len(text) <= 65536:
                texts[words[1].decode()], is_new = text, True
        elif words[0] == b'drop':
            is_new = texts.pop(words[1].decode(), None) is not None or is_new
        elif words[0] == b'check' and is_new:
            yield dict(texts)
            is_new = False


def tests_of():
    """The devices and the states of the tests."""
    for path in sorted(glob.glob(os.path.join(TOP, 'tests/*/*.job')) + glob.glob(os.path.join(TOP, 'tests/*/*.talk'))):
        name = os.path.splitext(path)[0]
        if os.path.exists(name + '.args') or not os.path.exists(name + '.out') or os.path.getsize(path) > 200000:
            continue
        with open(name + '.out', 'rb') as file:
            if not file.read().endswith((b'status 0\n', b'status 1\n')):
                continue
        with open(path, 'rb') as file:
            devices, commands = conversations.pieces_of(file.read())
        yield devices, states_of(commands)


def cases_of(folders):
    """The same of the jobs of folders, each beside a file `meta` with the status, that are carried out."""
    for folder in folders:
        for path in sorted(glob.glob(os.path.join(folder, '*', 'job'))):
            with open(os.path.join(os.path.dirname(path), 'meta')) as file:
                meta = file.read().splitlines()
            if not {'status 0', 'status 1'} & set(meta) or any(line.startswith('words ') for line in meta):
                continue
            with open(path, 'rb') as file:
                devices, commands = conversations.pieces_of(file.read())
            yield devices, states_of(commands)


def random_jobs(first, count):
    found = conversations.sources()
    for number in range(first, first + count):
        start, commands = conversations.job_of(random.Random(number), found)
        devices = [line + b'\n' for line in start.split(b'\n')[1:-1]]
        yield devices, states_of(commands)


# ---- times

LIMIT = 65536


def filled(lines, last, each):
    """Lines up to the limit, each made of its number, with the last lines behind them."""
    size, number = sum(map(len, lines)) + len(lines) + len(last) + 1, 0
    lines = list(lines)
    while size + len(each(number)) + 1 <= LIMIT:
        lines.append(each(number))
        size += len(lines[-1]) + 1
        number += 1
    return '\n'.join(lines + [last]) + '\n', number


def tower(levels, last='Int'):
    """A shape that doubles so many times, with this one as its last part."""
    if levels == 0:
        return last
    return '(a: %s) -> %s' % (tower(levels - 1), tower(levels - 1, last))


def chained(count, first, letter, start='out.print(1)'):
    """Definitions, each of which calls the one before it."""
    lines = ['def %s0=fun(u:Unit)=>%s' % (letter, start)]
    lines += ['def %s%d=fun(u:Unit)=>%s%d(u)' % (letter, at, letter, at - 1) for at in range(1, count)]
    return first + lines


def summed(parts):
    """A sum of the parts that is no higher than it must be."""
    half = len(parts) // 2
    return parts[0] if len(parts) == 1 else '(%s+%s)' % (summed(parts[:half]), summed(parts[half:]))


def texts_to_measure():
    """Names with the modules, of which the last one is asked for, the code, and the bar in seconds."""
    yield 'a byte at the end', [('m', ('// ' + 65000 * 'a').encode() + b'\xff\n')], 'E01', 0.2
    yield 'a broken token behind 65,000 bytes', [('m', filled([], 'def z=@', lambda n: 'def a%d=1' % n)[0])], 'E02', 0.2
    yield 'a syntax error behind 65,000 bytes', [('m', filled([], 'def z=1 z', lambda n: 'def a%d=1' % n)[0])], 'E03', 0.2
    yield 'parentheses that are too many', [('m', 'def a=%s\n' % (65000 * '('))], 'E04', 0.2
    yield 'the last of 4,000 imports', [('a', 'def x=1\n'), ('m', filled([], 'import nobody.x', lambda n: 'import a.x')[0])], 'E05', 0.2
    circles = [('m%d' % n, ''.join('import m%d.x\n' % other for other in [*range(n), n + 1])) for n in range(255)]
    yield 'a circle of 256 modules', circles + [('m255', 'import m0.x\n')], 'E08', 0.2
    yield 'a name twice among 5,000', [('m', filled(['def z=1'], 'def z=2', lambda n: 'def a%d=1' % n)[0])], 'E09', 0.2
    yield 'an unknown name behind 5,000', [('m', filled([], 'def z=fun(u:Unit)=>y', lambda n: 'def a%d=1' % n)[0])], 'E10', 0.2
    yield 'no value behind 5,000', [('m', filled([], 'def z=1+1', lambda n: 'def a%d=1' % n)[0])], 'E12', 0.2
    yield 'a head behind 2,000 closures', [('m', filled(['def a0=fun(u:Unit)=>u'], 'def z=fun(u:Unit)=>u(u)',
                                                        lambda n: 'def a%d=fun(u:Unit)=>a%d(u)' % (n + 1, n))[0])], 'E13', 0.2
    text = 'def f=fun(x: %s)=>val y: %s = x; 1\n' % (tower(11), tower(11, 'Str'))
    yield 'shapes of a size of 4,095 whose last parts differ', [('m', text)], 'E14', 0.2
    count = filled(['def a0=fun(u:Unit)=>out.print(1)'], 'def z:(u:Unit)->Unit=fun(u:Unit)=>a1234(u)',
                   lambda n: 'def a%d=fun(u:Unit)=>a%d(u)' % (n + 1, n))[1]
    text = '\n'.join(chained(count, [], 'a') + ['def z:(u:Unit)->Unit=fun(u:Unit)=>a%d(u)' % (count - 1)]) + '\n'
    yield 'a set behind %d closures in a chain' % count, [('m', text)], 'E15', 0.2
    parts = [('m0', '\n'.join(chained(1900, [], 'a')) + '\n'),
             ('m1', '\n'.join(chained(1900, ['import m0.a1899'], 'b', 'a1899(u)')) + '\n'),
             ('m2', '\n'.join(chained(1200, ['import m1.b1899'], 'c', 'b1899(u)') + ['def z:(u:Unit)->Unit=fun(u:Unit)=>c1199(u)']) + '\n')]
    yield 'a set behind 5,000 closures in a chain over three modules', parts, 'E15', 0.3
    calls = lambda n: 'val x=%s;' % ('(%s)' % '+'.join('a%d(u)' % at for at in range(30 * n, 30 * n + 30)))
    many = ['def a%d=fun(u:Unit)=>hits.tick()' % n for n in range(1200)]
    text = '\n'.join(many + ['def z:(u:Unit)->Int=fun(u:Unit)=>%s1' % ''.join(map(calls, range(40)))]) + '\n'
    yield 'a set of 1,200 definitions', [('m', text)], 'E15', 0.2
    locals_ = ''.join('val v%d=fun(u:Unit)=>%s;' % (n, 'v%d(u)' % (n - 1) if n else 'out.print(1)') for n in range(90))
    yield 'a chain of 90 locals', [('m', 'def f=fun(u:Unit)=>%sval w:(u:Unit)->Unit=fun(u:Unit)=>v89(u);1\n' % locals_)], 'E15', 0.2
    dense = ''.join('val v%d=fun(u:Unit)=>%s;' % (n, summed(['v%d(u)' % at for at in range(max(0, n - 60), n)] or ['hits.tick()']))
                    for n in range(80))
    yield '80 locals, each with 60 before it', [('m', 'def f=fun(u:Unit)=>%sval w:(u:Unit)->Int=fun(u:Unit)=>v79(u);1\n' % dense)], 'E15', 0.2
    yield 'a box with cap behind 2,000 closures', [('m', filled(['def a0=fun(u:Unit)=>u'], 'def z=fun(b:Box[Int^{cap}])=>unbox b',
                                                                lambda n: 'def a%d=fun(u:Unit)=>a%d(u)' % (n + 1, n))[0])], 'E16', 0.2
    many = ['def a%d=1' % n for n in range(3000)]
    text = '\n'.join(many + ['def z=fun[X<:Box[Int^{a0}]]=>fun(b:Box[Int^{%s}])=>1' % ','.join('a%d' % n for n in range(3000))]) + '\n'
    yield 'a signature with 3,000 names', [('m', text)], 'E17', 0.2
    yield 'a type that is too large', [('m', 'def f=fun(x: %s)=>unit\n' % tower(11))], 'E18', 0.2


def measured(capi):
    """What takes too long, or is answered otherwise; a line for each."""
    wrong = []
    for name, modules, code, bar in texts_to_measure():
        talk = Talk(capi, [b'device out console\n', b'device hits counter\n'])
        size = 0
        for module, text in modules:
            text = text if isinstance(text, bytes) else text.encode()
            size = max(size, len(text))
            if len(text) > LIMIT or not talk.put(module, text):
                wrong.append('%s: the text of %d bytes is not put' % (name, len(text)))
        verdict = talk.check()[modules[-1][0]]
        best = 10
        for _ in range(5):
            begun = time.monotonic()
            lines = talk.why(modules[-1][0])
            best = min(best, time.monotonic() - begun)
        talk.end()
        print('%-60s %6d bytes %7.1f ms, %d lines' % (name, size, best * 1000, len(lines)))
        if lines[:1] != [verdict] or verdict[:3] != code:
            wrong.append('%s: %r is told, and %s of a check, and not %s' % (name, lines[:1], verdict, code))
        if best > bar:
            wrong.append('%s: %.0f ms, and the bar is %.0f ms' % (name, best * 1000, bar * 1000))
    return wrong


# ---- bent answers

def bends():
    """Ways to bend what is told, each by a name."""
    def of(code, change):
        return lambda lines: change(list(lines)) if lines and lines[0].startswith(code) else lines

    def captured(change):
        return of('E15', lambda lines: lines[:1] + [' '.join(change(lines[1].split(' ')))] + lines[2:])

    yield 'another place', of('E', lambda lines: [lines[0] + '0'] + lines[1:])
    yield 'another code', of('E15', lambda lines: ['E14' + lines[0][3:]] + lines[1:])
    yield 'another device', captured(lambda words: [words[0]] + ['hits' if one == 'out' else 'out' if one in ('keys', 'hits') else one for one in words[1:]])
    yield 'a device more', of('E15', lambda lines: lines if 'hits' in lines[1] + lines[2] else [lines[0], lines[1] + ' hits'] + lines[2:])
    yield 'an element that is allowed', of('E15', lambda lines: [lines[0], lines[1] + ' out'] + lines[2:] if 'out' in lines[2] else lines)
    yield 'no chain', of('E15', lambda lines: lines[:3])
    yield 'a chain to a device that is allowed', of('E15', lambda lines: lines[:3] + [re.sub(r'\w+$', 'out', one) for one in lines[3:]]
                                                    if '{out}' in lines[2] else lines)
    yield 'a kind of token more', of('E03', lambda lines: lines[:2] + [lines[2] + ' *'] if not lines[2].endswith('*') else lines)
    yield 'a kind of token less', of('E03', lambda lines: lines[:2] + [lines[2].rpartition(' ')[0]])
    yield 'another token', of('E03', lambda lines: [lines[0], 'found val'] + lines[2:])
    yield 'another circle', of('E08', lambda lines: lines[:2] + [lines[2] + ' ' + lines[2].split(' ')[1]])
    yield 'another refusal of a module', of('E07', lambda lines: lines[:2] + [lines[2] + '0'])
    yield 'another import', of('E0', lambda lines: [lines[0]] + [re.sub(r'^import ', 'import x', one) for one in lines[1:]])
    yield 'another name', of('E1', lambda lines: [lines[0]] + [re.sub(r'^name ', 'name x', one) for one in lines[1:]])
    yield 'one type twice', of('E14', lambda lines: [lines[0], lines[1], lines[1].replace('found', 'wanted')] + lines[3:])
    yield 'no reason', of('E', lambda lines: lines[:1])
    yield 'a reason of what is accepted', lambda lines: lines or ['E15 1:1', 'captured out', 'allowed {}']


def main():
    parser = argparse.ArgumentParser(usage=__doc__.split('Usage: ')[1])
    parser.add_argument('capi')
    parser.add_argument('--jobs', type=int, default=300)
    parser.add_argument('--first', type=int, default=1)
    parser.add_argument('--cases', nargs='*', default=[])
    parser.add_argument('--test', action='store_true')
    parser.add_argument('--no-times', action='store_true')
    options = parser.parse_args()
    held = Held(options.capi)
    held.jobs(tests_of())
    held.jobs(random_jobs(options.first, options.jobs))
    held.jobs(cases_of(options.cases))
    wrong = held.wrong
    counts = held.counts
    print(', '.join('%d %s' % (counts[one], one) for one in ('modules', 'fronts', 'sets', 'elements', 'others', 'whole sets')))
    print('refused: ' + ', '.join('%s %d' % one for one in sorted(counts.items()) if re.match('E[0-9]', one[0])))
    more = []
    if min(counts[one] for one in ('fronts', 'sets', 'elements', 'whole sets')) < 20 or counts['others'] < 5:
        more.append('too little was held')
    if options.test:
        for name, bend in bends():
            bent = Held(options.capi, bend)
            bent.jobs(tests_of())
            if not bent.wrong:
                more.append('what is bent is not found: ' + name)
    if not options.no_times:
        more += measured(options.capi)
    for words in more:
        print('WRONG ' + words)
    print('%d wrong' % len(wrong + more))
    sys.exit(1 if wrong + more else 0)


if __name__ == '__main__':
    main()
