"""A corpus of modules as programs have them: comments, imports of earlier modules, and definitions of many kinds whose
bodies call one another. The choices are made at random, but by a fixed seed."""
import random

from rows import put

HEAD = 'capc 1\ndevice out console\ndevice log console\ndevice keys file 2 7 1 8 2 8\ndevice hits counter\n'
NOUNS = ('amount batch branch bundle carrier catalog chart claim clerk contract copy courier credit customer deposit depot '
         'discount dispatch draft entry exchange fare fee freight goods grant item label lease limit load loan lot margin '
         'market note offer pallet parcel permit price quota quote rate rebate receipt refund rent return sale sample seal '
         'share shelf ship stall store sum tariff tax tender toll trade transit unit value voucher wage ware weight').split()
ACTS = ('admit assign book buy call carry clear close count deal divide draw enter fill fix give hold keep lend list mark '
        'meet name note order pack pass pay plan post rate reach sell send set settle sign split state store take tell test '
        'turn use weigh').split()
REMARKS = ['what is asked for twice is given once', 'the sum is kept by the one who asks', 'it tells each one it meets',
           'nothing is told before the first count', 'see the remarks on limits', 'an early end is no fault']


class Module:
    """A module in the making: its lines, and what can be named in it, by kind: pairs of a name and a device, or none."""

    def __init__(self, name, chosen):
        self.name, self.chosen, self.lines = name, chosen, ['// %s: %s.' % (name, chosen.choice(REMARKS)), '']
        self.known, self.taken, self.own = {}, {'out', 'log', 'keys', 'hits'}, []

    def some(self, kind):
        """One that is known of the kind, or none."""
        known = self.known.get(kind, [])
        return self.chosen.choice(known) if known else None

    def fresh(self):
        """A name that is not taken."""
        while True:
            name = self.chosen.choice(ACTS) + ''.join(
                noun.capitalize() for noun in self.chosen.sample(NOUNS, self.chosen.choice((1, 2, 2))))
            if name not in self.taken:
                self.taken.add(name)
                return name

    def brought(self, other):
        """Imports a few definitions of an earlier module."""
        for name, kind, device in self.chosen.sample(other.own, min(len(other.own), self.chosen.randint(1, 3))):
            if name not in self.taken:
                self.taken.add(name)
                self.lines.append('import %s.%s' % (other.name, name))
                self.known.setdefault(kind, []).append((name, device))

    def defined(self, name, kind, device, lines):
        """Adds a definition of the kind."""
        if self.chosen.random() < 0.35:
            self.lines.append('// %s: %s.' % (name, self.chosen.choice(REMARKS)))
        self.lines += lines
        if self.chosen.random() < 0.4:
            self.lines.append('')
        self.known.setdefault(kind, []).append((name, device))
        self.own.append((name, kind, device))


def telling(module, name):
    """A function that tells a number, by itself or by another."""
    told, number = module.some('teller'), module.chosen.randint
    if told and module.chosen.random() < 0.65:
        lines = ['def %s = fun (n: Int) =>' % name, '  val more = n * %d - %d;' % (number(2, 40), number(1, 60)),
                 '  %s(more)' % told[0]]
        return 'teller', told[1], lines
    device = module.chosen.choice(('out', 'log'))
    return 'teller', device, ['def %s: ((n: Int) -> Unit)^{%s} = fun (n: Int) =>' % (name, device),
                              '  val said = %s.say("%s");' % (device, ' '.join(module.chosen.sample(NOUNS, 3))),
                              '  %s.print(n)' % device]


def counting(module, name):
    """A function that counts up."""
    return 'counting', 'hits', ['def %s: ((u: Unit) -> Int)^{hits} = fun (u: Unit) =>' % name, '  val at = hits.tick();',
                                '  val double = at + at;', '  double - %d' % module.chosen.randint(1, 30)]


def reckoning(module, name):
    """A function of a number that captures nothing."""
    other, number = module.some('sum'), module.chosen.randint
    if other:
        return 'sum', '', ['def %s = fun (n: Int) => %s(n + %d) * %d - %s(n)' % (
            name, other[0], number(1, 9), number(2, 9), other[0])]
    return 'sum', '', ['def %s = fun (n: Int) => (n - %d) * (n + %d)' % (name, number(1, 9), number(1, 9))]


def descending(module, name):
    """A recursive function."""
    return 'sum', '', ['def rec %s: (n: Int) -> Int = fun (n: Int) =>' % name,
                       '  if [Int] n < %d then 1 else %s(n - 1) + n' % (module.chosen.randint(1, 5), name)]


def boxing(module, name):
    """A box of a function that tells."""
    told = module.some('teller')
    return told and ('box', told[1], ['def %s = box %s' % (name, told[0])])


def opening(module, name):
    """A function that takes one out of a box."""
    box, number = module.some('box'), module.chosen.randint
    return box and ('work', box[1], ['def %s = fun (u: Unit) =>' % name, '  val tell = unbox {%s} %s;' % (box[1], box[0]),
                                     '  val once = tell(%d);' % number(1, 50), '  tell(%d)' % number(1, 50)])


def searching(module, name):
    """A function that ends a repetition early."""
    told = module.some('teller')
    return told and ('teller', told[1], [
        'def %s = fun (most: Int) =>' % name, '  val at = boundary [Int] here =>',
        '    val try = fun (i: Int) => if [Unit] most < i + i then exit [Unit] (here, i) else unit;',
        '    val all = repeat(%d, try);' % module.chosen.randint(20, 60), '    0;', '  %s(at)' % told[0]])


def passing(module, name):
    """A function that hands two functions to a third, whose set is found."""
    told = module.some('teller')
    return told and ('work', told[1], [
        'def %s = fun (u: Unit) =>' % name, '  val both = fun (act: ((n: Int) -> Unit)^?) =>', '    val one = act(1);',
        '    act(2);', '  val keyed = fun (n: Int) =>', '    val key = keys.read();', '    %s(key - n);' % told[0],
        '  val done = both(keyed);', '  both(%s)' % told[0]])


def choosing(module, name):
    """A function of any type."""
    return 'any', '', ['def %s = fun [X <: Any] =>' % name, '  fun (x: X) => fun (y: X) => fun (b: Bool) =>',
                       '  if [X] b then x else y']


KINDS = [telling, telling, telling, counting, counting, reckoning, reckoning, reckoning, descending, boxing, boxing, opening,
         searching, passing, choosing]


def corpus(count, seed=1):
    """The name and the text's lines of so many modules."""
    chosen, modules = random.Random(seed), []
    for number in range(count):
        module = Module('%s_%d' % ('_'.join(chosen.sample(NOUNS, 2)), number), chosen)
        for other in chosen.sample(modules, min(len(modules), chosen.randint(1, 4))):
            module.brought(other)
        module.lines.append('')
        for _ in range(chosen.randint(8, 28)):
            name = module.fresh()
            module.defined(name, *(chosen.choice(KINDS)(module, name) or reckoning(module, name)))
        told = module.known.get('teller', [])[:5]
        module.lines += ['def main = fun (u: Unit) =>']
        module.lines += ['  val t%d = %s(%d);' % (at, name, at) for at, (name, _) in enumerate(told)] + ['  unit']
        modules.append(module)
    return [(module.name, module.lines) for module in modules]


def checked(count):
    """A job that checks so many modules, and the name of the last one in the reply."""
    modules = corpus(count)
    return HEAD + ''.join(put(name, lines) for name, lines in modules) + 'check\n', max(name for name, _ in modules)


def edited(count, edits):
    """The same with edits of one module or another, each with a check behind it: a line of a body, one more definition,
    or one more comment, and now and then a definition that is wrong and is taken back."""
    job, last = checked(count)
    chosen, texts = random.Random(5), dict(corpus(count))
    for edit in range(edits):
        name, form = chosen.choice(sorted(texts)), chosen.random()
        lines = list(texts[name])
        changed = [at for at, line in enumerate(lines) if line.startswith('  val more = n * ')]
        if form < 0.5 and changed:
            lines[chosen.choice(changed)] = '  val more = n * %d - %d;' % (edit + 2, edit)
        elif form < 0.7:
            lines.append('def added%d = fun (n: Int) => n + %d' % (edit, edit))
        elif form < 0.85:
            lines.append('// %d' % edit)
        else:
            job += put(name, lines + ['def wrong%d = fun (n: Int) => missing' % edit]) + 'check\n'
        texts[name] = lines
        job += put(name, lines) + 'check\n'
    return job, last


def run(count, runs):
    """The same with a run of `main` of the last modules, so many."""
    job, _ = checked(count)
    return job + ''.join('run %s.main 1000\n' % name for name, _ in corpus(count)[-runs:])
