"""Rows of modules, each of which imports the one before it, as lines of jobs."""


def put(name, lines):
    """The lines that put these lines as the text of the module."""
    return 'put %s %d\n' % (name, len(lines)) + ''.join(line + '\n' for line in lines)


def link(number, argument='x + 1'):
    """A module whose definition calls the one of the module before it."""
    if number == 0:
        return put('m000', ['def f0 = fun (x: Int) => x'])
    before = number - 1
    return put('m%03d' % number, ['import m%03d.f%d' % (before, before),
                                  'def f%d = fun (x: Int) => f%d(%s)' % (number, before, argument)])


def row(count):
    """So many modules."""
    return ''.join(link(number) for number in range(count))


def part(name, before, added):
    """A part of a module: lines, counts, a search, what is boxed and chosen. It calls the line of the part before it."""
    shown = 'out.print(n + %d)' % added if before is None else 'line%s(n + %d)' % (before, added)
    return [line.replace('@', name) for line in (
        '// Part @: lines, counts, a search, and what is chosen of these.',
        'def line@: ((n: Int) -> Unit)^{out} = fun (n: Int) => ' + shown,
        'def title@: ((s: Str) -> Unit)^{out} = fun (s: Str) => out.say(s)',
        'def count@: ((u: Unit) -> Int)^{hits} = fun (u: Unit) =>',
        '  val now = hits.tick();',
        '  val twice = now * 2 + 1;',
        '  twice - 1',
        'def same@ = fun [X <: Any] => fun (x: X) => x',
        'def both@ = fun (f: ((n: Int) -> Unit)^{cap}) => fun (n: Int) => val first = f(n); f(n + 1)',
        'def search@ = fun (last: Int) =>',
        '  boundary [Int] found =>',
        '    val test = fun (n: Int) => if [Unit] n == last then exit [Unit] (found, n) else unit;',
        '    val all = repeat(50, test);',
        '    0',
        'def kept@ = box line@',
        'def opened@ = fun (u: Unit) => val show = unbox {out} kept@; show(count@(unit))',
        'def chosen@: ((b: Bool) -> ((n: Int) -> Unit)^{out, hits})^{out, hits} = fun (b: Bool) =>',
        '  val loud = fun (n: Int) => val said = title@("loud"); line@(n);',
        '  val quiet = fun (n: Int) => val now = count@(unit); unit;',
        '  if [((n: Int) -> Unit)^{loud, quiet}] b then loud else quiet',
        'def every@ = fun (u: Unit) =>',
        '  val over = fun (g: ((n: Int) -> Unit)^?) => val one = g(1); val two = g(2); g(3);',
        '  val read = fun (n: Int) => val key = keys.read(); line@(key + n);',
        '  val reading = over(read);',
        '  over(line@)',
        'def rec down@: (n: Int) -> Int = fun (n: Int) => if [Int] n < 1 then 0 else down@(n - 1) + 1',
        'def main@ = fun (u: Unit) =>',
        '  val shown = title@("start");',
        '  val again = same@[Box[((n: Int) -> Unit)^{out}]];',
        '  val line = unbox {out} again(kept@);',
        '  val found = line(search@(10));',
        '  both@(line@)(down@(4))',
    )]


def ordinary(modules, parts):
    """The lines that put so many modules of so many parts, each with a few imports of those before it."""
    texts = []
    for number in range(modules):
        sources = sorted({max(0, number - step) for step in (1, 2, 7)} - {number})
        lines = ['import m%03d.line%dx0' % (source, source) for source in sources]
        before = '%dx0' % sources[0] if sources else None
        for at in range(parts):
            lines += part('%dx%d' % (number, at), before, at)
            before = '%dx%d' % (number, at)
        texts.append(put('m%03d' % number, lines))
    return ''.join(texts)
