"""Measures jobs that run, link, derive, audit and guard, each at its full size and at half of it.

Usage: replies.py PROGRAM RUNS [OTHER]
"""
import sys

import measuring

program, runs, other = sys.argv[1], int(sys.argv[2]), sys.argv[3] if len(sys.argv) > 3 else ''
failed = False


def measured(job, last):
    """The shortest time of the runs in milliseconds, and the memory in MB; the last line of the output ends so."""
    global failed
    best, most, _, line = measuring.measured(program, job, runs)
    if not line.endswith(last):
        print('another answer:', line[:100])
        failed = True
    return best, most


def shown(name, half, full, bar, base=(0, 0)):
    """One row: the half, the full size, and whether that is within the bar, without what the bases take."""
    global failed
    less, more = half[0] - base[0], full[0] - base[1]
    print('%-52s %7.0f %7.0f ms  %5.1f  %6.0f MB' % (name, less, more, more / max(less, 1), full[1]))
    if more > bar:
        print('  more than %d ms' % bar)
        failed = True


def repeating(count, body, fuel=1000000):
    return ('capc 1\ndevice out console\ndevice hits counter\nput m 1\n'
            'def main = fun (u: Unit) => val f = fun (i: Int) => %s; repeat(%d, f)\n' % (body, count),
            'run m.main %d\n' % fuel)


def run_of(count, body, steps):
    return measured(''.join(repeating(count, body)), 'after %d steps' % steps)


# Each closure is over the one before it.
closures = ('def rec nest: (f: (x: Int) -> Int) -> Int = fun (f: (x: Int) -> Int) => val g = fun (x: Int) => f(x); nest(g)\n'
            'def main = fun (u: Unit) => val f = fun (x: Int) => x; nest(f)\n')
# Each boundary stands in the one before it.
boundaries = ('def rec nest: (n: Int) -> Int = fun (n: Int) => boundary [Int] a => nest(n + 1)\n'
              'def main = fun (u: Unit) => nest(0)\n')


def nested(text, fuel):
    return measured('capc 1\nput m 2\n%srun m.main %d\n' % (text, fuel), 'out of fuel after %d steps' % fuel)


def tasks_of(count, fuel):
    text, _ = repeating(count, 'val n = hits.tick(); unit')
    numbers = ','.join(str(i) for i in range(8))
    return measured('%stasks %d %s%s\n' % (text, fuel, numbers, ' m.main' * 8), 'steps')


def chain(count):
    """So many modules, each with a function that calls that of the one before it."""
    job = 'capc 1\nput m0 1\ndef f0 = fun (x: Int) => x\n'
    for k in range(1, count):
        job += 'put m%d 2\nimport m%d.f%d\ndef f%d = fun (x: Int) => f%d(x)\n' % (k, k - 1, k - 1, k, k - 1)
    return job


def many_runs(count):
    last = 'put a 2\nimport m38.f38\ndef main = fun (u: Unit) => val f = fun (i: Int) => val x = f38(i); unit; repeat(1000, f)\n'
    return measured(chain(39) + last + 'run a.main 1000\n' * count, 'out of fuel after 1000 steps')


def wide(count):
    """So many modules of 200 definitions, 50 of which call those of the module before."""
    job = 'capc 1\n'
    for k in range(count):
        lines = ['import m%d.f%d_%d' % (k - 1, k - 1, d) for d in range(50) if k]
        for d in range(200):
            right = 'x' if k == 0 or d >= 50 else 'f%d_%d(x)' % (k - 1, d)
            lines.append('def f%d_%d = fun (x: Int) => %s' % (k, d, right))
        if k == count - 1:
            lines += ['def %s = fun (u: Unit) => f%d_0(1)' % (name, k) for name in ('main', 'twin')]
        job += 'put m%d %d\n%s\n' % (k, len(lines), '\n'.join(lines))
    return job + 'check\n'


def behind_row(count, definitions):
    """So many modules in a row, each with so many definitions that call its first one, and one module before them all."""
    job = 'capc 1\ndevice out console\n'
    for k in range(count):
        lines = ['import m%d.z%d' % (k - 1, k - 1)] if k else []
        lines.append('def z%d = fun (x: Int) => %s' % (k, 'z%d(x)' % (k - 1) if k else 'x + 1'))
        lines += ['def a%d = fun (x: Int) => z%d(x) * %d + x' % (i, k, i) for i in range(definitions)]
        job += 'put m%d %d\n%s\n' % (k, len(lines), '\n'.join(lines))
    return job + 'put app 2\nimport m%d.z%d\ndef main = fun (u: Unit) => z%d(1)\n' % (count - 1, count - 1, count - 1)


# A million steps of many kinds: sums, choices, calls, boxes, type functions and functions that are made.
MIXED = ('''def same = fun [X <: Any] => fun (x: X) => x
def near = fun (n: Int) => if [Int] n < 700 then n * 3 - 2 else n - 11
def rec walk: (n: Int) -> Int = fun (n: Int) =>
  val one = near(n);
  val kept = box near;
  val again = unbox kept;
  val two = again(one);
  val more = fun (k: Int) => k + one;
  val all = same[Int];
  val three = all(more(two));
  if [Int] one < three then walk(n + 1) else walk(n - 2)
def main = fun (u: Unit) => walk(1)
''')
CALLS = '''def rec walk: (n: Int) -> Int = fun (n: Int) => walk(n)
def main = fun (u: Unit) => walk(1)
'''


def million(text):
    """A run of a million steps of the text's `main`."""
    return 'capc 1\nput m %d\n%srun m.main 1000000\n' % (text.count('\n'), text), 'out of fuel after 1000000 steps'


def interleaved():
    """Eight tasks that print, for a million steps in all."""
    text, _ = repeating(60000, 'out.print(i)')
    return '%stasks 1000000 0,1,2,3,4,5,6,7%s\n' % (text, ' m.main' * 8), 'steps'


# Commands that ask for a definition of a module, with what the last line of the reply ends with.
EIGHT = 'tasks 1000 0,1,2,3,4,5,6,7%s\n' % (' app.main' * 8)
COMMANDS = [('run app.main 10\n', 'steps'), ('audit app.main\n', 'audit app.main'),
            ('policy 1\nallow * *\nguard app.main 10\n', 'steps'), ('explain app.main\n', 'explain app.main'),
            ('replay app.main 10 0\n', 'differs at line 1'), ('tasks 10 0,1 app.main app.main\n', 'steps'),
            ('derive app.main\n', ': (_0: Unit) -> Int'), ('sig app\n', 'main: (_0: Unit) -> Int')]


def filled(line, size=4194304):
    """A job of so many bytes that is full of one command."""
    return 'capc 1\n' + line * ((size - 7) // len(line))


def derived(levels):
    """The derivation of a sum of two to the power of so many numbers."""
    text = 'x'
    for _ in range(levels):
        text = '(%s+%s)' % (text, text)
    return measured('capc 1\nput m 1\ndef main = fun (x: Int) => %s\nderive m.main\n' % text, ': (_0: Int) -> Int')


def refused(count):
    """A derivation by a chain of so many type parameters, of whose nodes there are more than twice as many with each."""
    text = 'def f=fun(c:Console^{cap})=>fun[X0<:(z:Int)->Int]=>fun[Y0<:Int]=>'
    for k in range(1, count + 1):
        text += 'fun[X%d<:(p:(a:X%d)->(b:X%d)->Int)->Int]=>' % (k, k - 1, k - 1)
        text += 'fun[Y%d<:(a:(z:Y%d)->Int)->(b:(z:Y%d)->Int)->Int]=>' % (k, k - 1, k - 1)
    text += 'fun(x:X%d)=>val r:(z:Y%d)->Int=x;unit' % (count, count)
    return measured('capc 1\nput m 1\n%s\nderive m.f\n' % text, 'refused E36')


hosted = ('capc 1\n%sput m 1\ndef main = fun (u: Unit) => %s\npolicy 256\n%sallow * *\n'
          % (''.join('device d%d counter\n' % k for k in range(16)),
             ''.join('val n%d = d%d.tick(); ' % (k, k) for k in range(16)) + 'unit', 'deny m2 d20\n' * 255))


def policies(count):
    """So many policies of 256 rules, of which the last one matches, each with an audit and a guard by it."""
    rules = 'policy 256\n' + 'deny m d20\n' * 255 + 'allow * *\n'
    return measured(hosted + (rules + 'audit m.main\nguard m.main 99\n') * count, 'done unit after 49 steps')


def audits(count):
    """So many audits of 16 devices by 256 rules, of which the last one matches."""
    return measured(hosted + 'audit m.main\n' * count, 'd15 allow 256')


def sums(text, count):
    """A sum of so many of these, as shallow as may be."""
    return text if count == 1 else '(%s+%s)' % (sums(text, count // 2), sums(text, count - count // 2))


def saying(text):
    """A run of a million steps, a third of which say this text."""
    return ''.join(repeating(332000, 'out.say("%s")' % text)), 'steps'


def long_device(tasks):
    """A run of a million steps that operate a device with a name of 4,000 letters, or so many tasks of them."""
    name = 'd' * 4000
    job = ('capc 1\ndevice %s console\nput m 1\ndef main = fun (u: Unit) => val f = fun (i: Int) => %s.print(i); repeat(33200, f)\n'
           % (name, name))
    if tasks:
        return job + 'tasks 100000 %s%s\n' % (','.join(str(i) for i in range(tasks)), ' m.main' * tasks), 'steps'
    return job + 'run m.main 100000\n', 'after 99604 steps'


def long_derivation(count):
    """The derivation of so many calls, at each of which a device with a name of 10,000 letters is in a type."""
    name = 'd' * 10000
    lines = ['def p = fun (n: Int) => %s.print(n)' % name, 'def k = fun (f: ((n: Int) -> Unit)^{%s}) => 1' % name,
             'def f = fun (u: Unit) => ' + sums('k(p)', count)]
    return 'capc 1\ndevice %s console\nput m 3\n%s\nderive m.f\n' % (name, '\n'.join(lines)), '((_0: Unit) -> Int)^{%s}' % name


def long_signatures(count, deep, letters):
    """The signatures of so many functions, each with so many sets, in each of which is a device with so long a name."""
    name = 'd' * letters
    lines = ['def p = fun (n: Int) => %s.print(n)' % name, 'def q = ' + 'fun (u: Unit) => ' * deep + 'p']
    lines += ['def a%d = fun (u: Unit) => q' % i for i in range(count)]
    return 'capc 1\ndevice %s console\nput m %d\n%s\nsig m\n' % (name, len(lines), '\n'.join(lines)), '^{%s}' % name


def deep_signatures(count, letters):
    """The signatures of so many functions, each of which gives the one before it by 90 more, with such a name in each set."""
    name = 'd' * letters
    lines = ['def q0 = fun (n: Int) => %s.print(n)' % name]
    lines += ['def q%d = %sq%d' % (i + 1, 'fun(u:Unit)=>' * 90, i) for i in range(count)]
    return 'capc 1\ndevice %s console\nput m %d\n%s\nsig m\n' % (name, len(lines), '\n'.join(lines)), '^{%s}' % name


def long_chain(count):
    """Why a device is in a signature, by way of so many definitions of a module with a name of 200,000 letters."""
    lines = ['def f0 = fun (x: Int) => out.print(x)'] + ['def f%d = fun (x: Int) => f%d(x)' % (i + 1, i) for i in range(count)]
    name = 'm' * 200000
    return 'capc 1\ndevice out console\nput %s %d\n%s\nexplain %s.f%d\n' % (name, len(lines), '\n'.join(lines), name, count), '.f0 out'


def against(name, job, last, most=None):
    """One row of a job by the program and by the other one, if one is named, which take turns; the first may take so many
    times what the other one takes, if that is said."""
    global failed
    best = {}
    for _ in range(runs):
        for each in [program, other] if other else [program]:
            took, _, _, line = measuring.measured(each, job, 1)
            best[each] = min(took, best.get(each, took))
            if not line.endswith(last):
                print('another answer:', line[:100])
                failed = True
    print('%-52s         %7.0f ms' % (name, best[program])
          + ('  %5.2f times %.0f ms' % (best[program] / best[other], best[other]) if other else ''))
    if other and most and best[program] > most * best[other]:
        print('  more than %.2f times' % most)
        failed = True


def again(command, last, most):
    """What 2,000 of a command take behind one, beside 192 modules of 40 definitions: the time of one is within so many
    microseconds."""
    global failed
    modules = behind_row(192, 40)
    base, _ = measured(modules + command, last)
    took, memory = measured(modules + command * 2001, last)
    each = (took - base) / 2
    name = 'again beside 192 modules: ' + command.strip().split('\n')[-1]
    print('%-52s         %7.1f us         %6.0f MB' % (name, each, memory))
    if each > most:
        print('  more than %d us' % most)
        failed = True


def held(name, job, last):
    """One row of a reply that is large beside its job: its time, and whether its memory is within 64 MB."""
    global failed
    took, most = measured(job, last)
    print('%-52s         %7.0f ms         %6.0f MB' % (name, took, most))
    if most > 64:
        print('  more than 64 MB')
        failed = True


shown('a million steps of a repetition', run_of(249998, 'unit', 500000), run_of(499998, 'unit', 1000000), 100)
shown('a million steps that print all along', run_of(166000, 'out.print(i)', 498004), run_of(332000, 'out.print(i)', 996004), 300)
shown('a million steps of nested closures', nested(closures, 500000), nested(closures, 1000000), 1000)
shown('a million steps of nested boundaries', nested(boundaries, 500000), nested(boundaries, 1000000), 1000)
shown('eight tasks with fuel 1,000,000', tasks_of(60000, 500000), tasks_of(60000, 1000000), 200)
shown('1,000 runs of 1,000 steps of 40 modules', many_runs(500), many_runs(1000), 500)
shown('a derivation of 57,330 nodes', derived(11), derived(12), 200)
shown('a derivation of more than 2^46 nodes', refused(22), refused(45), 150)
shown('1,400 policies of 256 rules, audits and guards', policies(700), policies(1400), 800)
shown('320,000 audits of 16 devices by 256 rules', audits(160000), audits(320000), 12000)
against('a million steps of many kinds', *million(MIXED))
against('a million steps of calls', *million(CALLS))
against('332,000 prints', ''.join(repeating(332000, 'out.print(i)')), 'after 996004 steps')
against('eight tasks that print', *interleaved())
for line, last in [('check\n', 'check'), ('drop a\n', 'drop a refused E32'), ('put a 0\n', 'put a')]:
    against('4 MiB of %s' % line.strip(), filled(line), last, 2)
for line, last in [('run a.b 1\n', 'run a.b refused E32'), ('tasks 1 0 a.b\n', 'tasks refused E32 a.b'),
                   ('policy 256\n' + 'deny a b\n' * 256, 'policy 256'), ('verify 1\nx\n', 'bad line 1')]:
    shown('4 MiB of %s' % line.split('\n')[0], measured(filled(line, 2097152), last), measured(filled(line), last), 1000)
rows = behind_row(48, 60)
for command, last in COMMANDS:
    shown('240 times %s beside 48 modules' % command.strip().split('\n')[-1], measured(rows + command * 120, last),
          measured(rows + command * 240, last), 100)
for command, last in COMMANDS:
    again(command, last, 50)
took, most = measured(behind_row(192, 40) + EIGHT, 'steps')
print('%-52s         %7.0f ms         %6.0f MB' % ('8 tasks beside 192 modules of 40 definitions', took, most))
if most > 100:
    print('  more than 100 MB')
    failed = True
base = measured(wide(128), ' ok')[0], measured(wide(256), ' ok')[0]
shown('linking 256 modules of 200 definitions',
      measured(wide(128) + 'run m127.main 2000\n', 'after 130 steps'),
      measured(wide(256) + 'run m255.main 2000\n', 'after 258 steps'), 200, base)
shown('2,000 audits beside 256 modules of 200 definitions',
      measured(wide(256) + 'audit m255.main\n' * 1000, 'audit m255.main'),
      measured(wide(256) + 'audit m255.main\n' * 2000, 'audit m255.main'), 200, (base[1], base[1]))
base = measured(wide(96), ' ok')[0]
for words, asked, last in [
        ('runs', 'run m95.main 10\n', 'after 10 steps'),
        ('runs, each behind a refused drop,', 'drop n\nrun m95.main 10\n', 'after 10 steps'),
        ('runs of two definitions by turns', 'run m95.twin 10\nrun m95.main 10\n', 'after 10 steps'),
        ('explanations', 'explain m95.main\n', 'explain m95.main')]:
    shown('2,000 %s beside 96 modules' % words, measured(wide(96) + asked * 1000, last),
          measured(wide(96) + asked * 2000, last), 200, (base, base))
held('a million steps that say 200 letters', *saying('x' * 200))
held('a million steps that say 800 bytes', *saying('\U0001F600' * 200))
held('33,200 events of a device with a long name', *long_device(0))
held('8 tasks that operate a device with a long name', *long_device(8))
held('a derivation with a long name at each node', *long_derivation(4000))
held('an explanation with a long name at each link', *long_chain(1200))
held('1,400 signatures with a long name in 80 sets each', *long_signatures(1400, 80, 15000))
held('15 signatures with a long name in up to 1,350 sets', *deep_signatures(15, 47000))
sys.exit(1 if failed else 0)
