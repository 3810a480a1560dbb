#!/usr/bin/env bash
# Measures whole jobs, in milliseconds a run of the processor's time, the start of the process among them: a job of 4 MiB
# with 256 modules that is read and checked, and the memory that this takes; a row of modules, each of which imports the
# one before it, and the same for half of them; edits of one module with a check behind each, and half as many, also
# among 200 and 100 modules of 5,000 bytes, and beside 60 and 30 modules that import 2,700 definitions of one each; the
# first check of these; rows of 200 and 100 in which the first module is edited so that all signatures change, and of 200
# in which one is edited so that its signature stays; and ordinary jobs: 256 modules of 5,000 bytes and of 15,000 bytes,
# 5,000 definitions, and 1,700 functions, each of which calls the one before it. It fails where there is no program, where
# an answer is wrong, where an edit of one of 200 modules of 5,000 bytes with a check takes more than 2 ms, the first check
# of the modules that import 2,700 definitions more than 250 ms, or 20 edits beside them, with that check, more than 800
# ms. Where another program is named that does the same, it is measured too, and it fails where an ordinary job takes more
# than twice as long as by that.
# Build the program first: cd crates/capc && rt run < stdin
# Usage: bench/jobs.sh [PROGRAM [RUNS [OTHER]]]
set -u
program=${1:-$(dirname "$0")/../crates/capc/out/capc}
[ -x "$program" ] || { echo "bench/jobs.sh: there is no program $program: build it first" >&2; exit 1; }
PYTHONPATH=$(dirname "$0") PYTHONDONTWRITEBYTECODE=1 exec python3 - "$program" "${2:-5}" "${3:-}" <<'PY'
import re
import sys

import corpus
import measuring
from rows import link, ordinary, put, row

program, runs, other = sys.argv[1], int(sys.argv[2]), sys.argv[3]
missed, ratios = [], []


def measured(job, last, program=program, runs=runs, wanted=0):
    """The shortest time of the runs in milliseconds, and the memory in MB; the last line of the output is of this form."""
    best, most, status, line = measuring.measured(program, job, runs)
    if status != wanted or not re.fullmatch(last, line):
        sys.exit('bench/jobs.sh: a wrong answer: status %d, last line %r' % (status, line))
    return best, most


def bar(words, took, most):
    """Keeps that so many milliseconds are too many, if they are."""
    if took > most:
        missed.append('%s: %.1f ms, where %.1f ms is the most' % (words, took, most))


def halves(words, job_of, size, last_of, most=None):
    whole, half = (measured(job_of(n), last_of(n))[0] for n in (size, size // 2))
    print('%s: %.1f ms for %d, %.1f ms for half of them' % (words, whole, size, half))
    if most is not None:
        bar(words, whole, most)


def against(words, job, last, most=2, wanted=0):
    """Measures the program and the other one, if one is named, by turns; the job may take so many times what that takes."""
    if other:
        turns = [[measured(job, last, each, 1, wanted)[0] for each in (program, other)] for _ in range(runs)]
        took, theirs = map(min, zip(*turns))
        print('  %.2f times what the other program takes, which is %.1f ms' % (took / theirs, theirs))
        ratios.append(took / theirs)
        bar(words, took, most * theirs)


def beside(words, job_of, size, last_of):
    """For so many and for half of them, and the first beside the other program."""
    whole, half = (measured(job_of(n), last_of(n))[0] for n in (size, size // 2))
    print('%s: %.1f ms for %d, %.1f ms for half of them' % (words, whole, size, half))
    against(words, job_of(size), last_of(size))


# modules of 15,000 bytes with comments and 250 definitions, and empty lines up to the greatest length of a job
text = ['// %s' % ('x' * 96)] * 60 + ['def d%d = fun (x: Int) => x * %d + %d' % (i, i, i) for i in range(250)]


def large(modules):
    job = 'capc 1\n' + ''.join(put('m%03d' % number, text) for number in range(modules)) + 'check\n'
    return job.ljust(modules * 16384, '\n')


took, memory = measured(large(256), '  m255 ok')
half = measured(large(128), '  m127 ok')[0]
print('a job of %d bytes with 256 modules: %.1f ms, %.1f MB, %.1f ms for half of them' % (len(large(256)), took, memory, half))
against('a job of 4 MiB', large(256), '  m255 ok')

halves('modules in a row of imports', lambda n: 'capc 1\n' + row(n) + 'check\n', 256, lambda n: '  m%03d ok' % (n - 1))
halves('edits of one module with a check behind each',
       lambda n: 'capc 1\n' + row(10) + 'check\n' + ''.join(link(5, 'x + %d' % i) + 'check\n' for i in range(n)), 400,
       lambda n: '  m009 ok')


def flipped(modules, edits):
    """Modules in a row, and edits of the first one, each of which changes the signatures of all."""
    first = [put('m000', ['def f0 = fun (x: Int) => %s' % body]) for body in ('out.print(x)', 'val n = hits.tick(); out.print(n)')]
    rest = ''.join(link(number) for number in range(1, modules))
    return ('capc 1\ndevice out console\ndevice hits counter\n' + first[0] + rest + 'check\n'
            + ''.join(first[(edit + 1) % 2] + 'check\n' for edit in range(edits)))


def edited(modules, edits):
    """Modules of 5,000 bytes, each of which imports a definition of the one before it, and edits of the middle one."""
    def one(number, added):
        imports = ['import m%03d.d%dx79' % (number - 1, number - 1)] if number > 0 else []
        lines = ['def d%dx%d = fun (x: Int) => x * %d + %d // %s' % (number, i, i, added, 'x' * 20) for i in range(80)]
        return put('m%03d' % number, imports + lines)
    texts = ''.join(one(number, 0) for number in range(modules))
    return 'capc 1\n' + texts + 'check\n' + ''.join(one(modules // 2, i + 1) + 'check\n' for i in range(edits))


def importing(modules, edits):
    """Modules that import 2,700 definitions of one, and edits of a module that none of them imports."""
    texts = put('n', ['def d%d = %d' % (i, i) for i in range(2700)])
    texts += ''.join(put('m%02d' % number, ['import n.d%d' % i for i in range(2700)]) for number in range(modules))
    return 'capc 1\n' + texts + 'check\n' + ''.join(put('a', ['def a = %d' % i]) + 'check\n' for i in range(edits))


def behind(words, job_of, modules, edits, last_of, most=None):
    """What an edit with a check costs, beyond the first check, for so many modules and for half of them."""
    costs = []
    for count in (modules, modules // 2):
        first, all_of = (measured(job_of(count, n), last_of(count))[0] for n in (0, edits))
        costs.append((all_of - first) / edits)
    print('%s: %.2f ms for %d, %.2f ms for half of them' % (words, costs[0], modules, costs[1]))
    if most is not None:
        bar(words, costs[0], most)


behind('an edit that changes the signatures of a row of modules, and a check', flipped, 200, 40, lambda n: '  m%03d ok' % (n - 1))
behind('an edit of one among modules of 5,000 bytes, and a check', edited, 200, 40, lambda n: '  m%03d ok' % (n - 1), 2)
halves('modules that import 2,700 definitions', lambda n: importing(n, 0), 60, lambda n: '  n ok', 250)
halves('the same with 20 edits of another module', lambda n: importing(n, 20), 60, lambda n: '  n ok', 800)
behind('an edit of one beside modules that import 2,700 definitions, and a check', importing, 60, 20, lambda n: '  n ok')
before = measured('capc 1\n' + row(200) + 'check\n', '  m199 ok')[0]
after = measured('capc 1\n' + row(200) + 'check\n' + link(100, 'x + 2') + 'check\n', '  m199 ok')[0]
print('an edit of one module among 200 in a row, which keeps its signature: %.1f ms more than %.1f ms' % (after - before, before))



def large_signatures(edits, of_theirs):
    """64 modules that import 1,100 definitions of functions that give one of a type of size 1,025, and edits of another module,
    or of the one that they import from."""
    wide = 'Unit'
    for _ in range(9):
        wide = '(a:%s)->%s' % (wide, wide)
    lines = ['def b0=fun(x:%s)=>unit' % wide] + ['def b%d=fun(u:Unit)=>b%d' % (i, i - 1) for i in range(1, 1101)]
    texts = put('a', lines) + ''.join(put('k%02d' % k, ['import a.b%d' % i for i in range(1100)]) for k in range(64))
    one = (lambda i: put('a', lines + ['def z=%d' % i])) if of_theirs else (lambda i: put('e', ['def f=%d' % i]))
    return 'capc 1\n' + texts + 'check\n' + ''.join(one(i) + 'check\n' for i in range(edits))


for words, of_theirs, most in (('another', False, 200), ('that', True, 1000)):
    took, memory = measured(large_signatures(2, of_theirs), '  k63 ok')
    print('imports of large signatures, and two edits of %s module: %.1f ms, %.1f MB' % (words, took, memory))
    bar('imports of large signatures', took, most)


def all_behind(edits):
    """200 modules of 9,000 bytes, all of which import from the first, and edits of that, which change its signatures."""
    first = [put('m000', ['def f%d = fun (x: Int) => %s' % (i, body) for i in range(150)])
             for body in ('out.print(x)', 'val n = hits.tick(); out.print(n)')]
    texts = ''
    for number in range(1, 200):
        lines = ['import m000.f%d' % i for i in range(40)]
        lines += ['def d%dx%d = fun (x: Int) => val y = f%d(x + %d); f%d(x) // %s'
                  % (number, i, i % 40, i, (i + 1) % 40, 'x' * 30) for i in range(100)]
        texts += put('m%03d' % number, lines)
    return ('capc 1\ndevice out console\ndevice hits counter\n' + first[0] + texts + 'check\n'
            + ''.join(first[(edit + 1) % 2] + 'check\n' for edit in range(edits)))


first, memory = measured(all_behind(0), '  m199 ok')
changed, most_memory = measured(all_behind(4), '  m199 ok')
print('a job of %d bytes, all of whose modules import from one: %.1f ms, %.1f MB' % (len(all_behind(0)), first, memory))
print('an edit of that one with a check: %.1f ms, %.1f MB' % ((changed - first) / 4, most_memory))

devices = 'capc 1\ndevice out console\ndevice keys file 1 2 3\ndevice hits counter\n'
for parts, size in ((3, '5,000'), (9, '15,000')):
    beside('modules of %s bytes' % size, lambda n: devices + ordinary(n, parts) + 'check\n', 256,
           lambda n: '  m%03d ok' % (n - 1))
beside('definitions of a module', lambda n: devices + put('m', ['def d%d=%d' % (i, i % 10) for i in range(n)]) + 'check\n',
       5000, lambda n: '  m ok')
beside('functions that each call the one before it',
       lambda n: devices + put('m', ['def f0 = fun (x: Int) => out.print(x)']
                               + ['def f%d=fun(x:Int)=>f%d(x)' % (i + 1, i) for i in range(n)]) + 'check\n',
       1700, lambda n: '  m ok')
(job, last), (edited, _) = corpus.checked(200), corpus.edited(200, 100)
print('a corpus of 200 modules, %d bytes: %.1f ms, %.1f MB' % (len(job), *measured(job, '  %s ok' % last)))
against('a corpus of 200 modules', job, '  %s ok' % last)
print('the same with 100 edits: %.1f ms, %.1f MB' % measured(edited, '  %s ok' % last, wanted=1))
against('100 edits of a corpus', edited, '  %s ok' % last, wanted=1)
job, last = corpus.run(200, 40), r'  (done unit|out of fuel) after \d+ steps'
print('the same with 40 runs: %.1f ms, %.1f MB' % measured(job, last, wanted=1))
against('40 runs of a corpus', job, last, wanted=1)
if other:
    print('ordinary jobs take %.2f times what they take by the other program in the middle, and %.2f times at most'
          % (sorted(ratios)[len(ratios) // 2], max(ratios)))
if missed:
    sys.exit('bench/jobs.sh: too slow:\n' + '\n'.join('  ' + line for line in missed))
PY
