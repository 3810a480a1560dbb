"""Measures modules of many definitions, each of which names one that stands half as far from the front; and modules whose
names have one hash, beside the same modules with other names of the same length.

Usage: names.py PROGRAM RUNS
"""
import sys

import hashing
import measuring
from rows import put

program, runs = sys.argv[1], int(sys.argv[2])
missed = []


def measured(job, last, times=runs):
    """The shortest time in milliseconds and the greatest memory in MB of a job, whose output ends with this line."""
    time, memory, _, line = measuring.measured(program, job, times)
    if line != last:
        sys.exit('bench/names.py: another answer: ' + line)
    return time, memory


def naming(count):
    """So many definitions, each of which names one that stands half as far from the front."""
    lines = ['def a0=box out'] + ['def a%d=box a%d' % (at, at // 2) for at in range(1, count)]
    return measured('capc 1\ndevice out console\n' + put('m', lines) + 'check\n', '  m ok')


def defined(names):
    """A definition of each name."""
    return ['def %s=1' % name for name in names]


def sums(parts):
    """The sum of the expressions, in a tree that is not high."""
    if len(parts) == 1:
        return parts[0]
    half = len(parts) // 2
    return '(%s+%s)' % (sums(parts[:half]), sums(parts[half:]))


def module(names):
    """A module that defines them."""
    return 'capc 1\n' + put('m', defined(names)) + 'check\n', '  m ok'


def modules(names):
    """63 modules, each of which defines them all."""
    return 'capc 1\n' + ''.join(put('m%02d' % at, defined(names)) for at in range(63)) + 'check\n', '  m62 ok'


def uses(names):
    """A module that defines half of them, and names the last forty again and again."""
    half = names[:len(names) // 2]
    lines = defined(half) + ['def m = fun (u: Unit) => ' + sums([half[-1 - at % 40] for at in range(950)])]
    return 'capc 1\n' + put('m', lines) + 'check\n', '  m ok'


def imports(names):
    """16 modules, each of which imports them all of one."""
    lines = ['import a.' + name for name in names]
    parts = [put('a', defined(names))] + [put('b%02d' % at, lines) for at in range(16)]
    return 'capc 1\n' + ''.join(parts) + 'check\n', '  b15 ok'


def entries(names):
    """Runs of a definition behind eight modules, each of which defines them all."""
    parts = [put('a%d' % at, defined(names)) for at in range(8)]
    lines = ['import a%d.%s' % (at, names[at]) for at in range(8)] + ['def main = fun (u: Unit) => u']
    return 'capc 1\n' + ''.join(parts) + put('z', lines) + 'run z.main 9\n' * 8, '  done unit after 1 steps'


def beside(words, job_of, count):
    """A job with names of one hash beside the same one with others, which take turns; it may take one and a half times as
    long."""
    jobs = [job_of(names(count)) for names in (hashing.names_of_one_hash, hashing.other_names)]
    best, most = [None, None], 0
    for _ in range(runs):
        for at, (job, last) in enumerate(jobs):
            time, memory = measured(job, last, 1)
            best[at], most = time if best[at] is None else min(best[at], time), max(most, memory)
    print('%-44s %5d names: %7.1f ms, %5.0f MB, %.2f times what other names take, which is %.1f ms'
          % (words, count, best[0], most, best[0] / best[1], best[1]))
    # times of a few milliseconds are mostly those of the process itself
    if best[0] > 10 and best[0] > 1.5 * best[1]:
        missed.append('%s: %.1f ms, where other names take %.1f ms' % (words, *best))


half, full = naming(1500), naming(3000)
print('definitions that name others  1500: %.1f ms, %.0f MB  3000: %.1f ms, %.0f MB  %.1f times'
      % (half + full + (full[0] / half[0],)))
beside('a module of names of one hash', module, 1600)
beside('63 such modules', modules, 1600)
beside('a module that names them again and again', uses, 1600)
beside('16 modules that import them', imports, 1500)
beside('runs behind eight such modules', entries, 1600)
if missed:
    sys.exit('bench/names.py: too slow:\n' + '\n'.join('  ' + line for line in missed))
