"""Measures the check of modules whose types share those of the definitions before, each at its full size and at half
of it. The two take turns, so that both see the same of what else the machine does.

Usage: sharing.py PROGRAM RUNS
"""
import math
import resource
import sys

import measuring
from rows import put

program, runs = sys.argv[1], int(sys.argv[2])
failed = False
start, _, _, _ = measuring.measured(program, 'capc 1\n', runs)


def functions(takes, count, gives):
    """The type of functions that take so many parameters of a type before they give another."""
    return '(a: %s) -> ' % takes * count + gives


def chain(first, right, count):
    """So many definitions, the first one and those whose right side names the one before."""
    return [first] + ['def b%d = %s' % (at, right % (at - 1)) for at in range(1, count)]


def boxes(count):
    """So many definitions, each a box of the one before: the type of the last one has a size of as many."""
    return chain('def b0 = 1', 'box b%d', count)


def givers(count):
    """So many definitions, each a function that gives the one before, where the first one has a type of size 529."""
    large = functions(functions('Int', 32, 'Int'), 4, 'Int')
    return chain('def b0 = fun (x: %s) => x' % large, 'fun (u: Unit) => b%d', count)


def polymorphic(count):
    """So many definitions, each a type function that gives the one before."""
    return chain('def b0 = 1', 'fun [X <: Any] => b%d', count)


def one(lines):
    return 'capc 1\n' + put('m', lines) + 'check\n'


def many(lines, count):
    return 'capc 1\n' + ''.join(put('m%d' % at, lines) for at in range(count)) + 'check\n'


def row(name, make, count, bar):
    """The full size, by which power it grew from the half without the start of the process, and whether that is within
    the bar."""
    global failed
    jobs, best, most = [make(count // 2), make(count)], [math.inf, math.inf], 0
    for _ in range(runs):
        for at, job in enumerate(jobs):
            took, memory, status, last = measuring.measured(program, job, 1)
            if status != 0 or not last.endswith(' ok'):
                print('another answer:', status, last)
                failed = True
            best[at], most = min(best[at], max(took - start, 0.1)), max(most, memory)
    power = math.log2(best[1] / best[0])
    print('%-52s %7d %8.1f ms  power %4.2f  %6.1f MB' % (name, count, best[1], power, most))
    if best[1] > bar:
        print('  more than %d ms' % bar)
        failed = True
    # times of a few milliseconds are mostly those of the process itself
    if best[0] > 20 and power > 1.1:
        print('  more than the power 1.1')
        failed = True


row('boxes of the definition before', lambda size: one(boxes(size)), 3000, 20)
row('functions that give the definition before', lambda size: one(givers(size)), 1780, 20)
row('type functions that give the definition before', lambda size: one(polymorphic(size)), 1700, 20)
row('modules of 3,000 boxes', lambda size: many(boxes(3000), size), 46, 500)
row('modules of 1,780 functions', lambda size: many(givers(1780), size), 48, 500)
_, most_stack = resource.getrlimit(resource.RLIMIT_STACK)
resource.setrlimit(resource.RLIMIT_STACK, (512 * 1024, most_stack))
row('boxes on a stack of 512 KB', lambda size: one(boxes(size)), 3000, 20)
sys.exit(1 if failed else 0)
