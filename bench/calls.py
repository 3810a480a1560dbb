"""Prints how long one call takes, for each of the calls named, at the full and at half the size.

A test makes the call once, another ten, a hundred or a thousand times: one call takes the difference of their times over
that number less one, so neither the start of the process counts nor what the tests prepare. Times are those of the
processor, and of several runs the shortest is taken. It fails where a test does not pass.
Usage: calls.py PROGRAM RUNS SIZE TIMES WORDS=TESTS .. for tests named TESTS_SIZE_once and TESTS_SIZE_a_TIMES_times, where
TIMES is hundred or thousand; where it is ten, the second is TESTS_SIZE_ten_times
"""
import resource
import subprocess
import sys


def used():
    """The processor time that all runs took so far, in seconds."""
    usage = resource.getrusage(resource.RUSAGE_CHILDREN)
    return usage.ru_utime + usage.ru_stime


def shortest(program, runs, test):
    """The shortest time of so many runs of the test, in seconds."""
    best = None
    for _ in range(runs):
        start = used()
        ended = subprocess.run([program, test], stdout=subprocess.PIPE, stderr=subprocess.STDOUT)
        took = used() - start
        if ended.returncode or b'test result: ok' not in ended.stdout:
            sys.exit('%s: the test %s did not pass: %r' % (program, test, ended.stdout[:200]))
        best = took if best is None else min(best, took)
    return best


program, runs, size, times, calls = sys.argv[1], int(sys.argv[2]), int(sys.argv[3]), sys.argv[4], sys.argv[5:]
more, often_called = {
    'ten': (9, 'ten_times'), 'hundred': (99, 'a_hundred_times'), 'thousand': (999, 'a_thousand_times')
}[times]
for call in calls:
    words, tests = call.split('=')
    took = []
    for count in (size, size // 2):
        once = shortest(program, runs, '%s_%d_once' % (tests, count))
        often = shortest(program, runs, '%s_%d_%s' % (tests, count, often_called))
        took.append((often - once) / more * 1e6)
    print('%s: %.1f microseconds a call for %d, %.1f for %d' % (words, took[0], size, took[1], size // 2))
