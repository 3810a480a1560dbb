"""Measures workloads, each at a number of modules and at twice and four times as many.

Usage: workload.py PROGRAM RUNS
"""
import math
import sys

import measuring

program, runs = sys.argv[1], int(sys.argv[2])
failed = False
start, _, _, _ = measuring.measured(program, 'capc 1\n', runs)

previous = None
for count in (50, 100, 200):
    best, most, status, last = measuring.measured(program, '', runs, ['--workload', str(count)])
    if status != 0 or last != 'last done unit after %d steps' % (5 * count + 2):
        print('another answer:', status, last)
        failed = True
    power = math.log2(max(best - start, 0.1) / previous) if previous else 1
    previous = max(best - start, 0.1)
    print('workload of %-36d %7.1f ms  power %4.2f  %6.1f MB' % (count, best, power, most))
    if best > 50 or most > 20:
        print('  more than 50 ms or 20 MB')
        failed = True
    if power > 1.1:
        print('  more than the power 1.1')
        failed = True
sys.exit(1 if failed else 0)
