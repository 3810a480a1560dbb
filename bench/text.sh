#!/usr/bin/env bash
# Measures how long the built program takes for texts of the greatest length, 65,536 bytes, and of half of it, in
# milliseconds a run, the start of the process among them: spaces, one long comment, 99 nested parentheses again and
# again, and sums of 99 additions again and again; and of the processor's time 63 texts of 65,000 quotes in a job, which are
# refused. It fails where there is no program or a wrong answer. Where another program is named that does the same, it is
# measured too on the quotes, by turns, and they may take three times as long as by that.
# Build the program first: cd crates/capc && rt run < stdin
# Usage: bench/text.sh [PROGRAM [RUNS [OTHER]]]
set -u
program=${1:-$(dirname "$0")/../crates/capc/out/capc}
[ -x "$program" ] || { echo "bench/text.sh: there is no program $program: build it first" >&2; exit 1; }
PYTHONPATH=$(dirname "$0") PYTHONDONTWRITEBYTECODE=1 exec python3 - "$program" "${2:-20}" "${3:-}" <<'PY'
import subprocess
import sys
import time

import measuring
from rows import put

program, runs, other = sys.argv[1], int(sys.argv[2]), sys.argv[3]


def repeated(right, length):
    """Definitions with this right side, as many as fit, and then spaces."""
    text, number = b'', 0
    while True:
        line = b'def a%d=%s\n' % (number, right)
        if len(text) + len(line) > length:
            return text + b' ' * (length - len(text) - 1) + b'\n'
        text, number = text + line, number + 1


texts = {
    'spaces': (lambda n: b' ' * (n - 1) + b'\n', b'  m ok'),
    'one comment': (lambda n: b'//' + b'x' * (n - 3) + b'\n', b'  m ok'),
    'parentheses': (lambda n: repeated(b'(' * 99 + b'5' + b')' * 99, n), b'  m ok'),
    'sums': (lambda n: repeated(b'1' + b'+1' * 99, n), b'  m E12 1:8'),
}
for name, (text_of, wanted) in texts.items():
    times = []
    for length in (32768, 65536):
        text = text_of(length)
        job = b'capc 1\ndevice out console\nput m %d\n%scheck\n' % (text.count(b'\n'), text)
        best = None
        for _ in range(runs):
            start = time.perf_counter()
            answer = subprocess.run([program], input=job, stdout=subprocess.PIPE)
            took = time.perf_counter() - start
            best = took if best is None else min(best, took)
            if answer.stdout.split(b'\n')[2] != wanted:
                sys.exit('bench/text.sh: a wrong answer for %s: %r' % (name, answer.stdout[:200]))
        times.append(best * 1000)
    print('%s: %.1f ms for 65,536 bytes, %.1f ms for half of it' % (name, times[1], times[0]))

quotes = 'capc 1\n' + ''.join(put('m%02d' % at, ['"' * 65000]) for at in range(63)) + 'check\n'
best = {}
for _ in range(runs):
    for each in [program, other] if other else [program]:
        took, _, _, line = measuring.measured(each, quotes, 1)
        if line != '  m62 E03 1:1':
            sys.exit('bench/text.sh: a wrong answer for quotes: ' + line)
        best[each] = min(took, best.get(each, took))
print('63 texts of quotes: %.1f ms' % best[program])
if other:
    print('  %.2f times what the other program takes, which is %.1f ms' % (best[program] / best[other], best[other]))
if other and best[program] > 3 * best[other]:
    sys.exit('bench/text.sh: too slow: quotes')
PY
