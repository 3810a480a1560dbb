#!/usr/bin/env bash
# Counts how many modules are judged in rows of modules, each of which imports the one before it: in the first check, and
# in a check behind an edit of the module in the middle that leaves its signature. The counts are calls of the built
# program's function that judges a module that is read, as valgrind sees them. It fails where there is no program, where
# valgrind is missing, and where another number of modules is judged than are stale.
# Build the program first: cd crates/capc && rt run < stdin
# Usage: bench/judgements.sh [PROGRAM]
set -u
program=${1:-$(dirname "$0")/../crates/capc/out/capc}
[ -x "$program" ] || { echo "bench/judgements.sh: there is no program $program: build it first" >&2; exit 1; }
command -v valgrind > /dev/null || { echo "bench/judgements.sh: there is no valgrind" >&2; exit 1; }
PYTHONPATH=$(dirname "$0") PYTHONDONTWRITEBYTECODE=1 exec python3 - "$program" <<'PY'
import os
import re
import subprocess
import sys
import tempfile

from rows import link, row

JUDGES = 'cc_module::judging::check_all'


def judged(job):
    """How often a module is judged for the job."""
    with tempfile.TemporaryDirectory() as folder:
        out = os.path.join(folder, 'calls')
        words = ['valgrind', '--tool=callgrind', '--callgrind-out-file=' + out, sys.argv[1]]
        run = subprocess.run(words, input=job.encode(), stdout=subprocess.PIPE, stderr=subprocess.DEVNULL)
        if run.returncode != 0:
            sys.exit('bench/judgements.sh: status %d' % run.returncode)
        named, called, count = {}, None, 0
        for line in open(out):
            function = re.match(r'(c?)fn=\((\d+)\)(?: (.*))?', line)
            if function:
                named.setdefault(function.group(2), function.group(3))
                if function.group(1):
                    called = named[function.group(2)]
            calls = re.match(r'calls=(\d+)', line)
            if calls and called == JUDGES:
                count += int(calls.group(1))
        return count


failed = False
print('%-10s %12s %20s' % ('modules', 'first check', 'behind an edit'))
for modules in (50, 100, 200):
    job = 'capc 1\n' + row(modules) + 'check\n'
    first = judged(job)
    more = judged(job + link(modules // 2, 'x + 2') + 'check\n') - first
    print('%-10d %12d %20d' % (modules, first, more))
    failed = failed or (first, more) != (modules, 1)
sys.exit(1 if failed else 0)
PY
