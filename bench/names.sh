#!/usr/bin/env bash
# Measures a job that puts and checks a module of 3,000 definitions, each of which names one that stands half as far from
# the front, and one of 1,500; and modules that define, name and import names of one hash, and runs behind them, each beside
# the same with other names: the processor's time in milliseconds, the start of the process among it, and the greatest
# memory in MB. It fails where there is no program, where an answer is another one, and where names of one hash take more
# than one and a half times as long as others.
# Build the program first: cd crates/capc && rt run < stdin
# Usage: bench/names.sh [PROGRAM [RUNS]]
set -u
program=${1:-$(dirname "$0")/../crates/capc/out/capc}
[ -x "$program" ] || { echo "bench/names.sh: there is no program $program: build it first" >&2; exit 1; }
PYTHONDONTWRITEBYTECODE=1 exec python3 "$(dirname "$0")/names.py" "$program" "${2:-5}"
