#!/usr/bin/env bash
# Measures jobs that explain signatures and replay traces, each at its full size and at half of it: the processor's time in
# milliseconds, the start of the process among it, the greatest memory in MB, and what the time is to that of the half. A
# job that checks the same modules alone is subtracted where signatures are explained. It fails where there is no program,
# where an answer is another one, and where a full size takes more than its bar.
# Build the program first: cd crates/capc && rt run < stdin
# Usage: bench/why.sh [PROGRAM [RUNS]]
set -u
program=${1:-$(dirname "$0")/../crates/capc/out/capc}
[ -x "$program" ] || { echo "bench/why.sh: there is no program $program: build it first" >&2; exit 1; }
PYTHONDONTWRITEBYTECODE=1 exec python3 "$(dirname "$0")/why.py" "$program" "${2:-5}"
