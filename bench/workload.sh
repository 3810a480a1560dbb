#!/usr/bin/env bash
# Measures workloads of 50, 100 and 200 modules: the processor's time in milliseconds, the start of the process among it,
# by which power it grew from the half, without the start, and the greatest memory in MB. It fails where there is no
# program, where an answer is another one, where one takes more than 50 ms or 20 MB, and where it grew by more than the
# power 1.1.
# Build the program first: cd crates/capc && rt run < stdin
# Usage: bench/workload.sh [PROGRAM [RUNS]]
set -u
program=${1:-$(dirname "$0")/../crates/capc/out/capc}
[ -x "$program" ] || { echo "bench/workload.sh: there is no program $program: build it first" >&2; exit 1; }
PYTHONDONTWRITEBYTECODE=1 exec python3 "$(dirname "$0")/workload.py" "$program" "${2:-20}"
