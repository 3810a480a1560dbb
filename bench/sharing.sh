#!/usr/bin/env bash
# Measures the check of modules whose types share those of the definitions before, alone and as jobs of 3 MB: the
# processor's time in milliseconds, without the start of the process, by which power it grew from the half, and the
# greatest memory in MB. It fails where there is no program, where an answer is another one, where a row takes more than
# its bar, and where one of more than 20 ms grew by more than the power 1.1. The last row runs on a stack of 512 KB.
# Build the program first: cd crates/capc && rt run < stdin
# Usage: bench/sharing.sh [PROGRAM [RUNS]]
set -u
program=${1:-$(dirname "$0")/../crates/capc/out/capc}
[ -x "$program" ] || { echo "bench/sharing.sh: there is no program $program: build it first" >&2; exit 1; }
PYTHONDONTWRITEBYTECODE=1 exec python3 "$(dirname "$0")/sharing.py" "$program" "${2:-7}"
