#!/usr/bin/env bash
# Measures the verdicts of the texts that are dearest to judge, each at its full size and at half of it: the processor
# time, the greatest memory, and what each is to that of the half. Where another program is named that does the same, what
# it takes is shown beside. It fails where there is no program, where a verdict is another one, and where a text takes more
# than its bar.
# Build the program first: cd crates/capc && rt run < stdin
# Usage: bench/checking.sh [PROGRAM [RUNS [--beside OTHER] [WORD ..]]] for the texts whose names have one of the words
set -u
program=${1:-$(dirname "$0")/../crates/capc/out/capc}
[ -x "$program" ] || { echo "bench/checking.sh: there is no program $program: build it first" >&2; exit 1; }
exec python3 "$(dirname "$0")/checking.py" "$program" "${2:-3}" "${@:3}"
