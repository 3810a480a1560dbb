#!/usr/bin/env bash
# Measures how long it takes to solve 2,000 omitted sets in a row, each of which flows into those beside it, and 1,000: in
# microseconds a call. It fails where there is no program or a test fails.
# Build the program first: cd crates/cc_tests_calculus && rt test
# Usage: bench/solving.sh [PROGRAM [RUNS]]
set -u
program=${1:-$(dirname "$0")/../crates/cc_tests_calculus/out/cc_tests_calculus_tests}
[ -x "$program" ] || { echo "bench/solving.sh: there is no program $program: build it first" >&2; exit 1; }
runs=${2:-5}
exec python3 "$(dirname "$0")/calls.py" "$program" "$runs" 2000 ten \
    'solving omitted sets in a row=flows::holes_that_flow_both_ways'
