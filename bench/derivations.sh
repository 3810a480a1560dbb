#!/usr/bin/env bash
# Measures how long it takes to build the derivation of a sum of 4,096 numbers, of 57,330 nodes, and of one of 2,048, and
# to count without building it the derivation of a function that names 90 closures, and of one that names 45, each of
# which calls the two before it: in microseconds a call. It fails where there is no program or a test fails.
# Build the program first: cd crates/cc_tests_calls && rt test
# Usage: bench/derivations.sh [PROGRAM [RUNS]]
set -u
program=${1:-$(dirname "$0")/../crates/cc_tests_calls/out/cc_tests_calls_tests}
[ -x "$program" ] || { echo "bench/derivations.sh: there is no program $program: build it first" >&2; exit 1; }
runs=${2:-5}
python3 "$(dirname "$0")/calls.py" "$program" "$runs" 4096 hundred 'building the derivation of a sum=sums::sums_of' &&
    exec python3 "$(dirname "$0")/calls.py" "$program" "$runs" 90 hundred 'counting closures=closures::closures_of'
