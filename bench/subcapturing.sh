#!/usr/bin/env bash
# Measures how long it takes to find that the newest of 5,000 closures is below a console, where each closure is over
# the two before it, and the same for 2,500, in microseconds a call. It fails where there is no program or a test fails.
# Build the program first: cd crates/cc_tests_calculus && rt test
# Usage: bench/subcapturing.sh [PROGRAM [RUNS]]
set -u
program=${1:-$(dirname "$0")/../crates/cc_tests_calculus/out/cc_tests_calculus_tests}
[ -x "$program" ] || { echo "bench/subcapturing.sh: there is no program $program: build it first" >&2; exit 1; }
exec python3 "$(dirname "$0")/calls.py" "$program" "${2:-5}" 5000 thousand 'a chain of closures=subcapturing::a_chain_of'
