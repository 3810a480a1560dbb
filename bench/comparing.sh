#!/usr/bin/env bash
# Measures how long it takes to compare two types of size 4,000, functions whose parameters are functions again and
# again, and the same for 2,000, in microseconds a call. It fails where there is no program or a test fails.
# Build the program first: cd crates/cc_tests_calculus && rt test
# Usage: bench/comparing.sh [PROGRAM [RUNS]]
set -u
program=${1:-$(dirname "$0")/../crates/cc_tests_calculus/out/cc_tests_calculus_tests}
[ -x "$program" ] || { echo "bench/comparing.sh: there is no program $program: build it first" >&2; exit 1; }
exec python3 "$(dirname "$0")/calls.py" "$program" "${2:-5}" 4000 hundred 'nested parameters=comparing::parameters_of'
