#!/usr/bin/env bash
# Measures operations on two sets of 5,000 elements each and of 2,500, in microseconds a call: a union and the test that
# it is the set that it should be, where the elements are next to one another and where they are far apart; and three
# inclusions and an equality of sets whose elements are far apart. It fails where there is no program or a test fails.
# Build the program first: cd crates/cc_tests_calculus && rt test
# Usage: bench/sets.sh [PROGRAM [RUNS]]
set -u
program=${1:-$(dirname "$0")/../crates/cc_tests_calculus/out/cc_tests_calculus_tests}
[ -x "$program" ] || { echo "bench/sets.sh: there is no program $program: build it first" >&2; exit 1; }
exec python3 "$(dirname "$0")/calls.py" "$program" "${2:-5}" 5000 thousand \
    'a union and an equality=large_sets::unions_of' \
    'the same, far apart=large_sets::far_unions_of' \
    'three inclusions and an equality, far apart=large_sets::inclusions_of'
