#!/usr/bin/env bash
# Measures certificates that are dear to read or to judge, each at its full size and at half of it: the processor's time
# in milliseconds, the start of the process among it, what the time is to that of the half, and the greatest memory in MB,
# on a stack of 512 KB; and binds whose names have one hash beside others. It fails where there is no program, where an
# answer is another one, where a full size takes more than its bar, and where names of one hash take more than one and a
# half times as long as others.
# Build the program first: cd crates/certify && rt run < stdin
# Usage: bench/certify.sh [PROGRAM [RUNS [WORD ..]]] for the certificates whose names have one of the words
set -u
program=${1:-$(dirname "$0")/../crates/certify/out/certify}
[ -x "$program" ] || { echo "bench/certify.sh: there is no program $program: build it first" >&2; exit 1; }
PYTHONDONTWRITEBYTECODE=1 exec python3 "$(dirname "$0")/certify.py" "$program" "${2:-3}" "${@:3}"
