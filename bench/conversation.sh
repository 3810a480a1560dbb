#!/usr/bin/env bash
# Measures conversations: edits of one of 200 modules of 5,000 bytes, with a check behind each: the processor's time of one
# in milliseconds, and the memory of the first hundred and at the end; jobs of 4 MiB, and of half of it, in pieces of 1
# byte, of which each is one read: modules, and one line, beside a reader in C that does nothing else; a live run of 100,000
# operations, which a host in C answers over pipes; and 1,000 runs of a small definition beside 256 modules of 200
# definitions. It fails where there is no program, where an answer is another one, where an edit with its check takes more
# than 1.3 ms, where the memory grows by more than 2 MB behind the first hundred edits, where a job in pieces takes more than
# 2 s by itself or beyond what the reader takes, where an operation takes more than 20 microseconds of the program's time, or a run more
# than 100.
# Build the program first: cd crates/capi && rt run < stdin
# Usage: bench/conversation.sh [PROGRAM [EDITS]]
set -u
program=${1:-$(dirname "$0")/../crates/capi/out/capi}
[ -x "$program" ] || { echo "bench/conversation.sh: there is no program $program: build it first" >&2; exit 1; }
PYTHONDONTWRITEBYTECODE=1 exec python3 "$(dirname "$0")/conversation.py" "$program" "${2:-100000}"
