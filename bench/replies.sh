#!/usr/bin/env bash
# Measures jobs that run definitions, run them interleaved, link many modules, show derivations, and audit and guard by
# policies, each at its full size and at half of it: the processor's time in milliseconds, the start of the process among
# it, the greatest memory in MB, and what the time is to that of the half. A job that checks the same modules alone is
# subtracted where modules are many. Jobs that are full of one command, commands that ask again for one definition beside
# many modules, and eight tasks beside them. Then jobs whose replies are large beside them, with the memory that they take.
# Where another program is named that runs definitions too, both are measured by turns on runs of a million steps and on
# jobs full of a command that it has. It fails where there is no program, where an answer is another one, where a full size
# takes more than its bar, where a job full of a command takes more than twice as long as by the other program, where a
# command that asks again beside 192 modules takes more than 50 microseconds, where eight tasks beside these take more than
# 100 MB, and where a large reply takes more than 64 MB.
# Build the program first: cd crates/capc && rt run < stdin
# Usage: bench/replies.sh [PROGRAM [RUNS [OTHER]]]
set -u
program=${1:-$(dirname "$0")/../crates/capc/out/capc}
[ -x "$program" ] || { echo "bench/replies.sh: there is no program $program: build it first" >&2; exit 1; }
PYTHONDONTWRITEBYTECODE=1 exec python3 "$(dirname "$0")/replies.py" "$program" "${2:-5}" "${3:-}"
