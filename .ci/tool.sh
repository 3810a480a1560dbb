#!/usr/bin/env bash
# Runs the tests of tools/cap on the built programs, and those of the files in editors, side by side. Each prints what fails, and
# how many passed and failed. It ends with 1 where one failed.
# Usage: .ci/tool.sh [CAPI CERTIFY]; with no programs those that `rt ci` leaves.
set -u
top=$(cd "$(dirname "$0")/.." && pwd)
capi=${1:-$top/crates/capi/out/capi}
certify=${2:-$top/crates/certify/out/certify}
"$top/editors/test.py" &
"$top/tests/cap/run" "$capi" "$certify"
status=$?
wait $! || status=1
exit $status
