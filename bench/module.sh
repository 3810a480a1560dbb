#!/usr/bin/env bash
# Measures how long the built program takes for a module of 4,096 bytes, in microseconds a run, the start of the process
# among them. It fails where there is no program, or where a run answers anything but that the module is accepted.
# Build the program first: cd crates/capc && rt run < stdin
# Usage: bench/module.sh [PROGRAM [RUNS]]
set -u
program=${1:-$(dirname "$0")/../crates/capc/out/capc}
runs=${2:-100}

fail() {
    echo "bench/module.sh: $1" >&2
    exit 1
}

[ -f "$program" ] && [ -x "$program" ] || fail "there is no program $program: build it first"
case $runs in
    '' | *[!0-9]* | 0*) fail "the number of runs is no positive number: $runs" ;;
esac
work=$(mktemp -d) || fail 'no folder for its files'
trap 'rm -rf "$work"' EXIT

# nested functions up to the greatest height, then white space up to 4,096 bytes
text='def deep ='
for level in $(seq 0 97); do
    text+=$'\n'"fun (x$level: (y: Unit) -> Unit) =>"
done
text+=$'\n'out
[ "${#text}" -le 4095 ] || fail 'the text is longer than a module may be'
printf '%-4095s\n' "$text" > "$work/text"
lines=$(wc -l < "$work/text")
{ printf 'capc 1\ndevice out console\nput m %d\n' "$lines"; cat "$work/text"; printf 'check'; } > "$work/job"
printf 'put m\ncheck\n  m ok\n' > "$work/wanted"

"$program" < "$work/job" > "$work/out"
status=$?
[ "$status" -eq 0 ] || fail "the program ended with status $status, not 0"
cmp -s "$work/out" "$work/wanted" || fail "the program answered, first of all: $(head -n 1 "$work/out")"

start=$(date +%s%N)
for _ in $(seq "$runs"); do
    "$program" < "$work/job" > /dev/null || fail 'a run did not accept the module'
done
end=$(date +%s%N)
echo "$(( (end - start) / runs / 1000 )) microseconds a run, of $runs runs"
