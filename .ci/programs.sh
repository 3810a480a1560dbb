#!/usr/bin/env bash
# Runs the built programs on the examples of the pages, and on what needs a shell: streams that are closed, that cannot be
# read or that take nothing, or not all, or that do not wait, standard input that is not to be read, and the deepest types
# and the highest certificates on a small stack, and the hosts of examples/conversation. All other jobs, certificates,
# conversations and command lines stand in tests/.
# It prints a line for each failure and a closing line where there is one, and nothing where all is as it must be.
# Usage: .ci/programs.sh [PROGRAM ..]; with no program, those that `rt ci` leaves, those that judge certificates, and those
# that have conversations. A program that is named has conversations where its name begins with capi.
set -u
top=$(cd "$(dirname "$0")/.." && pwd)
built=$top/crates/capc/out/capc
judge=$top/crates/certify/out/certify
talker=$top/crates/capi/out/capi
programs=()
judges=()
talkers=()
for named; do
    case $(basename "$named") in
        capi*) talkers+=("$named") ;;
        *) programs+=("$named") ;;
    esac
done
if [ $# -eq 0 ]; then
    if [ ! -x "$built" ]; then
        (cd "$top/crates/capc" && rt run < stdin > /dev/null 2>&1)
    fi
    programs=("$built")
    [ -x "$built.by-rattle" ] && programs=("$built" "$built.by-rattle")
    if [ ! -x "$judge" ]; then
        (cd "$top/crates/certify" && rt run < stdin > /dev/null 2>&1)
    fi
    judges=("$judge")
    [ -x "$judge.by-rattle" ] && judges=("$judge" "$judge.by-rattle")
    if [ ! -x "$talker" ]; then
        (cd "$top/crates/capi" && rt run < stdin > /dev/null 2>&1)
    fi
    talkers=("$talker")
    [ -x "$talker.by-rattle" ] && talkers=("$talker" "$talker.by-rattle")
fi

# what is said of bad words
usage='capc: bad words
Reads a job from standard input, carries it out, and writes the replies.

Usage: capc [OPTIONS]

Options:
      --workload <N>  Carry out the job of a workload of N modules, 1 to 200, and write its summary
'

# and by the programs that have no words
no_words='certify: bad words
Reads a certificate from standard input and says whether it is valid.

Usage: certify
'
nothing_said='capi: bad words
Answers what is said on standard input, command by command.

Usage: capi
'

work=$(mktemp -d) || exit 1
trap 'rm -rf "$work"' EXIT
failed=0

# expect NAME STATUS STDOUT STDERR: what the run that has just left its three answers in $work must have given
expect() {
    local name=$1 status=$2 wrong=
    printf '%b' "$3" > "$work/wanted_out"
    printf '%b' "$4" > "$work/wanted_err"
    [ "$(cat "$work/status")" = "$status" ] || wrong="status $(cat "$work/status"), not $status"
    cmp -s "$work/out" "$work/wanted_out" || wrong="$wrong${wrong:+; }another standard output"
    cmp -s "$work/err" "$work/wanted_err" || wrong="$wrong${wrong:+; }another standard error"
    if [ -n "$wrong" ]; then
        failed=$((failed + 1))
        echo "FAILED $program: $name: $wrong"
    fi
}

# run WORD ..: runs the program on standard input
run() {
    timeout 120 "$program" "$@" > "$work/out" 2> "$work/err"
    echo $? > "$work/status"
}

# full WORD ..: runs it on standard input where the device for its output is full
full() {
    timeout 120 "$program" "$@" > /dev/full 2> "$work/err"
    echo $? > "$work/status"
    : > "$work/out"
}

# closed WORD ..: runs it on standard input where there is no standard output
closed() {
    timeout 120 "$program" "$@" >&- 2> "$work/err"
    echo $? > "$work/status"
    : > "$work/out"
}

# short WORD ..: runs it on standard input where its output is a file that takes 1,024 bytes and no more
short() {
    (ulimit -f 1 && trap '' XFSZ && exec timeout 120 "$program" "$@") > "$work/out" 2> "$work/err"
    echo $? > "$work/status"
}

# restless STREAM: runs it where this stream, `stdin` or `stdout`, is a pipe that does not wait and has, or takes, nothing
restless() {
    python3 -c '
import os, subprocess, sys
program, stream, work = sys.argv[1:]
ends = dict(zip(("stdin", "stdout"), os.pipe()))
for end in ends.values():
    os.set_blocking(end, False)
try:
    while stream == "stdout":
        os.write(ends["stdout"], b" " * 4096)
except BlockingIOError:
    pass
streams = {"stdin": sys.stdin, "stdout": open(work + "/out", "wb"), "stderr": open(work + "/err", "wb")}
streams[stream] = ends[stream]
print(subprocess.run([program], timeout=120, **streams).returncode)
' "$program" "$1" "$work" > "$work/status"
}

# low WORD ..: runs it on standard input with a stack of 512 KB
low() {
    (ulimit -s 512 && exec timeout 120 "$program" "$@") > "$work/out" 2> "$work/err"
    echo $? > "$work/status"
}

# hosted HOST: has the host run what guests have put on the program
hosted() {
    local command=("$1")
    [[ $1 == *.py ]] && command=(python3 "$1")
    timeout 120 "${command[@]}" "$program" "$work/guest" app.main > "$work/out" 2> "$work/err" < /dev/null
    echo $? > "$work/status"
}

# leaving: runs it where a host closes its end of the output in the middle of a live run, and answers what it was asked last
leaving() {
    timeout 120 python3 -c '
import subprocess, sys
program, work = sys.argv[1:]
text = "def main = fun (u: Unit) => val a = out.print(1); val b = out.print(2); out.print(3)"
said = "capc 1\ndevice out console\nput m 1\n%s\npolicy 1\nallow m out\nlive m.main 100\n" % text
with open(work + "/out", "wb") as out, open(work + "/err", "wb") as err:
    run = subprocess.Popen([program], stdin=subprocess.PIPE, stdout=subprocess.PIPE, stderr=err, bufsize=0)
    run.stdin.write(said.encode())
    for line in iter(run.stdout.readline, b"  out print 1\n"):
        out.write(line)
    run.stdout.close()
    run.stdin.write(b"ok\n")
    print(run.wait())
' "$program" "$work" > "$work/status"
}

jobs=$top/examples
for program in ${programs[@]+"${programs[@]}"}; do
    if [ ! -x "$program" ]; then
        failed=$((failed + 1))
        echo "FAILED $program: there is no such program"
        continue
    fi

    # The examples, each of which says what is written for it.
    for example in "$jobs"/*.job; do
        wanted=0
        grep -qE '^  [^ ]+ E[0-9]+ |refused|out of fuel|^  bad (line|node) |^  differs at line ' "${example%.job}.out" &&
            wanted=1
        run < "$example"
        expect "the example $(basename "$example")" "$wanted" "$(sed 's/\\/\\\\/g' "${example%.job}.out")\n" ''
    done

    # A directory opens and cannot be read: it stands where standard input is not to be read, too. The full device takes
    # nothing.
    run --workload 2 < /
    expect 'a workload beside what cannot be read' 0 \
        'workload 2\nlines 17\nbytes 183\nlast done unit after 12 steps\n' ''
    run --frob < /
    expect 'bad words beside what cannot be read' 6 '' "$usage"
    run < /
    expect 'a read that fails' 3 '' 'capc: read fault\n'
    run <&-
    expect 'no standard input' 3 '' 'capc: read fault\n'
    full < "$jobs/accepted.job"
    expect 'a write that fails' 4 '' 'capc: write fault\n'
    closed < "$jobs/accepted.job"
    expect 'no standard output' 4 '' 'capc: write fault\n'
    full --workload 2 < /
    expect 'a summary that cannot be written' 4 '' 'capc: write fault\n'
    # A prefix of the replies that ends with whole lines: nothing but the status tells that it is one.
    short < <(printf 'capc 1\n' && printf 'put abcdefghijk 0\n%.0s' $(seq 65))
    expect 'replies that are cut at a line feed' 4 "$(printf 'put abcdefghijk\\n%.0s' $(seq 64))" 'capc: write fault\n'
    restless stdin < /dev/null
    expect 'a standard input that does not wait' 3 '' 'capc: read fault\n'
    restless stdout < "$jobs/accepted.job"
    expect 'a standard output that does not wait' 4 '' 'capc: write fault\n'
    # Nothing is written of a job without commands, and so no write fails.
    full < <(printf 'capc 1\n')
    expect 'no reply where none could be written' 0 '' ''

    # The deepest types, on a small stack.
    for deep in types_of_4090_levels_behind_vals a_variable_that_is_avoided_behind_4000_boxes \
        a_variable_that_is_avoided_behind_1300_functions; do
        PYTHONPATH=$top/tests PYTHONDONTWRITEBYTECODE=1 python3 "$top/tests/limits/$deep.job.py" > "$work/deep"
        low < "$work/deep"
        expect "$deep on a stack of 512 KB" 0 "$(sed '$d' "$top/tests/limits/$deep.out")\n" ''
    done
done

for program in ${judges[@]+"${judges[@]}"}; do
    if [ ! -x "$program" ]; then
        failed=$((failed + 1))
        echo "FAILED $program: there is no such program"
        continue
    fi
    run < "$jobs/identity.cert"
    expect 'the example identity.cert' 0 'valid (_0: Unit) -> Unit^{_0}\n' ''
    run identity.cert < /
    expect 'a word beside what cannot be read' 6 '' "$no_words"
    run < /
    expect 'a read of a certificate that fails' 2 '' 'certify: read fault\n'
    run <&-
    expect 'no standard input' 2 '' 'certify: read fault\n'
    restless stdin < /dev/null
    expect 'a standard input that does not wait' 2 '' 'certify: read fault\n'
    restless stdout < "$jobs/identity.cert"
    expect 'a standard output that does not wait' 2 '' 'certify: write fault\n'
    full < "$jobs/identity.cert"
    expect 'an answer that cannot be written' 2 '' 'certify: write fault\n'
    closed < "$jobs/identity.cert"
    expect 'no standard output' 2 '' 'certify: write fault\n'

    # Certificates as high as they may be, nested in each way.
    for script in "$top"/tests/limits/*_of_height_5000.cert.py; do
        deep=$(basename "$script" .cert.py)
        export PYTHONPATH=$top/tests PYTHONDONTWRITEBYTECODE=1
        python3 "$script" > "$work/deep"
        if [ -f "${script%.cert.py}.out.py" ]; then
            python3 "${script%.cert.py}.out.py" > "$work/answer"
        else
            cp "${script%.cert.py}.out" "$work/answer"
        fi
        low < "$work/deep"
        expect "$deep on a stack of 512 KB" "$(sed -n '$s/^status //p' "$work/answer")" "$(sed '$d' "$work/answer")\n" ''
    done
done

talk=$jobs/conversation
if [ ${#talkers[@]} -gt 0 ] && ! cc -std=c11 -o "$work/host" "$talk/host.c"; then
    failed=$((failed + 1))
    echo 'FAILED examples/conversation/host.c: cc does not take it'
fi
for program in ${talkers[@]+"${talkers[@]}"}; do
    if [ ! -x "$program" ]; then
        failed=$((failed + 1))
        echo "FAILED $program: there is no such program"
        continue
    fi
    run < "$talk/session.in"
    expect 'the example session.in' 1 "$(cat "$talk/session.out")\n\n" ''
    run session.in < /
    expect 'a word beside what cannot be read' 6 '' "$nothing_said"
    run < /
    expect 'a read that fails' 3 '' 'capi: read fault\n'
    run <&-
    expect 'no standard input' 3 '' 'capi: read fault\n'
    restless stdin < /dev/null
    expect 'a standard input that does not wait' 3 '' 'capi: read fault\n'
    restless stdout < "$talk/session.in"
    expect 'a standard output that does not wait' 4 '' 'capi: write fault\n'
    full < "$talk/session.in"
    expect 'an answer that cannot be written' 4 '' 'capi: write fault\n'
    closed < "$talk/session.in"
    expect 'no standard output' 4 '' 'capi: write fault\n'
    # A prefix of the answers that ends with an empty line: nothing but the status tells that it is one.
    short < <(printf 'capc 1\n' && printf 'put abcdefghij 0\n%.0s' $(seq 65))
    expect 'answers that are cut at an empty line' 4 "$(printf 'put abcdefghij\\n\\n%.0s' $(seq 64))" 'capi: write fault\n'
    leaving
    expect 'a host that leaves a live run' 4 'put m\n\npolicy 1\n\nlive m.main\n  authority {out}\n' 'capi: write fault\n'

    # The two hosts, each of which runs a definition twice: what it keeps stays. A name that would be lines is not said.
    verdicts='  app ok\n  greeting ok\n  visits ok\n'
    for host in "$talk/host.py" "$work/host"; do
        rm -rf "$work/guest"
        cp -r "$talk/guest" "$work/guest"
        for visit in 1 2; do
            hosted "$host"
            expect "$(basename "$host"), visit $visit" 0 "hello,\nguest\n42\n$visit\n" \
                "$verdicts  authority {out, data, hits}\n  done unit after 31 steps\n"
        done
        printf '4\n38\n42\n42\n' | cmp -s - "$work/guest/numbers" || {
            failed=$((failed + 1))
            echo "FAILED $program: $(basename "$host"): other numbers are kept"
        }
        sed -i '/^allow visits/d' "$work/guest/rules"
        hosted "$host"
        expect "$(basename "$host"), with a rule less" 1 '' "${verdicts}live app.main refused E38 visits hits\n"
        cp "$work/guest/app.cap" "$work/guest/"$'a 0\npolicy 1\nallow * *\nput b.cap'
        hosted "$host"
        grep -q 'no name' "$work/err" && : > "$work/err"
        expect "$(basename "$host"), where a name has line feeds" 1 '' ''
        rm "$work/guest/"a*
        printf '4\n38' > "$work/guest/numbers"
        hosted "$host"
        grep -q 'lacks its line feed' "$work/err" && : > "$work/err"
        expect "$(basename "$host"), where the last number lacks its line feed" 1 '' ''
        printf '4\n38' | cmp -s - "$work/guest/numbers" || {
            failed=$((failed + 1))
            echo "FAILED $program: $(basename "$host"): numbers are not as they were"
        }
    done
done

if [ "$failed" -gt 0 ]; then
    echo "$failed of what needs a shell, or of the examples, failed"
    exit 1
fi
