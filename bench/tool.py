#!/usr/bin/env python3
"""Measures `cap check` of 200 modules, and `cap watch` from a save to its answer, five times each.

Each module has ten definitions and imports one of the module before it. It prints the least and the greatest of the times, and
ends with 1 where a least one is above its bar.
Usage: bench/tool.py [CAPI]
"""
import os
import signal
import subprocess
import sys
import tempfile
import time

TOP = os.path.join(os.path.dirname(os.path.abspath(__file__)), "..")
CAP = os.path.join(TOP, "tools", "cap")
CAPI = sys.argv[1] if len(sys.argv) > 1 else os.path.join(TOP, "crates/capi/out/capi")
CHECK, WATCH, TIMES = 0.3, 0.1, 5


def chain(number):
    """Ten definitions, of which the first calls that of the module before."""
    if number == 0:
        return "".join("def d0x%d = fun (x: Int) => out.print(x + %d)\n" % (at, at) for at in range(10))
    head = "import m%d.d%dx0\n" % (number - 1, number - 1)
    return head + "".join("def d%dx%d = fun (x: Int) => val y = x * 2 + %d; d%dx0(y)\n" % (number, at, at, number - 1) for at in range(10))


def main():
    env = dict(os.environ, CAPI=os.path.abspath(CAPI))
    with tempfile.TemporaryDirectory() as work:
        for number in range(200):
            with open(os.path.join(work, "m%d.cap" % number), "w") as file:
                file.write(chain(number))
        words = ["--device", "out=console"]
        checks, answers = [], []
        for _ in range(TIMES):
            begin = time.monotonic()
            run = subprocess.run([sys.executable, CAP, "check", work] + words, env=env, stdout=subprocess.PIPE)
            checks.append(time.monotonic() - begin)
            assert run.stdout == b"200 modules are accepted\n", run.stdout
        watch = subprocess.Popen([sys.executable, CAP, "watch", work] + words, env=env, stdout=subprocess.PIPE)
        watch.stdout.readline()
        for turn in range(2 * TIMES):
            time.sleep(0.07 + 0.013 * turn)
            begin = time.monotonic()
            with open(os.path.join(work, "m100.cap"), "w") as file:
                file.write(chain(100) + ("def wrong = x\n" if turn % 2 == 0 else ""))
            line = watch.stdout.readline()
            answers.append(time.monotonic() - begin)
            while b"modules" not in line:
                line = watch.stdout.readline()
        watch.send_signal(signal.SIGINT)
        watch.wait()
    print("check of 200 modules: %.3f to %.3f s, of %.1f" % (min(checks), max(checks), CHECK))
    print("from a save to the answer: %.3f to %.3f s, of %.1f" % (min(answers), max(answers), WATCH))
    sys.exit(1 if min(checks) > CHECK or min(answers) > WATCH else 0)


main()
