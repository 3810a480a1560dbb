"""Measures jobs that explain signatures and replay traces, each at its full size and at half of it.

Usage: why.py PROGRAM RUNS
"""
import subprocess
import sys

import measuring

program, runs = sys.argv[1], int(sys.argv[2])
failed = False


def measured(job, last):
    """The shortest time of the runs in milliseconds, and the memory in MB; the last line of the output is this one."""
    global failed
    best, most, _, line = measuring.measured(program, job, runs)
    if line != last:
        print('another answer:', line[:100])
        failed = True
    return best, most


def shown(name, half, full, bar, base=(0, 0)):
    """One row: the half, the full size, and whether that is within the bar, without what the bases take."""
    global failed
    less, more = half[0] - base[0], full[0] - base[1]
    print('%-56s %7.1f %7.1f ms  %5.1f  %6.0f MB' % (name, less, more, more / max(less, 0.1), full[1]))
    if more > bar:
        print('  more than %d ms' % bar)
        failed = True


def row(count):
    """So many modules, each with a function that calls that of the one before it; the first one prints."""
    job = 'capc 1\ndevice out console\nput m0 1\ndef f0 = fun (x: Int) => out.print(x)\n'
    for k in range(1, count):
        job += 'put m%d 2\nimport m%d.f%d\ndef f%d = fun (x: Int) => f%d(x)\n' % (k, k - 1, k - 1, k, k - 1)
    return job + 'check\n', 'm%d.f%d' % (count - 1, count - 1), ' '.join('m%d.f%d' % (k, k) for k in reversed(range(count)))


def dense(count, definitions):
    """So many modules of definitions that call all before them in their module; the first one calls the last of the module before."""
    job = 'capc 1\ndevice out console\n'
    for k in range(count):
        lines = ['import m%d.l%d' % (k - 1, k - 1)] if k else []
        lines.append('def a0 = fun (u: Unit) => %s' % ('l%d(u)' % (k - 1) if k else 'out.print(1)'))
        for d in range(1, definitions):
            calls = ''.join('val x=a%d(u);' % before for before in range(d - 1))
            lines.append('def a%d = fun (u: Unit) => %sa%d(u)' % (d, calls, d - 1))
        lines.append('def l%d = fun (u: Unit) => a%d(u)' % (k, definitions - 1))
        job += 'put m%d %d\n%s\n' % (k, len(lines), '\n'.join(lines))
    chain = ' '.join('m%d.l%d m%d.a%d m%d.a0' % (k, k, k, definitions - 1, k) for k in reversed(range(count)))
    return job + 'check\n', 'm%d.l%d' % (count - 1, count - 1), chain


def explained(modules):
    """What explaining the last definition of these modules takes, and what checking them alone takes."""
    job, definition, chain = modules
    base = measured(job, '  %s ok' % max((line[4:].split(' ')[0] for line in job.split('\n') if line.startswith('put ')), key=str.encode))
    return measured(job + 'explain %s\n' % definition, '  out: %s out' % chain), base[0]


def shown_why(name, half, full, bar):
    """One row of explained signatures."""
    (less, less_base), (more, more_base) = explained(half), explained(full)
    shown(name, less, more, bar, (less_base, more_base))


def replayed(count):
    """A run that prints so often, and its replay."""
    text = ('capc 1\ndevice o console\nput m 1\n'
            'def main = fun (u: Unit) => val f = fun (i: Int) => o.print(1); repeat(%d, f)\n' % count)
    run = text + 'run m.main 1000000\n'
    answer = subprocess.run([program], input=run.encode(), stdout=subprocess.PIPE, check=False).stdout.decode()
    lines = [line[2:] for line in answer.split('\n') if line.startswith('  ')][1:]
    job = text + 'replay m.main 1000000 %d\n' % len(lines) + ''.join(line + '\n' for line in lines)
    return measured(run, '  ' + lines[-1]), measured(job, '  agrees')


shown_why('a signature explained behind a row of 200 modules', row(100), row(200), 20)
shown_why('the same behind 220 modules of 45 definitions', dense(110, 45), dense(220, 45), 1000)
(half_run, half_replay), (full_run, full_replay) = replayed(150000), replayed(300000)
shown('a run of 300,000 events', half_run, full_run, 300)
shown('its replay', half_replay, full_replay, 500)
sys.exit(1 if failed else 0)
