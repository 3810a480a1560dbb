"""Runs of the program on a job, measured."""
import os
import tempfile


def measured(program, job, runs, words=()):
    """The shortest time of the runs in milliseconds, the greatest memory in MB, the last status, and the last line."""
    best, most = None, 0
    with tempfile.TemporaryDirectory() as folder:
        path, out = os.path.join(folder, 'job'), os.path.join(folder, 'out')
        with open(path, 'w', encoding='utf8') as file:
            file.write(job)
        for _ in range(runs):
            child = os.fork()
            if child == 0:
                os.dup2(os.open(path, os.O_RDONLY), 0)
                os.dup2(os.open(out, os.O_WRONLY | os.O_CREAT | os.O_TRUNC), 1)
                os.execv(program, [program, *words])
            _, status, used = os.wait4(child, 0)
            took = (used.ru_utime + used.ru_stime) * 1000
            best = took if best is None else min(best, took)
            most = max(most, used.ru_maxrss / 1024)
        with open(out, 'rb') as file:
            # the last line, or its end where it is long
            file.seek(max(0, os.path.getsize(out) - 1000000))
            lines = file.read().decode('utf8', 'replace').split('\n')
    return best, most, os.waitstatus_to_exitcode(status), lines[-2] if len(lines) > 1 else ''
