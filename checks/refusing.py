"""What the scripts that refuse calls have in common: they run a program with refusing.c laid before the C library."""
import argparse
import glob
import os
import subprocess
import sys
import tempfile

# the status of `capc` and of `capi` for each fault; that of `certify` is 2 for all of them
STATUSES = {'read fault': 3, 'write fault': 4, 'out of memory': 5}
# the program that reads a file, by its ending; `capc` where it is another
PROGRAMS = {'.cert': 'certify', '.in': 'capi', '.talk': 'capi'}
TOP = os.path.join(os.path.dirname(os.path.abspath(__file__)), '..')


def built(folder):
    """The library that refuses, built by gcc in this folder."""
    library = os.path.join(folder, 'refusing.so')
    subprocess.run(['gcc', '-shared', '-fPIC', '-O1', '-fno-builtin', '-o', library,
                    os.path.join(TOP, 'checks/refusing.c')], check=True)
    return library


def answered(command, job, library, **settings):
    """Status, text and message of a run in which a call is refused as the settings say, and how many calls there were."""
    counted = os.path.join(os.path.dirname(library), 'counted')
    environment = dict(os.environ, LD_PRELOAD=library, COUNTED=counted)
    environment.update((name.upper(), str(one)) for name, one in settings.items())
    run = subprocess.run(command, input=job, capture_output=True, env=environment, timeout=120)
    with open(counted) as file:
        return run.returncode, run.stdout, run.stderr, int(file.read())


def is_fault(answer, program, fault):
    """Whether the answer's status and message are those of the fault."""
    status = 2 if program == 'certify' else STATUSES[fault]
    return answer[0] == status and answer[2] == ('%s: %s\n' % (program, fault)).encode()


def numbers(calls, most):
    """Which of so many calls are refused in turn: all, or about as many as there may be, far apart."""
    return range(1, calls + 1, max(1, -(-calls // most)))


def runs(given):
    """The runs that are tried, each with its name, its program, its command and what it reads: those of the files that are
    named, or else of the examples, and some with words of their own."""
    for path in given.files or sorted(glob.glob(os.path.join(TOP, 'examples/*.job'))
                                      + glob.glob(os.path.join(TOP, 'examples/*.cert'))
                                      + glob.glob(os.path.join(TOP, 'examples/conversation/*.in'))):
        with open(path, 'rb') as file:
            program = PROGRAMS.get(os.path.splitext(path)[1], 'capc')
            yield os.path.relpath(path, TOP), program, [getattr(given, program)], file.read()
    for words in (['--workload', '2'], ['--workload=200'], ['--frob']):
        yield ' '.join(words), 'capc', [given.capc] + words, b''
    yield 'capi --frob', 'capi', [given.capi, '--frob'], b''


def main(tried, beside=lambda library: 0):
    """Tries the runs of the command line, each by `tried`, which returns how many answers were wrong."""
    parser = argparse.ArgumentParser()
    parser.add_argument('--most', type=int, default=5000, help='how many calls of one run are refused at most')
    for program in ('capc', 'certify', 'capi'):
        parser.add_argument('--' + program, metavar='PROGRAM', default=os.path.join(TOP, 'crates', program, 'out', program))
    parser.add_argument('files', nargs='*', metavar='FILE',
                        help='jobs, certificates (.cert) and conversations (.in, .talk); the examples where there is none')
    given = parser.parse_args()
    with tempfile.TemporaryDirectory() as folder:
        library = built(folder)
        wrong = sum(tried(*run, library, given.most) for run in runs(given)) + beside(library)
    sys.exit(1 if wrong else 0)
