"""Runs the programs again and again, and refuses them another read or write each time; and has them move few bytes a call.

- Where a read is refused, status and message say so, and nothing is read behind it. Nothing is written; of a conversation
  a front of the whole text is, which is no shorter for each later read.
- Where a write is refused, or takes nothing, status and message say so, nothing is written behind it, and what was written
  is a front of the whole text, which is longer for each later write.
- Where a message is refused, status and text are the same, and only a piece of what is told is missing, or nothing.
- Where each call moves one byte, or seven, the answer is the same.
A read or a write is refused by an error of the device, and by a signal that interrupts it: none is tried again. The
programs that are run are the built ones; the refusals come from a library in C that is laid before the C library
(refusing.c), which gcc builds. The jobs, certificates and conversations are those that are named, or else the examples;
workloads and bad words are tried besides. It prints a line for each wrong answer and then one for each run.

Usage: python3 checks/refused_streams.py [--most N] [--capc PROGRAM] [--certify PROGRAM] [--capi PROGRAM] [FILE ..]
"""
import errno
import os
import sys

sys.dont_write_bytecode = True
import refusing

# how many bytes a call moves at most (0: all), and how a call is refused (0: it moves nothing)
WAYS = [(0, errno.EIO), (0, errno.EINTR), (0, 0), (1, errno.EIO), (7, errno.EIO)]
FAULTS = {'input': 'read fault', 'output': 'write fault'}


def is_right(kind, program, number, answer, whole):
    """Whether an answer is the one that is due where the call of this kind and number is refused."""
    if kind == 'message':
        same = len(os.path.commonprefix([answer[2], whole[2]]))
        return answer[:2] == whole[:2] and len(answer[2]) <= len(whole[2]) and whole[2].endswith(answer[2][same:])
    front = b'' if kind == 'input' and program != 'capi' else whole[1][:len(answer[1])]
    return refusing.is_fault(answer, program, FAULTS[kind]) and answer[1] == front and answer[3] == number


def tried(name, program, command, job, library, most):
    """How many answers are wrong."""
    whole = refusing.answered(command, job, library)
    calls, refused, wrong = {}, 0, 0

    def failed(words, answer):
        print('FAILED %s: %s: status %d, %r' % (name, words, answer[0], answer[2]))
        return 1

    for bytes_moved, error in WAYS:
        for kind in ('input', 'output', 'message'):
            if kind == 'input' and not error:
                continue  # that is the end of what is read
            settings = {'kind': kind, 'most': bytes_moved, 'error': error}
            plain = refusing.answered(command, job, library, **settings)
            calls.setdefault(kind, plain[3])
            if plain[:3] != whole[:3]:
                wrong += failed('%d bytes a call' % bytes_moved, plain)
            written = -1
            for number in refusing.numbers(plain[3], most):
                answer = refusing.answered(command, job, library, refused=number, **settings)
                refused += 1
                least = {'input': written, 'output': written + 1}.get(kind, 0)
                if not is_right(kind, program, number, answer, whole) or len(answer[1]) < least:
                    wrong += failed('call %d of %s refused by error %d' % (number, kind, error), answer)
                written = len(answer[1])
    print('%s: %d reads, %d writes, %d messages, %d times one of them or of their parts refused in turn, %d wrong answers'
          % (name, calls['input'], calls['output'], calls['message'], refused, wrong))
    return wrong


if __name__ == '__main__':
    refusing.main(tried)
