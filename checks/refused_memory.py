"""Runs the programs again and again, and refuses them another call of the allocator each time.

Each answer has to be the whole one, or want of memory: then status and message say so, and what is written is a front of
the whole text. Words that are bad stay so, with or without the usage text, unless memory lacks for the words themselves.
The programs that are run are the built ones; the refusals come from a library in C that is laid before the allocator
(refusing.c), which gcc builds. The jobs, certificates and conversations are those that are named, or else the examples;
workloads and bad words are tried besides. It prints a line for each wrong answer and then one for each run. Where the tests
of calls are built (`rt test` in crates/cc_tests_calls), so is the test of a session there whose calls are made again where
they found no memory: it has to pass, or to find no memory before the session is there.

Usage: python3 checks/refused_memory.py [--most N] [--capc PROGRAM] [--certify PROGRAM] [--capi PROGRAM] [FILE ..]
"""
import os
import sys

sys.dont_write_bytecode = True
import refusing


def answered(command, job, library, number):
    return refusing.answered(command, job, library, kind='memory', refused=number)


def is_right(answer, whole, program):
    """Whether an answer is the whole one, or want of memory with a front of its text."""
    if answer[:3] == whole[:3]:
        return True
    if whole[0] == 6 and answer[0] == 6:
        return answer[1:3] == (b'', b'%s: bad words\n' % program.encode())
    return refusing.is_fault(answer, program, 'out of memory') and whole[1].startswith(answer[1])


def tried(name, program, command, job, library, most):
    """How many answers are wrong."""
    whole = answered(command, job, library, 0)
    numbers = refusing.numbers(whole[3], most)
    wrong, wanting = 0, 0
    for number in numbers:
        answer = answered(command, job, library, number)
        wanting += b'out of memory' in answer[2]
        if not is_right(answer, whole, program):
            wrong += 1
            print('FAILED %s: call %d refused: status %d, %r' % (name, number, answer[0], answer[2]))
    print('%s: %d calls of the allocator, %d of them refused in turn, %d times want of memory, %d wrong answers'
          % (name, whole[3], len(numbers), wanting, wrong))
    return wrong


def session_tried(library):
    """How many runs of the test of a session are wrong."""
    program = os.path.join(refusing.TOP, 'crates/cc_tests_calls/out/cc_tests_calls_tests')
    if not os.path.exists(program):
        return 0
    command = [program, 'refused::what_finds_no_memory_changes_nothing']
    wrong, early = 0, 0
    calls = answered(command, b'', library, 0)[3]
    for number in range(1, calls + 1):
        status, said, error, _ = answered(command, b'', library, number)
        early += status != 0 and b'AllocError' in said + error
        if status != 0 and b'AllocError' not in said + error:
            wrong += 1
            print('FAILED a session: call %d refused: %r' % (number, said + error))
    print('a session: %d calls of the allocator refused in turn, %d of them before it was there, %d wrong answers'
          % (calls, early, wrong))
    return wrong


if __name__ == '__main__':
    refusing.main(tried, session_tried)
