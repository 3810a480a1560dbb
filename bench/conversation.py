"""Measures conversations: edits with checks, jobs in pieces of 1 byte, a live run, and runs beside many modules.

Usage: conversation.py PROGRAM EDITS
"""
import os
import re
import socket
import subprocess
import sys
import tempfile

from rows import put

program, edits = sys.argv[1], int(sys.argv[2])
failed = False
folder = tempfile.TemporaryDirectory()


def compiled(name):
    """The program in C of the name, which stands beside this script."""
    made = os.path.join(folder.name, name)
    if not os.path.exists(made):
        subprocess.run(['cc', '-O2', '-o', made, os.path.join(os.path.dirname(os.path.abspath(__file__)), name + '.c')], check=True)
    return made


def bar(words, found, most):
    """Says that so much is too much, if it is."""
    global failed
    if found > most:
        print('  %s: %.1f, where %.1f is the most' % (words, found, most))
        failed = True


def wanted(answer, last):
    """Keeps whether the last line of an answer, before its empty line, is this one."""
    global failed
    if not (b'\n' + answer).endswith(('\n%s\n\n' % last).encode()):
        print('another answer:', answer[-100:])
        failed = True


class Conversation:
    """A conversation with the program."""

    def __init__(self):
        self.run = subprocess.Popen([program], stdin=subprocess.PIPE, stdout=subprocess.PIPE, bufsize=0)
        self.say('capc 1\ndevice out console\ndevice hits counter\n', 0)

    def say(self, text, answers):
        """What is answered to commands, of which there are so many."""
        self.run.stdin.write(text.encode())
        heard, ends = b'', 0
        while ends < answers:
            piece = os.read(self.run.stdout.fileno(), 1 << 16)
            if not piece:
                sys.exit('conversation.py: the program ended with %d' % self.run.wait())
            # an end of an answer may begin with the piece before
            ends += (heard[-1:] + piece).count(b'\n\n')
            heard += piece
        return heard

    def took(self):
        """The processor's time up to here in milliseconds."""
        with open('/proc/%d/schedstat' % self.run.pid) as file:
            return int(file.read().split()[0]) / 1e6

    def memory(self):
        """The most memory up to here in MB."""
        with open('/proc/%d/status' % self.run.pid) as file:
            return int(re.search(r'VmHWM:\s*(\d+)', file.read()).group(1)) / 1024

    def end(self):
        self.run.stdin.close()
        if self.run.wait() != 0:
            sys.exit('conversation.py: status %d' % self.run.returncode)


def module(number, added):
    """A module of 5,000 bytes, which imports a definition of the one before it."""
    imports = ['import m%03d.d%dx79' % (number - 1, number - 1)] if number > 0 else []
    return put('m%03d' % number, imports + ['def d%dx%d = fun (x: Int) => x * %d + %d // %s' % (number, at, at, added, 'x' * 20)
                                            for at in range(80)])


def edited():
    """Edits of the module in the middle of 200, each with a check."""
    it = Conversation()
    for number in range(200):
        it.say(module(number, 0), 1)
    wanted(it.say('check\n', 1), '  m199 ok')
    few = min(100, edits // 2)
    for edit in range(edits):
        if edit == few:
            memory, before = it.memory(), it.took()
        wanted(it.say(module(100, edit + 1) + 'check\n', 2), '  m199 ok')
    each, most = (it.took() - before) / (edits - few), it.memory()
    it.end()
    print('an edit of one of 200 modules with a check: %.2f ms; %.1f MB behind %d edits, %.1f MB behind %d'
          % (each, memory, few, most, edits))
    bar('milliseconds of an edit', each, 1.3)
    bar('MB behind the first edits', most - memory, 2)


def in_pieces(reader, job):
    """The seconds of the processor's time that a program takes for a job in pieces of 1 byte, in all and by itself, and the last
    bytes of what is answered."""
    mine, theirs = socket.socketpair(socket.AF_UNIX, socket.SOCK_SEQPACKET)
    with tempfile.TemporaryFile() as out:
        child = os.fork()
        if child == 0:
            os.dup2(theirs.fileno(), 0)
            os.dup2(out.fileno(), 1)
            mine.close()
            os.execv(reader, [reader])
        theirs.close()
        for at in range(len(job)):
            mine.send(job[at:at + 1])
        mine.close()
        _, _, used = os.wait4(child, 0)
        out.seek(0)
        return used.ru_utime + used.ru_stime, used.ru_utime, out.read()[-100:]


def pieces(words, job_of, last_of):
    """Each piece is one read, which the system takes its time for: so a reader in C that does nothing else is measured, too, and
    what the program takes beyond that counts."""
    took = []
    for size in (1 << 21, 1 << 22):
        job = job_of(size)
        bare, _, _ = in_pieces(compiled('reading'), job)
        seconds, own, answer = in_pieces(program, job)
        wanted(answer, last_of(size))
        took.append(seconds - bare)
    print('%s of 4 MiB in pieces of 1 byte: %.1f s beyond the %.1f s of a reader in C, %.1f s of them by itself; %.1f s for half of it'
          % (words, took[1], bare, own, took[0]))
    bar('seconds beyond a reader', took[1], 2)
    bar('seconds by itself', own, 2)


def modules(size):
    """A job of so many bytes: modules of 16,000 bytes with definitions and comments."""
    text = ['// %s' % ('x' * 96)] * 76 + ['def d%d = fun (x: Int) => x * %d' % (at, at) for at in range(250)]
    lines = 'capc 1\n' + ''.join(put('m%03d' % number, text) for number in range(size // 16384)) + 'check\n'
    return lines.encode().ljust(size, b'\n')


def one_line(size):
    """A job of so many bytes, of which a text has nearly all in one line."""
    head = b'capc 1\nput m 1\n'
    return head + b'x' * (size - len(head) - 1) + b'\n'


def answered():
    """A live run of 100,000 operations."""
    said = ('capc 1\ndevice out console\n' + put('m', ['def main = fun (u: Unit) =>',
            '  val f = fun (i: Int) => out.print(i); repeat(100000, f)']) + 'policy 1\nallow m out\nlive m.main 1000000\n')
    told = subprocess.run([compiled('answering'), program], input=said.encode(), stdout=subprocess.PIPE, check=True).stdout
    count, whole, used = map(int, told.split())
    if count != 100000:
        sys.exit('conversation.py: %d operations' % count)
    print('a live run of 100,000 operations: %.1f microseconds each by the clock, %.1f of the program'
          % (whole / count, used / count))
    bar('microseconds of an operation', used / count, 20)


def beside():
    """Runs of a small definition beside 256 modules, with it, of 200 definitions."""
    it = Conversation()
    for number in range(255):
        it.say(put('m%d' % number, ['def f%d = fun (x: Int) => x + %d' % (at, number) for at in range(200)]), 1)
    it.say(put('small', ['def main = fun (u: Unit) => 5']), 1)
    wanted(it.say('check\n', 1), '  small ok')
    wanted(it.say('run small.main 10\n', 1), '  done 5 after 1 steps')
    before = it.took()
    for _ in range(1000):
        wanted(it.say('run small.main 10\n', 1), '  done 5 after 1 steps')
    each = it.took() - before
    it.end()
    print('1,000 runs beside 256 modules of 200 definitions: %.1f microseconds each' % each)
    bar('microseconds of a run', each, 100)


edited()
pieces('modules', modules, lambda size: '  m%03d ok' % (size // 16384 - 1))
pieces('a line', one_line, lambda size: 'put m refused E30')
answered()
beside()
sys.exit(1 if failed else 0)
