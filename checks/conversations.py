"""Has random conversations with capi, and compares them with what capc answers.

A job is made of pieces of tests/: devices, modules that are put and dropped, also with texts that are bent, checks, runs,
policies and the rest. It is said to capi in random pieces, and at the end of some commands nothing more is said until what
has to be answered by then is there: the output of capc for the job up to there, with an empty line behind each reply, and
nothing more. At the end the status has to be that of capc. It prints a line for each conversation that is answered
otherwise, with its number, and one for all. The number decides what is said, so FIRST and a COUNT of 1 have one again.

Usage: python3 checks/conversations.py PROGRAM_CAPI PROGRAM_CAPC [COUNT [FIRST]]
"""
import fcntl
import glob
import os
import random
import re
import struct
import subprocess
import sys
import termios
import threading
import time

TOP = os.path.join(os.path.dirname(os.path.abspath(__file__)), '..')
# lines with a number of lines behind them at their end
WITH_LINES = re.compile(rb'(?:put|verify|policy|replay)(?: \S+)*? (\d+)$')
SECONDS = 20


def pieces_of(job):
    """The devices and the commands of a job, each with the lines behind it."""
    lines = [line + b'\n' for line in job.removesuffix(b'\n').split(b'\n')]
    devices, commands = [], []
    at = 1
    while at < len(lines):
        behind = WITH_LINES.match(lines[at][:-1])
        end = at + 1 + (int(behind.group(1)) if behind else 0)
        if lines[at].startswith(b'device '):
            devices.append(lines[at])
        elif lines[at] != b'\n':
            commands.append(b''.join(lines[at:end]))
        at = end
    return devices, commands


def sources():
    """The devices and the commands of the tests whose jobs are carried out."""
    found = []
    for path in sorted(glob.glob(os.path.join(TOP, 'tests/*/*.job'))):
        with open(path, 'rb') as file:
            job = file.read()
        name = path.removesuffix('.job')
        if os.path.exists(name + '.args') or not os.path.exists(name + '.out') or len(job) > 20000:
            continue
        with open(name + '.out', 'rb') as file:
            if file.read().endswith((b'status 0\n', b'status 1\n')):
                found.append(pieces_of(job))
    return found


def put(name, text):
    """The command that puts the text under the name."""
    text = text.removesuffix(b'\n') + b'\n'
    return b'put %s %d\n' % (name, text.count(b'\n')) + text


def bent(chance, command):
    """A `put` of a text that is another one at one place."""
    head, _, text = command.partition(b'\n')
    start, end = sorted(chance.randrange(len(text) + 1) for _ in range(2))
    other = chance.choice([b'', b'\n', b'\xff', b'"', b'{', b' val ', text[start:end] * 2, bytes([chance.randrange(256)])])
    return put(head.split(b' ')[1], text[:start] + other + text[min(end, start + chance.randrange(20)):])


def rules(chance, modules, devices):
    """A `policy` about some of the modules and devices, and about others."""
    count = chance.randrange(5)
    lines = [b'%s %s %s\n' % (chance.choice([b'allow', b'deny']), chance.choice(modules + [b'*', b'nobody']),
                              chance.choice(devices + [b'*', b'nothing'])) for _ in range(count)]
    return b'policy %d\n' % count + b''.join(lines)


def job_of(chance, found):
    """The lines of devices of a random job, and its commands."""
    devices, commands = {}, []
    for some, others in chance.sample(found, chance.randint(1, 3)):
        for device in some:
            if len(devices) < 16:
                devices.setdefault(device.split()[1], device)
        commands += others[:20]
    puts = [command for command in commands if command.startswith(b'put ')]
    modules = [command.split()[1] for command in puts] or [b'm']
    for _ in range(chance.randrange(6)):
        more = [b'check\n', b'drop %s\n' % chance.choice(modules), b'sig %s\n' % chance.choice(modules),
                rules(chance, modules, list(devices)), chance.choice(commands or [b'check\n'])]
        if puts:
            more += [bent(chance, chance.choice(puts)), chance.choice(puts)]
        commands.insert(chance.randint(0, len(commands)), chance.choice(more))
    return b'capc 1\n' + b''.join(devices.values()), [b'\n' * (chance.random() < 0.1) + command for command in commands]


def answered(capc, job):
    """The status of capc for the job, and its output; none where it is not carried out."""
    run = subprocess.run([capc], input=job, stdout=subprocess.PIPE, stderr=subprocess.PIPE, timeout=SECONDS)
    return (run.returncode, run.stdout) if run.returncode in (0, 1) else (run.returncode, None)


class Conversation:
    """A conversation with capi, of which all that is answered is taken down."""

    def __init__(self, capi):
        self.run = subprocess.Popen([capi], stdin=subprocess.PIPE, stdout=subprocess.PIPE, stderr=subprocess.PIPE, bufsize=0)
        self.told, self.more = b'', threading.Condition()
        self.ended = False
        threading.Thread(target=self.hear, daemon=True).start()

    def hear(self):
        while piece := os.read(self.run.stdout.fileno(), 1 << 16):
            with self.more:
                self.told += piece
                self.more.notify()
        with self.more:
            self.ended = True
            self.more.notify()

    def say(self, chance, text):
        """Says the text in pieces, some of which only when the one before was taken."""
        at = 0
        while at < len(text):
            size = chance.choice([1, 2, chance.randint(1, 20), chance.randint(1, 5000)])
            self.run.stdin.write(text[at:at + size])
            at += size
            while chance.random() < 0.5 and self.waiting():
                time.sleep(0.0001)

    def waiting(self):
        """How many bytes were said and not taken yet."""
        return struct.unpack('i', fcntl.ioctl(self.run.stdin, termios.FIONREAD, bytes(4)))[0]

    def told_by(self, size):
        """What was answered when there are so many bytes, or nothing more comes."""
        with self.more:
            self.more.wait_for(lambda: len(self.told) >= size or self.ended, SECONDS)
            return self.told

    def end(self):
        """The status, and what is on standard error."""
        self.run.stdin.close()
        return self.run.wait(SECONDS), self.run.stderr.read()


def tried(number, capi, capc, found):
    """What is wrong with the conversation of the number, if something is; how many commands it has; and how often capi had
    to answer before more was said."""
    chance = random.Random(number)
    start, commands = job_of(chance, found)
    fronts = [answered(capc, start + b''.join(commands[:count])) for count in range(len(commands) + 1)]
    if any(output is None for _, output in fronts):
        return 'capc ends with %d' % max(status for status, _ in fronts), 0, 0
    it = Conversation(capi)
    waits, wanted, unsaid = 0, b'', start
    try:
        for at, command in enumerate(commands):
            unsaid += command
            wanted += fronts[at + 1][1].removeprefix(fronts[at][1]) + b'\n'
            if chance.random() < 0.6:
                it.say(chance, unsaid)
                waits, unsaid = waits + 1, b''
                if it.told_by(len(wanted)) != wanted:
                    return 'behind command %d: %r' % (at + 1, it.told[-200:]), len(commands), waits
        it.say(chance, unsaid)
        status, error = it.end()
    except BrokenPipeError:
        return 'it ended too early', len(commands), waits
    finally:
        it.run.kill()
        it.run.wait()
    it.told_by(len(wanted) + 1)
    if (status, it.told, error) != (fronts[-1][0], wanted, b''):
        return 'at the end: status %d, %r, %r' % (status, error, it.told[-200:]), len(commands), waits
    return None, len(commands), waits


def main(capi, capc, count='1000', first='1'):
    found = sources()
    wrong = commands = waits = 0
    for number in range(int(first), int(first) + int(count)):
        words, some, others = tried(number, capi, capc, found)
        commands, waits = commands + some, waits + others
        if words:
            wrong += 1
            print('FAILED conversation %d: %s' % (number, words))
    print('%s conversations with %d commands, %d times before more was said, %d wrong' % (count, commands, waits, wrong))
    sys.exit(1 if wrong else 0)


if __name__ == '__main__':
    main(*sys.argv[1:])
