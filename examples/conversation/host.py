"""Runs a definition of guests' modules by capi, on devices of this machine, and ends with the status of capi.

Usage: python3 host.py CAPI FOLDER MODULE.DEFINITION
FOLDER has the modules, NAME.cap, the host's rules, and for its devices `numbers` and `hits`, with a number a line.
"""
import contextlib, pathlib, re, subprocess, sys

RESERVED = """import def rec fun val if then else box unbox boundary exit repeat true false unit cap Unit Bool Int Str Any
    Console File Counter Exit Box""".split()
OPERATIONS = ["out print", "out say", "data read", "data write", "hits tick"]
folder = pathlib.Path(sys.argv[2])
numbers, kept, hits = open(folder / "numbers"), open(folder / "numbers", "a"), open(folder / "hits", "a+")
(folder / "numbers").read_bytes()[-1:] in (b"", b"\n") or sys.exit("the last line of numbers lacks its line feed")
capi = subprocess.Popen([sys.argv[1]], stdin=subprocess.PIPE, stdout=subprocess.PIPE, bufsize=0)

def name(word):
    # It goes into a line. With a line feed in it the rest would be lines, too, perhaps rules that allow everything, and a
    # line that is none ends the conversation: so nothing is said but what is a name of the language, in ASCII.
    return word if re.fullmatch("[A-Za-z][A-Za-z0-9_]*", word) and word not in RESERVED else sys.exit("no name: %r" % word)

def operate(device, operation, argument=""):
    if operation == "read":
        return int(numbers.readline() or 0)
    if operation == "tick":
        hits.seek(0)
        count = int(hits.read() or 0) + 1
        hits.truncate(0)
        return print(count, file=hits, flush=True) or count
    print(argument, file=sys.stdout if device == "out" else kept, flush=True)
    return "ok"

def converse(command, file=None):
    """Says a command, with the text of a file, carries out the operations of a run, and shows what is told besides."""
    text = file.read_bytes().removesuffix(b"\n") + b"\n" if file else b""
    lines = " %d" % text.count(b"\n") if file else ""
    capi.stdin.write((command + lines).encode() + b"\n" + text)
    while (line := capi.stdout.readline()) != b"\n":
        if not line.endswith(b"\n"):
            raise BrokenPipeError  # the answer was cut off: the status says why
        told = line[:-1].decode("ascii", "backslashreplace")  # what is beyond ASCII may turn the lines of a terminal around
        words = told[2:].split(" ", 2)
        if command.startswith("live ") and " ".join(words[:2]) in OPERATIONS:
            try:
                answer = operate(*words)
            except (OSError, ValueError):
                answer = "stop"
            capi.stdin.write(b"%s\n" % str(answer).encode())
        elif not (command + lines).startswith(told):
            print(told, file=sys.stderr)

with contextlib.suppress(BrokenPipeError):
    capi.stdin.write(b"capc 1\ndevice out console\ndevice data file\ndevice hits counter\n")
    for file in sorted(folder.glob("*.cap")):
        converse("put " + name(file.stem), file)
    converse("check")
    converse("policy", folder / "rules")
    converse("live %s.%s 100000" % tuple(map(name, sys.argv[3].partition(".")[::2])))
    capi.stdin.close()
    sys.exit(capi.wait())
sys.exit(capi.wait() or "the answer was cut off")
