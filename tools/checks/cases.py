"""What the checks of tools/check-tools share: how a case is reported, how a tool is run, and servers to run it with."""

import os
import subprocess
import sys
import time
from pathlib import Path

TOP = Path(__file__).resolve().parents[2]
TOOLS = TOP / "tools"
sys.path.insert(0, str(TOOLS / "lib"))

# The seconds after which a command is taken to hang; a machine that is busy with other things is slow.
LIMIT = 120
GOOD = """[[queue]]
name = "Q"
[[server]]
name = "S"
queue = "Q"
program = "%s"
[[service]]
name = "ECHO"
queues = ["Q"]
"""
CALL = "client a\ncall ECHO none\n"
ECHO = TOP / "examples/servers/echo.py"
SMALLEST = "examples/servers/smallest.py"

# The octets that a shell's printf writes for a greeting of the server `S`.
GREETING = r"XA\1\1\0\0\0\2\0\0\0\0\1SXA\1\2\0\0\0\0\0\0\0\0"


class Report:
    def __init__(self):
        self.wrong = 0

    def case(self, name, found, wanted):
        self.wrong += found != wanted
        print("ok" if found == wanted else f"differs: {found!r}, not {wanted!r}:", name, flush=True)

    def has(self, name, text, *wanted):
        self.case(name, [each for each in wanted if each not in text], [])
        if any(each not in text for each in wanted):
            print(text[:2_000])


def run(words, given="", folder=TOP, **more):
    """The status, the output and the standard error of that command; no status where it takes too long."""
    try:
        done = subprocess.run(words, cwd=folder, input=given, capture_output=True, text=True, errors="replace", timeout=LIMIT, **more)
    except subprocess.TimeoutExpired as error:
        told, said = (each.decode(errors="replace") if isinstance(each, bytes) else each or "" for each in (error.stdout, error.stderr))
        return None, told, f"{said}\nit takes longer than {LIMIT} s"
    return done.returncode, done.stdout, done.stderr


def written(path, text, mode=0o644):
    Path(path).write_text(text)
    os.chmod(path, mode)
    return str(path)


# A server that answers by the routine: rightly, or against the protocol in one of several ways. It takes no end of its input
# and no SIGTERM for an end.
ODD = """#!/usr/bin/env python3
import os, signal, struct, sys, time
signal.signal(signal.SIGTERM, signal.SIG_IGN)
name = os.fsencode(sys.argv[2])
word = lambda octets: bytes([len(octets)]) + octets
def frame(kind, tag, body=b""): os.write(1, struct.pack(">2sBBII", b"XA", 1, kind, len(body), tag) + body)
ok = bytes(5)
frame(1, 0, word(name)); frame(2, 0)
while True:
    header = os.read(0, 12)
    if len(header) < 12: time.sleep(99)
    kind, length, tag = struct.unpack(">3xBII", header)
    if kind == 0x13: break
    body = os.read(0, length)
    at = 1 + body[0]
    routine = body[at + 1 : at + 1 + body[at]]
    if routine == b"TAG": frame(4, 7, ok + b"\\0")
    elif routine == b"SHAPE": frame(4, tag, ok + b"\\2" + word(b"none") + bytes(4))
    elif routine == b"SIZE": frame(4, tag, ok + b"\\2" + word(b"pair") + struct.pack(">I", 3) + b"abc")
    elif routine == b"OP": frame(3, tag, bytes([2, 2]) + word(b"ECHO") + bytes(1))
    elif routine == b"AWAY": frame(5, tag, word(b"NONE") + b"\\0")
    elif routine == b"GREET": frame(1, 0, word(name))
    elif routine == b"SLEEP": time.sleep(99)
    else: frame(4, tag, ok + b"\\0")
    if routine == b"AHEAD": frame(2, 0); frame(4, tag + 9, ok + b"\\0")
    frame(2, 0)
"""

# Of a frame that is written before the next INVOKE comes, or behind it.
AHEAD = "ahead of its turn, and out of turn where another INVOKE comes: OP, RETURN or FORWARD with tag 2 is due then"
BEHIND = "out of turn: OP, RETURN or FORWARD with tag 2 is due, and RETURN with tag 10 came"

# A routine of that server, how often its calls fail, and why.
REASONS = [
    ("TAG", 1, "out of turn: OP, RETURN or FORWARD with tag 1 is due, and RETURN with tag 7 came"),
    ("SHAPE", 1, "unsound: no shape is named 'none'"),
    ("SIZE", 1, "unsound: the shape 'pair' has 8 octets, and not 3"),
    ("OP", 1, "out of turn: OP, RETURN or FORWARD with tag 3 is due, and OP with tag 3 came: tpacall, which the monitor doesn't make"),
    ("AWAY", 1, "fails: no service 'NONE' takes it"),
    ("GREET", 1, "out of turn: OP, RETURN or FORWARD with tag 2 is due, and READY with tag 0 came"),
    ("AHEAD", 0, AHEAD),
    ("FINE", 1, ""),
]


def odd(room):
    """A configuration with that server and its routines as services."""
    server = written(f"{room}/server", ODD, 0o755)
    config = (GOOD % server).replace("[[service]]", "restart = true\nmaxgen = 9\n[[service]]")
    config += '[[shape]]\nname = "pair"\nfields = ["a int", "b int"]\n'
    for name, *_ in REASONS:
        config += f'[[service]]\nname = "{name}"\nqueues = ["Q"]\n'
    for priority in (50, 60):
        config += f'[[service]]\nname = "SLEEP{priority}"\nroutine = "SLEEP"\nqueues = ["Q"]\npriority = {priority}\n'
    return written(f"{room}/config", config)


def with_mark(mark):
    """The processes that have that mark in their environment."""
    found = []
    for each in Path("/proc").glob("[0-9]*/environ"):
        try:
            if mark.encode() in each.read_bytes() and is_alive(each.parent.name):
                found.append((each.parent / "cmdline").read_bytes().replace(b"\0", b" ").decode(errors="replace"))
        except OSError:
            continue
    return found


def content(file):
    """What stands in that file, which another process writes at its own place."""
    return os.pread(file.fileno(), 1 << 20, 0).decode(errors="replace")


def wait_for(holds):
    until = time.monotonic() + 20
    while not holds() and time.monotonic() < until:
        time.sleep(0.05)


def is_alive(process):
    try:
        return Path(f"/proc/{process}/stat").read_text().rsplit(")", 1)[1].split()[0] != "Z"
    except OSError:
        return False


def tried(report, *words):
    status, said, _ = run([TOOLS / "trial", *words])
    report.case(f"trial passes: {' '.join(map(str, words))}", (status, [line for line in said.splitlines() if line.startswith("wrong")]), (0, []))
