"""What `tools/trial` says of good servers, and of servers with a slip each."""

import os
import subprocess

from checks.cases import ECHO, GOOD, ODD, SMALLEST, TOOLS, TOP, run, wait_for, with_mark, written

# A slip in the smallest server: what stands in place of what, and what trial says first.
SLIPS = {
    "it prints a line": (
        "name = os", 'print("ok", flush=True); name = os',
        "at octet 0 READY is due first, and no frame stands there", "standard output is for frames alone"),
    "it greets with another name": (
        "bytes([len(name)]) + name", r'b"\1T"', "at octet 0 READY has the name 'T', and not 'S'"),
    "it ends before it greets": (
        "name = os", "sys.exit(3); name = os", "READY is due first, and it ended with status 3"),
    "it doesn't flush its output": (
        "    sys.stdout.buffer.flush()\n", "", "at octet 0 nothing more came for 2 s (is the output flushed?); nothing stands there"),
    "its numbers are little-endian": (
        'struct.pack(">2sBBII"', 'struct.pack("<2sBBII"', "a body has at most 66,000 octets, and not 33,554,432"),
    "it answers with another tag": (
        "write(0x04, tag, struct.pack(\">Bi\", 0", "write(0x04, tag + 1, struct.pack(\">Bi\", 0",
        "at octet 26 OP, RETURN or FORWARD is due behind INVOKE with tag 1, and RETURN with tag 2 came"),
    "no NEXT follows its RETURN": (
        "while True:\n    write(0x02, 0)", "write(0x02, 0)\nwhile True:\n    pass", "at octet 44 nothing more came for 2 s"),
    "an octet too many stands in its RETURN": (
        '0, 0) + data)', r'0, 0) + data + b"\0")', "octets stand behind the last field of a body"),
    "it changes ends of lines": (
        '0, 0) + data)', r'0, 0) + data.replace(b"\n", b"\r\n"))',
        "wrong X_OCTET of 65,536 octets with all values", "octets stand behind the last field"),
    "it takes a part for the whole": (
        "sys.stdin.buffer.read(count)", "os.read(0, count)", "OP, RETURN or FORWARD is due behind INVOKE, and it ended with status 0"),
    "a routine that it doesn't have ends it": (
        "    else:\n", "    else:\n        sys.exit(1)\n", "wrong a routine that it doesn't have: ", "and it ended with status 1"),
    "it makes a call that isn't built": (
        "write(0x04, tag, struct.pack(\">Bi\", 0, 0) + data)", r'write(0x03, tag, b"\2\0\4ECHO\0")',
        "and OP with tag 1 came, which is no call that the monitor makes: OP 1: tpacall, service 'ECHO', no data"),
    "it makes a call with another tag": (
        "write(0x04, tag, struct.pack(\">Bi\", 0, 0) + data)", r'write(0x03, 9, b"\1\0\4ECHO\0\0")',
        "is due behind INVOKE with tag 1, and OP with tag 9 came: OP 9: tpcall, service 'ECHO', no data"),
    "it reads no REPLY": (
        "write(0x04, tag, struct.pack(\">Bi\", 0, 0) + data)", r'write(0x03, tag, b"\1\0\4ECHO\0\0")',
        "at octet 47 OP, RETURN or FORWARD is due behind REPLY with tag 1, and NEXT with tag 0 came"),
    "it goes on behind SHUTDOWN": (
        "        break\n", "        import time; time.sleep(99)\n", "wrong a greeting, and SHUTDOWN: it goes on 2 s behind SHUTDOWN"),
    "it goes on behind the end of its input": (
        "else sys.exit()", 'else __import__("time").sleep(99)', "wrong an input that ends: it goes on 2 s behind the end of its input"),
    "its data has another size than its shape": (
        '0, 0) + data)', r'0, 0) + b"\2\4pair" + bytes(4))',
        "RETURN has X_C_TYPE pair, 0 octets, and that shape has 8 octets, so the caller is told TPESVCERR"),
    "it forwards to a service that isn't there": (
        "write(0x04, tag, struct.pack(\">Bi\", 0, 0) + data)", r'forward(tag, b"NONE", b"")',
        "FORWARD to 'NONE' fails, since no service of that name takes such data"),
}

# A server whose service makes two calls, and ends where the second isn't told the error that it wants.
CALLS = """#!/usr/bin/env python3
import os, sys
sys.path.insert(0, %r)
from sunzheg import *
@routine("ECHO")
def echo(request):
    tpsprio(70, TPABSOLUTE)
    try: error, data = 0, tpcall(os.environ["CALLED"], request.data, TPNOBLOCK | (TPNOCHANGE if request.data else 0))
    except TPError as told: error, data = told.tperrno, request.data
    if (error, data) != (int(os.environ["ERROR"]), request.data): os._exit(3)
serve()
"""

# A server whose service changes the board, and leaves it as it was, or ends where it is told something else than it should be.
CHANGES = """#!/usr/bin/env python3
import os, sys
sys.path.insert(0, %r)
from sunzheg import *
def told(call, *words):
    try: call(*words)
    except TPError as error: return error.name
@routine("ECHO")
def echo(request):
    found = [told(*each) for each in (
        (tpadvertise, "NEW", "ECHO"), (tpadvertise, "NEW", "ECHO"), (tpadvertise, "NEW", "X"), (tpadvertise, os.environ["KNOWN"], "ECHO"),
        (tpunadvertise, "NEW"), (tpunadvertise, "NEW"), (tpadvertise, ".", "X"), (tpunadvertise, "N W"))]
    if found != [None, None, "TPEMATCH", None, None, "TPENOENT", "TPEINVAL", "TPEINVAL"]: os._exit(3)
    return request.data
serve()
"""

PAIR = '[[shape]]\nname = "pair"\nfields = ["a int", "b string 4"]\n'


def first_wrong(words):
    """The lines that trial prints up to the first that is wrong."""
    said = ""
    env = {key: value for key, value in os.environ.items() if key != "PYTHONUNBUFFERED"}
    with subprocess.Popen(words, stdout=subprocess.PIPE, stderr=subprocess.DEVNULL, text=True, cwd=TOP, env=env) as trial:
        for line in trial.stdout:
            said += line
            if line.startswith("wrong"):
                trial.kill()
    return said


def trials(report, program, room):
    for server in (ECHO, program):
        report.case(f"trial: {server}", run([TOOLS / "trial", server])[0], 0)
    for calls in ("TPENOENT", "TPESVCFAIL", "echo"):
        report.case(f"trial: its calls are told {calls}", run([TOOLS / "trial", "--calls", calls, ECHO, "RELAY"])[0], 0)
    server = written(f"{room}/server", CALLS % str(ECHO.parent), 0o755)
    for calls, called, error in (("NOMEM", "X", 7), ("TPESVCFAIL", "X", 11), ("echo", "X", 0), ("echo", ".X", 4)):
        found = run([TOOLS / "trial", "--calls", calls, server], env=os.environ | {"CALLED": called, "ERROR": str(error)})
        report.case(f"trial: its calls of {called} are told {calls}", (found[0], "wrong" in found[1]), (0, False))
    server, config = written(f"{room}/server", CHANGES % str(ECHO.parent), 0o755), written(f"{room}/config", GOOD % f"{room}/server")
    for known, words in (("TRIAL", [server]), ("ECHO", ["--config", config])):
        found = run([TOOLS / "trial", *words], env=os.environ | {"KNOWN": known})
        report.case(f"trial: changes of the board, where {known} is there", (found[0], "wrong" in found[1]), (0, False))
    config, smallest = written(f"{room}/config", PAIR + GOOD % ECHO), (TOP / SMALLEST).read_text()
    for slip, (old, new, *wanted) in SLIPS.items():
        server = written(f"{room}/server", smallest.replace(old, new, 1), 0o755)
        said = first_wrong([TOOLS / "trial", "--patience", "2", "--config", config, server])
        report.has(f"trial: {slip}", said, *wanted)
    said = run([TOOLS / "trial", "--config", config])[1]
    report.has("trial: the data that is let through", said, f"{ECHO}, server S, routine ECHO", "ok    X_OCTET of 65,536 octets",
               *(f"ok    X_C_TYPE pair, its fields at {each}" for each in ("zero", "their least", "their greatest")))
    report.case("trial: of a service that takes the shape alone", "X_OCTET" in run([TOOLS / "trial", "--config", written(
        f"{room}/typed", PAIR + (GOOD + 'accepts = ["c:pair"]\n') % ECHO), ECHO])[1], False)
    server, mark = written(f"{room}/server", ODD, 0o755), f"WATCHED={room}"
    told = run(["bash", "-c", f"{TOOLS}/trial {server} | head -n 1"], env=os.environ | {"WATCHED": room})[1]
    wait_for(lambda: not with_mark(mark))
    report.case("trial: | head leaves nothing", (told, with_mark(mark)), ("ok    a greeting, and SHUTDOWN\n", []))


ALL = (trials,)
