"""What `tools/explain` says of configurations and scripts, beside what the program says of them."""

import re
import subprocess
from pathlib import Path

from checks.cases import ECHO, GOOD, LIMIT, TOOLS, TOP, run, written

import configuration
import script

def first_line(program, config):
    """The line of the configuration's fault, or none: behind it stands a script at fault, so no server is started."""
    done = subprocess.run([program, "run", config], input=b"bogus\n", capture_output=True, timeout=LIMIT)
    line = done.stderr.decode().splitlines()[0]
    return None if line == "script line 1 cause 2" else line


# What a script of the stored run of xa_reads begins with; else a piece of it is a configuration.
SCRIPT = b"!script\n"


def pieces():
    return (TOP / "crates/xa_reads/stdin").read_bytes().split(b"\n====\n")


# The shapes for which xa_reads reads scripts.
SHAPES = b"""
[[shape]]
name = "entry"
fields = ["account int", "amount long", "memo string 16"]
[[shape]]
name = "small"
fields = ["s short", "c char", "t string 1"]
"""


def read_scripts(report, program, room):
    """The first line at fault of each script of the stored run of xa_reads, by explain and by that run's stdout."""
    told = [line for line in (TOP / "crates/xa_reads/stdout").read_text().splitlines() if line.startswith("script ")]
    document = configuration.read(SHAPES + (GOOD % ECHO).encode())[0]
    found = [each.removeprefix(SCRIPT) for each in pieces() if each.startswith(SCRIPT)]
    differing = []
    for octets, line in zip(found, told, strict=True):
        faults = [script.told(fault) for fault in script.faults_of(octets, document) if fault.cause][:1]
        if faults != ([line] if " cause " in line else []):
            differing.append((octets[:80], line, faults))
    report.case(f"explain: the first line at fault of the {len(found)} scripts of xa_reads", differing, [])


def configurations(report, program, room):
    """The first fault of each configuration of the stored run of xa_reads, by the program and by explain."""
    octets = [each for each in pieces() if not each.startswith(SCRIPT)]
    report.case("explain: how many configurations there are", len(octets), 481)
    differing = []
    for place, each in enumerate(octets):
        Path(room, "config").write_bytes(each)
        faults = configuration.read(each)[1]
        found = configuration.told(faults[0]) if faults else None
        if found != first_line(program, f"{room}/config"):
            differing.append((place, found, first_line(program, f"{room}/config")))
    report.case("explain: the first fault of 481 configurations", differing, [])


def literals(path):
    """The octets of each byte string of that file."""
    for text in re.findall(r'b"((?:[^"\\]|\\.)*)"', path.read_text(), re.DOTALL):
        text = re.sub(r"\\\n\s*", "", text)
        yield text.encode().decode("unicode_escape").encode("latin-1")


def scripts(report, program, room):
    """Each byte string of the tests is taken as a script: what the program says of it, and what explain does."""
    config = written(f"{room}/config", GOOD % program)
    document = configuration.read((GOOD % program).encode())[0]
    trials = ("xa_trials_low", "xa_trials_objects", "xa_trials_callers", "xa_trials")
    found = {each for crate in trials for path in (TOP / "crates" / crate).glob("src/*.rt") for each in literals(path)}
    found |= {(TOP / "examples" / name).read_bytes() for name in ("again.script", "bank.script", "echo.script", "shops.script")}
    differing = []
    for octets in sorted(found):
        done = subprocess.run([program, "run", config], input=octets, capture_output=True, timeout=LIMIT)
        told = done.stderr.decode().splitlines()[:1] if done.returncode == 3 else []
        faults = [script.told(fault) for fault in script.faults_of(octets, document) if fault.cause][:1]
        if told != faults:
            differing.append((octets[:80], told, faults))
    report.case(f"explain: the first line at fault of {len(found)} scripts", differing, [])


# More digits than int() takes.
LONG = 5_000 * "1"

# What stands in the bank in place of what, and what explain says; the same of its script.
MISTAKES = [
    ("[[queue]]", "[[queus]]", "queus: the document has no such key", "did you mean 'queue'?", "(config 2)"),
    ('queue = "QT"', 'queue = "qt"', "bank.toml:17:9: server[0].queue: no queue is named 'qt'", "did you mean 'QT'?"),
    ('routine = "FAIL"', 'rutine = "FAIL"', "service[1].rutine: [[service]] has no such key", "did you mean 'routine'?"),
    ('queues = ["QT"]', 'queues = "QT"', "service[0].queues: it is a text; taken: an array of texts", "(config 4)"),
    ('memo string 16"', 'memo string"', "'memo string' is no field", "did you mean 'memo string 16'?"),
    ('accepts = ["c:entry"]', 'accepts = ["entry"]', "'entry' is no kind of data", "did you mean 'c:entry'?"),
    ("restart = true", "restart = 1", "server[0].restart: it is an integer", "(config 4)"),
    ('name = "QT"\n', 'name = "QT\n', "this is no TOML: a text without its end in this line", "(config 1)"),
    ('name = "CHECK"', 'name = "CHECK"\nprogram = "./nothing"', "server CHECK: ./nothing: there is no such file"),
    ("call REJECT", "cal REJECT", "no line begins with 'cal'", "did you mean 'call'?", "(script line 21 cause 2)"),
    ('text "9999"', "9999", "the data is one of none, text, octet, fill, c", "cause 4"),
    ("call REJECT", "call Reject", "no service is named 'Reject', so the call is told TPENOENT", "did you mean 'REJECT'?"),
    ("# TRANSFER takes", "# TRANSFER\ttakes", "the octet 0x09 may not stand in a script", "cause 1"),
    ("account=7", "acount=7", "the shape has no field 'acount'", "did you mean 'account'?", "(script line 5 cause 8)"),
    ("amount=250", f"amount={LONG}", "'amount' is of kind long, which takes a number from -9,223,372,036,854,775,808 to", "cause 8"),
    ('text "9999"', f"fill {LONG} 61", "the number of octets is a number from 0 to 70,000", "cause 4"),
    ("maxgen = 2", f"maxgen = {LONG}", "this is no TOML: a whole number has 64 bits", "(config 1)"),
    ("maxgen = 2", "maxgen = 2e308", "this is no TOML: a number with a point or an exponent has 64 bits", "(config 1)"),
    ("maxgen = 2\n", "", "server[0].restart does nothing: maxgen is 1"),
    ("restart = true\n", "", "server[0].maxgen does nothing: there is one start without restart = true"),
    ("restart = true", "restart = yes", "'yes' is no value; yes and no are written true and false", "(config 1)"),
    ('name = "CHECK"', "name = \u201cCHECK\u201d", "a text stands in straight quotes", "(config 1)"),
    ('name = "CHECK"', 'name = "CHE CK"', "'CHE CK' is no name: its octet 4 is 0x20", "(config 6)"),
    ('name = "CHECK"', 'name = "CH\u00c9CK"', "is no name: its octet 3 is 0xc3", "(config 6)"),
    ('name = "CHECK"', 'name: "CHECK"', "'=' stands between a key and its value, and not ':'", "(config 1)"),
    ('name = "entry"', 'name = "7entry"', "is no identifier: it begins with '7', which is no letter", "(config 6)"),
    ("# A bank.", "// A bank.", "bank.toml:1:1: this is no TOML: a comment begins with #", "(config 1)"),
    ("# A bank.", '{ "queue":', "this is JSON perhaps", "(config 1)"),
    ("account=7", "account = 7", "bank.script:5:30: no space stands before '='", "cause 4"),
    ("account=7", "account= 7", "bank.script:5:31: no space stands behind '='", "cause 4"),
    ("memo=\"rent\"", "memo='rent'", "a text stands in double quotes", "cause 4"),
    ('text "9999"', "octet 0x9999", "0x isn't written", "cause 4"),
    ('text "9999"', "octet 999", "octets are an even number of digits", "here are 3", "cause 4"),
    ('text "9999"', 'text "9999" # note', "a comment is a line of its own", "cause 4"),
    ('text "9999"', "text \u201c9999\u201d", "the octet 0xe2 may not stand in a script", "straight quotes", "cause 1"),
    ('text "9999"', 'text "9999" noreply', "noreply is for acall, so the call is told TPEINVAL"),
    ('call REJECT text "9999"', 'acall REJECT text "9999" noreply', "'acall' with noreply isn't served yet", "cause 9"),
    ('call REJECT text "9999"', "get 7", "the descriptor 7 isn't open here, so the call is told TPEBADDESC"),
    ('call REJECT text "9999"', "getany", "no descriptor is open here, so the call is told TPEBADDESC"),
    ('call REJECT text "9999"', "advertise REJECT FAIL", "a client has no server, for which 'advertise' is, so the call is told TPEPROTO"),
    ("client branch", "client .branch", "'.branch' is no name: it begins with a dot", "cause 5"),
    ("call REJECT", "call RE\x1b[31mJECT", "the octet 0x1b may not stand in a script", "call RE.[31mJECT", "cause 1"),
    ("# A bank.", "#\x1b[31m" + "b" * 5_000, "the octet 0x1b may not stand in a comment", "#.[31mbbb", "(config 1)"),
]


def told_of_the_bank(program, lines, room):
    """What the program says of the configuration and of that script, as explain has it in brackets; none if it runs them."""
    status, _, said = run([program, "run", "bank.toml"], lines, room)
    return " ".join(said.split()[: {2: 2, 3: 5}[status]]) if status in (2, 3) else None


def mistakes(report, program, room):
    texts, all_said = [(TOP / "examples" / name).read_text() for name in ("bank.toml", "bank.script")], ""
    for old, new, *wanted in MISTAKES:
        config, lines = (text.replace(old, new, 1) for text in texts)
        written(f"{room}/bank.toml", config)
        written(f"{room}/bank.script", lines)
        said = run([TOOLS / "explain", "bank.toml", "bank.script"], folder=room)[1]
        all_said += said
        case = f"explain: {new[:50]!r} in place of {old!r}"
        report.has(case, said, *wanted)
        first = re.search(r"\((config \d+|script line \d+ cause \d+)\)", said)
        report.case(f"{case}, as the program says", first and first[1], told_of_the_bank(program, lines, room))
    status, said, _ = run([TOOLS / "explain", "examples/bank.toml", "examples/bank.script"])
    report.case("explain: the bank has no fault", (status, "nothing stands in the way of a run" in said), (0, True))
    written(f"{room}/idle", "[domain]\nblocktime = 3\n" + GOOD % ECHO)
    said = run([TOOLS / "explain", "idle"], folder=room)[1]
    report.has("explain: a key that does nothing yet", said, "idle:2:1: domain.blocktime does nothing: no call lapses yet")
    said = run([TOOLS / "explain", "idle", written(f"{room}/empty", "# nothing\n")], folder=room)[1]
    report.has("explain: a script without a client", said, "the script has no client, so it makes no call")
    report.case("explain: nothing raw goes to a terminal", {each for each in all_said if not each.isprintable()}, {"\n"})
    report.case("explain: long lines are cut", max(map(len, all_said.splitlines())) < 250, True)


ALL = (configurations, scripts, read_scripts, mistakes)
