"""What `tools/watch` tells, and that it leaves nothing behind."""

import json
import os
import re
import signal
import subprocess
import tempfile
from pathlib import Path

from checks.cases import AHEAD, BEHIND, CALL, GOOD, GREETING, LIMIT, REASONS, TOOLS, TOP, content, odd, run, wait_for, with_mark, written

# A server that keeps what it reads in the file `got`, answers two requests and comes to its end.
KEEPS = f"""#!/bin/sh
printf '{GREETING}'
exec 3>got
for n in 1 2; do
    head -c 24 >&3
    printf "XA\\1\\4\\0\\0\\0\\6\\0\\0\\0\\00$n\\0\\0\\0\\0\\0\\0XA\\1\\2\\0\\0\\0\\0\\0\\0\\0\\0"
done
cat >&3
"""

# What a server does, and what watch says of it.
WATCHED = [
    ("echo no frame but text; exec sleep 60", "no frame: a frame begins with 58 41 01; what stands there: 6e 6f 20", "ended: killed by the monitor"),
    (f"printf '{GREETING}'; head -c 24 >/dev/null; kill -9 $$", "ended: signal SIGKILL", "ECHO                                  1       1"),
    (f"printf '{GREETING}'; head -c 24 >/dev/null; exit 7", "ended: status 7"),
    (f"sleep 1.5; printf '{GREETING}'; exit", "still awaited: READY, behind its start"),
]


def watched(report, program, room):
    bank, given = ["examples/bank.toml"], (TOP / "examples/bank.script").read_text()
    plain = run([program, "run", *bank], given)
    status, output, said = run([TOOLS / "watch", *bank], given)
    report.case("watch: the bank's transcript and status", (status, output), plain[:2])
    report.has("watch: the bank's frames", said, ": TRANSFER, X_C_TYPE entry, 28 octets 00 00 00 07",
               ": to 'ACCT', X_C_TYPE entry, 28 octets 00 00 00 07", ": ACCT, X_C_TYPE entry, 28 octets 00 00 00 07",
               ": TPFAIL, code 7, X_OCTET, 4 octets '9999'", "<- READY 'CHECK'", "-> SHUTDOWN",
               "HALT                                  2       2")
    said = run([TOOLS / "watch", "--json", *bank], given)[2]
    lines = [json.loads(line) for line in said.splitlines()]
    report.case("watch: --json", [line["calls"] for line in lines if line["is"] == "service" and line["service"] == "HALT"], [2])
    got = []
    for words in ([program, "run"], [TOOLS / "watch"]):
        written(f"{room}/server", KEEPS, 0o755)
        written(f"{room}/config", GOOD % "./server")
        run([*words, "config"], CALL + 'call ECHO none\n', room)
        got.append(Path(room, "got").read_bytes())
    report.case("watch: what a server gets is the same with it", (len(got[0]), got[1]), (60, got[0]))
    for does, *wanted in WATCHED:
        written(f"{room}/server", f"#!/bin/sh\n{does}\n", 0o755)
        said = run([TOOLS / "watch", "config"], CALL, room)[2]
        report.has(f"watch: {does}", said, *wanted)
    written(f"{room}/config", GOOD % "./nothing")
    said = run([TOOLS / "watch", "config"], CALL, room)[2]
    report.has("watch: a program that isn't there", said, "not started: ./nothing: No such file or directory")


def reasons_watched(report, program, room):
    """Calls whose callers are told a failure, by their reason."""
    config = odd(room)
    given = "client a\n" + "".join(f"call {name} none\n" for name, *_ in REASONS)
    status, told, said = run([TOOLS / "watch", "--json", config], given)
    lines = [json.loads(line) for line in said.splitlines()]
    rows = {line["service"]: line["failed"] for line in lines if line["is"] == "service"}
    report.case("watch: failed calls", rows, {name: failed for name, failed, _ in REASONS})
    report.case("watch: as the transcript has them", sum(" OK " not in line for line in told.splitlines()), sum(rows.values()))
    wrong = [line["wrong"].replace(BEHIND, AHEAD) for line in lines if "wrong" in line]
    report.case("watch: why a frame is out of turn", wrong, [why for _, _, why in REASONS if why])
    for config, given in (("examples/bank.toml", "call\n"), (written(f"{room}/bad", "x ="), ""), (f"{room}/nothing", "")):
        status, _, said = run([TOOLS / "watch", "--json", config], given)
        is_json = said > "" and all(json.loads(line) for line in said.splitlines())
        report.case(f"watch: --json where nothing runs, {Path(config).name}", (status > 0, is_json), (True, True))


# Three clients, of which one has the server for good, and two wait. SLEEPERS has their calls.
WAITS = """client a
call SLEEP50 none
call ECHO none
client b
call SLEEP60 none
client c
prio abs 70
call SLEEP50 text "x"
"""
SLEEPERS = [("c", 2, "SLEEP50", 70), ("b", 1, "SLEEP60", 60), ("a", 1, "SLEEP50", 50)]


# A client whose three requests are out at once, as it waits for one of them.
WAITS_APART = """client a
acall SLEEP50 none
acall SLEEP60 none
prio abs 70
acall SLEEP50 text "x"
get 2
acall ECHO none
"""
APART = [("a", 4, "SLEEP50", 70), ("a", 2, "SLEEP60", 60), ("a", 1, "SLEEP50", 50)]

# A client's request that a server passes on to the service of another queue.
PASSED = """[[queue]]
name = "P"
[[server]]
name = "T"
queue = "P"
[[service]]
name = "PASS"
queues = ["P"]
"""
WAITS_PASSED = """client a
call SLEEP60 none
client b
call PASS text "SLEEP50 x"
"""


def waiting_at_last(config, given):
    """What watch says as a server owes an answer for a second."""
    with tempfile.TemporaryFile("w+") as said:
        watch = subprocess.Popen([TOOLS / "watch", "--json", config], stdin=subprocess.PIPE, stderr=said)
        watch.stdin.write(given.encode())
        watch.stdin.close()
        wait_for(lambda: '"is": "waits"' in content(said))
        watch.terminate()
        watch.wait(LIMIT)
        return [json.loads(line) for line in content(said).splitlines()]


def waits_watched(report, program, room):
    """Which requests wait at a queue, in the order in which they are taken."""
    config = odd(room)
    for given, sleepers in ((WAITS, SLEEPERS), (WAITS_APART, APART)):
        lines = waiting_at_last(config, given)
        service = next(line["service"] + (" none" if "no data" in line["what"] else "") for line in lines if line.get("frame") == "INVOKE")
        has = sleepers[["SLEEP50", "SLEEP60 none", "SLEEP50 none"].index(service)]
        waits = next(line for line in lines if line["is"] == "waits")
        found = [(each["client"], each["call"], each["service"], each["priority"]) for each in waits["requests"]]
        report.case("watch: who waits", (waits["queue"], found), ("Q", [each for each in sleepers if each != has]))
    written(config, Path(config).read_text() + PASSED)
    lines = waiting_at_last(config, WAITS_PASSED)
    has = next(line["service"] for line in lines if line.get("frame") == "INVOKE" and line["server"] == "S")
    waits = next(line for line in lines if line["is"] == "waits")
    found = [(each["client"], each["service"], each["by"], each["priority"]) for each in waits["requests"]]
    report.case("watch: who waits, passed on", found, [("b", "SLEEP50", "T", 50)] if has == "SLEEP60" else [("a", "SLEEP60", "", 60)])


# A service calls others: one answers, one isn't there, and one waits for the queue's one server, which is the caller's.
CALLS = """client a
call RELAY text "ECHO hi"
call RELAY text "NONE hi"
call RELAY text "RELAY hi"
"""
CALLED = [
    "OP 1: tpcall, service 'ECHO', X_OCTET, 2 octets 'hi'", "REPLY 1: an answer, TPSUCCESS, code 0, X_OCTET, 2 octets 'hi'",
    "OP 2: tpcall, service 'NONE', X_OCTET, 2 octets 'hi'", "REPLY 2: an error, TPENOENT",
    "OP 3: tpcall, service 'RELAY', X_OCTET, 2 octets 'hi'",
]

# A service puts another on its queue and one off it, and that calls itself there.
CHANGES = """client a
call NEW none
call ADV text "+ NEW RELAY"
call ADV text "- ECHO"
call NEW text "NEW hi"
"""
CHANGED = [
    "OP 1: tpadvertise, service 'NEW', routine 'RELAY'", "REPLY 1: done",
    "OP 2: tpunadvertise, service 'ECHO'", "REPLY 2: an error, TPENOENT", "OP 3: tpcall, service 'NEW', X_OCTET, 2 octets 'hi'",
]


def calls_watched(report, program, room):
    """The calls that services make."""
    lines = waiting_at_last(written(f"{room}/config", GOOD % program + PASSED.replace("PASS", "RELAY")), CALLS)
    report.case("watch: calls of services", [line["what"] for line in lines if line.get("frame") in ("OP", "REPLY")], CALLED)
    owed = [line["what"] for line in lines if line["is"] == "awaited"]
    report.case("watch: a REPLY is awaited", owed, [f"still awaited: REPLY, behind {CALLED[-1]}"])
    found = [(line["queue"], [(each["server"], each["service"]) for each in line["requests"]]) for line in lines if line["is"] == "waits"][:1]
    report.case("watch: a service's call waits", found, [("P", [("T", "RELAY")])])
    rows = {line["service"]: (line["calls"], line["failed"]) for line in lines if line["is"] == "service"}
    report.case("watch: calls of services are counted", rows, {"ECHO": (1, 0), "NONE": (1, 1), "RELAY": (2, 1)})
    lines = waiting_at_last(written(f"{room}/config", GOOD % program + PASSED.replace("PASS", "ADV")), CHANGES)
    report.case("watch: changes of the board", [line["what"] for line in lines if line.get("frame") in ("OP", "REPLY")], CHANGED)
    found = [(line["queue"], [(each["server"], each["service"]) for each in line["requests"]]) for line in lines if line["is"] == "waits"][:1]
    report.case("watch: a call of what was advertised waits", found, [("P", [("T", "NEW")])])


def stops_watched(report, program, room):
    """A watch that is ended, by a signal or as nobody reads what it says, leaves no process and no transcript."""
    config, mark = odd(room), f"WATCHED={room}"
    env = os.environ | {"WATCHED": room}
    for number in (signal.SIGTERM, signal.SIGINT, signal.SIGHUP, signal.SIGKILL):
        with tempfile.TemporaryFile("w+") as said:
            watch = subprocess.Popen([TOOLS / "watch", config], stdin=subprocess.PIPE, stdout=subprocess.PIPE, stderr=said, env=env)
            watch.stdin.write(WAITS.encode())
            watch.stdin.close()
            wait_for(lambda: "requests wait" in content(said))
            watch.send_signal(number)
            told = watch.stdout.read()
            status = watch.wait(LIMIT)
            wait_for(lambda: number != signal.SIGKILL or not with_mark(mark))
            report.case(f"watch: {number.name} leaves nothing", (status, told, with_mark(mark)), (-number, b"", []))
            text = content(said)
    report.has("watch: who waits, in words", text, "still awaited: OP, RETURN or FORWARD, behind INVOKE 1: SLEEP",
               "queue Q: 2 requests wait; ", " at the earliest")
    # Behind the sixth line there is nothing more to tell.
    for lines in (1, 3, 6):
        words = f"{TOOLS}/watch {config} 2>&1 <<'END' | head -n {lines}\n{WAITS}END"
        told = run(["bash", "-c", words], env=env)[1]
        report.case(f"watch: | head -n {lines} leaves nothing", (told.count("\n"), " OK " in told, with_mark(mark)), (lines, False, []))
    status = run(["bash", "-c", f"{TOOLS}/watch --log {room}/log {config} <<<$'client a\ncall ECHO none'"])
    lines = Path(room, "log").read_text().splitlines()
    dated = [line for line in lines if re.match(r"\d{4}-\d\d-\d\dT\d\d:\d\d:\d\d\.\d{3}Z ", line)]
    report.case("watch: --log", (status, len(dated) == len(lines) > 8), ((0, "a 1 OK 0 none\n", ""), True))


# What each of three lives of a server does with its call in hand, and how the monitor says that the life ended.
ENDED_BY_THE_MONITOR = [
    ("echo no frame but text", "BadBytes at 26"),
    (r"printf 'XA\1\2\0\0\0\0\0\0\0\0'", "OutOfTurn kind 2 tag 0"),
]

BUSY = """[[queue]]
name = "OTHER"
[[server]]
name = "T"
queue = "OTHER"
program = "%s"
[[service]]
name = "BUSY"
routine = "ECHO"
queues = ["OTHER"]
"""


def lives_watched(report, program, room):
    """A server that the monitor kills in each of its lives, so that its proxy never notes an end. Beside it another one is so
    busy that the next life begins before a look."""
    config = (GOOD % "./server").replace("[[service]]", "restart = true\nmaxgen = 3\n[[service]]") + BUSY % program
    given = "client a\n" + 4 * "call ECHO none\n" + "client b\n" + 1_000 * "call BUSY none\n"
    written(f"{room}/config", config)
    for does, cause in ENDED_BY_THE_MONITOR:
        written(f"{room}/server", f"#!/bin/sh\nprintf '{GREETING}'; head -c 24 >/dev/null; {does}; exec sleep 60\n", 0o755)
        said = run([TOOLS / "watch", "config"], given, room)[2]
        found = [said.count(words) for words in (" started: ", " ended: killed by the monitor", f" ended by {cause}, signal 9\n")]
        report.case(f"watch: three lives, {does}", found, [4, 3, 3])
        report.has("watch: their calls failed", said, "ECHO                                  4       4")


ALL = (watched, reasons_watched, waits_watched, calls_watched, stops_watched, lives_watched)
