"""What `tools/told`, `tools/new`, `tools/rule` and `tools/manual` say and write."""

import json
import os
import re
import shutil

from checks.cases import TOOLS, TOP, run

TRANSCRIPT = """teller 1 OK 0 c:entry 0000000700000000000000fa626f6f6b656400000000000000000000
teller 2 TPESVCERR
teller 3 DONE
branch 1 TPESVCFAIL -7 octet 39390a22
branch 2 OK 2 none
branch 3 OK 2 octet -
branch 4 CD 3
branch 5 CD 3 OK 0 octet 6869
branch 6 CD 4 TPESVCERR
branch 7 NOW 3
"""
IN_WORDS = """teller          1  OK               0  entry account=7 amount=250 memo="booked"
teller          2  TPESVCERR
teller          3  DONE
branch          1  TPESVCFAIL      -7  "99\\x0a\\x22"
branch          2  OK               2  none
branch          3  OK               2  ""
branch          4  CD 3
branch          5  CD 3 OK          0  "hi"
branch          6  CD 4 TPESVCERR
branch          7  NOW 3
"""
AS_JSON = [
    {"client": "teller", "call": 1, "reply": "OK", "code": 0,
     "data": {"shape": "entry", "fields": {"account": 7, "amount": 250, "memo": "booked"}}},
    {"client": "teller", "call": 2, "reply": "TPESVCERR", "code": None, "data": None},
    {"client": "teller", "call": 3, "reply": "DONE", "code": None, "data": None},
    {"client": "branch", "call": 1, "reply": "TPESVCFAIL", "code": -7, "data": {"octets": "39390a22"}},
    {"client": "branch", "call": 2, "reply": "OK", "code": 2, "data": None},
    {"client": "branch", "call": 3, "reply": "OK", "code": 2, "data": {"octets": "", "text": ""}},
    {"client": "branch", "call": 4, "reply": "CD", "code": None, "data": None, "descriptor": 3},
    {"client": "branch", "call": 5, "reply": "OK", "code": 0, "data": {"octets": "6869", "text": "hi"}, "descriptor": 3},
    {"client": "branch", "call": 6, "reply": "TPESVCERR", "code": None, "data": None, "descriptor": 4},
    {"client": "branch", "call": 7, "reply": "NOW", "code": None, "data": None, "now": 3},
]

# A line that is none of a transcript, and what told says of it.
UNTOLD = [
    ("a 1 OK 0 c:entry 00", "line 2: the shape 'entry' has 28 octets, and not 1: a 1 OK 0 c:entry 00"),
    ("a 1 OK 0 c:none -", "line 2: no shape is named 'none'"),
    ("a 1 OK", "line 2: this is no line of a transcript: a 1 OK"),
    ("a 1 OK 0 octet 0", "line 2: this is no line of a transcript"),
    ("a 1 CD 3 CD 3", "line 2: this is no line of a transcript"),
    ("xatmi: \x1b[31m", "line 2: this is no line of a transcript: xatmi: \\x1b[31m"),
]


def transcripts(report, program, room):
    words = [TOOLS / "told", "examples/bank.toml"]
    report.case("told: in words", run(words, TRANSCRIPT), (0, IN_WORDS, ""))
    status, told, _ = run([*words, "--json"], TRANSCRIPT)
    report.case("told: as JSON", (status, [json.loads(line) for line in told.splitlines()]), (0, AS_JSON))
    for given, wanted in (("a 1 OK 0 none\n", 0), ("a 1 OK 0 none\na 2 DONE\na 3 CD 1\na 4 CD 1 OK 0 none\n", 0), ("a 1 CD 1 TPEOTYPE\n", 1), (TRANSCRIPT, 1), ("", 1), ("x\n", 2)):
        report.case(f"told: --check of {given[:20]!r}", run([*words, "--check"], given)[0], wanted)
    for line, wanted in UNTOLD:
        status, told, said = run(words, f"b 1 OK 0 none\n{line}\n")
        report.has(f"told: {line!r}", f"{status} {said}", "2 ", wanted)
        report.case("told: and the others are told", told, "b               1  OK               0  none\n")
    status, told, said = run(words, "server S: life 1: ended by EndOfInput\n")
    report.case("told: a server's line", (status, told, said), (0, "", "server S: life 1: ended by EndOfInput\n"))
    bank = run([program, "run", "examples/bank.toml"], (TOP / "examples/bank.script").read_text())[1]
    report.case("told: the bank", len(run(words, bank)[1].splitlines()), 12)


GREETED = """ada             1  OK               0  "hello Ada"
ada             2  OK               0  item name="pen" count=12 cents=1440
ada             3  TPESVCFAIL       1  item name="pen" count=-1 cents=0
bob             1  OK               0  "hello nobody"
"""


def made(report, program, room):
    """An application of each kind runs at once by the command that is printed."""
    for name, more in [("shop", [])] + [("shopc", ["--c"])] * bool(shutil.which("cc")):
        status, said, _ = run([TOOLS / "new", *more, name], folder=room)
        command = said.splitlines()[-1].removeprefix("run it: ")
        report.case(f"new: {name} runs at once", (status, run(["bash", "-c", command], folder=room)[1]), (0, GREETED))
        report.case(f"new: {name} has no fault", run([TOOLS / "explain", f"{name}/{name}.toml", f"{name}/{name}.script"], folder=room)[:2],
                    (0, "nothing stands in the way of a run\n"))
        report.case(f"new: trial passes on {name}", run([TOOLS / "trial", "--config", f"{name}/{name}.toml"], folder=room)[0], 0)
        report.case("new: nothing is written over", run([TOOLS / "new", name], folder=room), (1, "", f"{name}: File exists\n"))
    report.case("new: a name", run([TOOLS / "new", "../x"], folder=room)[0], 1)
    report.case("new: nothing else is written", sorted(os.listdir(room)), ["shop", "shopc"][: 1 + bool(shutil.which("cc"))])


# A rule, and of what a place is told.
RULES = [
    ("TPEBLOCK", "document code definition proof edit"),
    ("config 11", "document code definition proof edit"),
    ("cause 9", "code proof edit"),
    ("restart", "document code definition clause proof edit"),
    ("OutOfTurn", "document code definition clause proof edit"),
    ("Doubled", "code definition proof"),
]
TOLD_PLACE = re.compile(r"(document|code|definition|clause|proof|edit) +([^ :]+)(?::(\d+))?  (.*)")


def rules(report, program, room):
    """Each place that is told is there, and of code and clauses what is told stands in that line."""
    for rule, kinds in RULES:
        status, told, _ = run([TOOLS / "rule", "--all", *rule.split()])
        found = [TOLD_PLACE.fullmatch(line).groups() for line in told.splitlines()]
        report.case(f"rule: {rule}", (status, sorted(set(kinds.split()) - {kind for kind, *_ in found})), (0, []))
        absent = []
        for kind, path, line, words in found:
            there = (TOP / path).read_text().splitlines()[int(line) - 1] if line and (TOP / path).is_file() else ""
            said = words.split(": ", 1)[-1].strip()[:60]
            if not (TOP / path).exists() or kind in ("code", "clause") and said not in there:
                absent.append((kind, path, line, words))
        report.case(f"rule: {rule}, each place is there", (absent, len(found) > 2), ([], True))
    report.case("rule: nothing of that name", run([TOOLS / "rule", "no.such"])[::2], (1, "nothing goes by the name 'no.such'\n"))


# What is typed, and what the completion offers.
TYPED = [
    ("./xatmi t", ["test", "told", "trial"]),
    ("./xatmi run examples/b", ["examples/bank.toml"]),
    ("./xatmi check examples/bank.toml examples/a", ["examples/again.script"]),
    ("./xatmi watch --", ["--help", "--json", "--log"]),
    ("./xatmi watch --json --log x examples/o", ["examples/own.toml"]),
    ("./xatmi play L", ["LEN"]),
]


def manuals(report, program, room):
    report.case("manual: all files are current", run([TOOLS / "manual", "--check"]), (0, "", ""))
    for typed, offered in TYPED:
        words = typed.split(" ")
        line = f"COMP_WORDS=({' '.join(words)}); COMP_CWORD={len(words) - 1}"
        script = f". completion/xatmi.bash; compopt() {{ :; }}; {line}; _xatmi; printf '%s\\n' \"${{COMPREPLY[@]}}\""
        found = sorted(each for each in run(["bash", "-c", script])[1].split("\n") if each)
        report.case(f"completion: {typed}", found, offered)
    if shutil.which("man"):
        said = run(["man", "--warnings", "-E", "UTF-8", "-l", "man/xatmi.1"], env=os.environ | {"MANWIDTH": "100", "LC_ALL": "C.UTF-8"})
        report.case("manual: the man page", (said[0], said[2], "EXIT STATUS" in said[1], "--patience SECONDS" in said[1]), (0, "", True, True))
    page = run([TOOLS / "manual", "--guide"])[1]
    has = page.count("<pre>") > 5, page.count("<table>") > 5, "|---" in page
    report.case("manual: the guide as a page", has, (True, True, False))


ALL = (transcripts, made, rules, manuals)
