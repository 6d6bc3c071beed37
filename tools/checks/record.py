"""What `tools/why` tells of a record, what `tools/picture` draws of it, that neither takes what is none, and the record of the bank."""

from xml.dom import minidom

from checks.cases import TOOLS, TOP, run, written

CONFIG = """queue = [{ name = 'Q1' }, { name = 'Q2' }]
server = [{ name = 'S1', queue = 'Q1', restart = true, maxgen = 2 }, { name = 'S2', queue = 'Q2' }]
service = [{ name = 'DEBIT', queues = ['Q1'] }, { name = 'CREDIT', queues = ['Q1', 'Q2'] }]
"""
EVENTS = """Advertise 0 0 DEBIT 1 DEBIT 1
Advertise 0 0 CREDIT 1 CREDIT 2
Advertise 0 0 CREDIT 2 CREDIT 3
Start 1 1 0
Start 2 1 0
Accept 1 1 1.1 3 DEBIT 1 DEBIT 50 Reply octet 6869
Take 1.1 1 1 1
End 1.1 1 1 Died
Stop 1 1 EndOfInput
Start 1 2 0
Answer 1 1 1.1 Error TPESVCERR
Accept 1 2 1.2 3 DEBIT 1 DEBIT 50 Reply none
Take 1.2 1 2 2
Forward 1.2 1 2 1 3 CREDIT 2 CREDIT 50 none
Take 1.2 2 1 1
End 1.2 2 1 Failed -7 octet 6e6f
Accept 2 1 2.1 3 DEBIT 1 DEBIT 50 Reply none
Answer 1 2 1.2 Failed -7 octet 6e6f
Take 2.1 1 2 3
End 2.1 1 2 BadForward 3
Answer 2 1 2.1 Error TPESVCERR
Refuse 2 2 TPENOENT Version 3
Leave 1
Leave 2
Close 1
Close 2
Stop 1 2 Shutdown
Stop 2 1 Shutdown
""".splitlines()
SAYS = [
    ("teller", 1, ["version 3 of the board, made by event 2, has DEBIT at Q1 with DEBIT", "S1 in its life 1, which began at event 3, took it",
                   "the server ended with the request in hand", "its output came to its end", "it was told TPESVCERR"]),
    ("teller", 2, ["S1 in its life 2, which began at event 9, took it, take 2", "forwarded it, hop 1, to CREDIT", "the queue Q2 took it for CREDIT",
                   "S2 in its life 1 returned TPFAIL, code -7, octet of 2 octets: \"no\""]),
    ("branch", 1, ["forwarded it, and that failed: no service of the name it gave takes the data"]),
    ("branch", 2, ["it was refused with TPENOENT: no row served the call; version 3"]),
]


def record_of(events, clients=("teller", "branch"), config=CONFIG):
    lines = [*clients, *events, f"end {len(events)}", ""]
    return f"config {len(config)}\n{config}\nclients {len(clients)}\n" + "\n".join(lines)


# What is no record, and the line that is told.
NONE = [
    ("", "line 1: "),
    (record_of(EVENTS)[:-1], "line 33: "),
    (record_of(EVENTS).replace("Leave 1", "Leave 01"), "line 27: no event: a number is due, and not '01'"),
    (record_of(EVENTS).replace("end 28", "end 27"), "line 33: "),
    (record_of(EVENTS, ["a b"]), "line 3: a client's name is due"),
    (record_of([], config="x = 1\n"), "line 1: its configuration has a fault: x: "),
]


def reasons(report, program, room):
    path = written(f"{room}/record", record_of(EVENTS))
    for client, number, wanted in SAYS:
        status, told, said = run([TOOLS / "why", path, client, str(number)])
        report.has(f"why: {client} {number}", f"{status} {told} {said}", "0 ", *wanted)
    report.case("why: no such call", run([TOOLS / "why", path, "teller", "3"]), (1, "", f"{path}: teller made no call 3; 2 calls of it stand in the record\n"))
    report.case("why: no such client", run([TOOLS / "why", path, "x", "1"])[0], 1)
    for octets, wanted in NONE:
        path = written(f"{room}/none", octets)
        for words in ([TOOLS / "why", path, "teller", "1"], [TOOLS / "picture", path]):
            status, told, said = run(words)
            report.has(f"{words[0].name}: no record, {wanted}", f"{status} {told}{said}", f"1 {path}: {wanted}")


def pictures(report, program, room):
    path = written(f"{room}/record", record_of(EVENTS))
    for words, many in (([], 28), (["--from", "20"], 8), (["--from", "5", "--many", "10"], 10)):
        status, told, said = run([TOOLS / "picture", path, *words])
        places = [each for each in minidom.parseString(told).getElementsByTagName("text") if each.getAttribute("text-anchor") == "end"]
        places = [each for each in places if each.firstChild.data.isdigit()]
        report.case(f"picture: the events of {words}", (status, len(places), said), (0, many, ""))
    report.has("picture: what it shows", run([TOOLS / "picture", path])[1], "teller", "branch", "Q1", "Q2", "S1", "S2", "EndOfInput", "forward to CREDIT", "TPFAIL -7 &quot;no&quot;", "TPENOENT")
    empty = written(f"{room}/empty", record_of([], []))
    report.case("picture: no event", run([TOOLS / "picture", empty])[0], 0)


def recorded(report, program, room):
    """The record that the program writes of the bank, with processes: it judges that as a run, and the tools read it."""
    status, told, _ = run([program, "record", "examples/bank.toml"], (TOP / "examples/bank.script").read_text())
    path = written(f"{room}/record", told)
    many = told.split()[-1] if told else ""
    report.case("record: the bank", (status, told[:7]), (0, "config "))
    report.case("audit: the bank", run([program, "audit", path]), (0, f"run of {many} events\n", ""))
    report.has("why: the bank", run([TOOLS / "why", path, "teller", "1"])[1], "CHECK in its life 1", "forwarded it, hop 1, to ACCT")
    report.has("picture: the bank", run([TOOLS / "picture", path])[1], "teller", "branch", "QT", "QA", "CHECK", "BOOK1", "BOOK2")


ALL = [reasons, pictures, recorded]
