"""Reads the record of a run: its configuration, its clients, and its events in merged order."""

import re
from typing import NamedTuple

import configuration
from configuration import entries_of, names_of

LONGEST = 67_108_864
MOST_CLIENTS = 64
# The fields of each kind of event, in their order, as docs/machine.md has them.
FIELDS = {
    "Advertise": "by op service queue routine version",
    "Withdraw": "by op service queue version",
    "Accept": "by op request version service queue routine priority mode payload",
    "Take": "request server generation k",
    "Forward": "request server generation hop version service queue routine priority payload",
    "Sweep": "request queue",
    "Gone": "server",
    "Down": "queue",
    "Close": "queue",
    "Tick": "by op now",
    "Start": "server generation tick",
    "StartFailed": "server generation tick",
    "End": "request server generation outcome",
    "Stop": "server generation cause",
    "Answer": "by op request answer",
    "Cancel": "by op request",
    "Lapse": "by op requests of_call now deadline",
    "Refuse": "by op fault evidence",
    "NotYet": "by op requests",
    "Leave": "by",
    "Send": "by op request payload passes",
    "Receive": "by op request item",
    "Break": "by op request",
    "Priority": "by op absolute amount",
}
NUMBERS = {"by", "op", "queue", "version", "priority", "server", "generation", "k", "hop", "now", "tick", "deadline", "amount"}
# What follows the name of a value.
OUTCOMES = {"Returned": "code payload", "Failed": "code payload", "BadReturn": "", "BadForward": "version", "Died": "", "Starved": ""}
CAUSES = {
    "Shutdown": "", "Exit": "", "EndOfInput": "", "ReadFault": "", "WriteFault": "", "BadBytes": "place", "OutOfTurn": "kind tag",
    "Starved": "",
}
ANSWERS = {"Success": "code payload", "Failed": "code payload", "Error": "fault"}
ITEMS = {"Message": "payload passes", "Ending": "event code payload"}
EVIDENCES = {
    "Argument": "", "Version": "version", "AllDown": "version", "Descriptor": "descriptor", "Cells": "many", "Connections": "many",
    "Rows": "many", "Clock": "now", "Queue": "queue many", "Pool": "", "Conversation": "descriptor", "Deadline": "now deadline",
    "Control": "has", "Role": "", "Routine": "routine", "NoRow": "", "Ended": "descriptor event code",
}
CHOICES = {"outcome": OUTCOMES, "cause": CAUSES, "answer": ANSWERS, "item": ITEMS, "evidence": EVIDENCES}
NUMBERS |= {"code", "place", "kind", "tag", "descriptor", "many"}
TRUTHS = {"of_call", "passes", "absolute", "has"}
NUMBER = re.compile(rb"-?(0|[1-9][0-9]*)")
NAME = re.compile(rb"(?!\.)[\x21-\x7e]{1,31}")
REQUEST = re.compile(rb"(0|[1-9][0-9]*)\.(0|[1-9][0-9]*)")
HEX = re.compile(rb"-|(?:[0-9a-f]{2})+")


class NoRecord(Exception):
    """The octets are no record: the line, the configuration counted as one, and why."""

    def __init__(self, line, why):
        super().__init__(f"line {line}: {why}")


class Request(NamedTuple):
    """The caller, and the number that it gave the request."""

    caller: int
    number: int

    def __str__(self):
        return f"{self.caller}.{self.number}"


class Data(NamedTuple):
    """The kind, `none`, `octet` or `c:SUBTYPE`, and the octets."""

    kind: str
    octets: bytes


class Value(NamedTuple):
    """A value of several cases: its name, and what it has besides."""

    name: str
    of: dict


class Event:
    """An event: its place from 0, its kind, and its fields, of which those that it doesn't have are none."""

    def __init__(self, place, kind, fields):
        self.place, self.kind, self.fields = place, kind, fields

    def __getattr__(self, name):
        return self.fields.get(name)


class Words:
    """The words of an event's line, which are taken from the left."""

    def __init__(self, line):
        self.left = line.split(b" ")

    def next(self):
        if not self.left:
            raise ValueError("it is too short")
        return self.left.pop(0)

    def matched(self, pattern, what):
        word = self.next()
        found = pattern.fullmatch(word)
        if not found:
            raise ValueError(f"{what} is due, and not {word.decode(errors='backslashreplace')!r}")
        return found

    def field(self, name):
        """The field of that name."""
        if name in NUMBERS:
            return int(self.matched(NUMBER, "a number")[0])
        if name in TRUTHS:
            return self.matched(re.compile(b"yes|no"), "yes or no")[0] == b"yes"
        if name == "request":
            return Request(*map(int, self.matched(REQUEST, "a request").groups()))
        if name == "requests":
            return [self.field("request") for _ in range(self.field("many"))]
        if name == "payload":
            return self.data()
        if name in CHOICES:
            case = self.next().decode(errors="backslashreplace")
            if case not in CHOICES[name]:
                raise ValueError(f"'{case}' is no {name}")
            return Value(case, {each: self.field(each) for each in CHOICES[name][case].split()})
        return self.matched(NAME, "a name")[0].decode()

    def data(self):
        kind = self.field("word")
        if kind == "none":
            return Data(kind, b"")
        if kind != "octet" and not kind.startswith("c:"):
            raise ValueError(f"'{kind}' is no kind of data")
        octets = self.matched(HEX, "hexadecimal digits")[0]
        return Data(kind, b"" if octets == b"-" else bytes.fromhex(octets.decode()))


def event_of(line, place):
    words = Words(line)
    kind = words.next().decode(errors="backslashreplace")
    if kind not in FIELDS:
        raise ValueError(f"no event has the name '{kind}'")
    fields = {name: words.field(name) for name in FIELDS[kind].split()}
    if words.left:
        raise ValueError("it is too long")
    return Event(place, kind, fields)


def counted(line, word, at):
    """The number that stands in that line behind the word."""
    found = re.fullmatch(word + rb" (0|[1-9][0-9]*)", line)
    if not found:
        raise NoRecord(at, f"'{word.decode()}' and a number are due, and not {line[:40].decode(errors='backslashreplace')!r}")
    return int(found[1])


class Record:
    """What the octets of a record say; each caller, queue and server has a name."""

    def __init__(self, octets):
        head, found, rest = octets.partition(b"\n")
        size = counted(head, b"config", 1)
        if not found or rest[size : size + 1] != b"\n":
            raise NoRecord(1, f"{size} octets and the end of a line are due")
        self.config = rest[:size]
        self.document, faults = configuration.read(self.config)
        if faults:
            raise NoRecord(1, f"its configuration has a fault: {faults[0].key}: {faults[0].wrong}")
        *lines, last = rest[size + 1 :].split(b"\n")
        if last:
            raise NoRecord(len(lines) + 2, "no octet 0x0A ends it")
        self.take(lines)
        self.queues = names_of(entries_of(self.document, "queue"))
        self.servers = names_of(entries_of(self.document, "server"))
        self.boards = boards(self.events)

    def take(self, lines):
        many = counted(lines[0] if lines else b"", b"clients", 2)
        if many > MOST_CLIENTS:
            raise NoRecord(2, f"it has {many} clients, and {MOST_CLIENTS} are the most")
        self.clients = [self.client(each, at) for at, each in enumerate(lines[1 : many + 1], 3)]
        if len(lines) < many + 2:
            raise NoRecord(len(lines) + 2, "there is no such line")
        events = lines[many + 1 : -1]
        self.events = [self.event(each, place, many) for place, each in enumerate(events)]
        end = len(events) + many + 3
        if counted(lines[-1], b"end", end) != len(events):
            raise NoRecord(end, f"it says another number than that of the {len(events)} events before it")

    @staticmethod
    def client(line, at):
        if not NAME.fullmatch(line):
            raise NoRecord(at, "a client's name is due")
        return line.decode()

    @staticmethod
    def event(line, place, many):
        try:
            return event_of(line, place)
        except ValueError as error:
            raise NoRecord(place + many + 3, f"no event: {error}") from None

    def queue(self, number):
        return named(self.queues, number, "queue")

    def server(self, number):
        return named(self.servers, number, "server")

    def caller(self, number):
        """The name of a caller: the monitor, a client, or a server."""
        if number == 0:
            return "the monitor"
        if number <= len(self.clients):
            return self.clients[number - 1]
        return self.server(number - len(self.clients))


def named(names, number, what):
    return names[number - 1] if 1 <= number <= len(names) else f"{what} {number}"


class Board(NamedTuple):
    """A version of the board: the place of the event that made it, or none, and for each service its queues with their routines."""

    place: int
    rows: dict


def boards(events):
    """The versions of the board, by their number."""
    found = {0: Board(None, {})}
    rows = {}
    for event in events:
        if event.kind == "Advertise":
            rows = rows | {(event.service, event.queue): event.routine}
        elif event.kind == "Withdraw":
            rows = {key: routine for key, routine in rows.items() if key != (event.service, event.queue)}
        else:
            continue
        found[event.version] = Board(event.place, rows)
    return found


def read(path):
    """The record that stands in that file."""
    with open(path, "rb") as file:
        octets = file.read(LONGEST + 1)
    if len(octets) > LONGEST:
        raise NoRecord(1, f"the file has more than {LONGEST:,} octets")
    return Record(octets)
