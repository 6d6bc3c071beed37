"""The lines of a script at fault, and what calls are to be told. docs/guide.md ("Script") says what a line may be."""

import re
from typing import NamedTuple

import shapes as typed
from configuration import NAME, entries_of, like, names_of, spoils, texts_of

LONGEST = 1_048_576
LARGEST = 65_536
DEFAULT_PRIORITY = 50
MOST_CLIENTS = 64
UNPRINTED, UNKNOWN, BEFORE_CLIENTS, MISSHAPEN, NO_NAME, DOUBLED, ONE_TOO_MANY, NOT_TAKEN, NOT_SERVED = range(1, 10)
UNPRINTED_OCTET = re.compile(rb"[^\x20-\x7e]")
NUMBER = re.compile(rb"0|-?[1-9][0-9]*")
QUOTED = re.compile(rb'"((?:[^"\\]|\\["\\])*)"(?= |$)')
CALLS = ["call", "acall", "get", "getany", "cancel", "connect", "send", "recv", "discon", "prio", "advertise", "unadvertise", "tick"]
CHANGES = ["advertise", "unadvertise"]
SENDING = ["call", "acall"]
SERVED = [*SENDING, "get", "getany", "cancel", "prio", *CHANGES, "tick"]
FLAGS = ["noblock", "notime", "noreply", "notran", "sigrstrt"]
DATA = ["none", "text", "octet", "fill", "c"]
DIRECTIONS = ["send", "recv", "both", "neither"]
SIZES = {"short": 2, "int": 4, "long": 8}


class Fault(NamedTuple):
    """A line at fault, or a call that is to be refused, of which the cause is none. It isn't sure of a service that a server
    may advertise."""

    line: int
    column: int
    cause: int
    wrong: str
    guess: str = ""
    sure: bool = True


class Data(NamedTuple):
    """What a call sends: of X_C_TYPE the subtype, and the octets, which are none where the shape isn't known."""

    subtype: str
    octets: bytes


class Call(NamedTuple):
    """A call of a client: its number from 1, its line, its verb and flags; of a tpcall and a tpacall its service, its data and its
    priority; of a tpgetrply and a tpcancel its descriptor, or none for any."""

    number: int
    line: int
    verb: str
    service: bytes = b""
    data: Data = None
    priority: int = 0
    flags: tuple = ()
    # What it is sure to be told, so that it makes no request, or the empty text.
    refused: str = ""
    descriptor: int = None


class Misread(Exception):
    """Why a line is no call: the cause, the column, what is wrong, and a guess."""


def lines_of(octets):
    lines = octets.split(b"\n")
    ended = [line.removesuffix(b"\r") for line in lines[:-1]]
    return ended + ([lines[-1]] if lines[-1] else [])


def number_of(word):
    """The number that the word says. Of a long one its front is enough, which is beyond all limits too: int() takes no more
    than 4,300 digits."""
    return int(word[:30])


class Line:
    """A line that is read from its front. What the setup doesn't take is told only where no word is at fault."""

    def __init__(self, text, shapes):
        self.text, self.shapes, self.at = text, shapes, 0
        self.not_taken = None

    def skip(self):
        self.at = re.compile(rb" *").match(self.text, self.at).end()

    def misread(self, wrong, guess="", at=None):
        return Misread(MISSHAPEN, (self.at if at is None else at) + 1, wrong, guess)

    def refuse(self, wrong, at, guess=""):
        self.not_taken = self.not_taken or Misread(NOT_TAKEN, at + 1, wrong, guess)

    def word(self, what):
        self.skip()
        start = self.at
        self.at = re.compile(rb"[^ ]*").match(self.text, start).end()
        if self.at == start:
            raise self.misread(f"{what} is missing")
        return self.text[start : self.at], start

    def one_of(self, what, words):
        word, start = self.word(what)
        if word.decode() not in words:
            said = word.decode()
            if said.startswith("#"):
                raise self.misread("nothing more stands in the line: a comment is a line of its own", "", start)
            if said in FLAGS:
                raise self.misread(f"flags stand behind the data, and {what} is {', '.join(words)}", "", start)
            if said.startswith("c:") and "c" in words:
                raise self.misread("the subtype stands behind a space", f"c {said[2:]}", start)
            if said[0] in "\"'" and "text" in words:
                raise self.misread("the word text stands before a text", f"text {said}", start)
            raise self.misread(f"{what} is one of {', '.join(words)}", like(said, words), start)
        return word.decode()

    def number(self, what, least, most):
        word, start = self.word(what)
        if not NUMBER.fullmatch(word) or not least <= number_of(word) <= most:
            raise self.misread(f"{what} is a number from {least:,} to {most:,} without leading zero", "", start)
        return number_of(word)

    def service(self, what="the service"):
        word, start = self.word(what)
        if len(word) > 255:
            raise self.misread(f"{what} has at most 255 octets", "", start)
        return word, start

    def quoted(self):
        found = QUOTED.match(self.text, self.at)
        if not found:
            raise self.misread('a text stands in double quotes, with \\" and \\\\ for a quote and a backslash, and a space behind it')
        self.at = found.end()
        return re.sub(rb"\\(.)", rb"\1", found[1])

    def data(self):
        form = self.one_of("the data", DATA)
        if form == "none":
            return None
        if form == "text":
            self.skip()
            return Data(None, self.quoted())
        if form == "octet":
            word, start = self.word("the octets in hexadecimal")
            if not re.fullmatch(rb"(?:[0-9a-f]{2})+", word):
                why = "0x isn't written" if word.startswith(b"0x") else "small letters are written" if word.lower() != word else ""
                why = why or (f"here are {len(word)}" if re.fullmatch(rb"[0-9a-f]+", word) else "")
                raise self.misread(f"octets are an even number of digits 0 to 9, a to f{'; ' * bool(why)}{why}", "", start)
            return Data(None, bytes.fromhex(word.decode()))
        if form == "fill":
            count = self.number("the number of octets", 0, 70_000)
            word, start = self.word("the octet in hexadecimal")
            if not re.fullmatch(rb"[0-9a-f]{2}", word):
                raise self.misread("an octet is two digits 0 to 9, a to f", "", start)
            return Data(None, count * bytes.fromhex(word.decode()))
        return self.struct()

    def struct(self):
        word, start = self.word("the subtype")
        subtype, given = word.decode(), {}
        self.shape(subtype, start)
        while field := re.compile(rb" *([^ =]*)=").match(self.text, self.at):
            start, name = field.start(1), field[1].decode()
            if not NAME.fullmatch(field[1]) or name in given:
                raise self.misread(f"'{name}' is given twice" if name in given else f"'{name}' is no name: {spoils(field[1])}", "", start)
            self.at = field.end()
            given[name] = self.value(name, (self.shapes or {}).get(subtype), start)
        if spaced := re.compile(rb" *[^ =]+( +)=").match(self.text, self.at):
            raise self.misread("no space stands before '='", "", spaced.start(1))
        known = self.shapes is not None and not self.not_taken
        return Data(subtype, typed.packed(self.shapes[subtype], given) if known else None)

    def value(self, name, fields, start):
        if self.text[self.at : self.at + 1] == b'"':
            value = self.quoted()
        else:
            value = re.compile(rb"[^ ]*").match(self.text, self.at)[0]
            if not value and self.text[self.at :]:
                raise self.misread("no space stands behind '='")
            if value.startswith(b"'"):
                raise self.misread("a text stands in double quotes")
            if not NUMBER.fullmatch(value):
                raise self.misread("a value is a number without leading zero, or a text in double quotes")
            self.at += len(value)
            value = number_of(value)
        if fields is None:
            return value
        if name not in fields:
            self.refuse(f"the shape has no field '{name}'", start, like(name, fields))
        elif not takes(fields[name], value):
            self.refuse(f"'{name}' is of kind {fields[name]}, which takes {limits(fields[name])}", start)
        return value

    def flags(self, buffered=False):
        left, found = FLAGS + ["nochange"] * buffered, []
        while self.text[self.at :].strip(b" "):
            flag = self.one_of("a flag, which stands once at most,", left)
            left = [each for each in left if each != flag]
            found.append(flag)
            if flag == "nochange":
                self.kind()
        return tuple(found)

    def kind(self):
        word, start = self.word("the kind of the buffer")
        if word == b"octet":
            return
        if not word.startswith(b"c:"):
            raise self.misread("the kind of a buffer is octet or c:SHAPE", "", start)
        self.shape(word[2:].decode(), start)

    def shape(self, name, start):
        if self.shapes is not None and name not in self.shapes:
            self.refuse(f"no shape is named '{name}'", start, like(name, self.shapes))

    def end(self):
        self.skip()
        if self.at < len(self.text):
            raise self.misread("nothing more stands in the line")


def takes(kind, value):
    """Whether a field of that kind takes the value."""
    if isinstance(value, bytes):
        return kind.startswith("string") and len(value) <= int(kind.split(" ")[1])
    if kind == "char":
        return 0 <= value <= 255
    return kind in SIZES and -(256 ** SIZES[kind]) // 2 <= value < 256 ** SIZES[kind] // 2


def limits(kind):
    """What a field of that kind takes, in words."""
    if kind.startswith("string"):
        return f"a text of at most {kind.split(' ')[1]} octets, in double quotes"
    if kind == "char":
        return "a number from 0 to 255"
    most = 256 ** SIZES[kind] // 2
    return f"a number from {-most:,} to {most - 1:,}"


def descriptor(line):
    return line.number("the descriptor", 0, 2**64 - 1)


def call_of(verb, line):
    """Reads the rest of a call's line; what a tpcall or a tpacall says, and where its service stands; of a tpgetrply or a tpcancel
    its descriptor and flags, and where its line begins; of prio how the priority is set; of a change of the board where its line
    begins."""
    begin, cd, flags = line.at - len(verb), None, ()
    if verb in ("call", "acall", "connect"):
        service, start = line.service()
        data = line.data()
        if verb == "connect":
            line.one_of("the direction", DIRECTIONS)
        flags = line.flags(verb == "call")
        return service, start, data, flags
    if verb in ("get", "cancel", "send", "recv", "discon"):
        cd = descriptor(line)
    if verb == "send":
        line.data()
        if passes := re.compile(rb" +recv(?= |$)").match(line.text, line.at):
            line.at = passes.end()
    if verb == "prio":
        how = line.one_of("how the number is meant", ["abs", "add"])
        number = line.number("the priority", -1000, 1000)
        line.end()
        return how, number
    if verb in CHANGES:
        line.service()
        if verb == "advertise":
            line.service("the routine")
        line.end()
        return begin
    if verb == "tick":
        line.number("the number of ticks", 1, 2_147_483_647)
    if verb in ("get", "getany", "send", "recv"):
        flags = line.flags(verb in ("get", "getany"))
    line.end()
    return begin, cd, flags


def client_of(line):
    word, start = line.word("the name of the client")
    line.end()
    return word, start


def service_fault(document, number, column, service, data, flags=()):
    """What such a call is to be told, if anything."""
    names = names_of(entries_of(document, "service"))
    if not NAME.fullmatch(service):
        return Fault(number, column, 0, f"'{service.decode()}' is no name: {spoils(service)}; so the call is told TPEINVAL")
    if data and data.octets is not None and len(data.octets) > LARGEST:
        return Fault(number, column, 0, f"the data has more than {LARGEST:,} octets, so the call is told TPEINVAL")
    if "noreply" in flags:
        return Fault(number, column, 0, "noreply is for acall, so the call is told TPEINVAL")
    word = service.decode()
    if word not in names:
        wrong = f"no service is named '{word}', so the call is told TPENOENT, unless a server advertises it"
        return Fault(number, column, 0, wrong, like(word, names), False)
    entry = entries_of(document, "service")[names.index(word)]
    conversational, accepts = entry.get("conversational"), entry.get("accepts")
    if conversational and conversational.data:
        return Fault(number, column, 0, f"'{word}' is for conversations, so the call is told TPENOENT")
    kind = "octet" if data and data.subtype is None else f"c:{data.subtype}" if data else ""
    if data and accepts and kind not in texts_of(accepts.data):
        said = "X_OCTET" if kind == "octet" else f"X_C_TYPE of '{data.subtype}'"
        return Fault(number, column, 0, f"'{word}' doesn't take {said}, so the call is told TPEITYPE")
    return None


def client_faults(number, column, word, clients, most):
    if not NAME.fullmatch(word):
        yield Fault(number, column, NO_NAME, f"'{word.decode()}' is no name: {spoils(word)}; 1 to 31 octets, the first no dot, are one")
    if word in clients:
        yield Fault(number, column, DOUBLED, f"an earlier client is named '{word.decode()}'")
    if len(clients) >= most:
        yield Fault(number, column, ONE_TOO_MANY, f"a script has at most {most} {'clients' if most > 1 else 'client here'}")


def line_faults(number, text, shapes, clients, begun, most):
    """The fault of a line that isn't skipped, and its client's name or its call, where it has one."""
    line = Line(text, shapes)
    word, start = line.word("the first word")
    verb = word.decode()
    try:
        if verb == "client":
            name, start = client_of(line)
            return list(client_faults(number, start + 1, name, clients, most))[:1], name
        if verb not in CALLS:
            wrong = "a comment has '#' as the first octet of its line" if verb.startswith("#") else f"no line begins with '{verb}'"
            return [Fault(number, start + 1, UNKNOWN, wrong, like(verb, ["client", *CALLS]))], None
        if not begun:
            return [Fault(number, 1, BEFORE_CLIENTS, "a call stands behind the line of its client")], None
        call = call_of(verb, line)
        if line.not_taken:
            raise line.not_taken
        if verb not in SERVED:
            raise Misread(NOT_SERVED, start + 1, f"'{verb}' isn't served yet", "")
        if verb == "acall" and "noreply" in call[3]:
            raise Misread(NOT_SERVED, start + 1, "'acall' with noreply isn't served yet", "")
        return [], call
    except Misread as misread:
        cause, column, wrong, guess = misread.args
        return [Fault(number, column, cause, wrong, guess)], None


def foreign(octets):
    """What an octet begins that may not stand in a script, where it is a thing that editors write by themselves."""
    if octets.startswith(b"\xef\xbb\xbf"):
        return "; it begins a byte order mark, which an editor wrote"
    begun = octets[:3].decode("utf-8", "replace")
    if begun[:1] in QUOTES:
        return f"; it begins {begun[0]}, and a text stands in straight quotes"
    return "; it is a tab, and words have spaces between them" if octets[:1] == b"\t" else ""


QUOTES = tuple("\u201c\u201d\u201e\u2018\u2019\u00ab\u00bb")


def lines_read(octets, document=None, most=MOST_CLIENTS):
    """Each line that isn't skipped: its number, its first word, its faults, and what it says; without a document nothing is said of
    shapes."""
    clients, begun, shapes = [], False, typed.shapes_of(document) if document else None
    for number, text in enumerate(lines_of(octets), 1):
        if bad := UNPRINTED_OCTET.search(text):
            wrong = f"the octet 0x{bad[0][0]:02x} may not stand in a script, not in a comment either{foreign(text[bad.start() :])}"
            yield number, "", [Fault(number, bad.start() + 1, UNPRINTED, wrong)], None
        elif text.strip(b" ") and not text.startswith(b"#"):
            verb = text.split()[0].decode()
            faults, said = line_faults(number, text, shapes, clients, begun, most)
            begun = begun or verb == "client"
            if verb == "client" and not faults:
                clients.append(said)
            yield number, verb, faults, said


def faults_of(octets, document=None, most=MOST_CLIENTS):
    """The least fault of each line in order, and calls that are to be refused."""
    begun, good, sent, left = False, True, 0, set()
    for number, verb, faults, said in lines_read(octets, document, most):
        yield from faults
        begun, good = begun or verb == "client", good and not faults
        if verb == "client":
            sent, left = 0, set()
        if verb in SENDING and not faults:
            service, start, data, flags = said
            fault = service_fault(document, number, start + 1, service, data, flags) if document else None
            if fault:
                yield fault
            if not (fault and fault.sure):
                sent += 1
        elif verb in ("get", "getany", "cancel") and not faults:
            begin, cd, flags = said
            if not (sent if cd is None else 1 <= cd <= sent and cd not in left):
                which = "no descriptor is" if cd is None else f"the descriptor {cd} isn't"
                yield Fault(number, begin + 1, 0, f"{which} open here, so the call is told TPEBADDESC")
            if "noblock" not in flags:
                left.add(cd)
        elif verb in CHANGES and not faults:
            yield Fault(number, said + 1, 0, f"a client has no server, for which '{verb}' is, so the call is told TPEPROTO")
    if good and not begun:
        yield Fault(1, 1, 0, "the script has no client, so it makes no call: a line 'client NAME' stands before the calls")


def calls_of(octets, document):
    """The calls of each client, by its name, of a script without a fault."""
    clients, calls, prio = {}, [], None
    priorities = {name: entry.get("priority").data if entry.get("priority") else DEFAULT_PRIORITY
                  for entry in entries_of(document, "service") for name in names_of([entry])}
    for number, verb, _, said in lines_read(octets, document):
        if verb == "client":
            calls, prio = clients.setdefault(said.decode(), []), None
        elif verb in SENDING:
            service, start, data, flags = said
            fault = service_fault(document, number, start + 1, service, data, flags)
            usual = priorities.get(service.decode(), DEFAULT_PRIORITY)
            priority = usual if prio is None else min(100, max(1, prio[1] + (usual if prio[0] == "add" else 0)))
            refused = fault.wrong if fault and fault.sure else ""
            calls.append(Call(len(calls) + 1, number, verb, service, data, priority, flags, refused))
            prio = prio if fault else None
        elif verb in ("get", "getany", "cancel"):
            _, cd, flags = said
            calls.append(Call(len(calls) + 1, number, verb, flags=flags, descriptor=cd))
        else:
            prio = said if verb == "prio" else prio
            calls.append(Call(len(calls) + 1, number, verb))
    return clients


def told(fault):
    """The line that the monitor writes for that fault."""
    return f"script line {fault.line} cause {fault.cause}"
