"""The frames of docs/protocol.md."""

import struct

READY, NEXT, OP, RETURN, FORWARD, INVOKE, REPLY, SHUTDOWN = 0x01, 0x02, 0x03, 0x04, 0x05, 0x11, 0x12, 0x13
NAMES = {
    READY: "READY", NEXT: "NEXT", OP: "OP", RETURN: "RETURN", FORWARD: "FORWARD",
    INVOKE: "INVOKE", REPLY: "REPLY", SHUTDOWN: "SHUTDOWN",
}
OUTCOMES = ["TPSUCCESS", "TPFAIL", "TPEXIT"]
MODES = ["a reply is wanted", "no reply is wanted", "a conversation, in which it receives first", "a conversation, in which it sends first"]
FLAGS = ["TPNOBLOCK", "TPNOTIME", "TPNOREPLY", "TPNOTRAN", "TPSIGRSTRT"]
DIRECTIONS = ["neither", "TPSENDONLY", "TPRECVONLY", "both"]
ERRORS = [
    "TPEINVAL", "TPENOENT", "TPEITYPE", "TPEOTYPE", "TPEBADDESC", "TPELIMIT", "TPEBLOCK", "TPETIME",
    "TPEPROTO", "TPESYSTEM", "TPEMATCH", "TPESVCFAIL", "TPESVCERR", "TPEEVENT", "NOMEM",
]
EVENTS = ["TPEV_DISCONIMM", "TPEV_SENDONLY", "TPEV_SVCERR", "TPEV_SVCFAIL", "TPEV_SVCSUCC", "NOMEM"]
# The calls that a service makes, by the number of their OP: the name, and the fields in their order.
OPERATIONS = {
    1: ("tpcall", "flags service kind data"),
    2: ("tpacall", "flags service data"),
    3: ("tpgetrply", "flags descriptor kind"),
    4: ("tpgetrply with TPGETANY", "flags kind"),
    5: ("tpcancel", "descriptor"),
    6: ("tpconnect", "flags direction service data"),
    7: ("tpsend", "flags descriptor passes data"),
    8: ("tprecv", "flags descriptor"),
    9: ("tpdiscon", "descriptor"),
    10: ("tpsprio", "absolute number"),
    11: ("tpadvertise", "service routine"),
    12: ("tpunadvertise", "service"),
    13: ("a tick of the clock", "ticks"),
}
# Those that the monitor makes or refuses; another one is out of turn.
MADE = ["tpcall", "tpsprio", "tpadvertise", "tpunadvertise", "a tick of the clock"]
# What a REPLY tells, by its number.
REPLIES = {
    0: ("done", ""),
    1: ("a descriptor", "descriptor"),
    2: ("the time", "time"),
    3: ("an answer", "descriptor answer"),
    4: ("a message", "data"),
    5: ("an event", "event code data"),
    6: ("an error", "error"),
}
BEGINS, HEADER, MOST_BODY, MOST_DATA = b"XA\1", 12, 66_000, 65_536
NO_DATA = b"\0"


class NoFrame(Exception):
    """The octets are no frame."""


def frame(kind, tag, body=b""):
    return struct.pack(">3sBII", BEGINS, kind, len(body), tag) + body


def name(octets):
    return bytes([len(octets)]) + octets


def octet_data(octets):
    return b"\1" + struct.pack(">I", len(octets)) + octets


def struct_data(subtype, octets):
    return b"\2" + name(subtype) + struct.pack(">I", len(octets)) + octets


def data_of(subtype, octets):
    return NO_DATA if octets is None else octet_data(octets) if subtype is None else struct_data(subtype, octets)


def invoke(tag, service, routine, data=NO_DATA, mode=0):
    return frame(INVOKE, tag, name(service) + name(routine) + bytes([mode]) + data)


def reply_done(tag):
    return frame(REPLY, tag, b"\0")


def reply_error(tag, error):
    return frame(REPLY, tag, bytes([6, 1 + ERRORS.index(error)]))


def reply_answer(tag, outcome, data):
    """Of a tpcall, with TPSUCCESS or TPFAIL and code 0."""
    return frame(REPLY, tag, struct.pack(">BQBi", 3, 0, OUTCOMES.index(outcome), 0) + data)


def first_frame(octets):
    """The kind, the tag and the body of the frame that stands first, and its length; none where it isn't whole yet."""
    begun = octets[: len(BEGINS)]
    if begun != BEGINS[: len(begun)]:
        raise NoFrame("a frame begins with 58 41 01")
    if len(octets) < HEADER:
        return None
    kind, length, tag = struct.unpack_from(">BII", octets, len(BEGINS))
    if kind not in NAMES:
        raise NoFrame(f"there is no frame of kind {kind:02x}")
    if length > MOST_BODY:
        raise NoFrame(f"a body has at most {MOST_BODY:,} octets, and not {length:,}")
    if len(octets) < HEADER + length:
        return None
    return kind, tag, bytes(octets[HEADER : HEADER + length]), HEADER + length


class Body:
    """The fields of a body, taken one by one."""

    def __init__(self, octets):
        self.octets, self.at = octets, 0

    def take(self, count):
        if self.at + count > len(self.octets):
            raise NoFrame("the body ends within a field")
        self.at += count
        return self.octets[self.at - count : self.at]

    def number(self, size, signed=False):
        return int.from_bytes(self.take(size), "big", signed=signed)

    def word(self):
        return self.take(self.number(1))

    def name(self):
        found = self.word()
        if not 1 <= len(found) <= 31 or found[0] == 0x2E or any(not 0x21 <= octet <= 0x7E for octet in found):
            raise NoFrame(f"{shown(found)} is no name")
        return found

    def data(self):
        """The subtype, where there is one, and the octets; none where there is no data."""
        kind = self.number(1)
        if kind > 2:
            raise NoFrame(f"there is no data of kind {kind:02x}")
        subtype = self.name() if kind == 2 else None
        if kind == 0:
            return None, None
        length = self.number(4)
        if length > MOST_DATA:
            raise NoFrame(f"data has at most {MOST_DATA:,} octets, and not {length:,}")
        return subtype, self.take(length)

    def choice(self, what, words, first=0):
        """One of these words, of which the first has that number."""
        number = self.number(1)
        if not first <= number < first + len(words):
            raise NoFrame(f"{what} is a number from {first} to {first + len(words) - 1}, and not {number}")
        return words[number - first]

    def flags(self):
        number = self.number(1)
        if number >= 1 << len(FLAGS):
            raise NoFrame(f"flags are a number below {1 << len(FLAGS)}, and not {number}")
        return [flag for place, flag in enumerate(FLAGS) if number >> place & 1]

    def kind(self):
        """The kind of a buffer: none, X_OCTET, or the subtype of X_C_TYPE."""
        number = self.number(1)
        if number > 2:
            raise NoFrame(f"there is no buffer of kind {number:02x}")
        return None if number == 0 else kind_of(self.name() if number == 2 else None)

    def field(self, what, found):
        """Takes the field of an OP or a REPLY."""
        if what == "data":
            found["subtype"], found["data"] = self.data()
        elif what == "answer":
            outcome = self.choice("the u8 of an answer", ["TPSUCCESS", "TPFAIL", "an error"])
            if outcome != "an error":
                found["outcome"] = outcome
            for each in ["error"] if outcome == "an error" else ["code", "data"]:
                self.field(each, found)
        else:
            found[what] = FIELDS[what](self)

    def end(self):
        if self.at < len(self.octets):
            raise NoFrame("octets stand behind the last field of a body")


FIELDS = {
    "flags": Body.flags,
    "service": Body.word,
    "routine": Body.word,
    "kind": Body.kind,
    "descriptor": lambda body: body.number(8),
    "time": lambda body: body.number(8),
    "ticks": lambda body: body.number(4),
    "number": lambda body: body.number(4, signed=True),
    "code": lambda body: body.number(4, signed=True),
    "direction": lambda body: body.choice("the u8 of tpconnect", DIRECTIONS),
    "passes": lambda body: body.choice("the u8 of tpsend", ["goes on sending", "TPRECVONLY"]),
    "absolute": lambda body: body.choice("the u8 of tpsprio", ["added", "TPABSOLUTE"]),
    "event": lambda body: body.choice("an event", EVENTS, 1),
    "error": lambda body: body.choice("an error", ERRORS, 1),
}


def numbered(rest, name, table):
    """The fields of an OP or a REPLY, whose first octet says which."""
    number = rest.number(1)
    if number not in table:
        raise NoFrame(f"there is no {name} of number {number}")
    found = {"does": table[number][0]}
    for what in table[number][1].split():
        rest.field(what, found)
    return found


def fields(kind, body):
    """The fields of the body of that frame, by their names."""
    rest = Body(body)
    found = {}
    if kind == READY:
        found["name"] = rest.name()
    elif kind == RETURN:
        outcome = rest.number(1)
        if outcome >= len(OUTCOMES):
            raise NoFrame(f"the u8 of RETURN is 0, 1 or 2, and not {outcome}")
        found["outcome"], found["code"] = OUTCOMES[outcome], rest.number(4, signed=True)
        found["subtype"], found["data"] = rest.data()
    elif kind == FORWARD:
        found["service"] = rest.word()
        found["subtype"], found["data"] = rest.data()
    elif kind == INVOKE:
        found["service"], found["routine"] = rest.name(), rest.name()
        found["mode"] = MODES.index(rest.choice("the mode", MODES))
        found["subtype"], found["data"] = rest.data()
    elif kind in (OP, REPLY):
        found = numbered(rest, NAMES[kind], OPERATIONS if kind == OP else REPLIES)
    rest.end()
    return found


def either(kinds):
    """The names of these kinds of frame, with `or` before the last."""
    names = [NAMES[kind] for kind in kinds]
    return " or ".join([", ".join(names[:-1]), names[-1]] if names[1:] else names)


def shown(octets, most=24):
    """Some octets, as text where they are printed ASCII."""
    more = ".." if len(octets) > most else ""
    front = octets[:most]
    if front and all(0x20 <= octet <= 0x7E for octet in front):
        return f"'{front.decode()}'{more}"
    return (front.hex(" ") or "nothing") + more


def kind_of(subtype):
    return "X_OCTET" if subtype is None else f"X_C_TYPE {subtype.decode()}"


def shown_data(subtype, octets):
    if octets is None:
        return "no data"
    return f"{kind_of(subtype)}, {len(octets):,} octets {shown(octets)}" if octets else f"{kind_of(subtype)}, 0 octets"


def told(kind, tag, found):
    """A frame in words."""
    words = NAMES[kind]
    if kind == READY:
        return f"{words} {shown(found['name'])}"
    if kind == INVOKE:
        service, routine = found["service"].decode(), found["routine"].decode()
        by = "" if service == routine else f" by {routine}"
        mode = f", {MODES[found['mode']]}" if found["mode"] else ""
        return f"{words} {tag}: {service}{by}{mode}, {shown_data(found['subtype'], found['data'])}"
    if kind == RETURN:
        return f"{words} {tag}: {found['outcome']}, code {found['code']}, {shown_data(found['subtype'], found['data'])}"
    if kind == FORWARD:
        return f"{words} {tag}: to {shown(found['service'])}, {shown_data(found['subtype'], found['data'])}"
    if kind in (OP, REPLY):
        return f"{words} {tag}: {', '.join(shown_fields(found))}"
    return words


def shown_fields(found):
    """The fields of an OP or a REPLY in words, the first of which says which it is."""
    yield found["does"]
    for what, value in found.items():
        if what in ("service", "routine"):
            yield f"{what} {shown(value)}"
        elif what == "flags":
            yield from value
        elif what == "kind":
            yield from [f"TPNOCHANGE {value}"] if value else []
        elif what == "data":
            yield shown_data(found["subtype"], value)
        elif what not in ("does", "subtype") and not (what == "descriptor" and value == 0 and found["does"] == "an answer"):
            yield value if isinstance(value, str) else f"{what} {value}"
