"""A library for servers of Sunzheg in Python, in one file: docs/protocol.md says what goes over the pipes, and this file does it.

    #!/usr/bin/env python3
    from sunzheg import TPFAIL, TPSUCCESS, Typed, routine, serve, shape, tpforward, tpreturn

    shape("order", "item int", "price long", "memo string 16")

    @routine("ORDER")
    def order(request):
        print("an order of", request.data["item"])
        if request.data["item"] <= 0:
            return tpreturn(TPFAIL, 3, request.data)
        return tpforward("RESERVE", Typed("order", item=request.data["item"], memo="new"))

    serve()

A routine gets a TPSVCINFO: `name` is the service that was called, `data` is None, bytes (X_OCTET) or a Typed (X_C_TYPE), `flags`
has TPNOREPLY where no reply is wanted. It returns tpreturn(TPSUCCESS, TPFAIL or TPEXIT, code, data), tpforward(service, data),
or plain data, which is TPSUCCESS with code 0. Data may be a text too, which is sent in UTF-8. After TPEXIT the server ends.

An error of a routine is told on standard error with its place, and its caller is told TPESVCERR: as where it returns what can't be
returned, a text that is longer than its field, for example. A routine that isn't there is TPFAIL with code NO_ROUTINE, 99. A request
of a shape that isn't named here is a Typed without fields, whose `octets` can be returned.

A routine may call other services:

    tpsprio(80, TPABSOLUTE)
    try:
        stock = tpcall("STOCK", Typed("order", item=7))
    except TPError as error:
        if error.name == "TPESVCFAIL":
            print("refused with code", error.tpurcode, "and", error.data)

tpcall(service, data, flags) waits for the answer and returns its data; tpurcode() is its code. What else becomes of the call is a
TPError, with the error's `name` and number `tperrno` in XATMI, and for TPESVCFAIL the `tpurcode` and the `data` of the answer. Want of
memory is TPEOS. Its flags are TPNOBLOCK, TPNOTIME, TPSIGRSTRT, TPNOTRAN, and TPNOCHANGE: then data of another kind than was sent
is TPEOTYPE. tpsprio(priority, flags) sets the priority of the routine's next call or forward, with TPABSOLUTE, and else adds to it.
A routine whose call is put on its own queue waits for good where no other server is there.

A routine may change which services callers find on the queue of its server:

    tpadvertise("STOCK.EU", "STOCK")
    tpunadvertise("STOCK.US")

tpadvertise(service, routine) puts the service there, with the name of the routine that serves it. It is TPEMATCH where the service
is there with another routine, and TPELIMIT where all queues have 256 services together. tpunadvertise(service) takes it off, and is
TPENOENT where it isn't there. A name that is none is TPEINVAL. The monitor doesn't know which routines there are: each server of
the queue may get a request of the service, and one without that routine returns TPFAIL with code NO_ROUTINE.

Outside a routine all these are TPEPROTO.

Standard input and output belong to the monitor: from the import of this file on, print() and what else is written to standard
output go to standard error, and standard input is empty. Without the words `server NAME`, serve() says how the server is started.
"""

import os
import signal
import struct
import sys
import traceback
from typing import NamedTuple

__all__ = [
    "TPABSOLUTE", "TPCONV", "TPEXIT", "TPError", "TPFAIL", "TPNOBLOCK", "TPNOCHANGE", "TPNOREPLY", "TPNOTIME", "TPNOTRAN",
    "TPRECVONLY", "TPSENDONLY", "TPSIGRSTRT", "TPSUCCESS", "TPSVCINFO",
    "Typed", "routine", "serve", "shape", "tpadvertise", "tpcall", "tpforward", "tpreturn", "tpsprio", "tpunadvertise", "tpurcode",
]

TPFAIL, TPSUCCESS, TPEXIT = 0x1, 0x2, 0x0800_0000
TPNOREPLY, TPCONV, TPSENDONLY, TPRECVONLY = 0x4, 0x400, 0x800, 0x1000
TPNOBLOCK, TPSIGRSTRT, TPNOTRAN, TPNOTIME, TPABSOLUTE, TPNOCHANGE = 0x1, 0x2, 0x8, 0x20, 0x40, 0x100
NO_ROUTINE, BAD_FRAME = 99, 10

_READY, _NEXT, _OP, _RETURN, _FORWARD, _INVOKE, _REPLY, _SHUTDOWN = 0x01, 0x02, 0x03, 0x04, 0x05, 0x11, 0x12, 0x13
# The numbers of an OP and of a REPLY, and of each flag in an OP.
_TPCALL, _TPSPRIO, _TPADVERTISE, _TPUNADVERTISE = 1, 10, 11, 12
_DONE, _ANSWER, _ERROR = 0, 3, 6
_CALL_FLAGS = {TPNOBLOCK: 1, TPNOTIME: 2, TPNOREPLY: 4, TPNOTRAN: 8, TPSIGRSTRT: 16}
# The errors in the order of their numbers in a frame; the last one is want of memory.
_ERRORS = [
    "TPEINVAL", "TPENOENT", "TPEITYPE", "TPEOTYPE", "TPEBADDESC", "TPELIMIT", "TPEBLOCK", "TPETIME",
    "TPEPROTO", "TPESYSTEM", "TPEMATCH", "TPESVCFAIL", "TPESVCERR", "TPEEVENT", "TPEOS",
]
_NUMBERS = dict(zip(_ERRORS, [4, 6, 17, 18, 2, 5, 3, 13, 9, 12, 23, 11, 10, 22, 7]))
_OUTCOMES = {TPSUCCESS: 0, TPFAIL: 1, TPEXIT: 2}
_FLAGS = [0, TPNOREPLY, TPCONV | TPRECVONLY, TPCONV | TPSENDONLY]
_MOST_BODY, _MOST_DATA, _MOST_WORD = 66_000, 65_536, 255
# The name of no shape that a configuration can have: a return of such data is told TPESVCERR.
_NO_SHAPE = "~"
_HEADER = struct.Struct(">2sBBII")
_FORMS = {"short": "h", "int": "i", "long": "q", "char": "B"}
_routines, _shapes = {}, {}
_input = _output = None
# The invocation that is under way, the place of the frame that comes next, and the code of the last answer.
_invocation = None
_place = _code = 0


class Typed(dict):
    """X_C_TYPE: the name of the shape, and its fields; one that isn't given is zero. Where the shape isn't named here there are the
    octets alone."""

    def __init__(self, shape, octets=None, **fields):
        super().__init__(fields)
        self.shape, self.octets = shape, octets


class TPSVCINFO(NamedTuple):
    """A request."""

    name: str
    data: object
    flags: int


class Answer(NamedTuple):
    """What a routine returns: the kind of its frame, and its body."""

    kind: int
    body: bytes
    ends: bool


class TPError(Exception):
    """What became of a call, where it has no answer of TPSUCCESS: `data` and `tpurcode` are those of TPESVCFAIL."""

    def __init__(self, name, tpurcode=0, data=None):
        super().__init__(name)
        self.name, self.tperrno, self.tpurcode, self.data = name, _NUMBERS[name], tpurcode, data


class BadFrame(BaseException):
    """The octets are no frame, or a frame that may not come then: it ends the server, through the routine that waits for it."""


def shape(name, *fields):
    """Names a shape, by the texts that the configuration has: shape("order", "item int", "memo string 16")."""
    _shapes[name] = dict(field.split(" ", 1) for field in fields)


def routine(name=None):
    """Makes the function behind it the routine of that name, or without one each routine that has no function."""

    def keep(function):
        _routines[name] = function
        return function

    return keep


def tpreturn(value, code=0, data=None):
    if value not in _OUTCOMES:
        raise ValueError(f"tpreturn takes TPSUCCESS, TPFAIL or TPEXIT, and not {value!r}")
    if not -(2**31) <= code < 2**31:
        raise ValueError(f"a code has 32 bits, and not {code!r}")
    return Answer(_RETURN, struct.pack(">Bi", _OUTCOMES[value], code) + _data(data), value == TPEXIT)


def tpforward(service, data=None):
    return Answer(_FORWARD, _word(service, "a service") + _data(data), False)


def tpcall(service, data=None, flags=0):
    """Calls the service, waits, and returns the data of its answer."""
    if flags & ~(TPNOCHANGE | sum(_CALL_FLAGS)) or flags & TPNOCHANGE and data is None:
        raise TPError("TPEINVAL")
    number = sum(octet for flag, octet in _CALL_FLAGS.items() if flags & flag)
    expected = _kind(data) if flags & TPNOCHANGE else b"\0"
    return _told(bytes([_TPCALL, number]) + _word(service, "a service") + expected + _data(data), _ANSWER)


def tpsprio(priority, flags=0):
    """Sets the priority of the next call or forward, with TPABSOLUTE; else it is added to that of the service."""
    if flags & ~TPABSOLUTE or not -(2**31) <= priority < 2**31:
        raise TPError("TPEINVAL")
    _told(struct.pack(">BBi", _TPSPRIO, flags == TPABSOLUTE, priority), _DONE)


def tpadvertise(service, routine):
    """Puts the service on the queue of this server, with the name of the routine that serves it."""
    _told(bytes([_TPADVERTISE]) + _word(service, "a service") + _word(routine, "a routine"), _DONE)


def tpunadvertise(service):
    """Takes the service off the queue of this server."""
    _told(bytes([_TPUNADVERTISE]) + _word(service, "a service"), _DONE)


def tpurcode():
    """The code that the service gave that answered last."""
    return _code


def serve():
    """Serves until the monitor shuts the server down or closes its input, or a routine returned TPEXIT."""
    if _input is None:
        sys.exit(f"usage: {os.path.basename(sys.argv[0])} server NAME, as the monitor starts it")
    signal.signal(signal.SIGINT, signal.SIG_DFL)
    try:
        sys.exit(_serve(os.fsencode(sys.argv[2])))
    except OSError as error:
        sys.exit(f"{sys.argv[0]}: a pipe to the monitor: {error.strerror}")


def _serve(name):
    global _invocation
    _write(_frame(_READY, 0, _word(name, "a name")) + _frame(_NEXT, 0))
    count = 0
    try:
        while True:
            kind, tag, body = _take_frame(_INVOKE, _SHUTDOWN)
            count = (count + 1) % 2**32
            if tag != (count if kind == _INVOKE else 0):
                raise BadFrame
            if kind == _SHUTDOWN:
                return 0
            called, request = _request(body)
            _pass(body)
            _invocation = tag
            answer = _answer(called, request)
            _invocation = None
            _write(_frame(answer.kind, tag, answer.body) + (b"" if answer.ends else _frame(_NEXT, 0)))
            if answer.ends:
                return 0
    except BadFrame:
        print(f"bad frame at {_place}", file=sys.stderr)
        return BAD_FRAME


def _told(op, wanted):
    """Makes the call of that OP, and answers what it is told by a REPLY: the data, where an answer is wanted."""
    global _code
    if _invocation is None:
        raise TPError("TPEPROTO")
    _write(_frame(_OP, _invocation, op))
    _, tag, octets = _take_frame(_REPLY)
    error, code, data = _reply(octets, wanted)
    if tag != _invocation:
        raise BadFrame
    _pass(octets)
    found = None
    if data is not None:
        try:
            found = _taken(*data)
        except ValueError as wrong:
            raise TPError("TPEOTYPE") from wrong
        _code = code
    if error:
        raise TPError(error, code, found)
    return found


def _answer(called, request):
    function = _routines.get(called, _routines.get(None))
    if function is None:
        return tpreturn(TPFAIL, NO_ROUTINE)
    try:
        # The data is taken here, so that a shape which is another in the configuration is an error too.
        found = function(request._replace(data=_taken(*request.data)))
        return found if isinstance(found, Answer) else tpreturn(TPSUCCESS, 0, found)
    except Exception:
        print(f"routine {called}: its caller is told TPESVCERR", file=sys.stderr)
        traceback.print_exc()
        return tpreturn(TPFAIL, 0, Typed(_NO_SHAPE, b""))


# ---- frames


def _frame(kind, tag, body=b""):
    return _HEADER.pack(b"XA", 1, kind, len(body), tag) + body


def _write(octets):
    while octets:  # A pipe may take only a part.
        octets = octets[os.write(_output, octets) :]


def _word(text, what):
    octets = text if isinstance(text, bytes) else text.encode("utf-8", "surrogateescape")
    if len(octets) > _MOST_WORD:
        raise ValueError(f"{what} has at most {_MOST_WORD} octets, and not {len(octets)}")
    return bytes([len(octets)]) + octets


def _kind(data):
    if isinstance(data, Typed):
        return b"\2" + _word(data.shape, "a shape's name")
    return b"\0" if data is None else b"\1"


def _data(data):
    if data is None:
        return b"\0"
    octets = data
    if isinstance(data, Typed):
        octets = data.octets if data.octets is not None else _packed(data.shape, data)
    elif isinstance(data, str):
        octets = data.encode("utf-8", "surrogateescape")
    elif not isinstance(data, (bytes, bytearray)):
        raise TypeError(f"data is None, bytes, a text or a Typed, and not {type(data).__name__}")
    if len(octets) > _MOST_DATA:
        raise ValueError(f"data has at most {_MOST_DATA} octets, and not {len(octets)}")
    return _kind(data) + struct.pack(">I", len(octets)) + octets


def _form(fields):
    return struct.Struct(">" + "".join(f"{kind[7:]}s" if kind.startswith("string ") else _FORMS[kind] for kind in fields.values()))


def _packed(name, given):
    if name not in _shapes:
        raise ValueError(f"no shape is named '{name}'")
    fields = _shapes[name]
    if other := [each for each in given if each not in fields]:
        raise ValueError(f"the shape '{name}' has no field '{other[0]}'")
    return _form(fields).pack(*(_value(f"{name}.{each}", kind, given.get(each)) for each, kind in fields.items()))


def _value(what, kind, value):
    if kind.startswith("string "):
        octets = value.encode("utf-8", "surrogateescape") if isinstance(value, str) else value or b""
        if len(octets) > int(kind[7:]):
            raise ValueError(f"{what} has at most {kind[7:]} octets, and not {len(octets)}")
        return octets
    value = value or 0
    size = struct.calcsize(">" + _FORMS[kind])
    least, most = (0, 255) if kind == "char" else (-(2 ** (8 * size - 1)), 2 ** (8 * size - 1) - 1)
    if not isinstance(value, int) or not least <= value <= most:
        raise ValueError(f"{what} is a whole number from {least} to {most}, and not {value!r}")
    return value


def _taken(subtype, octets):
    """The data of a request: None, bytes or a Typed."""
    if subtype is None:
        return octets
    if subtype not in _shapes:
        return Typed(subtype, octets)
    fields = _shapes[subtype]
    form = _form(fields)
    if form.size != len(octets):
        raise ValueError(f"the shape '{subtype}' has {form.size} octets here, and {len(octets)} in the request")
    found = Typed(subtype)
    for (name, kind), value in zip(fields.items(), form.unpack(octets)):
        found[name] = value.rstrip(b"\0").decode("utf-8", "surrogateescape") if kind.startswith("string ") else value
    return found


# ---- what comes, of which each octet is judged


def _read(count):
    octets = _input.read(count)
    if len(octets) < count:
        raise BadFrame
    return octets


def _take_frame(*kinds):
    """The next frame, which must be of one of these kinds. The server ends where its input does."""
    if not _input.peek(1):
        sys.exit(0)
    first, version, kind, length, tag = _HEADER.unpack(_read(_HEADER.size))
    if (first, version) != (b"XA", 1) or length > _MOST_BODY or kind not in kinds or kind == _SHUTDOWN and length:
        raise BadFrame
    return kind, tag, _read(length)


def _pass(body):
    """The frame with that body was read and is one."""
    global _place
    _place += _HEADER.size + len(body)


class _Body:
    def __init__(self, octets):
        self.octets, self.at = octets, 0

    def take(self, count):
        self.at += count
        if self.at > len(self.octets):
            raise BadFrame
        return self.octets[self.at - count : self.at]

    def number(self, size):
        return int.from_bytes(self.take(size), "big")

    def name(self):
        octets = self.take(self.number(1))
        if not 1 <= len(octets) <= 31 or octets[:1] == b"." or not all(0x21 <= octet <= 0x7E for octet in octets):
            raise BadFrame
        return octets.decode()

    def error(self):
        number = self.number(1)
        if not 1 <= number <= len(_ERRORS):
            raise BadFrame
        return _ERRORS[number - 1]

    def data(self):
        """The subtype, or none, and the octets, or none."""
        kind = self.number(1)
        if kind > 2:
            raise BadFrame
        subtype = self.name() if kind == 2 else None
        if kind == 0:
            return None, None
        length = self.number(4)
        if length > _MOST_DATA:
            raise BadFrame
        return subtype, self.take(length)


def _request(octets):
    """The routine that an INVOKE names, and the request with its data as it came."""
    body = _Body(octets)
    service, called, mode = body.name(), body.name(), body.number(1)
    data = body.data() if mode < len(_FLAGS) else None
    if data is None or body.at < len(octets):
        raise BadFrame
    return called, TPSVCINFO(service, data, _FLAGS[mode])


def _reply(octets, wanted):
    """What a REPLY tells: the error, or none; the code; and the data as it came, or none where it is no answer."""
    body = _Body(octets)
    told, error, code, data = body.number(1), None, 0, None
    if told == _ERROR:
        error = body.error()
    elif told != wanted:
        raise BadFrame
    elif told == _ANSWER:
        descriptor, outcome = body.number(8), body.number(1)
        if descriptor or outcome > 2:
            raise BadFrame
        if outcome == 2:
            error = body.error()
        else:
            error = "TPESVCFAIL" if outcome else None
            code, data = int.from_bytes(body.take(4), "big", signed=True), body.data()
    if body.at < len(octets):
        raise BadFrame
    return error, code, data


def _take_the_pipes():
    global _input, _output
    _input, _output = os.fdopen(os.dup(0), "rb"), os.dup(1)
    nothing = os.open(os.devnull, os.O_RDONLY)
    os.dup2(nothing, 0)
    os.dup2(2, 1)
    os.close(nothing)
    sys.stdout.reconfigure(line_buffering=True)


if len(sys.argv) == 3 and sys.argv[1] == "server":
    _take_the_pipes()
