"""The faults of a configuration, in the order in which the monitor looks for them.

docs/guide.md ("Keys" and "Faults") says what each key may have. The first fault is the one that the monitor tells.
"""

import difflib
import re
from typing import NamedTuple

import toml_places

LONGEST = 262_144
NOT_TOML, UNKNOWN, MISSING, WRONG_TYPE, OUT_OF_RANGE, BAD_NAME = 1, 2, 3, 4, 5, 6
DOUBLED, NO_SUCH, FIELD_TYPE, TOO_MANY, NO_SERVER = 7, 8, 9, 10, 11
TABLES = {
    "domain": ("blocktime", "blocks"),
    "shape": ("name", "fields"),
    "queue": ("name", "group", "capacity"),
    "server": ("name", "queue", "program", "restart", "maxgen", "grace"),
    "service": ("name", "routine", "queues", "priority", "accepts", "conversational"),
}
IDLE = {
    "blocktime": "no call lapses yet",
    "blocks": "no room is counted yet",
    "group": "nothing is grouped yet",
    "grace": "nothing moves the clock yet, so each start counts",
}
NAME = re.compile(rb"(?!\.)[\x21-\x7e]{1,31}")
IDENTIFIER = re.compile(rb"[A-Za-z][A-Za-z0-9_]{0,30}")
KIND = re.compile(rb"short|int|long|char|string ([1-9][0-9]{0,3})")
KINDS = ["short", "int", "long", "char", "string 16"]


class Fault(NamedTuple):
    """A fault: its number, its key, its line and column or none, what is wrong, what is taken, and a guess."""

    number: int
    key: str
    place: tuple
    wrong: str
    taken: str = ""
    guess: str = ""


def like(word, words):
    """The one of these words that is most like that one, or the empty text."""
    words = [each for each in words if each != word]
    folded = {each.lower(): each for each in words}
    found = difflib.get_close_matches(word.lower(), folded, 1)
    return folded[found[0]] if found else ""


def octets(value):
    return value.data.encode()


def names_of(entries):
    """The texts that the entries have as names; of one without a text, the empty one."""
    found = []
    for entry in entries:
        name = entry.get("name")
        found.append(name.data if name is not None and name.kind == "string" else "")
    return found


def entries_of(document, table):
    value = document.get(table)
    return value.data if value is not None and value.kind == "array" else []


class Checks:
    def __init__(self, document):
        self.document = document
        self.queues = names_of(entries_of(document, "queue"))
        self.shapes = names_of(entries_of(document, "shape"))

    def all(self):
        yield from self.unknown(self.document, list(TABLES), "")
        yield from self.domain()
        for table, least, most in (("shape", 0, 64), ("queue", 1, 64), ("server", 1, 64), ("service", 0, 256)):
            yield from self.table(table, least, most)
        yield from self.rows()
        yield from self.unserved()

    def unknown(self, table, known, before):
        named = f"[[{before[:-1].split('[')[0]}]]" if "[" in before else "[domain]" if before else "the document"
        for key in sorted(table.data, key=str.encode):
            if key not in known:
                taken = ", ".join(known)
                yield Fault(UNKNOWN, before + key, table.keys[key], f"{named} has no such key", taken, like(key, known))

    def domain(self):
        table = self.document.get("domain")
        if table is None:
            return
        if table.kind != "table":
            yield Fault(WRONG_TYPE, "domain", self.document.keys["domain"], f"it is {a(table)}", "a table, [domain]")
            return
        yield from self.unknown(table, TABLES["domain"], "domain.")
        yield from self.optional(table, "domain", "blocktime", number(1, 2147483647))
        yield from self.optional(table, "domain", "blocks", number(1, 4096))

    def table(self, table, least, most):
        value = self.document.get(table)
        place = self.document.keys.get(table)
        if value is not None and not (value.kind == "array" and all(each.kind == "table" for each in value.data)):
            yield Fault(WRONG_TYPE, table, place, f"it is {a(value)}", f"tables, each begun by [[{table}]]")
        entries = entries_of(self.document, table)
        if len(entries) < least:
            yield Fault(MISSING, table, place, f"there is no [[{table}]]", "at least one")
        if len(entries) > most:
            yield Fault(TOO_MANY, table, entries[most].place, f"there are {len(entries)}", f"at most {most}")
        check = getattr(self, table)
        for number_, entry in enumerate(entries):
            if entry.kind == "table":
                where = f"{table}[{number_}]"
                yield from self.unknown(entry, TABLES[table], where + ".")
                yield from check(entry, where, names_of(entries[:number_]))
            else:
                yield from check(entry, f"{table}[{number_}]", names_of(entries[:number_]))

    def shape(self, entry, where, earlier):
        yield from self.needed(entry, where, "name", new_name(IDENTIFIER, earlier))
        yield from self.array(entry, where, "fields", 1, 64, field, True)

    def queue(self, entry, where, earlier):
        yield from self.needed(entry, where, "name", new_name(NAME, earlier))
        yield from self.optional(entry, where, "group", name)
        yield from self.optional(entry, where, "capacity", number(1, 10000))

    def server(self, entry, where, earlier):
        yield from self.needed(entry, where, "name", new_name(NAME, earlier))
        yield from self.needed(entry, where, "queue", name_among(self.queues))
        yield from self.optional(entry, where, "program", program)
        yield from self.optional(entry, where, "restart", truth)
        yield from self.optional(entry, where, "maxgen", number(1, 255))
        yield from self.optional(entry, where, "grace", number(1, 2147483647))

    def service(self, entry, where, earlier):
        yield from self.needed(entry, where, "name", new_name(NAME, earlier))
        yield from self.optional(entry, where, "routine", name)
        yield from self.array(entry, where, "queues", 1, 64, queue_among(self.queues), True)
        yield from self.optional(entry, where, "priority", number(1, 100))
        yield from self.array(entry, where, "accepts", 0, 65, kind_among(self.shapes), False)
        yield from self.optional(entry, where, "conversational", truth)

    def rows(self):
        entries = entries_of(self.document, "service")
        rows = 0
        for entry in entries:
            queues = entry.get("queues")
            rows += len(queues.data) if queues is not None and queues.kind == "array" else 0
        if rows > 256:
            yield Fault(TOO_MANY, "service", entries[0].place, f"all services have {rows} queues", "at most 256 together")

    def unserved(self):
        served = []
        for entry in entries_of(self.document, "server"):
            queue = entry.get("queue")
            served.append(queue.data if queue is not None and queue.kind == "string" else "")
        for place, (entry, queue) in enumerate(zip(entries_of(self.document, "queue"), self.queues)):
            if queue not in served:
                wrong = f"no [[server]] has queue = '{queue}'"
                yield Fault(NO_SERVER, f"queue[{place}]", entry.place, wrong, "at least one server of each queue")

    def optional(self, entry, where, key, check):
        value = entry.get(key)
        if value is not None:
            for number_, *words in check(value):
                yield Fault(number_, f"{where}.{key}", value.place, *words)

    def needed(self, entry, where, key, check):
        if entry.get(key) is None:
            yield missing(entry, where, key)
        yield from self.optional(entry, where, key, check)

    def array(self, entry, where, key, least, most, check, is_needed):
        value = entry.get(key)
        if value is None:
            if is_needed:
                yield missing(entry, where, key)
            return
        where = f"{where}.{key}"
        if value.kind != "array":
            yield Fault(WRONG_TYPE, where, value.place, f"it is {a(value)}", "an array of texts")
            return
        if not least <= len(value.data) <= most:
            yield Fault(OUT_OF_RANGE, where, value.place, f"it has {len(value.data)} elements", f"{least} to {most}")
        for place, element in enumerate(value.data):
            for number_, *words in check(value.data[:place], element):
                yield Fault(number_, f"{where}[{place}]", element.place, *words)


def a(value):
    article = "an" if value.kind[0] in "aio" else "a"
    return f"{article} {'text' if value.kind == 'string' else value.kind}"


def missing(entry, where, key):
    if entry.kind != "table":
        return Fault(MISSING, f"{where}.{key}", entry.place, f"'{key}' is needed and isn't there")
    guess = like(key, [each for each in entry.data if each not in TABLES[where.split("[")[0]]])
    return Fault(MISSING, f"{where}.{key}", entry.place, f"'{key}' is needed and isn't there", "", guess)


def number(least, most):
    def check(value):
        if value.kind != "integer":
            yield WRONG_TYPE, f"it is {a(value)}", f"a whole number from {least:,} to {most:,}"
        elif not least <= value.data <= most:
            yield OUT_OF_RANGE, f"it is {value.data}", f"a whole number from {least:,} to {most:,}"

    return check


def truth(value):
    if value.kind != "boolean":
        yield WRONG_TYPE, f"it is {a(value)}", "true or false, without quotes"


def text(value, checks, taken):
    if value.kind != "string":
        yield WRONG_TYPE, f"it is {a(value)}", taken
    else:
        yield from checks


A_NAME = "a name: 1 to 31 octets from 0x21 to 0x7E, the first no dot"
AN_IDENTIFIER = "an identifier: a letter, then letters, digits and '_', at most 31 octets"


def program(value):
    def checks():
        if not 1 <= len(octets(value)) <= 255:
            yield OUT_OF_RANGE, f"it has {len(octets(value))} octets", "1 to 255 octets"

    yield from text(value, checks(), "a text, the program's path")


def spoils(text, form=NAME):
    """What makes these octets no name, or no identifier, in words."""
    if not 1 <= len(text) <= 31:
        return f"it has {len(text)} octets"
    allowed = range(0x21, 0x7F) if form is NAME else IDENTIFIER_OCTETS
    for place, octet in enumerate(text, 1):
        if octet not in allowed:
            return f"its octet {place} is 0x{octet:02x}{f', {chr(octet)!r}' if 0x20 <= octet < 0x7F else ''}"
    return "it begins with a dot" if form is NAME else f"it begins with {chr(text[0])!r}, which is no letter"


IDENTIFIER_OCTETS = b"ABCDEFGHIJKLMNOPQRSTUVWXYZabcdefghijklmnopqrstuvwxyz0123456789_"


def no_name(text, form=NAME):
    return f"{text!r} is no {'name' if form is NAME else 'identifier'}: {spoils(text.encode(), form)}"


def is_of(form, value):
    return value.kind == "string" and form.fullmatch(octets(value)) is not None


def name(value):
    def checks():
        if not is_of(NAME, value):
            yield BAD_NAME, no_name(value.data), A_NAME

    yield from text(value, checks(), A_NAME)


def new_name(form, earlier):
    taken = A_NAME if form is NAME else AN_IDENTIFIER

    def check(value):
        def checks():
            if not is_of(form, value):
                yield BAD_NAME, no_name(value.data, form), taken
            if value.data in earlier:
                yield DOUBLED, f"an earlier entry is named '{value.data}' too", "names that differ"

        yield from text(value, checks(), taken)

    return check


def listed(names):
    return ", ".join(repr(each) for each in names[:8]) + (", .." if len(names) > 8 else "") or "there is none"


def name_among(names):
    def check(value):
        def checks():
            if not is_of(NAME, value):
                yield BAD_NAME, no_name(value.data), A_NAME
            if value.data not in names:
                yield NO_SUCH, f"no queue is named '{value.data}'", listed(names), like(value.data, names)

        yield from text(value, checks(), "the name of a queue")

    return check


def texts_of(values):
    return [each.data if each.kind == "string" else "" for each in values]


def queue_among(names):
    def check(earlier, value):
        def checks():
            if not is_of(NAME, value):
                yield BAD_NAME, no_name(value.data), A_NAME
            if value.data in texts_of(earlier):
                yield DOUBLED, f"'{value.data}' stands before in this array", "each queue once"
            if value.data not in names:
                yield NO_SUCH, f"no queue is named '{value.data}'", listed(names), like(value.data, names)

        yield from text(value, checks(), "the name of a queue")

    return check


def kind_among(shapes):
    kinds = ["octet"] + ["c:" + shape for shape in shapes]

    def check(earlier, value):
        def checks():
            if value.data in texts_of(earlier):
                yield DOUBLED, f"'{value.data}' stands before in this array", "each kind once"
            if value.data not in kinds:
                guess = "c:" + value.data if value.data in shapes else like(value.data, kinds)
                yield NO_SUCH, f"'{value.data}' is no kind of data", "'octet', or 'c:' and a shape's name", guess

        yield from text(value, checks(), "'octet', or 'c:' and a shape's name")

    return check


def field(earlier, value):
    taken = "'NAME KIND', with KIND short, int, long, char or string N, N from 1 to 1024"

    def checks():
        part, _, kind = octets(value).partition(b" ")
        form = KIND.fullmatch(kind)
        if not IDENTIFIER.fullmatch(part) or not form or form[1] and int(form[1]) > 1024:
            guess = like(kind.decode(), KINDS)
            yield FIELD_TYPE, f"{value.data!r} is no field", taken, f"{part.decode()} {guess}" if guess else ""
        if part in [each.encode().partition(b" ")[0] for each in texts_of(earlier)]:
            yield DOUBLED, f"an earlier field is named '{part.decode()}' too", "names that differ"

    yield from text(value, checks(), taken)


def read(octets_):
    """The document, or none, and its faults in the order in which they are looked for."""
    try:
        document = toml_places.read(octets_)
    except toml_places.NotToml as error:
        return None, [Fault(NOT_TOML, "", (error.line, error.column), f"this is no TOML: {error.why}")]
    return document, list(Checks(document).all())


def told(fault):
    """The line that the monitor writes for that fault."""
    if fault.number == NOT_TOML:
        return "config 1"
    key = "".join(chr(each) if 0x20 <= each <= 0x7E else f"\\x{each:02x}" for each in fault.key.encode())
    return f"config {fault.number} {key}"


def idle_keys(document):
    """The keys that are there and do nothing yet: each with its table's place, and why."""
    tables = [("domain", document.get("domain"))] if document.get("domain") else []
    tables += [(f"{table}[{n}]", entry) for table in TABLES for n, entry in enumerate(entries_of(document, table))]
    for where, entry in tables:
        for key in TABLES[where.split("[")[0]]:
            if entry.kind == "table" and key in entry.data and key in IDLE:
                yield f"{where}.{key}", entry.keys[key], IDLE[key]
        if where.startswith("server["):
            restart, maxgen = entry.get("restart"), entry.get("maxgen")
            if restart and restart.data and (maxgen.data if maxgen else 1) == 1:
                yield f"{where}.restart", entry.keys["restart"], "maxgen is 1, so there is one start; write maxgen = 3, for example"
            if maxgen and maxgen.data > 1 and not (restart and restart.data):
                yield f"{where}.maxgen", entry.keys["maxgen"], "there is one start without restart = true"
