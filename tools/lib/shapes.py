"""Typed data: the octets of X_C_TYPE by the fields of the configured shapes. docs/protocol.md ("X_C_TYPE") says how they lie."""

import struct

from configuration import entries_of, names_of, texts_of
from plain import plain_octets

FORMS = {"short": "h", "int": "i", "long": "q", "char": "B"}
# The subtype by which the libraries for servers tell an error of a routine: no shape can have this name.
ERROR = "~"


def shapes_of(document):
    """The fields of each shape, each by its name with its kind, in the order in which they lie."""
    entries = entries_of(document, "shape")
    return {name: dict(text.split(" ", 1) for text in texts_of(entry.get("fields").data)) for name, entry in zip(names_of(entries), entries)}


def form(fields):
    """How those fields lie, for struct."""
    return ">" + "".join(f"{kind.split(' ')[1]}s" if kind.startswith("string") else FORMS[kind] for kind in fields.values())


def size(fields):
    return struct.calcsize(form(fields))


def packed(fields, given):
    """The octets of these values: numbers, and octets for strings; a field that isn't given is zero."""
    values = [given.get(name, b"" if kind.startswith("string") else 0) for name, kind in fields.items()]
    return struct.pack(form(fields), *values)


def unpacked(fields, octets):
    """The value of each field by its name: a number, or the octets of a string."""
    return dict(zip(fields, struct.unpack(form(fields), octets)))


def is_sound(shapes, subtype, count):
    """Whether data of that subtype, or of none, may have so many octets."""
    return subtype is None or subtype in shapes and size(shapes[subtype]) == count


def text_of(octets):
    """The text that stands in a string, up to its octets 00."""
    return octets.rstrip(b"\0")


def told(value):
    """A field's value in words."""
    if isinstance(value, bytes):
        text = plain_octets(text_of(value), b'"')
        return f'"{text}"'
    return str(value)
