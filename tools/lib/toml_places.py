"""Reads a TOML 1.1 document, and keeps where each key and each value stands.

The limits are those of the monitor: whole numbers of 64 bits, values within one another to a depth of 80, and keys of at
most 80 parts.
"""

import datetime
import math
import re

DEEPEST = 80
MOST_PARTS = 80
ESCAPES = {"b": "\b", "t": "\t", "n": "\n", "f": "\f", "r": "\r", "e": "\x1b", '"': '"', "\\": "\\"}
HEX_ESCAPES = {"x": 2, "u": 4, "U": 8}
BARE = re.compile(r"[A-Za-z0-9_-]+")
SPACE = re.compile(r"[ \t]*")
INTEGER = re.compile(r"0x[0-9A-Fa-f](_?[0-9A-Fa-f])*|0o[0-7](_?[0-7])*|0b[01](_?[01])*|[+-]?(0|[1-9](_?[0-9])*)")
FLOAT = re.compile(
    r"[+-]?(0|[1-9](_?[0-9])*)(\.[0-9](_?[0-9])*)?([eE][+-]?[0-9](_?[0-9])*)?|[+-]?(inf|nan)"
)
DATE = r"(\d{4})-(\d\d)-(\d\d)"
TIME = r"(\d\d):(\d\d)(?::(\d\d)(?:\.\d+)?)?"
MOMENT = re.compile(rf"{DATE}(?:[Tt ]{TIME}(Z|z|[+-]\d\d:\d\d)?)?|{TIME}")
WORD = re.compile(r"[A-Za-z0-9_+.:-]+")


class NotToml(Exception):
    """The octets are no document: what is wrong, and where."""

    def __init__(self, why, line, column):
        super().__init__(why)
        self.why, self.line, self.column = why, line, column


class Value:
    """A value: its kind, what it is, its place, and of a table where each of its keys stands first."""

    def __init__(self, kind, data, place):
        self.kind, self.data, self.place = kind, data, place
        self.keys = {}
        # Of a table how it came to be: "implied" by a header behind it, a "header", "dotted" keys, or "inline".
        self.made = "inline"

    def get(self, key):
        return self.data.get(key) if self.kind == "table" else None


def new_table(place, made):
    table = Value("table", {}, place)
    table.made = made
    return table


class Reader:
    def __init__(self, text):
        self.text, self.at = text, 0
        self.starts = [0] + [match.end() for match in re.finditer("\n", text)]

    def place(self, at=None):
        """The line and the column of that offset, both from 1."""
        at = self.at if at is None else at
        low, high = 0, len(self.starts)
        while high - low > 1:
            middle = (low + high) // 2
            low, high = (middle, high) if self.starts[middle] <= at else (low, middle)
        return low + 1, at - self.starts[low] + 1

    def refuse(self, why, at=None):
        raise NotToml(why, *self.place(at))

    def sees(self, text):
        return self.text.startswith(text, self.at)

    def over(self):
        return self.at >= len(self.text)

    def takes(self, text):
        found = self.sees(text)
        self.at += len(text) if found else 0
        return found

    def space(self):
        self.at = SPACE.match(self.text, self.at).end()

    def newline(self):
        return self.takes("\n") or self.takes("\r\n")

    def comment(self):
        if self.takes("#"):
            while not self.over() and not self.sees("\n") and not self.sees("\r\n"):
                self.plain("a comment")

    def plain(self, within):
        """Takes one character, which may not be a control character but a tab."""
        char = self.text[self.at]
        if char != "\t" and (char < " " or char == "\x7f"):
            self.refuse(f"the octet 0x{ord(char):02x} may not stand in {within}")
        self.at += 1
        return char

    def blank(self):
        """Takes spaces, comments and ends of lines."""
        while True:
            self.space()
            self.comment()
            if not self.newline():
                return

    def end_of_line(self):
        self.space()
        self.comment()
        if not self.over() and not self.newline():
            self.refuse("nothing more may stand in this line")

    def escape(self, several):
        start = self.at - 1
        char = self.text[self.at : self.at + 1]
        self.at += 1
        if char in ESCAPES and char:
            return ESCAPES[char]
        if char in HEX_ESCAPES and char:
            digits = self.text[self.at : self.at + HEX_ESCAPES[char]]
            self.at += HEX_ESCAPES[char]
            if re.fullmatch("[0-9A-Fa-f]{%d}" % HEX_ESCAPES[char], digits):
                code = int(digits, 16)
                if code <= 0x10FFFF and not 0xD800 <= code <= 0xDFFF:
                    return chr(code)
        elif several:
            self.at -= 1
            self.space()
            if self.newline():
                while True:
                    self.space()
                    if not self.newline():
                        return ""
        self.refuse("there is no such escape in a text", start)

    def string(self):
        start, quote = self.at, self.text[self.at]
        several = self.takes(quote * 3)
        if not several:
            self.at += 1
        else:
            self.newline()
        out = []
        while True:
            if self.over():
                self.refuse("a text without its end", start)
            if self.sees(quote * 3 if several else quote):
                break
            if several and self.newline():
                out.append("\n")
            elif not several and (self.sees("\n") or self.sees("\r\n")):
                self.refuse("a text without its end in this line", start)
            elif quote == '"' and self.takes("\\"):
                out.append(self.escape(several))
            else:
                out.append(self.plain("a text"))
        self.at += 3 if several else 1
        for _ in range(2 if several else 0):
            out.append(quote if self.takes(quote) else "")
        return "".join(out)

    def key(self):
        """A key of one part or of several, each with its offset."""
        parts = []
        while True:
            self.space()
            start = self.at
            if self.sees('"') or self.sees("'"):
                if self.sees('"""') or self.sees("'''"):
                    self.refuse("a key has no text of several lines")
                parts.append((self.string(), start))
            elif bare := BARE.match(self.text, self.at):
                self.at = bare.end()
                parts.append((bare[0], start))
            else:
                if self.sees("//") or self.sees(";") or self.sees("--"):
                    self.refuse("a comment begins with #")
                if self.sees("{"):
                    self.refuse("this is JSON perhaps; a configuration is TOML, with lines as [[queue]] and name = \"Q\"")
                self.refuse("a key is letters, digits, '_' and '-', or a text in quotes")
            self.space()
            if not self.takes("."):
                break
        if len(parts) > MOST_PARTS:
            self.refuse(f"a key has at most {MOST_PARTS} parts", parts[0][1])
        return parts

    def value(self, depth):
        start = self.at
        if depth > DEEPEST:
            self.refuse(f"values stand within one another to a depth of {DEEPEST}")
        if self.over() or self.sees("\n") or self.sees("\r") or self.sees("#"):
            self.refuse("a value is missing")
        if self.sees('"') or self.sees("'"):
            return Value("string", self.string(), self.place(start))
        if self.takes("["):
            return self.array(start, depth)
        if self.takes("{"):
            return self.inline(start, depth)
        return self.word(start)

    def word(self, start):
        for text, truth in (("true", True), ("false", False)):
            if (found := WORD.match(self.text, self.at)) and found[0] == text:
                self.at = found.end()
                return Value("boolean", truth, self.place(start))
        found = max(
            ((match.end(), kind, match) for kind, form in (("moment", MOMENT), ("integer", INTEGER), ("float", FLOAT))
             if (match := form.match(self.text, self.at))),
            key=lambda each: each[0],
            default=None,
        )
        behind = WORD.match(self.text, found[0]) if found else None
        if not found or behind:
            word = WORD.match(self.text, self.at)
            said = word[0] if word else self.text[self.at]
            if said.lower() in ("true", "false", "yes", "no", "on", "off"):
                self.refuse(f"'{said}' is no value; yes and no are written true and false")
            if said[0] in "\u201c\u201d\u201e\u2018\u2019\u00ab":
                self.refuse(f"a text stands in straight quotes, \", and not in '{said[0]}'")
            self.refuse(f"'{said}' is no value; a text stands in quotes")
        self.at = found[0]
        return getattr(self, found[1])(found[2], start)

    def moment(self, match, start):
        year, month, day, hour, minute, second, zone, *alone = match.groups()
        try:
            if year:
                datetime.date(max(int(year), 4), int(month), int(day))
                if int(year) == 0 and (int(month), int(day)) == (2, 30):
                    raise ValueError
            hours = [(hour, minute, second)] if hour else []
            hours += [tuple(alone)] if alone[0] else []
            for h, m, s in hours:
                if int(h) > 23 or int(m) > 59 or int(s or 0) > 60:
                    raise ValueError
            if zone and zone not in "Zz" and (int(zone[1:3]) > 23 or int(zone[4:6]) > 59):
                raise ValueError
        except ValueError:
            self.refuse("there is no such date or time", start)
        return Value("datetime", match[0], self.place(start))

    def integer(self, match, start):
        try:
            number = int(match[0].replace("_", ""), 0)
        except ValueError:  # It has more than 4,300 digits in decimal.
            number = 2**63
        if not -(2**63) <= number < 2**63:
            self.refuse("a whole number has 64 bits", start)
        return Value("integer", number, self.place(start))

    def float(self, match, start):
        if math.isinf(float(match[0])) and not match[0].endswith("inf"):
            self.refuse("a number with a point or an exponent has 64 bits", start)
        return Value("float", match[0], self.place(start))

    def array(self, start, depth):
        items = []
        while True:
            self.blank()
            if self.takes("]"):
                break
            if self.over():
                self.refuse("an array without its end", start)
            items.append(self.value(depth + 1))
            self.blank()
            if not self.takes(",") and not self.sees("]"):
                self.refuse("',' or ']' is missing in an array")
        return Value("array", items, self.place(start))

    def inline(self, start, depth):
        table = new_table(self.place(start), "open")
        while True:
            self.blank()
            if self.takes("}"):
                break
            if self.over():
                self.refuse("an inline table without its end", start)
            self.pair(table, depth + 1)
            self.blank()
            if not self.takes(",") and not self.sees("}"):
                self.refuse("',' or '}' is missing in an inline table")
        close(table)
        return table

    def pair(self, table, depth):
        parts = self.key()
        if not self.takes("="):
            colon = ", and not ':'" if self.sees(":") else ""
            self.refuse(f"'=' stands between a key and its value{colon}")
        self.space()
        for key, start in parts[:-1]:
            if key not in table.data:
                table.data[key] = new_table(self.place(start), "dotted")
                table.keys[key] = self.place(start)
            table = table.data[key]
            if table.kind != "table" or table.made != "dotted":
                self.refuse(f"'{key}' is there already", start)
        key, start = parts[-1]
        if key in table.data:
            self.refuse(f"'{key}' stands twice, first in line {table.keys[key][0]}", start)
        table.data[key] = self.value(depth + len(parts) - 1)
        table.keys[key] = self.place(start)

    def header(self, root):
        start, several = self.at, self.takes("[[")
        if not several:
            self.takes("[")
        parts = self.key()
        if not self.takes("]]" if several else "]"):
            self.refuse("a header without its end", start)
        table = root
        for key, at in parts[:-1]:
            table = self.through(table, key, at)
        return self.named(table, *parts[-1], several)

    def through(self, table, key, at):
        if key not in table.data:
            table.data[key] = new_table(self.place(at), "implied")
            table.keys[key] = self.place(at)
        table = table.data[key]
        if table.kind == "array" and table.made == "header":
            table = table.data[-1]
        if table.kind != "table" or table.made == "inline":
            self.refuse(f"'{key}' is there already, and no table that a header may add to", at)
        return table

    def named(self, table, key, at, several):
        found = table.data.get(key)
        place = self.place(at)
        if several:
            if found is None:
                found = table.data[key] = Value("array", [], place)
                found.made = "header"
                table.keys[key] = place
            if found.kind != "array" or found.made != "header":
                self.refuse(f"'{key}' is there already, and no [[{key}]]", at)
            found.data.append(new_table(place, "header"))
            return found.data[-1]
        if found is None:
            found = table.data[key] = new_table(place, "implied")
            table.keys[key] = place
        if found.kind != "table" or found.made != "implied":
            self.refuse(f"'{key}' is there already", at)
        found.made = "header"
        found.place = place
        return found

    def document(self):
        root = table = new_table((1, 1), "header")
        while True:
            self.blank()
            if self.over():
                return root
            if self.sees("["):
                table = self.header(root)
            else:
                self.pair(table, 1)
            self.end_of_line()


def close(value):
    """No later key adds to an inline table."""
    value.made = "inline"
    for inner in value.data.values() if value.kind == "table" else []:
        if inner.kind == "table":
            close(inner)


def read(octets):
    """The document that these octets are, as its table."""
    try:
        text = octets.decode("utf-8")
    except UnicodeDecodeError as error:
        before = octets[: error.start]
        line = before.count(b"\n") + 1
        column = len(before[before.rfind(b"\n") + 1 :].decode("utf-8")) + 1
        raise NotToml(f"the octet 0x{octets[error.start]:02x} is no UTF-8", line, column) from None
    return Reader(text.removeprefix("\ufeff")).document()
