"""Text as a terminal may be given it."""


def plain(text):
    """The text, with each character that isn't printed written as an escape."""
    return text if text.isprintable() else "".join(each if each.isprintable() else escape(each) for each in text)


def escape(char):
    code = ord(char)
    if 0xDC80 <= code <= 0xDCFF:  # An octet that is no UTF-8, as Python keeps it.
        code -= 0xDC00
    return f"\\x{code:02x}" if code < 0x100 else f"\\u{code:04x}" if code < 0x10000 else f"\\U{code:08x}"


def plain_octets(octets, quote=b""):
    """Octets as text: what isn't printed ASCII, a backslash and the quote as escapes."""
    kept = {octet for octet in range(0x20, 0x7F) if octet not in b"\\" + quote}
    return "".join(chr(octet) if octet in kept else f"\\x{octet:02x}" for octet in octets)
