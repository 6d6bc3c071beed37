"""Writes a document that `toml_places` has read."""

import json


def text(words):
    return json.dumps(words, ensure_ascii=False).replace("\x7f", "\\u007f")


def value(found):
    if found.kind == "string":
        return text(found.data)
    if found.kind == "array":
        return "[" + ", ".join(value(each) for each in found.data) + "]"
    if found.kind == "table":
        return "{ " + ", ".join(f"{text(key)} = {value(each)}" for key, each in found.data.items()) + " }"
    if found.kind == "boolean":
        return "true" if found.data else "false"
    return str(found.data)


def written(document):
    """The document, each of its keys in one line."""
    return "".join(f"{text(key)} = {value(each)}\n" for key, each in document.data.items())
