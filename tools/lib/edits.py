"""Says which must-fail edits don't apply, without a proof: those of crates/CRATE/must-fail/ and of tools/edits/CRATE/.

An edit applies if each `old:` text stands once in its file, as the pairs before it have left that, and the file differs
then from what it was.
"""
import argparse
import glob
import os
import sys

TOP = os.path.dirname(os.path.dirname(os.path.dirname(os.path.abspath(__file__))))
COMMENTS = ("#", "--", "//")


class NotApplied(Exception):
    """Why an edit doesn't apply."""


def read(path):
    with open(path, encoding="utf-8") as file:
        return file.read()


def replaced(folder, texts, path, old, new):
    """The texts by their paths, with that text in the place of the old one."""
    if not path or not old:
        raise NotApplied("a 'new:' line stands before any 'file:' or 'old:' line")
    if not os.path.isfile(f"{folder}/{path}"):
        raise NotApplied(f"there is no file {path}")
    text = texts[path] if path in texts else read(f"{folder}/{path}")
    if text.count(old) != 1:
        raise NotApplied(f"its {old!r} stands {text.count(old)} times in {path}")
    return texts | {path: text.replace(old, new)}


def apply(edit, folder):
    """The texts of the files that the edit changes, by their paths in the crate's folder."""
    path, old, texts = "", "", {}
    for line in read(edit).split("\n"):
        key, _, value = line.partition(":")
        value = value.removeprefix(" ")
        if key == "file":
            path = value.strip()
        elif key == "old":
            old = value
        elif key == "new":
            texts, old = replaced(folder, texts, path, old, value), ""
        elif line.strip() and not line.startswith(COMMENTS):
            raise NotApplied(f"nothing reads its line {line!r}")
    if old or all(text == read(f"{folder}/{path}") for path, text in texts.items()):
        raise NotApplied("it changes nothing")
    return texts


def edits_of(crates, place):
    """The edits of these crates in that place, each with its crate."""
    return [(crate, edit) for crate in crates for edit in sorted(glob.glob(f"{TOP}/{place.format(crate)}/*.edit"))]


def faults_of(edits):
    names = set()
    for crate, edit in edits:
        name = crate, os.path.basename(edit)
        if name in names:
            yield f"{os.path.relpath(edit, TOP)}: another edit of the crate has its name"
        names.add(name)
        try:
            apply(edit, f"{TOP}/crates/{crate}")
        except NotApplied as why:
            yield f"{os.path.relpath(edit, TOP)}: {why}"


def main():
    parser = argparse.ArgumentParser(description=__doc__, formatter_class=argparse.RawDescriptionHelpFormatter)
    parser.add_argument("crates", nargs="*", metavar="CRATE", help="whose edits; by default those of every crate")
    every = {entry.name for place in ("crates", "tools/edits") for entry in os.scandir(f"{TOP}/{place}") if entry.is_dir()}
    crates = parser.parse_args().crates or sorted(every)
    if not every.issuperset(crates):
        parser.error(f"there is no crate {', '.join(sorted(set(crates) - every))}")
    gate, others = (edits_of(crates, place) for place in ("crates/{}/must-fail", "tools/edits/{}"))
    faults = list(faults_of(gate + others))
    print("\n".join(faults + [f"{len(gate)} edits in the gate and {len(others)} beside it, of which {len(faults)} don't apply"]))
    sys.exit(bool(faults))


if __name__ == "__main__":
    main()
