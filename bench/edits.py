#!/usr/bin/env python3
"""Looks whether each planted bug still fits the sources, and proves nothing.

    bench/edits.py                  looks at all of them
    bench/edits.py FOLDER EDIT      plants one in a copy of its crate, which stands in FOLDER

Of each edit in crates/*/must-fail and planted/*, and of each bend in bench/bends: its file is there, and each text to
be replaced stands in it just once, after the pairs before it were applied. Prints those that don't fit, and answers 1
if there are any.
"""

import pathlib
import re
import sys
import tempfile

TOP = pathlib.Path(__file__).resolve().parent.parent


def pairs_of(edit):
    """The edit's pairs: file, old text, new text, in their order."""
    pairs = []
    file = old = None
    for line in edit.read_text(encoding="utf-8").splitlines():
        word, _, text = line.partition(": ")
        if word == "file":
            file = text.strip()
        elif word == "old":
            old = text
        elif word == "new":
            pairs.append((file, old, text))
        elif line.strip():
            raise ValueError(f"a line that is no pair's: {line}")
    return pairs


def texts_of(crate, edit):
    """The files that an edit changes, as they are with it; a ValueError says why it doesn't fit its crate."""
    texts = {}
    pairs = pairs_of(edit)
    if not pairs:
        raise ValueError("it has no pair")
    for file, old, new in pairs:
        if file is None or old is None:
            raise ValueError("a pair without a file or an old text")
        path = crate / file
        if path not in texts:
            if not path.is_file():
                raise ValueError(f"no file {file}")
            texts[path] = path.read_text(encoding="utf-8")
        count = texts[path].count(old)
        if count != 1:
            raise ValueError(f"stands {count} times in {file}: {old}")
        if old == new:
            raise ValueError(f"changes nothing: {old}")
        texts[path] = texts[path].replace(old, new)
    return texts


def pieces_of(file):
    """The edits of one file of bends, each its name and its text."""
    pieces = (piece.partition("\n") for piece in re.split(r"^# ", file.read_text(encoding="utf-8"), flags=re.MULTILINE)[1:])
    return [(name.strip(), text) for name, _, text in pieces]


def bends_of(file, room):
    """The edits of one file, as files of their own."""
    found = []
    for name, text in pieces_of(file):
        path = room / f"{name}.edit"
        path.write_text(text, encoding="utf-8")
        found.append(path)
    return found


def fits(crate, edit):
    """Whether an edit fits its crate; says why not."""
    try:
        texts_of(crate, edit)
    except ValueError as fault:
        print(f"{edit}: {fault}")
        return False
    return True


def plant(crate, edit):
    """Plants an edit in a crate."""
    if not fits(crate, edit):
        return 1
    for path, text in texts_of(crate, edit).items():
        path.write_text(text, encoding="utf-8")
    return 0


def main():
    if len(sys.argv) == 3:
        return plant(pathlib.Path(sys.argv[1]), pathlib.Path(sys.argv[2]))
    edits = sorted(TOP.glob("crates/*/must-fail/*.edit")) + sorted(TOP.glob("planted/*/*.edit"))
    count, faults = len(edits), 0
    for edit in edits:
        folder = edit.parent.parent if edit.parent.name == "must-fail" else edit.parent
        faults += not fits(TOP / "crates" / folder.name, edit)
    for bends in sorted(TOP.glob("bench/bends/*.txt")):
        with tempfile.TemporaryDirectory(prefix=f"{bends.stem}-") as room:
            for edit in bends_of(bends, pathlib.Path(room)):
                count += 1
                faults += not fits(TOP / "crates" / bends.stem, edit)
    print(f"{count} edits, {faults} that don't fit")
    return 1 if faults else 0


if __name__ == "__main__":
    sys.exit(main())
