#!/usr/bin/env python3
"""Lists the lemmas that no proof, definition or source names: the search alone uses them, or nothing does.

    bench/unnamed.py [CRATE..]      a line for each: its file and its name; and how many lemmas there are

Whether one is dead only a check of its crate without it can tell."""

import collections
import re
import sys
from pathlib import Path

CRATES = Path(__file__).resolve().parent.parent / "crates"
WORD = re.compile(r"[A-Za-z_][\w']*")


def main():
    texts = {path: path.read_text(encoding="utf-8") for suffix in ("antt", "rt") for path in sorted(CRATES.rglob(f"*.{suffix}")) if "out" not in path.parts}
    uses = collections.Counter(word for text in texts.values() for word in WORD.findall(text))
    lemmas = unnamed = 0
    for path, text in texts.items():
        if "proofs" not in path.parts or (sys.argv[1:] and path.relative_to(CRATES).parts[0] not in sys.argv[1:]):
            continue
        for name in re.findall(r"^(?:pub )?([a-z][\w']*) :", text, re.MULTILINE):
            lemmas += 1
            # its statement and its equations name it at the beginning of their lines
            if uses[name] == len(re.findall(rf"^(?:pub )?{re.escape(name)}\b", text, re.MULTILINE)):
                unnamed += 1
                print(f"{path.relative_to(CRATES.parent)}: {name}")
    print(f"{unnamed} of {lemmas} lemmas are named nowhere")


if __name__ == "__main__":
    main()
