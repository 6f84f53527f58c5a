#!/usr/bin/env python3
"""Says what a check of a crate spent its time on: of each function how long its states, its walk, its answers took, and of each file of
specs/ and proofs/ how long it took.

    bench/check_parts.py CRATE [COUNT]      the dearest COUNT of them (default: 30)

It reads the times at which `rt check` kept the modules that it checked (crates/CRATE/out/incremental): so run that first, in the crate's
folder, without what an earlier check kept there, and with nothing else beside it. What is told of the first module is the front end too.
"""

import collections
import pathlib
import re
import sys

TOP = pathlib.Path(__file__).resolve().parent.parent
# rattle's modules of one function: its steps and states, the walk over them, what the code is tied to, and what the proof files say
PARTS = {
    "Lts": "states",
    "Proof": "walk",
    "Tie": "tie",
    "Reads": "reads",
    "Answers": "answers",
    "Goals": "goals",
    "Invariants": "answers",
    "Given": "goals",
}
MODULE = re.compile(r"Rattle-(\w+)-(specs|proofs)\.(.*)\.oantt")


def modules(folder):
    """Each module that was kept, with the seconds since the one before it."""
    found = []
    for path in folder.rglob("*.oantt"):
        named = MODULE.fullmatch(path.name)
        if named and not path.name.endswith(".decls.oantt"):
            found.append((path.stat().st_mtime, named[2], named[3].split(".")))
    found.sort()
    before = found[0][0] if found else 0
    for time, side, words in found:
        yield time - before, side, words
        before = time


def main():
    if len(sys.argv) not in (2, 3):
        sys.exit(__doc__)
    folder = TOP / "crates" / sys.argv[1] / "out" / "incremental"
    of_all, of_each = collections.Counter(), collections.defaultdict(collections.Counter)
    for seconds, side, words in modules(folder):
        part = PARTS.get(words[-1].partition("-")[0])
        if part is None:
            part = "rest" if side == "proofs" and not words[-1].endswith("Lemmas") else f"files of {side}"
        name = ".".join(words[:-1]) if words[-1].partition("-")[0] in PARTS else ".".join(words)
        of_all[part] += seconds
        of_each[name][part] += seconds
    if not of_all:
        sys.exit(f"{folder} holds no kept module: run `rt check` in the crate first")
    print("seconds in all:", ", ".join(f"{part} {seconds:.0f}" for part, seconds in of_all.most_common()))
    dearest = sorted(of_each.items(), key=lambda it: -sum(it[1].values()))
    for name, parts in dearest[: int(sys.argv[2]) if len(sys.argv) > 2 else 30]:
        print(f"{sum(parts.values()):7.1f} {name}: " + ", ".join(f"{part} {seconds:.1f}" for part, seconds in parts.most_common(4)))


if __name__ == "__main__":
    main()
