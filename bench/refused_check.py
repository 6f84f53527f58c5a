#!/usr/bin/env python3
"""Refuses each growth of a check in turn, by a source that counts its page reads and by a reader that counts its reads: nothing
may be read before `OutOfMemory`, and the same check has to be answered as ever with memory.

    bench/refused_check.py

It runs the program in bench/refused_check_program.txt by `rt try`, which proves nothing, in a folder of its own. `rt try` makes
one allocation fail, always of the same number: the program is told how many to make before the first check."""

import re
import shutil
import subprocess
import sys
import tempfile
from pathlib import Path

TOP = Path(__file__).resolve().parent.parent
NAME = "refused_check"
USES = "page_layout certificate image_check mount anyhow"
CRATES = ["page_layout", "onfi_cycles", "promises", "bad_blocks", "translation_pages", "certificate", "image_check", "mount"]
# The allocation that fails. The program makes fewer before the first check, and fewer in all four.
FAILING = 150
EVER = {"check": "accepted, 256 reads", "check_stream": "accepted, 513 reads"}


def copied(folder):
    """The crates that a check stands on, and the program, in a folder."""
    listed = (TOP / "crates.txt").read_text().splitlines()
    lines = [line for line in listed if line.partition(":")[0] in CRATES]
    for name in CRATES:
        shutil.copytree(TOP / "crates" / name, folder / "crates" / name, ignore=shutil.ignore_patterns("out"))
    (folder / "crates.txt").write_text("\n".join([*lines, f"{NAME}: {USES}", ""]))
    crate = folder / "crates" / NAME
    (crate / "src").mkdir(parents=True)
    shutil.copy(TOP / "bench" / "refused_check_program.txt", crate / "src" / "main.rt")
    (crate / "specs").mkdir()
    (crate / "specs" / "Lib.antt").write_text("")
    subprocess.run(["git", "init", "-q", folder], check=True)
    return crate


def outputs(crate):
    """What the program prints where so many allocations come before the first check."""
    with tempfile.TemporaryDirectory() as folder:
        for before in range(FAILING):
            Path(folder, f"case{before:06}").write_text(f"{before}\n")
        words = ["rt", "try", "--steps", "1", "--fail-alloc", str(FAILING), "--cases", folder]
        ran = subprocess.run(words, cwd=crate, stdout=subprocess.PIPE, stderr=subprocess.STDOUT, text=True)
    parts = re.split(r"^== case(\d+)\n", ran.stdout, flags=re.M)
    found = {int(number): text for number, text in zip(parts[1::2], parts[2::2])}
    if len(found) != FAILING:
        sys.exit(ran.stdout[-3000:])
    return [found[before] for before in range(FAILING)]


def refused(printed):
    """The check that was refused, the first of its kind, or none; all else was answered as ever."""
    lines = [line.partition(": ") for line in printed.splitlines() if line.startswith("check")]
    told = [(at, name) for at, (name, _, said) in enumerate(lines) if said == "OutOfMemory, 0 reads"]
    others = [said == EVER[name] for at, (name, _, said) in enumerate(lines) if (at, name) not in told]
    if [name for name, _, _ in lines] != ["check", "check", "check_stream", "check_stream"] or len(told) > 1 or not all(others):
        sys.exit(printed)
    return told[0] if told else None


def main():
    with tempfile.TemporaryDirectory() as folder:
        found = [refused(printed) for printed in outputs(copied(Path(folder)))]
    for at, name in [(0, "check"), (2, "check_stream")]:
        print(f"`{name}`: {found.count((at, name))} growths, each refused in turn: OutOfMemory with nothing read, then accepted")
    if (0, "check") not in found or (2, "check_stream") not in found:
        sys.exit("no growth was refused")


if __name__ == "__main__":
    main()
