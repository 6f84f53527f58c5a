#!/usr/bin/env python3
"""Runs the console blocks of documents, and compares what they show with what comes.

    [PROGRAM=..] bench/console.py [--built] [DOCUMENT..]     (default: README.md, examples/README.md and docs/ NANDCTL, LABORATORY, DISK)

A block ```console has commands, each after `$ `, and below each what it prints, on either stream. The blocks of a document run in
their order in one shell, in a fresh folder with the program as `nandctl`, the small image as `image.bin`, and `crates` and
`examples` of this repository. With `--built` no `rt run` is made: the program runs that an earlier one built.

It prints each line that differs, and ends with status 1 where one does, or where a document has no block."""

import difflib
import re
import subprocess
import sys
import tempfile
from pathlib import Path

from program import PROGRAM

TOP = Path(__file__).resolve().parent.parent
DOCUMENTS = ["README.md", "examples/README.md", "docs/NANDCTL.md", "docs/LABORATORY.md", "docs/DISK.md"]
BLOCK = re.compile(r"^```console\n(.*?)^```$", re.MULTILINE | re.DOTALL)
MADE = re.compile(r"\(cd (crates/(\w+)) && rt run --(.*?)\)")
MARK = "== the next command =="


def steps_of(text):
    """The commands of a document, and of each the lines below it."""
    steps = []
    for block in BLOCK.findall(text):
        for line in block.splitlines():
            if line.startswith("$ "):
                steps.append((line[2:], []))
            elif steps:
                steps[-1][1].append(line)
    return steps


def shown_by(commands, folder):
    """What each command prints, all of them run by one shell."""
    script = "".join(f"{command}\nprintf '\\n%s\\n' '{MARK}'\n" for command in commands)
    ran = subprocess.run(["bash", "-c", f"exec 2>&1\n{script}"], cwd=folder, capture_output=True, text=True,
                         errors="replace", stdin=subprocess.DEVNULL)
    return [part.strip("\n").splitlines() for part in ran.stdout.split(f"\n{MARK}\n")[:len(commands)]]


def prepare(folder):
    (folder / "nandctl").symlink_to(PROGRAM)
    (folder / "image.bin").write_bytes((TOP / "crates/nandctl/data/image.bin").read_bytes())
    for name in ("crates", "examples"):
        (folder / name).symlink_to(TOP / name)


def hold(document, built):
    """How many commands of a document there are, and how many print something else."""
    steps = steps_of((TOP / document).read_text(encoding="utf-8"))
    commands = [MADE.sub(r"\1/out/\2\3", command) if built else command for command, _ in steps]
    with tempfile.TemporaryDirectory() as folder:
        prepare(Path(folder))
        shown = shown_by(commands, folder)
    wrong = 0
    for nth, (command, wanted) in enumerate(steps):
        found = shown[nth] if nth < len(shown) else ["(not run)"]
        if found != wanted:
            wrong += 1
            print(f"{document}: $ {command}")
            print("\n".join(list(difflib.unified_diff(wanted, found, "shown", "came", lineterm=""))[2:]))
    return len(steps), wrong


def main():
    words = sys.argv[1:]
    built = "--built" in words
    failed = False
    for document in [word for word in words if word != "--built"] or DOCUMENTS:
        count, wrong = hold(document, built)
        print(f"{document}: {count} commands, {wrong} print something else")
        failed |= wrong > 0 or count == 0
    sys.exit(failed)


if __name__ == "__main__":
    main()
