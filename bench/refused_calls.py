#!/usr/bin/env python3
"""Refuses each growth of each call that takes memory, in turn, and holds the call to its `OutOfMemory` and to the same answer
as ever when it is made again.

    bench/refused_calls.py

It runs the program in bench/refused_calls_program.txt by `rt try`, which proves nothing, in a folder of its own. `rt try` makes
one allocation fail, always of the same number; so that each allocation of the calls is it in turn, the program is given a number
of allocations to make before the first call. It prints for each call how many growths ended in its `OutOfMemory`, and how many
others were refused before the last of these, after which all calls answered as ever (a vector that made do with less, or a read
that caches nothing)."""

import re
import shutil
import subprocess
import sys
import tempfile
from pathlib import Path

TOP = Path(__file__).resolve().parent.parent
NAME = "refused_calls"
USES = "page_layout onfi_cycles nand_die certificate image_check mount request_stream ftl_device block_server commands anyhow"
# The allocation that fails, which is more than all calls make together.
FAILING = 1000


def copied(folder):
    """The crates that hold no tests, and the program, in a folder."""
    lines = []
    for line in (TOP / "crates.txt").read_text().splitlines():
        name = line.partition(":")[0]
        if not name.endswith("_tests") and name:
            skipped = shutil.ignore_patterns("out")
            shutil.copytree(TOP / "crates" / name, folder / "crates" / name, ignore=skipped)
            lines.append(line)
    (folder / "crates.txt").write_text("\n".join([*lines, f"{NAME}: {USES}", ""]))
    crate = folder / "crates" / NAME
    (crate / "src").mkdir(parents=True)
    shutil.copy(TOP / "bench" / "refused_calls_program.txt", crate / "src" / "main.rt")
    (crate / "specs").mkdir()
    (crate / "specs" / "Lib.antt").write_text("")
    subprocess.run(["git", "init", "-q", folder], check=True)
    return crate


def answers(crate):
    """What the program says where each allocation fails in turn, the first of the calls first."""
    with tempfile.TemporaryDirectory() as folder:
        for at in range(FAILING):
            Path(folder, f"case{at:06}").write_text(f"{FAILING - 1 - at} 100000\n")
        words = ["rt", "try", "--steps", "1", "--fail-alloc", str(FAILING), "--cases", folder]
        ran = subprocess.run(words, cwd=crate, stdout=subprocess.PIPE, stderr=subprocess.STDOUT, text=True)
    parts = re.split(r"^== case(\d+)\n", ran.stdout, flags=re.M)
    found = {int(number): text for number, text in zip(parts[1::2], parts[2::2])}
    if len(found) != FAILING:
        sys.exit(ran.stdout[-3000:])
    skipped = re.compile(r"allocations: |cases?=")
    return [[it for it in found[at].splitlines() if not skipped.match(it)] for at in range(FAILING)]


def told(at, said):
    """The call that was refused, or none; all others answered as ever."""
    *lines, last = said or [""]
    names = [it.removesuffix(" refused") for it in lines if it.endswith(" refused")]
    if last != "done" or len(names) != len(lines) or len(names) > 1:
        sys.exit(f"growth {at + 1} refused: {said}")
    return names[0] if names else None


def main():
    with tempfile.TemporaryDirectory() as folder:
        crate = copied(Path(folder))
        names = [told(at, said) for at, said in enumerate(answers(crate))]
    last = max(at for at, name in enumerate(names) if name)
    if last + 1 == FAILING:
        sys.exit("the calls make more allocations")
    rows = {}
    for name in names[: last + 1]:
        rows[name] = rows.get(name, 0) + 1
    print(f"{last + 1} growths, each refused in turn; {rows.pop(None, 0)} left every answer as ever")
    for name, count in rows.items():
        print(f"| `{name}` | {count} |")


if __name__ == "__main__":
    main()
