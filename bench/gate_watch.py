#!/usr/bin/env python3
"""Runs the gate and says what it cost: of each crate the minutes of a processor of its proof, its tests and its must-fail edits.

    bench/gate_watch.py [rt ci [CRATE..]]       (default: rt ci)

It starts the command at the top of the repository, hands its lines on, and looks twice a second at each process that it started: which
crate that proves, and the time of a processor that it has used. What an earlier run on this machine proved is kept and costs nothing, so
a whole table wants a machine that has kept nothing, or --anew. Prints a Markdown table after the command's last line.
"""

import os
import pathlib
import subprocess
import sys
import threading
import time

TOP = pathlib.Path(__file__).resolve().parent.parent
TICKS = os.sysconf("SC_CLK_TCK")
EVERY = 0.5


def processes():
    """Of each process its parent, the seconds of a processor that it has used, and when it began."""
    found = {}
    for entry in os.scandir("/proc"):
        if entry.name.isdigit():
            try:
                said = pathlib.Path(entry.path, "stat").read_text(errors="replace").rpartition(")")[2].split()
            except OSError:
                continue
            found[int(entry.name)] = (int(said[1]), (int(said[11]) + int(said[12])) / TICKS, said[19])
    return found


def started_by(root, found):
    """The processes that this one started, and those that these did."""
    children = {}
    for pid, (parent, _, _) in found.items():
        children.setdefault(parent, []).append(pid)
    todo, its = [root], []
    while todo:
        new = children.get(todo.pop(), [])
        todo += new
        its += new
    return its


def part_of(pid):
    """The crate that a process proves, and for which part of the gate; none of any other process."""
    try:
        words = pathlib.Path("/proc", str(pid), "cmdline").read_bytes().decode(errors="replace").split("\0")
        folder = os.readlink(f"/proc/{pid}/cwd")
    except OSError:
        return None
    if "--crate-name" not in words:
        return None
    part = "edits" if "/rt-edit-" in folder else "tests" if "--test" in words else "proof"
    return words[words.index("--crate-name") + 1], part


class Watch(threading.Thread):
    """Sums what the processes of a command use, until it has ended."""

    def __init__(self, root):
        super().__init__(daemon=True)
        self.root, self.used, self.ended = root, {}, threading.Event()

    def run(self):
        parts = {}
        while not self.ended.wait(EVERY):
            found = processes()
            for pid in started_by(self.root, found):
                _, seconds, began = found[pid]
                key = (pid, began)
                if not parts.get(key):
                    parts[key] = part_of(pid)
                if parts[key]:
                    self.used[key] = (parts[key], seconds)

    def sums(self):
        sums = {}
        for (crate, part), seconds in self.used.values():
            its = sums.setdefault(crate, {"proof": 0.0, "tests": 0.0, "edits": 0.0})
            its[part] += seconds
        return sums


def print_table(sums):
    whole = sum(sum(its.values()) for its in sums.values()) or 1.0
    print("\n| Crate | Proof | Tests | Edits | All | Part |\n|---|---|---|---|---|---|")
    for crate, its in sorted(sums.items(), key=lambda it: -sum(it[1].values())):
        cells = " | ".join(f"{it / 60:.1f}" if it else "" for it in (*its.values(), sum(its.values())))
        print(f"| `{crate}` | {cells} | {100 * sum(its.values()) / whole:.0f} % |")
    parts = " | ".join(f"{sum(its[part] for its in sums.values()) / 60:.1f}" for part in ("proof", "tests", "edits"))
    print(f"| all | {parts} | {whole / 60:.1f} | |")


def main():
    command = sys.argv[1:] or ["rt", "ci"]
    began = time.monotonic()
    gate = subprocess.Popen(command, cwd=TOP)
    watch = Watch(gate.pid)
    watch.start()
    status = gate.wait()
    watch.ended.set()
    watch.join()
    print_table(watch.sums())
    print(f"\n{(time.monotonic() - began) / 60:.0f} minutes by the clock.")
    return status


if __name__ == "__main__":
    sys.exit(main())
