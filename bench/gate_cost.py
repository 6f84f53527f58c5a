#!/usr/bin/env python3
"""Measures what the gate costs: of each crate the minutes of a processor of its proof, of its tests and of its must-fail edits,
and the dearest functions.

    bench/gate_cost.py [CRATE..]       (default: every crate)

It works over a clone of the last commit, in a folder of its own: one crate at a time, lowest first, with one job, each from
nothing. What a named crate stands on is proved first and not counted. A time is that of the user and of the system, of every
process that a command starts, so that other work on the machine disturbs it little. `rt check` prints a line as each function
ends; its seconds are those of a processor since the line before. The first of a crate is left out, since the libraries are read
before it: that is a column of its own.

Prints a Markdown table, and on standard error each crate as it ends. The whole takes as long as its sum says.
"""

import os
import pathlib
import re
import subprocess
import sys
import tempfile

TOP = pathlib.Path(__file__).resolve().parent.parent
TICKS = os.sysconf("SC_CLK_TCK")
ENDED = re.compile(r"checked (\S+), \d+ of \d+")
DEAREST = 10


def crates_of(top):
    """The crates of crates.txt, each after those that it stands on, with their names."""
    below = {}
    for line in (top / "crates.txt").read_text(encoding="utf-8").splitlines():
        words, colon, libraries = line.split("#")[0].partition(":")
        if colon:
            below[words.split()[0]] = libraries.split()
    below = {name: [it for it in its if it in below] for name, its in below.items()}
    ordered = {}

    def add(name):
        for it in below[name]:
            add(it)
        ordered.setdefault(name, below[name])

    for name in below:
        add(name)
    return ordered


def all_below(crates, names):
    """These crates and all that they stand on."""
    found = set()
    for name in names:
        found |= {name} | all_below(crates, crates[name])
    return found


def used_by(root):
    """The seconds of a processor that a process and those that it started have used so far."""
    parents, used = {}, {}
    for entry in os.scandir("/proc"):
        if entry.name.isdigit():
            try:
                said = pathlib.Path(entry.path, "stat").read_text(errors="replace").rpartition(")")[2].split()
            except OSError:
                continue
            parents[int(entry.name)] = int(said[1])
            used[int(entry.name)] = sum(map(int, said[11:15]))

    def is_ours(pid):
        while pid in parents and pid != root:
            pid = parents[pid]
        return pid == root

    return sum(ticks for pid, ticks in used.items() if is_ours(pid)) / TICKS


class Ran:
    """A command that was run to its end: its status, its seconds of a processor, what it said, and the seconds of each function."""

    def __init__(self, words, folder):
        self.said, self.functions, self.first, last = [], [], 0.0, 0.0
        started = subprocess.Popen(words, cwd=folder, text=True, errors="replace", stdin=subprocess.DEVNULL,
                                   stdout=subprocess.PIPE, stderr=subprocess.STDOUT)
        for line in started.stdout:
            self.said.append(line)
            ended = ENDED.match(line)
            if ended:
                now = used_by(started.pid)
                if last:
                    self.functions.append((now - last, ended[1]))
                else:
                    self.first = now
                last = now
        _, status, usage = os.wait4(started.pid, 0)
        started.returncode = self.status = os.waitstatus_to_exitcode(status)
        self.seconds = usage.ru_utime + usage.ru_stime

    def hold(self):
        """Stops where the command failed."""
        if self.status:
            sys.exit("".join(self.said[-20:]) + "gate_cost: the last command failed, so nothing is measured")
        return self


def has_tests(folder):
    return any("#[test]" in it.read_text(encoding="utf-8") for it in folder.glob("src/**/*.rt"))


def measure(top, name):
    """What one crate costs: seconds of its proof, tests and edits, those until its first function ended, and its functions."""
    folder = top / "crates" / name
    check = Ran(["rt", "check", "--jobs", "1"], folder).hold()
    proof, first, functions = check.seconds, check.first, check.functions
    if (folder / "src" / "lib.rt").is_file() and "logic=" in "".join(check.said):
        proof += Ran(["rt", "lib", "--jobs", "1"], folder).hold().seconds
    tests = edits = 0.0
    if has_tests(folder):
        ran = Ran(["rt", "test", "--jobs", "1"], folder).hold()
        tests, first, functions = ran.seconds, first or ran.first, functions + ran.functions
    if any(folder.glob("must-fail/*.edit")):
        edits = Ran(["rt", "must-fail", name], top).hold().seconds
    return proof, tests, edits, first, functions


def print_table(rows):
    whole = sum(sum(row[1:4]) for row in rows)
    print("| Crate | Proof | Tests | Edits | All | Part | Until the first function |")
    print("|---|---|---|---|---|---|---|")
    for name, proof, tests, edits, first, _ in sorted(rows, key=lambda row: -sum(row[1:4])):
        its = proof + tests + edits
        cells = " | ".join(f"{it / 60:.1f}" if it else "" for it in (proof, tests, edits, its))
        print(f"| `{name}` | {cells} | {100 * its / whole:.0f} % | {first / 60:.1f} |")
    sums = " | ".join(f"{sum(row[at] for row in rows) / 60:.1f}" for at in (1, 2, 3))
    print(f"| all | {sums} | {whole / 60:.1f} | | {sum(row[4] for row in rows) / 60:.1f} |")
    print("\n| Function | Seconds |\n|---|---|")
    functions = sorted((it for row in rows for it in row[5]), reverse=True)
    for seconds, name in functions[:DEAREST]:
        print(f"| `{name}` | {seconds:.1f} |")


def main():
    with tempfile.TemporaryDirectory(prefix="gate-cost-") as room:
        top = pathlib.Path(room, "clone")
        subprocess.run(["git", "clone", "--quiet", str(TOP), str(top)], check=True)
        crates = crates_of(top)
        names = sys.argv[1:] or list(crates)
        unknown = [it for it in names if it not in crates]
        if unknown:
            sys.exit(f"no such crate: {', '.join(unknown)}")
        needed, rows = all_below(crates, names), []
        for name in crates:
            if name in names:
                rows.append((name, *measure(top, name)))
                print(f"{name}: {sum(rows[-1][1:4]):.0f} s", file=sys.stderr, flush=True)
            elif name in needed:
                Ran(["rt", "lib"], top / "crates" / name).hold()
        print_table(rows)


if __name__ == "__main__":
    main()
