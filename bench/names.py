#!/usr/bin/env python3
"""Lists the names that stand for more than one thing: definitions of specs/ and public types of src/ that several files have.

    bench/names.py            the public types, and the words of docs/PROMISES.md, that several files have
    bench/names.py --all      each definition that several files have, too

A line for each name: how many files have it, and of which crates. Crates of tests, what makes their images too, and programs count for no
type. It changes nothing, and answers 1 where there is any."""

import collections
import re
import signal
import sys
from pathlib import Path

TOP = Path(__file__).resolve().parent.parent
DECLARES = re.compile(r"^(?:pub record|pub data|abbrev pub|unfoldable pub|opaque pub)\s+([A-Za-z_][\w']*)", re.MULTILINE)
TYPE = re.compile(r"^pub (?:struct|enum|trait|type) (\w+)", re.MULTILINE)
PROGRAMS = {"test_images", "nandctl", "nandlab", "nanddisk", "system_program", "firmware", "ftl_c"}


def having(pattern, files):
    """Of each name that the pattern finds more than once, the files in which it stands."""
    found = collections.defaultdict(list)
    for path in files:
        for name in pattern.findall(path.read_text(encoding="utf-8")):
            found[name].append(path)
    return {name: paths for name, paths in found.items() if len(paths) > 1}


def is_library(path):
    crate = path.relative_to(TOP / "crates").parts[0]
    return crate not in PROGRAMS and not crate.endswith(("_tests", "_fixtures"))


def show(title, names):
    print(f"{title}: {len(names)}")
    for name, paths in sorted(names.items(), key=lambda it: (-len(it[1]), it[0])):
        print(f"  {len(paths)} {name}: {' '.join(sorted({path.relative_to(TOP / 'crates').parts[0] for path in paths}))}")


def main():
    # a reader that stops early, as head does, ends it quietly
    signal.signal(signal.SIGPIPE, signal.SIG_DFL)
    specs = having(DECLARES, sorted(TOP.glob("crates/*/specs/**/*.antt")))
    types = having(TYPE, [path for path in sorted(TOP.glob("crates/*/src/**/*.rt")) if is_library(path)])
    promised = set(re.findall(r"`(\w+)[`.]", (TOP / "docs/PROMISES.md").read_text(encoding="utf-8")))
    show("public types", types)
    show("words of PROMISES", {name: paths for name, paths in specs.items() if name in promised})
    if sys.argv[1:] == ["--all"]:
        show("definitions", specs)
    else:
        print(f"definitions: {len(specs)}")
    sys.exit(1 if types or specs else 0)


if __name__ == "__main__":
    main()
