#!/usr/bin/env python3
"""Times the choices of a block on the largest die, and the look-ups of a full mapping.

    bench/memory.py

It proves and runs the program in bench/memory_program.txt over the crates, in a folder of its own, and leaves the repository as it was."""

import os
import shutil
import subprocess
import tempfile
from pathlib import Path

TOP = Path(__file__).resolve().parent.parent
NAME = "bench_memory"
USES = "page_layout certificate mapping_cache allocation anyhow"


def main():
    with tempfile.TemporaryDirectory() as folder:
        folder = Path(folder)
        shutil.copytree(TOP / "crates", folder / "crates", symlinks=True)
        listed = (TOP / "crates.txt").read_text()
        (folder / "crates.txt").write_text(f"{listed}{NAME}: {USES}\n")
        crate = folder / "crates" / NAME
        (crate / "src").mkdir(parents=True)
        shutil.copy(TOP / "bench" / "memory_program.txt", crate / "src" / "main.rt")
        (crate / "specs").mkdir()
        (crate / "specs" / "Lib.antt").write_text("")
        subprocess.run(["git", "init", "-q", folder], check=True)
        subprocess.run(["rt", "run"], cwd=crate, check=True, env=os.environ)


if __name__ == "__main__":
    main()
