#!/usr/bin/env python3
"""Times the seal of a page, its codes, and its correction with no wrong bit and with one in each chunk, 64 MiB of pages of 2,048 bytes each.

    bench/code_time.py

It proves and runs the program in bench/code_program.txt over the crates, in a folder of its own, and leaves the repository as it was."""

import os
import shutil
import subprocess
import tempfile
from pathlib import Path

TOP = Path(__file__).resolve().parent.parent
NAME = "bench_codes"
USES = ("page_layout", "error_correction", "page_code")


def main():
    with tempfile.TemporaryDirectory() as folder:
        folder = Path(folder)
        for name in USES:
            shutil.copytree(TOP / "crates" / name, folder / "crates" / name, symlinks=True)
        listed = [line for line in (TOP / "crates.txt").read_text().splitlines() if line.split(":")[0] in USES]
        (folder / "crates.txt").write_text("\n".join([*listed, f"{NAME}: {' '.join(USES)}", ""]))
        crate = folder / "crates" / NAME
        (crate / "src").mkdir(parents=True)
        shutil.copy(TOP / "bench" / "code_program.txt", crate / "src" / "main.rt")
        (crate / "specs").mkdir()
        (crate / "specs" / "Lib.antt").write_text("")
        subprocess.run(["git", "init", "-q", folder], check=True)
        subprocess.run(["rt", "run"], cwd=crate, check=True, env=os.environ)


if __name__ == "__main__":
    main()
