#!/usr/bin/env python3
"""Takes dumps through examples/laboratory whose names a shell, Snakemake or HTML could misread, and holds what comes of them.

    [LAB=..] bench/hostile_names.py

LAB is the program, or the one that the example builds. One die stands under each name: each disk image has to be that of the plain name, the page
has to tell each name as HTML has it, and no command of a name may run. Of names that Snakemake cannot have the example says so, and does nothing."""

import html
import shutil
import subprocess
import sys
import tempfile
from pathlib import Path

EXAMPLE = Path(__file__).resolve().parent.parent / "examples/laboratory"
sys.path.insert(0, str(EXAMPLE))
import make_dumps

NAMES = ["plain", "die$(touch PWNED)", "my die 'one' \"two\" $HOME `touch PWNED`", "a;touch PWNED;b & c|d>PWNED", "<b>bold&amp;", "x=1", "back\\slash", "*?[a]"]
STRANGE = ["b{die}r", "new\nline"]


def run(folder, dumps, results):
    done = subprocess.run([EXAMPLE / "run", dumps, results, "2"], cwd=folder, capture_output=True, text=True)
    return done.returncode, done.stdout, done.stderr


def hold(folder):
    make_dumps.main(folder / "made", 1)
    dumps = folder / "du mps"
    dumps.mkdir()
    for name in NAMES:
        for reading in sorted((folder / "made").glob("*.bin")):
            shutil.copy(reading, dumps / f"{name}.{reading.name.split('.')[1]} $(touch PWNED).bin")
    assert run(folder, "du mps", "re 'sults")[:2] == (0, "re 'sults/report.html\n")
    results = folder / "re 'sults"
    page = (results / "report.html").read_text()
    for name in NAMES:
        assert (results / name / "disk.img").read_bytes() == (results / "plain" / "disk.img").read_bytes(), name
        assert f">{html.escape(name)}<" in page, name
    for name in STRANGE:
        shutil.rmtree(dumps)
        dumps.mkdir()
        (dumps / f"{name}.a.bin").write_bytes(b"")
        status, _, told = run(folder, "du mps", "none")
        assert status != 0 and "dumps to be named otherwise" in told, told
    assert not (folder / "none").exists() and not list(folder.rglob("PWNED*")), "a name was run"
    print(f"{len(NAMES)} names go through the example, and {len(STRANGE)} are refused")


if __name__ == "__main__":
    with tempfile.TemporaryDirectory() as made:
        hold(Path(made))
