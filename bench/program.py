"""The program that the scripts of this folder run: PROGRAM, or the one that `rt run` in crates/nandctl builds."""

import os
from pathlib import Path

BUILT = Path(__file__).resolve().parent.parent / "crates/nandctl/out/nandctl"
PROGRAM = str(Path(os.environ.get("PROGRAM", BUILT)).resolve())
