#!/usr/bin/env python3
"""Holds how `nandctl` stores a file against what the README says: whole or not at all, where links lead, devices as they are.

    bench/stores.py [PROGRAM]      (default: the one that `rt run` in crates/nandctl builds)

It formats a fresh die into a file that is there, over disks that fill up in the middle (a limit of the size of a file, and, as root, a
full disk in memory), in a folder that may not be written (not as root), over a file that may not be, through links and into devices. Each
time it holds the status, what is said, the file, and all names of the folder. Ends with how many cases were held.
"""

import fcntl
import os
import pathlib
import resource
import signal
import subprocess
import sys
import tempfile

TOP = pathlib.Path(__file__).resolve().parent.parent
PROGRAM = sys.argv[1] if len(sys.argv) > 1 else os.environ.get("PROGRAM", str(TOP / "crates/nandctl/out/nandctl"))
GEOMETRY = "64,32,8,32,32"
SIZE = 24576
OLD = b"the old file"


def run(folder, out, limit=None, user=None):
    """Formats fresh.bin into `out`, where no file may grow past `limit` bytes."""

    def prepare():
        if limit is not None:
            signal.signal(signal.SIGXFSZ, signal.SIG_IGN)
            resource.setrlimit(resource.RLIMIT_FSIZE, (limit, limit))
        if user is not None:
            os.setgid(user)
            os.setuid(user)

    done = subprocess.run([PROGRAM, "format", GEOMETRY, "fresh.bin", str(out)], cwd=folder, capture_output=True, preexec_fn=prepare)
    return done.returncode, done.stdout, done.stderr


class Cases:
    def __init__(self):
        self.held = 0

    def hold(self, what, found, wanted):
        if found != wanted:
            sys.exit(f"{what}: found {found!r}, wanted {wanted!r}")
        self.held += 1


def stored(path):
    found = path.read_bytes()
    return len(found), found[:2].hex()


def names(folder):
    return sorted(it.name for it in folder.iterdir())


def fails(path):
    return 3, b"", b"fault write %s\n" % str(path).encode()


def plain(cases, folder):
    out = folder / "out.bin"
    cases.hold("no file there", run(folder, "out.bin"), (0, b"good 32\n", b""))
    image = out.read_bytes()
    cases.hold("its size", len(image), SIZE)
    out.write_bytes(OLD)
    out.chmod(0o640)
    cases.hold("a file there", run(folder, "out.bin"), (0, b"good 32\n", b""))
    cases.hold("its bytes", out.read_bytes(), image)
    cases.hold("its permissions", out.stat().st_mode & 0o777, 0o640)
    cases.hold("nothing beside it", names(folder), ["fresh.bin", "out.bin"])
    out.unlink()


def links(cases, folder):
    out, link, end = folder / "out.bin", folder / "link", folder / "end"
    out.write_bytes(OLD)
    link.symlink_to("out.bin")
    end.symlink_to("nothing.bin")
    cases.hold("a link", run(folder, "link"), (0, b"good 32\n", b""))
    cases.hold("it keeps pointing", (link.is_symlink(), len(out.read_bytes())), (True, SIZE))
    cases.hold("a link to nothing", run(folder, "end"), (0, b"good 32\n", b""))
    cases.hold("where it leads", (end.is_symlink(), len((folder / "nothing.bin").read_bytes())), (True, SIZE))
    cases.hold("nothing beside them", names(folder), ["end", "fresh.bin", "link", "nothing.bin", "out.bin"])
    for it in (end, link, out, folder / "nothing.bin"):
        it.unlink()


def parts(cases, folder):
    """What a killed run has left, and a part that another run is at."""
    out, part = folder / "out.bin", folder / ".out.bin.nandctl-part"
    out.write_bytes(OLD)
    part.write_bytes(b"left")
    (folder / "other").hardlink_to(part)
    cases.hold("a part that was left", run(folder, "out.bin"), (0, b"good 32\n", b""))
    cases.hold("it is made anew", (len(out.read_bytes()), (folder / "other").read_bytes()), (SIZE, b"left"))
    cases.hold("nothing beside it", names(folder), ["fresh.bin", "other", "out.bin"])
    out.write_bytes(OLD)
    with open(part, "wb") as held:
        fcntl.flock(held, fcntl.LOCK_EX)
        cases.hold("a part that another run is at", run(folder, "out.bin"), fails("out.bin"))
    cases.hold("it stays, and so does the file", (part.exists(), out.read_bytes()), (True, OLD))
    for it in (out, part, folder / "other"):
        it.unlink()


def devices(cases, folder):
    status, out, err = run(folder, "/dev/stdout")
    cases.hold("standard output", (status, len(out), out[-8:], err), (0, SIZE + 8, b"good 32\n", b""))
    cases.hold("a full device", run(folder, "/dev/full"), fails("/dev/full"))
    cases.hold("no folder", run(folder, "none/out.bin"), fails("none/out.bin"))
    cases.hold("a folder", run(folder, "."), fails("."))


def full(cases, folder):
    out = folder / "out.bin"
    for limit in (0, 1, SIZE // 2, SIZE - 1):
        cases.hold(f"{limit} bytes and no file", run(folder, "out.bin", limit), fails("out.bin"))
        cases.hold("nothing left", names(folder), ["fresh.bin"])
        out.write_bytes(OLD)
        cases.hold(f"{limit} bytes and a file", run(folder, "out.bin", limit), fails("out.bin"))
        cases.hold("the old file", out.read_bytes(), OLD)
        cases.hold("nothing beside it", names(folder), ["fresh.bin", "out.bin"])
        out.unlink()


def full_disk(cases):
    """A disk in memory with too little room, as root alone."""
    with tempfile.TemporaryDirectory(prefix="stores-") as room:
        done = subprocess.run(["mount", "-t", "tmpfs", "-o", "size=36k", "tmpfs", room], capture_output=True)
        if done.returncode:
            return "a full disk in memory was not tried: no mount"
        try:
            folder = pathlib.Path(room)
            (folder / "fresh.bin").write_bytes(b"\xff" * SIZE)
            (folder / "out.bin").write_bytes(OLD)
            cases.hold("a full disk", run(folder, "out.bin"), fails("out.bin"))
            cases.hold("the old file", (folder / "out.bin").read_bytes(), OLD)
            cases.hold("nothing beside it", names(folder), ["fresh.bin", "out.bin"])
        finally:
            subprocess.run(["umount", room], check=True)
    return "a full disk in memory was tried"


def locked(cases, folder):
    """A file and a folder that may not be written, as a user who may not."""
    user = 65534 if os.getuid() == 0 else None
    out = folder / "out.bin"
    out.write_bytes(OLD)
    out.chmod(0o444)
    folder.chmod(0o777)
    cases.hold("a file that may not be written", run(folder, "out.bin", user=user), fails("out.bin"))
    out.chmod(0o666)
    folder.chmod(0o555)
    cases.hold("a folder that may not be", run(folder, "out.bin", user=user), fails("out.bin"))
    folder.chmod(0o755)
    cases.hold("the old file", out.read_bytes(), OLD)
    cases.hold("nothing beside it", names(folder), ["fresh.bin", "out.bin"])
    out.unlink()


def main():
    cases = Cases()
    with tempfile.TemporaryDirectory(prefix="stores-") as room:
        folder = pathlib.Path(room)
        folder.chmod(0o755)
        (folder / "fresh.bin").write_bytes(b"\xff" * SIZE)
        for case in (plain, links, parts, devices, full, locked):
            case(cases, folder)
    said = full_disk(cases)
    print(f"{cases.held} held; {said}")


if __name__ == "__main__":
    main()
