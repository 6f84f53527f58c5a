#!/usr/bin/python3
"""Looks that a disk of more sectors than any cache has entries is synced between flushes, and that it mounts whatever a loss of power takes.

Usage: disk_large.py NANDDISK [SEED]

A client writes each of 70,000 sectors once, in an order of its own, with no flush, while `strace` notes each page that the server writes to the die's file and each sync.
Then files are made that a host which lost power may have left: what was written up to a sync, and of the pages since, up to the next one, those of sectors and none of the
translation pages, with no mark beside them. That leaves as many stale sectors as can be. Each has to be a disk to `nanddisk info`, and each sector of one of them what was written.

As if no sync had been between, all translation pages are left out of the last file: it has to be refused, since more sectors are stale than any cache has entries.

Asks for Debian's strace and python3-libnbd, which is for the system's Python."""

import os
import random
import re
import socket
import subprocess
import sys
import tempfile
import time

import nbd

DATA, SPARE, PAGES, BLOCKS, SECTORS = 512, 40, 64, 2400, 70_000
PAGE = DATA + SPARE
AT_ONCE = 32
TRANSLATION = 3
# of the die's file alone: the mark beside it is written and synced too
WRITE = re.compile(r"pwrite64\(\d+<[^>]*\.nand>, .*, (\d+), (\d+)\)")
SYNC = re.compile(r"f(?:data)?sync\(\d+<[^>]*\.nand>\)")


def served(command, work):
    """What a client does of a server that was just started."""
    client = nbd.NBD()
    ours, theirs = socket.socketpair()
    server = subprocess.Popen(command, stdin=theirs, stdout=theirs, stderr=subprocess.PIPE)
    theirs.close()
    client.connect_socket(ours.detach())
    result = work(client)
    return client, server, result


def write_all(client, draw):
    """Each sector once, 32 neighbours a request."""
    starts = list(range(0, SECTORS, AT_ONCE))
    draw.shuffle(starts)
    disk = bytearray(SECTORS * DATA)
    for start in starts:
        body = draw.randbytes(min(AT_ONCE, SECTORS - start) * DATA)
        client.pwrite(body, start * DATA)
        disk[start * DATA : start * DATA + len(body)] = body
    return bytes(disk)


def whole_log(log):
    """The lines that strace wrote, once it has told that the server was killed."""
    for _ in range(200):
        with open(log, encoding="ascii", errors="replace") as file:
            lines = file.readlines()
        if lines and "+++ killed by SIGKILL" in lines[-1]:
            return lines
        time.sleep(0.05)
    raise AssertionError("strace did not end")


def rows_by_sync(lines):
    """The rows that were written before each sync, since the one before it; the last list is of those after the last one."""
    found = [[]]
    for line in lines:
        match = WRITE.search(line)
        if match:
            count, offset = map(int, match.groups())
            found[-1] += range(offset // PAGE, (offset + count) // PAGE)
        elif SYNC.search(line):
            found.append([])
    return found


def told(program, path):
    """How `nanddisk info` ends, and what it says."""
    done = subprocess.run([program, "info", path], capture_output=True, text=True, check=False)
    return done.returncode, done.stdout + done.stderr


def main():
    program, seed = sys.argv[1], int(sys.argv[2]) if len(sys.argv) > 2 else 1
    draw = random.Random(seed)
    with tempfile.TemporaryDirectory(prefix="disk-large-") as folder:
        path, log = os.path.join(folder, "d.nand"), os.path.join(folder, "log")
        subprocess.run([program, "create", "--geometry", f"{DATA},{SPARE},{PAGES},{BLOCKS},{SECTORS}", path], check=True)
        # the server is the process that was started, and strace one that goes as it does
        command = ["strace", "-D", "-f", "-y", "-s", "0", "-e", "trace=pwrite64,fdatasync,fsync", "-o", log, program, "serve", path]
        client, server, disk = served(command, lambda its: write_all(its, draw))
        # the last sync of the run is that of its end
        server.kill()
        server.wait()
        parts = rows_by_sync(whole_log(log))
        with open(path, "rb") as file:
            last = file.read()
        # it tells what was synced last, and the files are older
        os.unlink(path + ".mark")

        def kind(row):
            return last[row * PAGE + DATA + 3]

        def left(count, without):
            """The file with the pages of so many parts, and of those from `without` on no translation page."""
            image = bytearray(last)
            for at, rows in enumerate(parts):
                for row in rows:
                    if at >= count or (at >= without and kind(row) == TRANSLATION):
                        image[row * PAGE : (row + 1) * PAGE] = b"\xff" * PAGE
            return bytes(image)

        def look(image):
            with open(path, "wb") as file:
                file.write(image)
            return told(program, path)

        most = max(len(rows) for rows in parts)
        for count in range(1, len(parts) + 1):
            status, said = look(left(count, count - 1))
            assert status == 0, (count, said)
        reader, server, found = served([program, "serve", "--read-only", path], lambda its: [its.pread(min(AT_ONCE, SECTORS - at) * DATA, at * DATA) for at in range(0, SECTORS, AT_ONCE)])
        reader.shutdown()
        assert server.wait() == 0, server.stderr.read()
        assert b"".join(found) == disk, "another array"
        status, said = look(left(len(parts), 0))
        assert status == 1 and "TooStale" in said, said
        print(f"{len(parts) - 1} syncs with no flush, at most {most} pages between two; {len(parts)} lossy files mount, and the one as if there were none is refused: {said.strip()}")


if __name__ == "__main__":
    main()
