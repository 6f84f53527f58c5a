#!/usr/bin/env python3
"""A client of `nandctl serve` over a pipe: writes, trims, reads, flushes and turns, held against a plain list of sectors.

    [PROGRAM=..] bench/serve_client.py [GEOM] [SESSIONS] [REQUESTS] [SEED]

Each session mounts the image that the last one left, with a smaller or greater cache where it was flushed, sends one request
at a time, waits for its reply, and compares it. The last session reads the whole array. Prints what was compared; answers 1
at the first difference."""

import random
import struct
import subprocess
import sys
import tempfile
from pathlib import Path

from program import PROGRAM

READ, WRITE, TRIM, FLUSH, TURN = 1, 2, 3, 4, 5


class Session:
    """A run of the program, with a pipe to it and one from it."""

    def __init__(self, geometry, capacity, image, certificate, out):
        words = [PROGRAM, "serve", geometry, str(capacity), image, certificate, out]
        self.size = int(geometry.split(",")[0])
        self.run = subprocess.Popen(words, stdin=subprocess.PIPE, stdout=subprocess.PIPE, bufsize=0)

    def ask(self, op, tag, sector=0, body=b""):
        """The reply's status, and the sector that a read gave."""
        self.run.stdin.write(b"DF" + struct.pack("<BBII", op, 0, tag, sector) + body)
        mark, said, status, told = struct.unpack("<2sBBI", self.take(8))
        if (mark, said, told) != (b"df", op, tag):
            raise SystemExit(f"a reply to another request: {mark} {said} {told}")
        return status, self.take(self.size) if op == READ and status == 0 else b""

    def take(self, count):
        data = b""
        while len(data) < count:
            piece = self.run.stdout.read(count - len(data))
            if not piece:
                raise SystemExit("the replies end early")
            data += piece
        return data

    def end(self):
        self.run.stdin.close()
        rest = self.run.stdout.read()
        if rest or self.run.wait() != 0:
            raise SystemExit("more than the replies, or another status than 0")


def hold(what, is_so):
    if not is_so:
        raise SystemExit(f"differs: {what}")


def command(*words):
    done = subprocess.run([PROGRAM, *words], capture_output=True, check=False)
    hold(f"{words[0]}: {done.stderr.decode().strip()}", done.returncode == 0)


def play(session, array, chance, requests):
    """Some requests, each compared. Whether the last change was a flush."""
    flushed = False
    for tag in range(requests):
        op = chance.choices([READ, WRITE, TRIM, FLUSH, TURN], [4, 8, 2, 1, 1])[0]
        sector = chance.randrange(len(array) + 1)
        body = chance.randbytes(session.size) if op == WRITE else b""
        status, given = session.ask(op, tag, sector, body)
        past = op in (READ, WRITE, TRIM) and sector == len(array)
        hold(f"status {status} of operation {op}, sector {sector}", status == (1 if past else 0))
        if past:
            continue
        if op == READ:
            hold(f"sector {sector}", given == array[sector])
        elif op in (WRITE, TRIM):
            array[sector] = body if op == WRITE else bytes(session.size)
            flushed = False
        elif op == FLUSH:
            flushed = True
    return flushed


def main():
    geometry = sys.argv[1] if len(sys.argv) > 1 else "64,32,8,32,32"
    sessions, requests, seed = (int(word) for word in (sys.argv[2:] + ["20", "500", "1"][len(sys.argv[2:]):])[:3])
    data, spare, pages, blocks, sectors = (int(word) for word in geometry.split(","))
    chance, array, capacity = random.Random(seed), [bytes(data)] * sectors, 8
    with tempfile.TemporaryDirectory() as folder:
        name = lambda file: str(Path(folder) / file)
        Path(name("fresh")).write_bytes(b"\xff" * ((data + spare) * pages * blocks))
        command("format", geometry, name("fresh"), name("image"))
        for _ in range(sessions):
            command("mount", geometry, str(capacity), name("image"), name("certificate"))
            session = Session(geometry, capacity, name("image"), name("certificate"), name("image"))
            flushed = play(session, array, chance, requests)
            session.end()
            # Flushed, any cache will do; else one that takes the stale entries too.
            capacity = chance.randrange(1, 2 * sectors) if flushed else capacity + pages
        command("mount", geometry, str(capacity), name("image"), name("certificate"))
        session = Session(geometry, capacity, name("image"), name("certificate"), name("image"))
        for sector, held in enumerate(array):
            hold(f"sector {sector} at the end", session.ask(READ, sector, sector) == (0, held))
        session.end()
    print(f"{sessions} sessions of {requests} requests, and {sectors} sectors at the end: all as the list")


if __name__ == "__main__":
    main()
