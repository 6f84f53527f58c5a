#!/usr/bin/env python3
"""Times `nandctl serve`, in seconds of a processor, beside `sha256sum` of as many bytes as its pages have hashed, and tells the
most memory that it held.

    [PROGRAM=..] bench/serve_time.py

Fails where it holds more than its image twice (the file, and the die's one copy) and 8 MiB, or where a whole disk of 4,096-byte
sectors is written and read slower than 0.6 of what its hashes allow."""

import os
import random
import struct
import subprocess
import sys
import tempfile
from pathlib import Path

from measure import run
from program import PROGRAM

READ, WRITE = 1, 2
CHANCE = random.Random(1)


def request(op, tag, sector):
    return b"DF" + struct.pack("<BBII", op, 0, tag, sector)


def mixed(data, sectors):
    """200,000 requests, every second one a write."""
    for tag in range(200000):
        sector = CHANCE.randrange(sectors)
        yield request(WRITE, tag, sector) + bytes(data) if tag % 2 else request(READ, tag, sector)


def whole(data, sectors):
    """Each sector written, and then each read."""
    for sector in range(sectors):
        yield request(WRITE, sector, sector) + CHANCE.randbytes(data)
    for sector in range(sectors):
        yield request(READ, sector, sector)


def prepare(folder, geometry, capacity, requests):
    """A formatted image, its certificate, and the requests. The image's bytes."""
    data, spare, pages, blocks, sectors = (int(word) for word in geometry.split(","))
    size = (data + spare) * pages * blocks
    (folder / "fresh").write_bytes(b"\xff" * size)
    made = [["format", geometry, "fresh", "image"], ["mount", geometry, str(capacity), "image", "certificate"]]
    for words in made:
        subprocess.run([PROGRAM, *words], cwd=folder, check=True, stdout=subprocess.DEVNULL)
    (folder / "requests").write_bytes(b"".join(requests(data, sectors)))
    return size


def measure(geometry, capacity, requests, hashed, least, label):
    with tempfile.TemporaryDirectory() as room:
        folder = Path(room)
        size = prepare(folder, geometry, capacity, requests)
        name = lambda file: str(folder / file)
        words = [PROGRAM, "serve", geometry, str(capacity), name("image"), name("certificate"), name("out")]
        served, memory = run(words, unread=name("requests"))
        (folder / "hashed").write_bytes(os.urandom(hashed * (int(geometry.split(",")[0]) + 24)))
        plain, _ = run(["sha256sum", name("hashed")])
    most = 2 * size + 2**23
    print(f"{label}: {served:.2f} s, sha256sum {plain:.2f} s ({plain / served:.2f})")
    print(f"    memory {memory / 1024:.1f} MiB of {most / 2**20:.1f}, the image {size / 2**20:.1f}", flush=True)
    if plain < least * served or memory * 1024 > most:
        sys.exit("slower, or more memory, than it may")


def main():
    # A write hashes the page that it programs, a read the page that it reads.
    measure("64,32,8,32,32", 32, mixed, 200000, 0, "200,000 requests, 64 bytes a sector")
    measure("4096,128,64,256,12000", 65536, whole, 24000, 0.6, "12,000 sectors of 4,096 bytes written and read")


if __name__ == "__main__":
    main()
