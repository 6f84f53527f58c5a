#!/usr/bin/env python3
"""Reads every sector of a dump through `nandctl serve`, and writes them, in order, to a file.

    PROGRAM=./nandctl examples/read_array.py GEOM IMAGE ARRAY

The image is mounted and checked first, and is not changed. Uses Python's own library alone."""

import os
import struct
import subprocess
import sys
import tempfile

PROGRAM = os.environ.get("PROGRAM", "nandctl")
CAPACITY = "65536"
STATUSES = ["Done", "OutOfRange", "ReadOnly", "SequenceSpent", "OutOfMemory", "Damaged", "BusFault", "BadFrame"]


def mount(geometry, image, certificate):
    """Makes the certificate; where there is none, the program has said why."""
    done = subprocess.run([PROGRAM, "mount", geometry, CAPACITY, image, certificate])
    if done.returncode != 0:
        sys.exit(done.returncode)


def exactly(stream, count):
    data = stream.read(count)
    if len(data) < count:
        sys.exit("the server ended too early")
    return data


def read_sector(server, sector, size):
    """One request and its reply. The tag is the sector's number."""
    server.stdin.write(struct.pack("<2sBBII", b"DF", 1, 0, sector, sector))
    server.stdin.flush()
    mark, op, status, tag = struct.unpack("<2sBBI", exactly(server.stdout, 8))
    if (mark, op, tag) != (b"df", 1, sector):
        sys.exit(f"sector {sector}: the reply is of another request")
    if status != 0:
        sys.exit(f"sector {sector}: {STATUSES[status]}")
    return exactly(server.stdout, size)


def read_array(geometry, image, array):
    size, _, _, _, sectors = (int(number) for number in geometry.split(","))
    with tempfile.TemporaryDirectory() as room:
        certificate, left = os.path.join(room, "certificate"), os.path.join(room, "image")
        mount(geometry, image, certificate)
        words = [PROGRAM, "serve", geometry, CAPACITY, image, certificate, left]
        with subprocess.Popen(words, stdin=subprocess.PIPE, stdout=subprocess.PIPE) as server, open(array, "wb") as out:
            for sector in range(sectors):
                out.write(read_sector(server, sector, size))
            server.stdin.close()
        sys.exit(server.returncode)


if __name__ == "__main__":
    if len(sys.argv) != 4:
        sys.exit(__doc__)
    read_array(*sys.argv[1:])
