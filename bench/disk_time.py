#!/usr/bin/python3
"""Times `nanddisk` beside `sha256sum` and beside nbdkit's `file` plugin over a plain file.

Usage: disk_time.py NANDDISK [FOLDER]

All files stand in a folder of their own in FOLDER, or in the system's for such. Told are:

- the start of a server over a written die of 64 MiB, from its start to the first byte that it gives, beside `sha256sum` of the die's file;
- 4 KiB writes and reads at random without a socket, from a file on standard input: what one takes, and which part of that its hashes are. A hash is what a page
  takes at a start, which looks at each page once; how many a request has are the pages that the server reads and writes for it, as `strace` counts them;
- 4 KiB writes and reads at random by fio, 16 at a time, over socat: how many a second, and how long one takes (middle and 99 of 100), with a chart.

Asks for Debian's fio, socat, strace, nbdkit, libnbd-bin and python3-libnbd, which is for the system's Python."""

import json
import os
import random
import shutil
import socket
import statistics
import struct
import subprocess
import sys
import tempfile
import time

import nbd

SIZE = "64M"
SECTORS = 15360
PAGE = 4096 + 128
ASKED = 40_000
TIMES = 5


def start(command):
    client = nbd.NBD()
    ours, theirs = socket.socketpair()
    server = subprocess.Popen(command, stdin=theirs, stdout=theirs)
    theirs.close()
    client.connect_socket(ours.detach())
    return client, server


def written(program, path):
    """A disk of which each sector was written."""
    subprocess.run([program, "create", "--size", SIZE, path], check=True, stdout=subprocess.DEVNULL)
    client, server = start([program, "serve", path])
    piece = os.urandom(1 << 20)
    for at in range(0, client.get_size(), len(piece)):
        client.pwrite(piece[: client.get_size() - at], at)
    client.shutdown()
    assert server.wait() == 0


def seconds(call):
    begun = time.monotonic()
    call()
    return time.monotonic() - begun


def first_byte(program, path):
    client, server = start([program, "serve", path])
    client.pread(1, 0)
    took = time.monotonic()
    client.shutdown()
    server.wait()
    return took


def starts(program, path):
    def one():
        begun = time.monotonic()
        return first_byte(program, path) - begun

    ours = statistics.median(one() for _ in range(TIMES))
    hashed = statistics.median(seconds(lambda: subprocess.run(["sha256sum", path], check=True, stdout=subprocess.DEVNULL)) for _ in range(TIMES))
    print(f"start {ours:.3f} s, sha256sum of the file {hashed:.3f} s: {ours / hashed:.2f} times")


def asked(path, kind, count):
    """Writes what a client sends that asks for so many sectors at random, and then goes."""
    pick = random.Random(7)
    with open(path, "wb") as file:
        file.write(struct.pack(">I", 3) + b"IHAVEOPT" + struct.pack(">III", 7, 6, 0) + b"\0\0")
        for cookie in range(count):
            offset = pick.randrange(SECTORS) * 4096
            file.write(struct.pack(">IHHQQI", 0x25609513, 0, kind, cookie, offset, 4096) + (os.urandom(4096) if kind == 1 else b""))
        file.write(struct.pack(">IHHQQI", 0x25609513, 0, 2, count, 0, 0))


def answered(program, disk, stream, before=()):
    with open(stream, "rb") as file:
        subprocess.run([*before, program, "serve", disk], stdin=file, stdout=subprocess.DEVNULL, check=True)


def pages_moved(program, folder, disk, stream):
    """The pages that the server reads and writes while it answers this stream."""
    told = os.path.join(folder, "calls")
    answered(program, disk, stream, ("strace", "-c", "-o", told))
    with open(told) as file:
        return sum(int(line.split()[3]) for line in file if line.split()[-1:] in (["pread64"], ["pwrite64"]))


def alone(program, folder, disk):
    """What a request takes with no socket between, beside its hashes."""
    none, stream = os.path.join(folder, "none"), os.path.join(folder, "stream")
    asked(none, 0, 0)
    pages = os.path.getsize(disk) // PAGE
    print("\n| 4 KiB at random | Hashes | One takes, µs | Its hashes, µs | Part |\n|---|---|---|---|---|")
    for name, kind in (("write", 1), ("read", 0)):
        asked(stream, kind, ASKED)
        used = os.path.join(folder, "used.nand")
        shutil.copy(disk, used)
        shutil.copy(disk + ".json", used + ".json")
        # the second time its blocks are collected all the time
        answered(program, used, stream)
        start = statistics.median(seconds(lambda: answered(program, used, none)) for _ in range(TIMES))
        took = seconds(lambda: answered(program, used, stream)) - start
        hashes = (pages_moved(program, folder, used, stream) - pages_moved(program, folder, used, none)) / ASKED
        one, hashed = took / ASKED * 1e6, start / pages * 1e6
        print(f"| {name} | {hashes:.2f} | {one:.1f} | {hashes * hashed:.1f} | {hashes * hashed / one:.2f} |")


def fio(uri, what):
    words = ["fio", "--name=run", "--ioengine=nbd", f"--uri={uri}", f"--rw={what}", "--bs=4k", "--size=60M", "--iodepth=16", "--runtime=10", "--time_based", "--output-format=json"]
    for _ in range(20):
        done = subprocess.run(words, stdout=subprocess.PIPE, stderr=subprocess.DEVNULL)
        if done.returncode == 0:
            break
        time.sleep(0.2)
    # a line of its own stands before the document
    job = json.loads(done.stdout[done.stdout.index(b"{") :])["jobs"][0]["write" if "write" in what else "read"]
    latency = job["clat_ns"]["percentile"]
    return job["iops"], latency["50.000000"] / 1e6, latency["99.000000"] / 1e6


def listening(command, path):
    server = subprocess.Popen(command, stdout=subprocess.DEVNULL, stderr=subprocess.DEVNULL)
    while not os.path.exists(path):
        time.sleep(0.05)
    return server


def rates(program, folder, disk):
    rows = []
    for name, words in (("nanddisk", []), ("nanddisk --sync always", ["--sync", "always"])):
        path = os.path.join(folder, f"{len(rows)}.sock")
        server = listening(["socat", f"UNIX-LISTEN:{path},fork", f"EXEC:{program} serve {' '.join(words)} {disk}"], path)
        for what in ("randwrite", "randread"):
            rows.append((name, what, *fio(f"nbd+unix:///?socket={path}", what)))
        server.terminate()
        time.sleep(1)
    plain, path = os.path.join(folder, "plain.img"), os.path.join(folder, "plain.sock")
    with open(plain, "wb") as file:
        file.write(os.urandom(64 << 20))
    server = listening(["nbdkit", "-f", "-U", path, "file", plain], path)
    for what in ("randwrite", "randread"):
        rows.append(("nbdkit file", what, *fio(f"nbd+unix:///?socket={path}", what)))
    server.terminate()
    most = max(row[2] for row in rows)
    print("\n| Server | 4 KiB, 16 at a time | A second | Middle, ms | 99 of 100, ms | |\n|---|---|---|---|---|---|")
    for name, what, rate, middle, late in rows:
        print(f"| {name} | {what} | {rate:,.0f} | {middle:.2f} | {late:.2f} | {'#' * max(1, round(30 * rate / most))} |")


def main():
    if len(sys.argv) < 2:
        sys.exit(__doc__)
    program = os.path.realpath(sys.argv[1])
    with tempfile.TemporaryDirectory(dir=sys.argv[2] if len(sys.argv) > 2 else None) as folder:
        disk = os.path.join(folder, "disk.nand")
        written(program, disk)
        starts(program, disk)
        alone(program, folder, disk)
        rates(program, folder, disk)


if __name__ == "__main__":
    main()
