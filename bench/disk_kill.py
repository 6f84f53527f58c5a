#!/usr/bin/python3
"""Kills `nanddisk serve` at random moments, and looks that no answered write is lost.

Usage: disk_kill.py NANDDISK [ROUNDS [SEED]]

Three disks in turn, with pages of 64, 512 and 4,096 bytes, each small enough that its blocks are collected all the time. In each round a client reads, writes, trims and flushes at random, several
requests at a time, until the server is killed by `kill -9`. Then the disk is served again, and each of its sectors is read: one whose last change was answered is
as that left it; one whose change was not answered is as before or as that was to leave it, byte by byte. Then the disk takes a write and a flush, and `info` tells as many bad blocks
as before, none. In some rounds the slot of the mark that was written last is torn. With CODE=hamming in the environment the disks keep a code.

The client is libnbd's where Debian's python3-libnbd is there, which is for the system's Python; else the plain one of `plain_nbd.py`."""

import json
import os
import random
import signal
import socket
import subprocess
import sys
import tempfile
import threading
import time

try:
    import nbd
except ImportError:
    import plain_nbd as nbd

# Some hundred writes collect each block.
SHAPES = ((64, "64,32,32,60,400"), (512, "512,32,8,160,400"), (4096, "4096,128,8,120,300"))
AT_ONCE = 8

# The slots of a mark's file.
SLOTS = (0, 4096)
SLOT = 32


class Change:
    """A change that was asked, of a range, and what it sets there."""

    def __init__(self, offset, body):
        self.offset = offset
        self.body = body


class Disk:
    """What the disk may hold: its bytes as answered, and the changes that were asked and not answered, in the order in which they were asked."""

    def __init__(self, sector, sectors):
        self.sector = sector
        self.bytes = bytearray(sector * sectors)
        self.open = []

    def answered(self, change):
        self.open.remove(change)
        self.bytes[change.offset : change.offset + len(change.body)] = change.body

    def held(self, found):
        """Holds what was read against it: each byte as it was answered, or as a change that was not answered was to leave it."""
        for place, byte in enumerate(found):
            if byte == self.bytes[place]:
                continue
            if not any(
                c.offset <= place < c.offset + len(c.body) and c.body[place - c.offset] == byte
                for c in self.open
            ):
                raise AssertionError(f"byte {place}: {byte} and not {self.bytes[place]}")
        self.bytes[:] = found
        self.open.clear()


def start(program, path):
    """A client of a server that was just started, and the server's process."""
    client = nbd.NBD()
    ours, theirs = socket.socketpair()
    server = subprocess.Popen([program, "serve", path], stdin=theirs, stdout=theirs, stderr=subprocess.PIPE)
    theirs.close()
    client.connect_socket(ours.detach())
    return client, server


def one_request(client, disk, draw, pending):
    """Asks one request at random. Ranges of changes that are not answered yet do not meet: what both leave would depend on their order."""
    count = draw.choice((1, 100, disk.sector, disk.sector, 3 * disk.sector, 5000))
    offset = draw.randrange(len(disk.bytes) - count + 1)
    if draw.randrange(3):
        offset -= offset % disk.sector
    what = draw.randrange(10)
    meets = any(c.offset < offset + count and offset < c.offset + len(c.body) for c in disk.open)
    if what < 2:
        if not meets:
            buffer = nbd.Buffer(count)
            wanted = bytes(disk.bytes[offset : offset + count])
            pending.append((client.aio_pread(buffer, offset), None, (buffer, wanted)))
        return
    if what == 2:
        pending.append((client.aio_flush(), None, None))
        return
    if meets:
        return
    zeros = what in (3, 4)
    change = Change(offset, bytes(count) if zeros else draw.randbytes(count))
    disk.open.append(change)
    flags = draw.choice((0, 0, 0, nbd.CMD_FLAG_FUA))
    if what == 3:
        cookie = client.aio_trim(count, offset, flags=flags)
    elif what == 4:
        cookie = client.aio_zero(count, offset, flags=flags)
    else:
        cookie = client.aio_pwrite(nbd.Buffer.from_bytearray(bytearray(change.body)), offset, flags=flags)
    pending.append((cookie, change, None))


def settle(client, disk, pending):
    """Takes the answers that have come."""
    left = []
    for cookie, change, read in pending:
        if not client.aio_command_completed(cookie):
            left.append((cookie, change, read))
        elif change is not None:
            disk.answered(change)
        elif read is not None:
            buffer, wanted = read
            assert bytes(buffer.to_bytearray()) == wanted, "a read"
    pending[:] = left


def round_of(program, path, disk, draw):
    """Requests until the server is killed. How many were answered."""
    client, server = start(program, path)
    killer = threading.Timer(draw.uniform(0.0, 0.25), lambda: server.send_signal(signal.SIGKILL))
    killer.start()
    pending, answered = [], 0
    try:
        while True:
            while len(pending) < AT_ONCE:
                before = len(pending)
                one_request(client, disk, draw, pending)
                if len(pending) == before:
                    break
            was = len(pending)
            client.poll(100)
            settle(client, disk, pending)
            answered += was - len(pending)
    except nbd.Error:
        pass
    # answers that came before the end count
    for cookie, change, read in pending:
        try:
            if client.aio_command_completed(cookie) and change is not None:
                disk.answered(change)
        except nbd.Error:
            pass
    killer.join()
    server.wait()
    server.stderr.close()
    return answered


def look(program, path, disk):
    """The disk is served again, and each of its bytes is read."""
    client, server = start(program, path)
    found = bytearray()
    while len(found) < len(disk.bytes):
        count = min(65536, len(disk.bytes) - len(found))
        found += client.pread(count, len(found))
    client.shutdown()
    assert server.wait() == 0, server.stderr.read()
    server.stderr.close()
    disk.held(bytes(found))


def takes_writes(program, path, disk, draw):
    """The disk takes a write and a flush."""
    client, server = start(program, path)
    offset = draw.randrange(len(disk.bytes) - 99)
    body = draw.randbytes(100)
    client.pwrite(body, offset)
    client.flush()
    disk.bytes[offset : offset + 100] = body
    client.shutdown()
    assert server.wait() == 0, server.stderr.read()
    server.stderr.close()


def slots_of(path):
    """What the two slots of the mark hold; none where there is no such file yet."""
    try:
        with open(path + ".mark", "rb") as file:
            text = file.read()
    except FileNotFoundError:
        return None
    assert len(text) == SLOTS[1] + SLOT, len(text)
    return [text[at : at + SLOT] for at in SLOTS]


def number_in(slot):
    """The first number of a slot, or -1 where it holds no mark."""
    parts = [slot[at : at + 8] for at in range(0, SLOT, 8)]
    return int.from_bytes(parts[0], "little") if parts[0] == parts[1] and parts[2] == parts[3] else -1


def tear_mark(path, before, draw):
    """Tears the slot that a session writes over without a sync, as its last write of it may have been. Whether it was."""
    after = slots_of(path)
    if before is None or after is None:
        return False
    first = 0 if number_in(before[0]) >= number_in(before[1]) else 1
    # the other one is made to last first
    if after[1 - first] == before[1 - first] or after[first] == before[first]:
        return False
    count = draw.randrange(1, SLOT)
    with open(path + ".mark", "r+b") as file:
        file.seek(SLOTS[first])
        file.write(after[first][:count] + before[first][count:])
    return True


def told_of(program, path):
    return json.loads(subprocess.run([program, "info", "--json", path], check=True, stdout=subprocess.PIPE).stdout)


def rounds_over(program, folder, sector, geometry, rounds, draw):
    """So many rounds over a disk of a shape. How many requests were answered, how many marks torn, and what is told of the disk then."""
    path = os.path.join(folder, f"disk{sector}.nand")
    subprocess.run([program, "create", "--code", os.environ.get("CODE", "none"), "--geometry", geometry, path], check=True, stdout=subprocess.DEVNULL)
    disk = Disk(sector, int(geometry.split(",")[4]))
    answered = torn = 0
    for number in range(rounds):
        before = slots_of(path)
        answered += round_of(program, path, disk, draw)
        if draw.randrange(3) == 0:
            torn += tear_mark(path, before, draw)
        look(program, path, disk)
        takes_writes(program, path, disk, draw)
        told = told_of(program, path)
        assert told["bad"] == 0, (number, told)
    return answered, torn, told


def main():
    if len(sys.argv) < 2:
        sys.exit(__doc__)
    program = os.path.realpath(sys.argv[1])
    rounds = int(sys.argv[2]) if len(sys.argv) > 2 else 1000
    draw = random.Random(int(sys.argv[3]) if len(sys.argv) > 3 else 35)
    for place, (sector, geometry) in enumerate(SHAPES):
        each, begun = rounds * (place + 1) // len(SHAPES) - rounds * place // len(SHAPES), time.monotonic()
        with tempfile.TemporaryDirectory() as folder:
            answered, torn, told = rounds_over(program, folder, sector, geometry, each, draw)
        took = time.monotonic() - begun
        print(
            f"pages of {sector}: {each} kills, {torn} torn marks, {answered} requests answered, {told['wear']['erases']} erases: nothing lost, {told['bad']} blocks bad, in {took:.0f} s",
            flush=True,
        )


if __name__ == "__main__":
    main()
