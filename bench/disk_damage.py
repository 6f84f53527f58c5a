#!/usr/bin/python3
"""Damages the file of a disk that was closed, and holds what `nanddisk` tells and serves to what it has lost.

Usage: disk_damage.py NANDDISK [BITS [HOLES [SEED [STOPS]]]]

A disk is written and trimmed at random by a client, flushed and closed. Then, each time on a copy of its file and of the files beside it:

- bits: one bit is turned, anywhere (60 times);
- holes: a run of bytes is punched out of it, so that it reads as zeros (20 times): two MiB, or half the file where that is less.

Of each `check`, `info` and `serve` have to name the same sectors, with status 1 of `check` just where there is one. A sector that reads otherwise than before has to be named, or its translation page was hit
too: these are counted as silent, and of a turned bit there may be none. A sector that is named is not read (EIO), by a second session neither; all others read as before. Then each is written and read
again, and a third session names none.

At last (STOPS disks, 3 without a number) some bits are turned so that sectors are lost, and `serve` is stopped while it keeps their list, before its client's first request and between its writes of these
sectors: by a kill, or by an error, at each of its calls that write, sync and name files, one call a run. Whatever it had done, `check` and the next `serve` still tell each sector that was not written, and one
that was answered as written reads so.

It ends with status 1 where something differs. Asks for Debian's strace where STOPS is not 0. The client is libnbd's where
Debian's python3-libnbd is there, which is for the system's Python; else the plain one of `plain_nbd.py`."""

import errno
import json
import os
import random
import shutil
import socket
import subprocess
import sys
import tempfile

try:
    import nbd
except ImportError:
    import plain_nbd as nbd

BESIDE = ("", ".json", ".mark", ".lost")


class Session:
    """A client of a server that was just started."""

    def __init__(self, program, path, *words, watch=()):
        self.client = nbd.NBD()
        ours, theirs = socket.socketpair()
        self.server = subprocess.Popen([*watch, program, "serve", *words, path], stdin=theirs, stdout=theirs, stderr=subprocess.PIPE)
        theirs.close()
        self.connected = True
        try:
            self.client.connect_socket(ours.detach())
        except nbd.Error:
            if not watch:
                raise
            self.connected = False

    def end(self):
        self.client.shutdown()
        said = self.server.stderr.read().decode()
        status = self.server.wait()
        self.server.stderr.close()
        return status, {int(line.split()[-1]) for line in said.splitlines() if line.startswith("lost sector ")}


def read(session, sector, size):
    try:
        return session.client.pread(size, sector * size)
    except nbd.Error as error:
        return None if error.errnum == errno.EIO else error


def told(program, command, path):
    ran = subprocess.run([program, command, "--json", path], capture_output=True, text=True)
    return ran.returncode, set(json.loads(ran.stdout)["lost"]) if ran.stdout else None


class Disk:
    def __init__(self, program, folder, draw, sector=512, sectors=3000):
        self.program, self.folder, self.size, self.count = program, folder, sector, sectors
        self.path = os.path.join(folder, "disk")
        geometry = f"{sector},32,64,130,{sectors}"
        subprocess.run([program, "create", "--geometry", geometry, self.path], check=True)
        session = Session(program, self.path)
        for _ in range(6000):
            n = draw.randrange(sectors)
            if draw.randrange(10):
                session.client.pwrite(draw.randbytes(sector), n * sector)
            else:
                session.client.trim(sector, n * sector)
        session.client.flush()
        assert session.end() == (0, set())
        session = Session(program, self.path)
        self.before = [read(session, n, sector) for n in range(sectors)]
        assert session.end() == (0, set())

    def copy(self):
        there = os.path.join(self.folder, "copy")
        for end in BESIDE:
            if os.path.exists(there + end):
                os.remove(there + end)
            if os.path.exists(self.path + end):
                shutil.copy(self.path + end, there + end)
        return there


def held(disk, path, what, failures):
    """What was named, and which sectors read otherwise and were not."""
    status, found = told(disk.program, "check", path)
    if found is None:
        return None, set()
    if status != (1 if found else 0):
        failures.append(f"{what}: status {status} with {len(found)} lost")
    if told(disk.program, "info", path) != (0, found):
        failures.append(f"{what}: info tells others")
    silent = set()
    for words in (("--read-only",), (), ()):
        session = Session(disk.program, path, *words)
        now = [read(session, n, disk.size) for n in range(disk.count)]
        ended = session.end()
        if ended != (0, found):
            failures.append(f"{what}: serve {words} answers {ended[0]}, names {sorted(ended[1] ^ found)[:9]} otherwise")
        if {n for n in range(disk.count) if now[n] is None} != found:
            failures.append(f"{what}: others than those named are EIO")
        silent |= {n for n in range(disk.count) if n not in found and now[n] != disk.before[n]}
    return found, silent


def healed(disk, path, found, what, failures, draw):
    session = Session(disk.program, path)
    fresh = {n: draw.randbytes(disk.size) for n in found}
    for n, body in fresh.items():
        session.client.pwrite(body, n * disk.size)
        if read(session, n, disk.size) != body:
            failures.append(f"{what}: sector {n} is not read as it was written")
    if session.end()[0] != 0:
        failures.append(f"{what}: the session of writes fails")
    if told(disk.program, "check", path) != (0, set()):
        failures.append(f"{what}: lost sectors are told after they were written")
    session = Session(disk.program, path)
    for n, body in fresh.items():
        if read(session, n, disk.size) != body:
            failures.append(f"{what}: sector {n} is not read by a later session")
    if session.end() != (0, set()):
        failures.append(f"{what}: a later session names some")


# The calls by which a list, and the file that says that it is there, are stored and named.
CALLS = ("write", "pwrite64", "fsync", "fdatasync", "link", "linkat", "rename", "renameat", "renameat2", "unlink", "unlinkat")


def turned(path, length, bits, draw):
    """Turns some bits."""
    with open(path, "r+b") as file:
        for _ in range(bits):
            where = draw.randrange(length)
            file.seek(where)
            byte = file.read(1)[0] ^ 1 << draw.randrange(8)
            file.seek(where)
            file.write(bytes([byte]))


def stopped_once(disk, path, found, call, number, how, failures, draw):
    """A session that writes the lost sectors, stopped at a call. Whether that call came."""
    watch = ["strace", "-f", "-o", os.devnull, "-e", f"trace={call}", "-e", f"inject={call}:{how}:when={number}"]
    what = f"{how} at {call} {number}"
    session = Session(disk.program, path, watch=watch)
    wrote, hand = {}, None
    if session.connected:
        try:
            for n in sorted(found):
                hand = (n, draw.randbytes(disk.size))
                session.client.pwrite(hand[1], n * disk.size)
                wrote[n], hand = hand[1], None
            session.client.shutdown()
        except nbd.Error:
            pass
    # its socket is closed with it
    session.client = None
    session.server.stderr.read()
    status = session.server.wait()
    session.server.stderr.close()
    open_ones = found - set(wrote)
    status_then, now = told(disk.program, "check", path)
    if now is None or status_then != (1 if now else 0):
        failures.append(f"{what}: check answers {status_then}")
        return status != 0
    if not (open_ones - ({hand[0]} if hand else set()) <= now <= open_ones):
        failures.append(f"{what}: {sorted(open_ones)} were not written, and {sorted(now)} are told")
    session = Session(disk.program, path)
    for n in sorted(found):
        body = read(session, n, disk.size)
        wanted = None if n in now else wrote[n] if n in wrote else hand[1]
        if body != wanted:
            failures.append(f"{what}: sector {n} is read otherwise")
    if session.end() != (0, now):
        failures.append(f"{what}: the next session names others")
    return status != 0


def stopped(disk, failures, draw):
    """A session over a damaged disk is stopped at each of its calls. How many were."""
    path = disk.copy()
    found = set()
    while len(found) < 3:
        path = disk.copy()
        turned(path, os.path.getsize(path), 12, draw)
        found = told(disk.program, "check", path)[1] or set()
    damaged = {end: open(path + end, "rb").read() for end in BESIDE if os.path.exists(path + end)}
    count = 0
    for call in CALLS:
        for how in ("signal=SIGKILL", "error=EIO"):
            for number in range(1, 200):
                for end in BESIDE:
                    if end in damaged:
                        with open(path + end, "wb") as file:
                            file.write(damaged[end])
                    elif os.path.exists(path + end):
                        os.remove(path + end)
                if not stopped_once(disk, path, found, call, number, how, failures, draw):
                    break
                count += 1
    return len(found), count


def main():
    program = sys.argv[1]
    bits, holes, seed, stops = (int(word) for word in (sys.argv[2:] + ["60", "20", "1", "3"][len(sys.argv) - 2 :]))
    draw, failures = random.Random(seed), []
    with tempfile.TemporaryDirectory() as folder:
        disk = Disk(program, folder, draw)
        length = os.path.getsize(disk.path)
        for kind, count in (("bit", bits), ("hole", holes)):
            named = silent = hit = refused = 0
            for at in range(count):
                path, what = disk.copy(), f"{kind} {at}"
                with open(path, "r+b") as file:
                    if kind == "bit":
                        where = draw.randrange(length)
                        file.seek(where)
                        byte = file.read(1)[0] ^ 1 << draw.randrange(8)
                        file.seek(where)
                        file.write(bytes([byte]))
                    else:
                        size = min(length // 2, 2 << 20)
                        file.seek(draw.randrange(length - size))
                        file.write(bytes(size))
                found, untold = held(disk, path, what, failures)
                if found is None:
                    refused += 1
                    continue
                named, silent, hit = named + len(found), silent + len(untold), hit + bool(found)
                if kind == "bit" and untold:
                    failures.append(f"{what}: silent {sorted(untold)[:9]}")
                healed(disk, path, found, what, failures, draw)
            print(f"{kind}s {count}: {hit} with lost sectors, {named} named, {silent} read otherwise unnamed, {refused} refused", flush=True)
        for _ in range(stops):
            lost, count = stopped(disk, failures, draw)
            print(f"stopped at each of {count} calls with {lost} lost sectors: each is told, or was written")
    for failure in failures:
        print(failure)
    sys.exit(1 if failures else 0)


if __name__ == "__main__":
    main()
