#!/usr/bin/python3
"""Holds what `nanddisk` refuses, and what it leaves: files that are there, in use (by those who write, or who only read), of the wrong length or shape, read-only, shrunk while they are served, a full
file system, a `create` that is killed at each of its calls, syncs that fail, and hostile streams; and blocks that are bad from the start.

Usage: disk_refused.py NANDDISK [STREAMS [SEED]]

Of the hostile streams (10,000 without a number) half are random bytes, and half a good session of which bytes were changed, cut or doubled; a third goes to a disk that is served
read-only, whose file has to stay as it is to the byte. Each ends with status 0 or 3, in time and in little memory, and after each hundred the disk is mounted.

The read-only and the full file system are tmpfs, so this is for root. Asks for Debian's strace and python3-libnbd, which is for the system's Python."""

import concurrent.futures
import fcntl
import itertools
import json
import os
import random
import resource
import socket
import struct
import subprocess
import sys
import tempfile
import time

import nbd

GEOMETRY = "512,32,8,48,150"
SIZE = 150 * 512
MOST_KIB = 65536
FIRST = "the system's first error: "


def told(command, **words):
    done = subprocess.run(command, stdout=subprocess.PIPE, stderr=subprocess.PIPE, timeout=60, **words)
    return done.returncode, done.stderr.decode()


def hold(command, status, line, words=None):
    """One line is told, and behind it, where a file failed, the system's first error, in these words where they are given."""
    found, said = told(command, stdin=subprocess.DEVNULL)
    said, behind, first = said.partition(FIRST)
    assert (found, said, behind != "") == (status, line + "\n", status == 3), (command[1:], found, said)
    assert words is None or first == words + "\n", (command[1:], first)


def start(command):
    client = nbd.NBD()
    ours, theirs = socket.socketpair()
    server = subprocess.Popen(command, stdin=theirs, stdout=theirs, stderr=subprocess.PIPE)
    theirs.close()
    client.connect_socket(ours.detach())
    return client, server


def refused_files(program, folder):
    """What is there is not replaced, and what is no disk is not served."""
    path = os.path.join(folder, "a.nand")
    told([program, "create", "--geometry", GEOMETRY, path])
    shape = open(path + ".json", "rb").read()
    hold([program, "create", "--size", "1M", path], 1, f"refused: {path} exists")
    client, server = start([program, "serve", path])
    hold([program, "serve", path], 1, f"refused: {path} is in use")
    hold([program, "info", path], 1, f"refused: {path} is in use")
    client.shutdown()
    server.wait()
    image = open(path, "rb").read()
    hold([program, "serve", path + "x"], 3, f"fault read {path}x", "No such file or directory (os error 2)")
    for text, why in (
        (b"", "not JSON"),
        (b"[]", "no object"),
        (b'{"cache":64,"geometry":"512,32,8,48,150"}', "no member version"),
        (b'{"cache":"64","geometry":"512,32,8,48,150","version":1}', "member cache of another type"),
        (b'{"cache":64,"geometry":"512,32,8,48,150","version":3}', "another version"),
        (b'{"cache":64,"code":"none","geometry":"512,32,8,48,150","lost":false,"share":32764,"version":2}', "the share is 32764, and no cache has room for all that may be stale"),
        (b'{"cache":64,"code":"x","geometry":"512,32,8,48,150","lost":false,"share":0,"version":2}', "the code is neither none nor hamming"),
        (b'{"cache":0,"geometry":"512,32,8,48,150","version":1}', "the cache has not from 1 to 65536 entries"),
        (b'{"cache":64,"geometry":"512,32,8,48","version":1}', "the geometry is no five numbers"),
        (b'{"cache":64,"geometry":"512,32,8,48,150","version":1,"more":1}', "a member with another name"),
    ):
        open(path + ".json", "wb").write(text)
        hold([program, "serve", path], 1, f"refused: {path}.json: {why}")
    # a list of lost sectors that is missing
    open(path + ".json", "wb").write(b'{"cache":64,"code":"none","geometry":"512,32,8,48,150","lost":true,"share":0,"version":2}')
    hold([program, "serve", path], 3, f"fault read {path}.lost")
    open(path + ".json", "wb").write(b'{"cache":64,"geometry":"512,32,8,64,150","version":1}')
    hold([program, "serve", path], 1, f"refused: {path} has {48 * 8 * 544} bytes, and its shape {64 * 8 * 544}")
    open(path + ".json", "wb").write(b'{"cache":64,"geometry":"512,32,16,24,150","version":1}')
    status, line = told([program, "serve", path], stdin=subprocess.DEVNULL)
    assert status == 1 and line.startswith(f"refused: {path} is no disk: Mount "), line
    open(path + ".json", "wb").write(shape)
    os.remove(path + ".json")
    hold([program, "serve", path], 3, f"fault read {path}")
    open(path + ".json", "wb").write(shape)
    assert open(path, "rb").read() == image, "a refusal changed the file"
    dump = os.path.join(folder, "dump.bin")
    open(dump, "wb").write(image[:-1])
    hold([program, "create", "--geometry", GEOMETRY, "--from", dump, path + "2"], 1, f"refused: {dump} has {len(image) - 1} bytes, and its shape {len(image)}")
    open(dump, "wb").write(bytes(len(image)))
    status, line = told([program, "create", "--geometry", GEOMETRY, "--from", dump, path + "2"])
    assert status == 1 and line.startswith(f"refused: {dump} is no disk: Mount "), line
    assert not [name for name in os.listdir(folder) if "2" in name], os.listdir(folder)


def bad_blocks(program, folder):
    """Blocks that `--bad` names have the factory's mark and nothing else in the file, whatever is written, and are told as bad and not as damage."""
    names = (0, 7, 47)
    page, block = 512 + 32, (512 + 32) * 8
    path = os.path.join(folder, "bad.nand")
    for word, why in (("3,", "usage: bad number 3,"), ("x", "usage: bad number x")):
        hold([program, "create", "--geometry", GEOMETRY, "--bad", word, path], 2, why)
    for word, number in (("48", 48), ("4,9,4", 4)):
        hold([program, "create", "--geometry", GEOMETRY, "--bad", word, path], 1, f"refused: block {number} is past the die, or named twice")
    assert not [name for name in os.listdir(folder) if "bad.nand" in name]
    assert told([program, "create", "--geometry", GEOMETRY, "--bad", ",".join(map(str, names)), path]) == (0, "")
    client, server = start([program, "serve", path])
    for _ in range(4):
        for sector in range(150):
            client.pwrite(bytes([sector + 1]) * 512, sector * 512)
    client.shutdown()
    assert server.wait() == 0
    mark = b"\xff" * 512 + b"\x00" + b"\xff" * (page - 513)
    image = open(path, "rb").read()
    for name in names:
        assert image[name * block:][:block] == mark + b"\xff" * (block - page), name
    client, server = start([program, "serve", path])
    assert all(client.pread(512, sector * 512) == bytes([sector + 1]) * 512 for sector in range(150))
    client.shutdown()
    assert server.wait() == 0
    done = subprocess.run([program, "check", path], stdout=subprocess.PIPE, check=True).stdout.decode()
    assert done == "lost 0\nbad 3\n" + "".join(f"bad block {name}\n" for name in names) + "unsound 0\n", done


def held(program, folder):
    """Programs that only read hold a disk together. One that is to write it holds it alone, and with `--wait` it waits for them, at little cost."""
    path = os.path.join(folder, "h.nand")
    assert told([program, "create", "--geometry", GEOMETRY, path]) == (0, "")
    readers = [start([program, "serve", "--read-only", path]) for _ in range(2)]
    assert told([program, "info", path]) == (0, "") and told([program, "check", path]) == (0, "")
    hold([program, "serve", path], 1, f"refused: {path} is in use")
    begun, used = time.monotonic(), resource.getrusage(resource.RUSAGE_CHILDREN)
    hold([program, "serve", "--wait", "2", path], 1, f"refused: {path} is in use")
    now = resource.getrusage(resource.RUSAGE_CHILDREN)
    assert 1.9 < time.monotonic() - begun < 20, "it waited as long as it was told"
    assert now.ru_utime + now.ru_stime - used.ru_utime - used.ru_stime < 0.2, "a wait costs a processor little"
    with concurrent.futures.ThreadPoolExecutor(1) as later:
        writer = later.submit(start, [program, "serve", "--wait", "60", path])
        time.sleep(0.5)
        assert not writer.done()
        for client, server in readers:
            client.shutdown()
            assert server.wait() == 0
        client, server = writer.result(30)
    client.pwrite(b"\x5a" * 512, 0)
    for words in (["info"], ["check"], ["serve", "--read-only"], ["serve"]):
        hold([program, *words, path], 1, f"refused: {path} is in use")
    client.shutdown()
    assert server.wait() == 0
    hold([program, "serve", "--wait", "soon", path], 2, "usage: no such command, see nanddisk --help")


def shrunk(program, folder):
    """A file that shrinks while it is served: each request has EIO from then on, and what stands is served again."""
    path = os.path.join(folder, "b.nand")
    told([program, "create", "--geometry", GEOMETRY, path])
    client, server = start([program, "serve", path])
    client.pwrite(b"\x5a" * 512, 0)
    client.flush()
    whole = os.path.getsize(path)
    kept = open(path, "rb").read()
    os.truncate(path, 0)
    failed = 0
    for _ in range(3):
        try:
            client.pread(512, 0)
        except nbd.Error as error:
            failed += error.errno == "EIO"
    assert failed == 3, failed
    client.shutdown()
    assert server.wait() == 3
    assert server.stderr.read().decode() == f"fault serve: {path} failed\n"
    hold([program, "serve", path], 1, f"refused: {path} has 0 bytes, and its shape {whole}")
    open(path, "wb").write(kept)
    client, server = start([program, "serve", path])
    assert client.pread(512, 0) == b"\x5a" * 512
    client.shutdown()
    assert server.wait() == 0


def left_parts(program, folder):
    """A disk that has the name of a part too, as a killed `create` may leave it, is not touched by the next `create`, whatever program named the part."""
    path = os.path.join(folder, "d.nand")
    for number, part in enumerate(("d.nand.part", ".d.nand.nanddisk-part")):
        assert told([program, "create", "--geometry", GEOMETRY, path]) == (0, "")
        client, server = start([program, "serve", path])
        client.pwrite(b"\x5a" * SIZE, 0)
        client.shutdown()
        assert server.wait() == 0
        image = open(path, "rb").read()
        part = os.path.join(folder, part)
        os.link(path, part)
        other = os.path.join(folder, f"d{number}.nand")
        for end in ("", ".json", ".mark"):
            os.rename(path + end, other + end)
        assert told([program, "create", "--geometry", GEOMETRY, path]) == (0, ""), part
        assert open(other, "rb").read() == image, f"create has changed another disk, by {part}"
        for name in (path, path + ".json", part):
            if os.path.exists(name):
                os.remove(name)
    # one that another run is at is not taken
    with open(os.path.join(folder, ".d.nand.nanddisk-part"), "wb") as file:
        fcntl.flock(file, fcntl.LOCK_EX)
        hold([program, "create", "--geometry", GEOMETRY, path], 1, f"refused: {path} is in use")


# The calls by which a `create` opens, locks, names, syncs and removes files.
CALLS = ("openat", "link", "linkat", "unlink", "unlinkat", "rename", "fsync", "fdatasync", "flock")


def killed_creates(program, folder, name, more=()):
    """A `create` with these further words is killed as it enters each of its calls: a whole disk is left, or nothing that refuses the next `create`; and that one leaves a disk that was
    renamed as it was."""
    place = os.path.join(folder, name)
    os.mkdir(place)
    path, other = os.path.join(place, "e.nand"), os.path.join(place, "f.nand")
    create = [program, "create", "--geometry", GEOMETRY, *more, path]
    kills = whole = 0
    for call, number in itertools.product(CALLS, range(1, 100)):
        kill = ["strace", "-o", os.devnull, "-e", f"trace={call}", "-e", f"inject={call}:signal=SIGKILL:when={number}"]
        if number == 1:
            done = 1
        elif not done:
            continue
        done = subprocess.run([*kill, *create], stdout=subprocess.DEVNULL, stderr=subprocess.DEVNULL).returncode
        if not done:
            for end in ("", ".json"):
                os.remove(path + end)
            continue
        kills += 1
        if os.path.exists(path):
            whole += 1
            hold(create, 1, f"refused: {path} exists")
            assert told([program, "info", path])[0] == 0, ("no whole disk", call, number)
            image = open(path, "rb").read()
            for end in ("", ".json"):
                os.rename(path + end, other + end)
        assert told(create) == (0, ""), (call, number, os.listdir(place))
        assert told([program, "info", path])[0] == 0, (call, number)
        if os.path.exists(other):
            assert open(other, "rb").read() == image, ("create has changed a disk that was renamed", call, number)
        for name in os.listdir(place):
            assert not name.endswith("-part"), (call, number, name)
            os.remove(os.path.join(place, name))
    assert kills > 5 and whole > 0, (kills, whole)


def failed_syncs(program, folder):
    """After a sync that failed nothing is answered but that it failed, whatever the next sync of the system says."""
    path = os.path.join(folder, "g.nand")
    told([program, "create", "--geometry", GEOMETRY, path])
    # (a start has two syncs of the die, and two of the file of its new mark)
    client, server = start(["strace", "-f", "-o", os.devnull, "-e", "trace=fdatasync", "-e", "inject=fdatasync:error=EIO:when=5", program, "serve", path])
    client.pwrite(b"\x5a" * 512, 0)
    failed = []
    for call in (client.flush, client.flush, lambda: client.pread(512, 0), lambda: client.pwrite(bytes(512), 0), client.flush):
        try:
            call()
            failed.append("done")
        except nbd.Error as error:
            failed.append(error.errno)
    assert failed == ["EIO"] * 5, failed
    client.shutdown()
    assert server.wait() == 3
    assert server.stderr.read().decode() == f"fault serve: {path} failed\n{FIRST}Input/output error (os error 5)\n"


def file_systems(program, folder):
    """A full file system takes no disk, and one that is read-only serves it for reading alone."""
    mounted = os.path.join(folder, "mounted")
    os.mkdir(mounted)
    subprocess.run(["mount", "-t", "tmpfs", "-o", "size=1m", "none", mounted], check=True)
    try:
        path = os.path.join(mounted, "c.nand")
        hold([program, "create", "--size", "4M", path], 3, f"fault write {path}", "No space left on device (os error 28)")
        assert os.listdir(mounted) == []
        told([program, "create", "--geometry", GEOMETRY, path])
        subprocess.run(["mount", "-o", "remount,ro", mounted], check=True)
        hold([program, "serve", path], 3, f"fault read {path}", "Read-only file system (os error 30)")
        client, server = start([program, "serve", "--read-only", path])
        assert client.is_read_only() and client.pread(512, 0) == bytes(512)
        assert client.can_flush()
        client.flush()
        assert client.pread(512, 0) == bytes(512)
        client.set_strict_mode(0)
        try:
            client.pwrite(bytes(512), 0)
            raise AssertionError("a read-only disk was written")
        except nbd.Error as error:
            assert error.errno == "EPERM", error
        client.shutdown()
        assert server.wait() == 0
    finally:
        subprocess.run(["umount", mounted], check=True)


def session(draw):
    """A good session: the client's flags, the choice of the export, and requests."""
    data = struct.pack(">I", 3)
    data += b"IHAVEOPT" + struct.pack(">II", 7, 6) + struct.pack(">IH", 0, 0)
    for cookie in range(draw.randrange(12)):
        code = draw.choice((0, 1, 3, 4, 6))
        count = 0 if code == 3 else draw.randrange(1, 2000)
        offset = 0 if code == 3 else draw.randrange(SIZE - count)
        data += struct.pack(">IHHQQI", 0x25609513, draw.randrange(2), code, cookie, offset, count)
        if code == 1:
            data += draw.randbytes(count)
    return data + struct.pack(">IHHQQI", 0x25609513, 0, 2, 99, 0, 0)


def hostile(draw):
    if draw.randrange(2):
        return draw.randbytes(draw.randrange(400))
    data = bytearray(session(draw))
    for _ in range(draw.randrange(1, 8)):
        at = draw.randrange(len(data))
        what = draw.randrange(3)
        if what == 0:
            data[at] = draw.choice((0, 1, 0x7F, 0xFF, draw.randrange(256)))
        elif what == 1:
            del data[at : at + draw.randrange(1, 40)]
        else:
            data[at:at] = data[at : at + draw.randrange(1, 40)]
        if not data:
            break
    return bytes(data)


def streams(program, folder, count, draw):
    """Hostile streams."""
    path = os.path.join(folder, "d.nand")
    told([program, "create", "--geometry", GEOMETRY, path])
    for number in range(count):
        read_only = number % 3 == 0
        before = open(path, "rb").read() if read_only else b""
        words = ["--read-only"] if read_only else []
        status, line = told([program, "serve", *words, path], input=hostile(draw))
        assert status in (0, 3) and (status == 0) == (line == ""), (number, status, line)
        assert not read_only or open(path, "rb").read() == before, number
        if number % 100 == 0:
            assert told([program, "info", path])[0] == 0, number
    assert told([program, "info", path])[0] == 0
    most = resource.getrusage(resource.RUSAGE_CHILDREN).ru_maxrss
    assert most < MOST_KIB, most
    return most


def main():
    if len(sys.argv) < 2:
        sys.exit(__doc__)
    program = os.path.realpath(sys.argv[1])
    count = int(sys.argv[2]) if len(sys.argv) > 2 else 10000
    draw = random.Random(int(sys.argv[3]) if len(sys.argv) > 3 else 35)
    with tempfile.TemporaryDirectory() as folder:
        refused_files(program, folder)
        bad_blocks(program, folder)
        held(program, folder)
        shrunk(program, folder)
        left_parts(program, folder)
        killed_creates(program, folder, "new")
        dump = os.path.join(folder, "dump.nand")
        assert told([program, "create", "--geometry", GEOMETRY, dump]) == (0, "")
        killed_creates(program, folder, "copied", ("--from", dump))
        killed_creates(program, folder, "coded", ("--from", dump, "--code", "hamming"))
        failed_syncs(program, folder)
        file_systems(program, folder)
        most = streams(program, folder, count, draw)
    print(f"each refusal as said; {count} hostile streams: named ends, in at most {most} KiB")


if __name__ == "__main__":
    main()
