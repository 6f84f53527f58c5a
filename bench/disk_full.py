#!/usr/bin/python3
"""Holds that `nanddisk serve` tells a write that its host has no room for, and goes on once there is room.

Usage: disk_full.py NANDDISK

At each of a disk's writes of its file in turn the system answers ENOSPC, once, or three times: by strace, which names the call. The client is told ENOSPC of the write, each sector is then as it was or as it was to
be, and the next write is done; what was answered before is there, in that session and in the next one, which finds no bad block. A failure that is no want of room (EIO) ends the disk for that session.

Asks for Debian's strace and python3-libnbd, which is for the system's Python."""

import os
import re
import socket
import subprocess
import sys
import tempfile

import nbd

GEOMETRY = "512,32,8,48,150"
SECTOR = 512
SECTORS = 150
WRITES = 60


def start(command):
    client = nbd.NBD()
    ours, theirs = socket.socketpair()
    server = subprocess.Popen(command, stdin=theirs, stdout=theirs, stderr=subprocess.PIPE)
    theirs.close()
    client.connect_socket(ours.detach())
    return client, server


def stands(client, wanted):
    return client.pread(SECTOR * SECTORS, 0) == b"".join(wanted)


def tried(client, number, wanted):
    """One write: the name of its error, if it has one. The sector is as it was or as it was to be."""
    sector = number * 7 % SECTORS
    due = bytes([number % 251 + 1]) * SECTOR
    error = None
    try:
        client.pwrite(due, sector * SECTOR)
    except nbd.Error as fault:
        error = fault.errno
    found = client.pread(SECTOR, sector * SECTOR)
    assert found == due or error and found == wanted[sector], (number, error)
    wanted[sector] = found
    return error


def injected(program, path, error, at, times):
    rule = f"inject=pwrite64:error={error}:when={at}..{at + times - 1}"
    return ["strace", "-f", "-o", os.devnull, "-e", "trace=pwrite64", "-e", rule, program, "serve", path]


def full(program, path, at, times):
    """The file has no room at its write number `at`, and the next ones."""
    client, server = start(injected(program, path, "ENOSPC", at, times))
    wanted = [bytes(SECTOR)] * SECTORS
    told = [tried(client, number, wanted) for number in range(WRITES)]
    assert set(told) <= {None, "ENOSPC"}, told
    assert stands(client, wanted)
    client.flush()
    client.shutdown()
    assert server.wait() == 0, server.stderr.read()
    client, server = start([program, "serve", path])
    assert stands(client, wanted), "what was answered is there in the next session"
    client.shutdown()
    assert server.wait() == 0
    info = subprocess.run([program, "info", path], stdout=subprocess.PIPE, check=True).stdout.decode()
    assert re.search(r"^free \d+ bad 0$", info, re.M), info
    return told.count("ENOSPC")


def failed(program, path, at):
    """A write that fails for another reason is EIO, and so is each request after it."""
    client, server = start(injected(program, path, "EIO", at, 1))
    told = []
    for number in range(WRITES):
        try:
            client.pwrite(bytes([1]) * SECTOR, number * 7 % SECTORS * SECTOR)
            told.append(None)
        except nbd.Error as fault:
            told.append(fault.errno)
    first = told.index("EIO")
    assert set(told[:first]) <= {None} and set(told[first:]) == {"EIO"}, told
    client.shutdown()
    assert server.wait() == 3


def main():
    program = os.path.abspath(sys.argv[1])
    with tempfile.TemporaryDirectory() as folder:
        told = runs = 0
        for times in (1, 3):
            for at in range(4, 40):
                path = os.path.join(folder, f"{times}-{at}.nand")
                subprocess.run([program, "create", "--geometry", GEOMETRY, path], check=True)
                told += full(program, path, at, times)
                runs += 1
        assert told > runs // 2, (told, runs)
        path = os.path.join(folder, "failed.nand")
        subprocess.run([program, "create", "--geometry", GEOMETRY, path], check=True)
        failed(program, path, 12)
    print(f"a full host: {runs} sessions, {told} writes told ENOSPC, each goes on; one that failed is gone")


main()
