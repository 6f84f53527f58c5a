#!/usr/bin/python3
"""What a flushed write costs: pages that the die programs, syncs of the file and time, beside nbdkit's `file` plugin; and file systems through restarts.

Usage: disk_flush.py NANDDISK [OTHER-NANDDISK ..]

All files stand in a folder of their own. Of each program a new disk of 48 MiB is written, and then one of which each sector was written: 1,000 writes of 4 KiB at random with a flush
after each. How many pages were programmed is by how far `next` of `info` went, how many syncs there were by `strace`, whose run is not timed. Then a flush of nothing and a trim of what was
never written, and fio with `--fsync=1` over socat. Last an ext4 file system goes onto the disk of the first program and is changed, each time by a server of its own, and `e2fsck` looks at
what the next one reads.

Asks for Debian's fio, socat, strace, nbdkit, libnbd-bin, e2fsprogs and python3-libnbd, which is for the system's Python."""

import json
import os
import random
import socket
import subprocess
import sys
import tempfile
import time

import nbd

SIZE = "48M"
SECTORS = 48 << 8
SECTOR = 4096
WRITES = 1000


def start(command):
    """A client of a server that was just started, and the server."""
    client = nbd.NBD()
    ours, theirs = socket.socketpair()
    server = subprocess.Popen(command, stdin=theirs, stdout=theirs)
    theirs.close()
    client.connect_socket(ours.detach())
    return client, server


def stop(client, server):
    client.shutdown()
    server.wait()


def programmed(program, disk):
    """How many pages were programmed so far, by the sequence that comes next."""
    told = json.loads(subprocess.run([program, "info", "--json", disk], check=True, stdout=subprocess.PIPE).stdout)
    return told["next"]


def flushed_writes(client, seed):
    """Writes at random with a flush after each, and the seconds that they took."""
    draw = random.Random(seed)
    bodies = [draw.randbytes(SECTOR) for _ in range(8)]
    begun = time.monotonic()
    for number in range(WRITES):
        client.pwrite(bodies[number % 8], draw.randrange(SECTORS) * SECTOR)
        client.flush()
    return time.monotonic() - begun


def during(program, disk, work, before=()):
    """What a client's work and the end of its session program, and what the work answers. A new disk's first client flushes it, so there was one before."""
    stop(*start([program, "serve", disk]))
    first = programmed(program, disk)
    client, server = start([*before, program, "serve", disk])
    answer = work(client)
    stop(client, server)
    return programmed(program, disk) - first, answer


def syncs(program, folder, disk):
    """The syncs of the die's file for as many flushed writes."""
    log = os.path.join(folder, "calls")
    during(program, disk, lambda client: flushed_writes(client, 3), ("strace", "-f", "-c", "-o", log))
    with open(log, encoding="ascii") as file:
        return sum(int(line.split()[3]) for line in file if line.split()[-1:] == ["fdatasync"])


def fio(uri):
    """Flushed writes a second, one at a time."""
    words = ["fio", "--name=run", "--ioengine=nbd", f"--uri={uri}", "--rw=randwrite", "--bs=4k", "--size=40M", "--fsync=1", "--runtime=5", "--time_based", "--output-format=json"]
    for _ in range(20):
        done = subprocess.run(words, stdout=subprocess.PIPE, stderr=subprocess.DEVNULL, check=False)
        if done.returncode == 0:
            break
        time.sleep(0.2)
    return json.loads(done.stdout[done.stdout.index(b"{") :])["jobs"][0]["write"]["iops"]


def listening(command, path):
    server = subprocess.Popen(command, stdout=subprocess.DEVNULL, stderr=subprocess.DEVNULL)
    while not os.path.exists(path):
        time.sleep(0.05)
    return server


def over_socket(command, path):
    server = listening(command, path)
    rate = fio(f"nbd+unix:///?socket={path}")
    server.terminate()
    server.wait()
    return rate


def row(name, programs, count, took, rate):
    print(f"| {name} | {programs} | {count} | {took / WRITES * 1e3:.2f} | {rate:,.0f} |", flush=True)


def disk_rows(program, folder, number):
    name = program if number else "nanddisk"
    new, full = os.path.join(folder, f"new{number}.nand"), os.path.join(folder, f"full{number}.nand")
    for disk in (new, full):
        subprocess.run([program, "create", "--size", SIZE, disk], check=True)
    piece = random.Random(1).randbytes(1 << 20)
    during(program, full, lambda client: [client.pwrite(piece, at) for at in range(0, SECTORS * SECTOR, len(piece))])
    for said, disk in (("a new disk", new), ("a full disk", full)):
        made, took = during(program, disk, lambda client: flushed_writes(client, 2))
        count = syncs(program, folder, disk)
        sock = os.path.join(folder, f"{len(os.listdir(folder))}.sock")
        rate = over_socket(["socat", f"UNIX-LISTEN:{sock},fork", f"EXEC:{program} serve {disk}"], sock)
        row(f"{name}, {said}", f"{made / WRITES:.3f}", f"{count / WRITES:.3f}", took, rate)
    blank = os.path.join(folder, f"blank{number}.nand")
    subprocess.run([program, "create", "--size", SIZE, blank], check=True)
    nothing = during(program, blank, lambda client: [client.flush() for _ in range(WRITES)])[0]
    trims = during(program, blank, lambda client: [client.trim(SECTOR, at * SECTOR) for at in range(WRITES)])[0]
    return f"{name}: {nothing} pages programmed for {WRITES} flushes of nothing, {trims} for {WRITES} trims of what reads as zeros"


def plain_row(folder):
    plain, sock = os.path.join(folder, "plain.img"), os.path.join(folder, "plain.sock")
    with open(plain, "wb") as file:
        file.truncate(SECTORS * SECTOR)
    server = listening(["nbdkit", "-f", "-U", sock, "file", plain], sock)
    client = nbd.NBD()
    client.connect_uri(f"nbd+unix:///?socket={sock}")
    took = flushed_writes(client, 2)
    client.shutdown()
    rate = fio(f"nbd+unix:///?socket={sock}")
    server.terminate()
    server.wait()
    row("nbdkit file", "-", "1", took, rate)


def run(*words):
    return subprocess.run(words, check=True, stdout=subprocess.PIPE, stderr=subprocess.STDOUT, text=True).stdout


def ext4(program, folder):
    """An ext4 file system goes onto a disk, is read by another server, changed, and read again: no fault is found, and each file is as it was written."""
    disk, sock = os.path.join(folder, "e.nand"), os.path.join(folder, "e.sock")
    run(program, "create", "--size", SIZE, disk)
    server = listening(["socat", f"UNIX-LISTEN:{sock},fork", f"EXEC:{program} serve --wait 20 {disk}"], sock)
    uri = f"nbd+unix:///?socket={sock}"
    image, read = os.path.join(folder, "e.img"), os.path.join(folder, "read.img")
    with open(image, "wb") as file:
        file.truncate(SECTORS * SECTOR)
    run("mkfs.ext4", "-q", "-F", image)
    files = 0
    for turn in range(4):
        for _ in range(25):
            body = os.path.join(folder, f"file{files}")
            with open(body, "wb") as file:
                file.write(random.Random(files).randbytes(files * 1000 + 17))
            run("debugfs", "-w", "-R", f"write {body} file{files}", image)
            files += 1
        run("nbdcopy", "--flush", image, uri)
        run("nbdcopy", uri, read)
        assert open(read, "rb").read() == open(image, "rb").read(), turn
        run("e2fsck", "-f", "-n", read)
        for number in range(files):
            back = os.path.join(folder, "back")
            run("debugfs", "-R", f"dump file{number} {back}", read)
            assert open(back, "rb").read() == open(os.path.join(folder, f"file{number}"), "rb").read(), number
    server.terminate()
    server.wait()
    print(f"ext4: {files} files over {2 * turn + 2} servers, each as it was written, and e2fsck found nothing")


def main():
    if len(sys.argv) < 2:
        sys.exit(__doc__)
    programs = [os.path.realpath(it) for it in sys.argv[1:]]
    with tempfile.TemporaryDirectory(prefix="disk-flush-") as folder:
        print(f"| {WRITES:,} writes of 4 KiB at random, a flush after each | Programs a write | Syncs a write | One takes, ms | fio --fsync=1, a second |\n|---|---|---|---|---|")
        told = [disk_rows(it, folder, number) for number, it in enumerate(programs)]
        plain_row(folder)
        print("\n" + "\n".join(told))
        ext4(programs[0], folder)


if __name__ == "__main__":
    main()
