#!/usr/bin/python3
"""Times writes of `nanddisk` at two shares: how many a second, how long the longest takes, and what one costs the die.

Usage: disk_share.py NANDDISK [--seconds N] [FOLDER]

Three disks of 64 MiB, each sector of them written: that of share 0, one of the same geometry at share 15, and that of share 15, whose file is a fifth smaller. Each takes
4 KiB at random by fio over socat, 16 at a time and then one at a time, and as often. Told are of each, in the order of the rounds: requests a second, middle, 99 of 100 and
the longest in ms, and the programs that a request took, by the next sequence that `info` tells.

Asks for Debian's fio, socat, libnbd and python3-libnbd, which is for the system's Python."""

import json
import os
import subprocess
import sys
import tempfile
import time

from disk_time import SIZE, listening, start


def told(program, path):
    return json.loads(subprocess.run([program, "info", "--json", path], check=True, stdout=subprocess.PIPE).stdout)


def made(program, words, path):
    """A disk that `create` makes of these words, each sector written once."""
    subprocess.run([program, "create", *words, path], check=True, stdout=subprocess.DEVNULL)
    client, server = start([program, "serve", path])
    piece = os.urandom(1 << 20)
    for at in range(0, client.get_size(), len(piece)):
        client.pwrite(piece[: client.get_size() - at], at)
    client.shutdown()
    assert server.wait() == 0


def written(uri, depth, seconds):
    """What fio says of 4 KiB writes at random: requests, requests a second, and ms of the middle, of 99 of 100 and of the longest."""
    words = ["fio", "--name=run", "--ioengine=nbd", f"--uri={uri}", "--rw=randwrite", "--bs=4k", "--size=60M", f"--iodepth={depth}"]
    words += [f"--runtime={seconds}", "--time_based", "--randseed=7", "--output-format=json"]
    done = subprocess.run(words, stdout=subprocess.PIPE, stderr=subprocess.DEVNULL, check=True)
    # a line of its own stands before the document
    job = json.loads(done.stdout[done.stdout.index(b"{") :])["jobs"][0]["write"]
    latency = job["clat_ns"]
    return job["total_ios"], job["iops"], latency["percentile"]["50.000000"] / 1e6, latency["percentile"]["99.000000"] / 1e6, latency["max"] / 1e6


def round_of(program, folder, disk, depth, seconds):
    before = told(program, disk)["next"]
    path = os.path.join(folder, f"{time.monotonic_ns()}.sock")
    server = listening(["socat", f"UNIX-LISTEN:{path},fork", f"EXEC:{program} serve {disk}"], path)
    count, *rest = written(f"nbd+unix:///?socket={path}", depth, seconds)
    server.terminate()
    time.sleep(1)
    return *rest, (told(program, disk)["next"] - before) / count


def main():
    words = sys.argv[1:]
    seconds = words.pop(words.index("--seconds") + 1) if "--seconds" in words else "10"
    words = [word for word in words if word != "--seconds"]
    if not words:
        sys.exit(__doc__)
    program = os.path.realpath(words[0])
    with tempfile.TemporaryDirectory(dir=words[1] if len(words) > 1 else None) as folder:
        names = {it: os.path.join(folder, it) for it in ("0", "15-same", "15")}
        made(program, ["--size", SIZE, "--share", "0"], names["0"])
        geometry = told(program, names["0"])["geometry"]
        made(program, ["--geometry", geometry, "--share", "15"], names["15-same"])
        made(program, ["--size", SIZE], names["15"])
        print("| Share | Geometry | At a time | A second | Middle, ms | 99 of 100, ms | Longest, ms | Programs a write |\n|---|---|---|---|---|---|---|---|")
        for turn in range(2):
            for depth in (16, 1):
                for disk in names.values():
                    shape = told(program, disk)
                    rate, middle, late, longest, programs = round_of(program, folder, disk, depth, seconds)
                    print(f"| {shape['share']} | {shape['geometry']} | {depth} | {rate:,.0f} | {middle:.2f} | {late:.2f} | {longest:.1f} | {programs:.2f} |", flush=True)


if __name__ == "__main__":
    main()
