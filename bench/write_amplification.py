#!/usr/bin/env python3
"""Measures how many programs a write costs: `nandctl serve` takes 100,000 writes to uniformly random sectors of 50, 70 and 90
per cent of the largest array of a die.

    [PROGRAM=..] bench/write_amplification.py [--model]
    bench/write_amplification.py --share N.. [--die DATA,SPARE,PAGES,BLOCKS] [--sectors N..] [--cache N..] [--writes N]

Programs are read off the next sequences of the image with each sector written once, and of the image after the 100,000. With
--model `device_model.py` makes the same writes, and its programs have to be the same.

With --share the model alone makes them, for each of these numbers of moved sectors that may wait for each translation page
(`nandctl` runs at share 0): at 50, 70 and 90 per cent of all pages of a larger die. A size that a share cannot have is `-`.
It ends with status 1 where a greater share costs more programs than a smaller one."""

import argparse
import math
import struct
import subprocess
import sys
import tempfile
from pathlib import Path

from device_model import META, Device, Die, Geometry, format_die, formatted
from program import PROGRAM
from sectors import geometry as die_word

DATA, SPARE, PAGES, BLOCKS = 4096, 128, 64, 128
WRITES = 100_000
ARRAYS = [(50, 3358), (70, 4701), (90, 6045)]
# So large that share 0 can have 70 per cent of its pages as sectors, and share 15 can have 90.
SHARED_DIE = (4096, 128, 64, 384)


def sectors_of(count, writes=WRITES):
    """Uniformly random sectors, by a plain generator that the model uses too."""
    state = 20_260_101
    for _ in range(writes):
        state = (state * 6_364_136_223_846_793_005 + 1_442_695_040_888_963_407) % 2**64
        yield (state >> 33) % count


def requests(sectors):
    body = bytes(DATA)
    for tag, sector in enumerate(sectors):
        yield b"DF" + struct.pack("<BBII", 2, 0, tag, sector) + body


def serve(geometry, capacity, folder, sectors):
    """The next sequence after these writes on a fresh die."""
    name = lambda file: str(Path(folder) / file)
    subprocess.run([PROGRAM, "format", geometry, name("fresh"), name("image")], check=True, stdout=subprocess.DEVNULL)
    mount = [PROGRAM, "mount", geometry, str(capacity), name("image"), name("certificate")]
    subprocess.run(mount, check=True, stdout=subprocess.DEVNULL)
    words = [PROGRAM, "serve", geometry, str(capacity), name("image"), name("certificate"), name("image")]
    with open(name("replies"), "wb") as replies:
        run = subprocess.Popen(words, stdin=subprocess.PIPE, stdout=replies)
        for request in requests(sectors):
            run.stdin.write(request)
        run.stdin.close()
        if run.wait() != 0:
            sys.exit("the server ended with another status than 0")
    if any(Path(name("replies")).read_bytes()[3::8]):
        sys.exit("a write was refused")
    subprocess.run([*mount[:3], str(capacity + PAGES), *mount[4:]], check=True, stdout=subprocess.DEVNULL)
    return struct.unpack_from("<Q", Path(name("certificate")).read_bytes(), 32)[0]


def measured(count, capacity):
    """Programs of the random writes."""
    geometry = f"{DATA},{SPARE},{PAGES},{BLOCKS},{count}"
    with tempfile.TemporaryDirectory() as folder:
        Path(folder, "fresh").write_bytes(b"\xff" * ((DATA + SPARE) * PAGES * BLOCKS))
        first = serve(geometry, capacity, folder, range(count))
        last = serve(geometry, capacity, folder, [*range(count), *sectors_of(count)])
    return last - first


def modelled(count, capacity):
    device, _ = formatted(Geometry(DATA, SPARE, PAGES, BLOCKS, count), capacity)
    for sector in range(count):
        assert device.write(sector, 0) == "Done"
    programs = device.next
    for sector in sectors_of(count):
        assert device.write(sector, 0) == "Done"
    return device.next - programs


def greedy_limit(pages):
    """Programs a write of the greedy rule over uniformly random writes, as blocks grow large: 1 / (1 - u) where u is
    the part of a collected block that is live, and (u - 1) / ln u the part of all pages that is."""
    low, high = 0.0, 1.0 - 1e-12
    for _ in range(200):
        u = (low + high) / 2
        if u > 0 and (u - 1) / math.log(u) > pages:
            high = u
        else:
            low = u
    return 1 / (1 - low)


class Counted(Device):
    """A device that counts the pages of the mapping's stream."""

    mapped = 0

    def put(self, stream, kind, number, body):
        self.mapped += stream == META
        return super().put(stream, kind, number, body)


def shared(die, count, capacity, share, writes):
    """Programs a write, and those of the mapping's stream among them; none where the die has too few blocks."""
    g = Geometry(*die, count)
    if g.need_at(share) > g.B:
        return None
    pages = Die(g)
    format_die(pages, (), share)
    device = Counted(pages, capacity, share)
    for sector in range(count):
        assert device.write(sector, 0) == "Done"
    programs, mapped = device.next, device.mapped
    for sector in sectors_of(count, writes):
        assert device.write(sector, 0) == "Done"
    return (device.next - programs) / writes, (device.mapped - mapped) / writes


def told(cost):
    return f"{'-':>14}" if cost is None else f"{cost[0]:7.2f} {cost[1]:6.2f}"


def show_shares(asked):
    """A line for each size and cache: programs a write, and those of the mapping, at each share. Whether none rises with the share."""
    data, spare, pages, blocks = asked.die
    print(" part sectors  cache", *(f" share {share:2} mapped" for share in asked.share), " greedy limit")
    is_fewer = True
    for count in asked.sectors or [pages * blocks * part // 100 for part in (50, 70, 90)]:
        limit = greedy_limit(count / (pages * (blocks - 9 - 1)))
        for capacity in asked.cache or (256, count):
            costs = [shared(asked.die, count, capacity, share, asked.writes) for share in asked.share]
            known = [cost[0] for cost in costs if cost]
            is_fewer &= known == sorted(known, reverse=True)
            print(f"{100 * count / (pages * blocks):4.0f}% {count:7} {capacity:6}", *map(told, costs), f"{limit:13.2f}", flush=True)
    return is_fewer


def show_program(model):
    print("part sectors  cache  programs  a write  greedy limit")
    for part, count in ARRAYS:
        # Nine blocks are kept free, and one is open for translation pages.
        limit = greedy_limit(count / (PAGES * (BLOCKS - 9 - 1)))
        for capacity in (256, count):
            programs = measured(count, capacity)
            if model and modelled(count, capacity) != programs:
                sys.exit(f"{part} {capacity}: {programs} programs, and others of the model")
            times = programs / WRITES
            bar = "#" * round(10 * times)
            print(f"{part:3}% {count:7} {capacity:6} {programs:9} {times:8.2f} {limit:13.2f}     {bar}", flush=True)


def main():
    words = argparse.ArgumentParser(description="Measures how many programs a write costs.")
    words.add_argument("--model", action="store_true", help="holds the model's programs against the program's")
    words.add_argument("--share", metavar="N", type=int, nargs="+", help="the model alone, at these shares")
    words.add_argument("--die", metavar="DATA,SPARE,PAGES,BLOCKS", type=die_word, default=SHARED_DIE)
    words.add_argument("--sectors", metavar="N", type=int, nargs="+", help="these sizes (default: 50, 70 and 90 per cent of all pages)")
    words.add_argument("--cache", metavar="N", type=int, nargs="+", help="these caches (default: 256 and all)")
    words.add_argument("--writes", metavar="N", type=int, default=WRITES)
    asked = words.parse_args()
    if asked.share is None:
        show_program(asked.model)
    elif not show_shares(asked):
        sys.exit("a share costs more programs than a smaller one")


if __name__ == "__main__":
    main()
