#!/usr/bin/env python3
"""How many sectors a die gives.

A die serves writes while as many blocks are good as its geometry needs (`need` of docs/FORMATS.md). So the most sectors
are the most for which no more blocks are needed than there are.

With --share several numbers of a die are told, one for each share: how many moved sectors may wait for each translation page
(`device_model.py`). `nandctl` and the library for C run at share 0, which is told without it, and new disks of `nanddisk` at 15."""

import argparse
import subprocess
import sys
import tempfile
from pathlib import Path

from device_model import Geometry

MOST_SECTORS = 1 << 20
# docs/FORMATS.md: data, spare, pages, blocks, sectors
LIMITS = ([1 << it for it in range(6, 13)], range(32, 257), [1 << it for it in range(2, 9)], range(12, 4097), range(1, MOST_SECTORS + 1))
USUAL = [
    (512, 32, 32, 2048),
    (2048, 64, 64, 1024),
    (2048, 64, 64, 2048),
    (2048, 64, 64, 4096),
    (2048, 128, 128, 1024),
    (4096, 128, 64, 2048),
    (4096, 224, 64, 4096),
    (4096, 224, 128, 2048),
    (4096, 256, 128, 4096),
    (4096, 256, 256, 1024),
]
# small enough for `format` to be tried in a moment, with blocks of few and of many pages
TRIED = [
    (64, 32, 4, 12),
    (64, 32, 4, 64),
    (64, 32, 8, 32),
    (64, 32, 16, 256),
    (256, 64, 64, 128),
    (512, 32, 32, 512),
    (2048, 64, 64, 64),
    (4096, 128, 256, 24),
]


def need(die, sectors, share=0):
    """The good blocks that writing needs."""
    return Geometry(*die, sectors).need_at(share)


def most(die, good, share=0):
    """The most sectors that this many good blocks serve, 0 where they serve none: `need` never falls as sectors rise."""
    low, high = 0, MOST_SECTORS
    while low < high:
        mid = (low + high + 1) // 2
        if need(die, mid, share) <= good:
            low = mid
        else:
            high = mid - 1
    return low


def size(count):
    """Bytes in the largest unit that keeps three digits."""
    for unit in ("bytes", "KiB", "MiB"):
        if count < 10000:
            return f"{count:.0f} {unit}"
        count /= 1024
    return f"{count:.0f} GiB"


def told(die, good, share):
    """The cells of a share: sectors, the disk, the part of all pages."""
    data, _, pages, blocks = die
    sectors = most(die, good, share)
    return [f"{sectors:,}", size(sectors * data), f"{100 * sectors / (pages * blocks):.0f} %"]


def line(die, good, shares):
    data, spare, pages, blocks = die
    cells = [f"{data}+{spare}", str(pages), f"{blocks:,}"]
    return "| " + " | ".join(cells + [cell for share in shares for cell in told(die, good, share)]) + " |"


def head(shares):
    names = ["Sectors at most", "Disk", "Of all pages"]
    cells = [f"{name}, share {share}" if len(shares) > 1 else name for share in shares for name in names]
    return "| Page | Pages a block | Blocks | " + " | ".join(cells) + " |"


def table(dies, shares):
    print(head(shares))
    print("|---" * (3 + 3 * len(shares)) + "|")
    for die in dies:
        print(line(die, die[3], shares))


def formats(program, folder, die, sectors):
    """What `nandctl format` says to a fresh die."""
    data, spare, pages, blocks = die
    fresh = folder / "fresh.bin"
    fresh.write_bytes(b"\xff" * ((data + spare) * pages * blocks))
    words = ["format", f"{data},{spare},{pages},{blocks},{sectors}", fresh, folder / "die.bin"]
    done = subprocess.run([program, *words], capture_output=True, text=True)
    return done.stdout + done.stderr


def check():
    from program import PROGRAM

    with tempfile.TemporaryDirectory() as name:
        for die in TRIED:
            blocks = die[3]
            sectors = most(die, blocks)
            if sectors > 0:
                wanted = f"good {blocks}\n"
                assert formats(PROGRAM, Path(name), die, sectors) == wanted, (die, sectors)
            wanted = f"refused format 1 TooFewGood good {blocks} need {need(die, sectors + 1)}\n"
            assert formats(PROGRAM, Path(name), die, sectors + 1) == wanted, (die, sectors + 1)
            print(f"{die}: {sectors} sectors, and no more")


def geometry(word):
    """The four numbers of a die, as GEOM has its first four; a fifth, the sectors, is passed over. Each within the limits of a die: so no comma among thousands is taken."""
    numbers = [int(it) for it in word.split(",")]
    if len(numbers) not in (4, 5) or any(number not in limit for number, limit in zip(numbers, LIMITS)):
        raise ValueError(word)
    return tuple(numbers[:4])


def main():
    words = argparse.ArgumentParser(description="Tells how many sectors a die gives: a table for usual dies, or the line of one.")
    words.add_argument("die", metavar="DATA,SPARE,PAGES,BLOCKS", type=geometry, nargs="?", help="one die, as GEOM begins")
    words.add_argument("--good", metavar="N", type=int, help="so many of its blocks are good (default: all)")
    words.add_argument("--share", metavar="N", type=int, nargs="+", default=[0], help="for each of these shares (default: 0)")
    words.add_argument("--check", action="store_true", help="holds the numbers against what `nandctl format` refuses (PROGRAM=.. names the program)")
    asked = words.parse_args()
    if asked.check:
        check()
    elif asked.die is None:
        table(USUAL, asked.share)
    else:
        print(line(asked.die, asked.good or asked.die[3], asked.share))


if __name__ == "__main__":
    main()
