#!/usr/bin/env python3
"""What writes cost with a turn after each and without: how many pages each write programs, and how many
erase a block, by `bench/device_model.py`, as a small chart. On the geometry of the worked rows (32 blocks
of 8 pages, 32 sectors): with all blocks good and every sector written in turn, and with as many good blocks
as the device needs and three more, and random writes.

    bench/turns.py [WRITES]        (default: 20000)
"""

import random
import sys
from collections import Counter

from device_model import Geometry, formatted

FIRST = Geometry(64, 32, 8, 32, 32)


def sectors(kind, count):
    draw = random.Random(1)
    for i in range(count):
        yield (i * 11) % FIRST.L if kind == "in turn" else draw.randrange(FIRST.L)


def run(good, kind, capacity, turns, count):
    """How many pages the writes program, how many of them erase, and how many pages the turns program."""
    device, _ = formatted(FIRST, capacity, marks=range(good, FIRST.B))
    writes, turned, erasing = Counter(), Counter(), 0
    for i, n in enumerate(sectors(kind, count)):
        programs, erases = device.next, sum(device.wear)
        assert device.write(n, i % 251) == "Done"
        writes[device.next - programs] += 1
        erasing += sum(device.wear) > erases
        if turns:
            programs = device.next
            assert device.turn() == "Done"
            turned[device.next - programs] += 1
    return writes, erasing, turned


def chart(counter, count):
    for programs in sorted(counter):
        share = counter[programs] / count
        print(f"    {programs:3d} pages  {counter[programs]:6d}  {'#' * max(1, round(60 * share))}")


def main():
    count = int(sys.argv[1]) if len(sys.argv) > 1 else 20_000
    for good, kind in ((FIRST.B, "in turn"), (FIRST.need + 3, "random")):
        for capacity in (4, 32):
            for turns in (False, True):
                writes, erasing, turned = run(good, kind, capacity, turns, count)
                print(f"{good} good blocks, sectors {kind}, cache of {capacity}, {'a turn after each' if turns else 'no turns'}: "
                      f"{erasing} of {count} writes erase a block, the dearest programs {max(writes)} pages")
                chart(writes, count)
                if turns:
                    print(f"    the dearest turn programs {max(turned)}")


if __name__ == "__main__":
    main()
