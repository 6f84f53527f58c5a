#!/usr/bin/env python3
"""Counts what a collection costs: page reads, programs and erases, by the live pages of the block.

    bench/collection_cost.py

`device_model.py` makes uniformly random writes and trims. From time to time each closed block with at most `vmax` live pages
is collected in a copy of the device. Each cost is held against its bound: fewer programs than a block has pages; one erase;
one read for each page of the block, one more for each sector that is neither cached nor moved, and one for each translation
page that is written back. The script ends with status 1 where a bound is broken."""

import copy
import sys
from collections import defaultdict

from device_model import SECTOR, TRANSLATION, TRIM, Device, Geometry, formatted


class Counted(Device):
    """A device that counts the pages that it reads, as the engine reads them."""

    def begin(self):
        self.reads = self.looked = self.written = 0
        self.first = self.next

    def collect(self, block, flushing):
        rows = range(block * self.g.P, (block + 1) * self.g.P)
        for row in rows:
            if self.live[block] == 0:
                break
            page = self.die.rows[row]
            self.reads += 1
            if page.kind in (SECTOR, TRIM):
                self.look_up(page.number)
            if self.newest[page.key()] == row:
                self.copy(row, flushing)
        for t in range(self.g.T):
            if t in self.marked or any(n // self.g.E == t for n in self.moved):
                self.write_back(t)
        self.pointer[block] = 0 if self.die.erase(block) else self.pointer[block]

    def look_up(self, n):
        if n not in self.cache and n not in self.moved:
            self.looked += 1
            self.reads += (TRANSLATION, n // self.g.E) in self.newest

    def write_back(self, t):
        self.reads += (TRANSLATION, t) in self.newest
        self.written += 1
        super().write_back(t)


def numbers(seed):
    """A plain generator."""
    while True:
        seed = (seed * 6_364_136_223_846_793_005 + 1_442_695_040_888_963_407) % 2**64
        yield seed >> 33


def cost_of(device, block, flushing):
    """Programs, reads, erases of the block's collection, and the bound of its reads."""
    here = copy.deepcopy(device)
    here.__class__ = Counted
    here.begin()
    here.die.log = []
    here.collect(block, flushing)
    erases = sum(operation == "erase" for operation, _, _ in here.die.log)
    return here.next - here.first, here.reads, erases, here.g.P + here.looked + here.written


def measure(geometry, capacity, commands, samples):
    """The costs by live pages."""
    device, _ = formatted(geometry, capacity)
    chance, costs = numbers(1), defaultdict(list)
    for count in range(commands):
        n = next(chance) % geometry.L
        answer = device.trim(n) if next(chance) % 10 == 0 else device.write(n, 1)
        assert answer == "Done", answer
        if count % (commands // samples) == 0:
            for block in range(geometry.B):
                if device.is_closed(block) and device.live[block] <= geometry.vmax:
                    costs[device.live[block]].append(cost_of(device, block, count % 2 == 1))
    return costs


def show(name, geometry, costs):
    broken = False
    print(f"{name}: P {geometry.P}, T {geometry.T}, vmax {geometry.vmax}")
    print("| Live pages | Collections | Programs, mean and most | Reads, mean and most | Erases |")
    for live in sorted(costs):
        programs, reads, erases, bounds = zip(*costs[live])
        broken |= max(programs) > geometry.P - 1 or set(erases) != {1} or any(r > b for r, b in zip(reads, bounds))
        mean = lambda values: sum(values) / len(values)
        print(f"| {live} | {len(reads)} | {mean(programs):.1f}, {max(programs)} | {mean(reads):.1f}, {max(reads)} | 1 |")
    return broken


def main():
    small, large = Geometry(64, 32, 8, 32, 32), Geometry(512, 32, 32, 64, 900)
    broken = show("32 sectors, cache of 4", small, measure(small, 4, 1_000, 100))
    broken |= show("900 sectors, cache of 16", large, measure(large, 16, 6_000, 8))
    sys.exit("a bound is broken" if broken else 0)


if __name__ == "__main__":
    main()
