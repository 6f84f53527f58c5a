#!/usr/bin/env python3
"""Writes a dump of a small formatted die, to be taken for one of unknown shape, independently of the crates.

    bench/make_unknown.py OUT

The die is 128,40,8,24,60. Each of its sectors has a page, some have two, and two pages have a bit wrong."""

import random
import sys

import reference as ref


def main(path):
    g = ref.Geometry(128, 40, 8, 24, 60)
    rng, image = random.Random(1), ref.Image(g, b"\xff" * (g.rows * g.page))
    ref.format_image(image)
    sequence = 1 + max(x.sequence for x in image.records if x is not None)
    rows = [row for row in range(g.rows) if image.erased[row]]
    for place, number in enumerate([*range(g.sectors), *rng.sample(range(g.sectors), 20)]):
        image.put(rows[place], ref.Record(1, number, sequence + place, 0), rng.randbytes(g.data))
    raw = bytearray(image.raw())
    for row in (rows[5], rows[40]):
        raw[row * g.page + rng.randrange(g.page)] ^= 1 << rng.randrange(8)
    with open(path, "wb") as out:
        out.write(raw)


if __name__ == "__main__":
    main(sys.argv[1])
