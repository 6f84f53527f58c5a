#!/usr/bin/env python3
"""Makes dumps of dies as a laboratory gets them, independently of the crates: of several shapes, read once to three times, with bits wrong.

    make_dumps.py FOLDER [DIES]

FOLDER/DIE.READING.bin are the readings, and FOLDER/truth/DIE.img is the array of each die as it was before the bits went wrong. Of a die that
was read three times each reading has its own wrong bits, and one page in each of them. Every eighth die lost whole pages, every fifteenth is no die at
all. Of every tenth die the readings stand in another arrangement, of every tenth they are a chip's, with codes, and of every tenth the pages of two planes
stand in turns, or the end is missing."""

import random
import sys
from pathlib import Path

sys.path.insert(0, str(Path(__file__).resolve().parent.parent.parent / "bench"))
import arrange
import lab
import reference as ref

SHAPES = [(128, 40, 8, 24, 40), (256, 64, 16, 32, 200), (512, 48, 8, 40, 140), (512, 32, 32, 24, 250)]

# how a reader gave the dumps of a die that do not stand in order
ORDERS = [{"spares": "block"}, {"spares": "die", "inverted": None}, {"spare-first": None, "swapped": None}, {"planes": 2}]


def die(rng, shape):
    """A formatted die with two bad blocks, most of its sectors written, some of them twice, some trimmed."""
    g = ref.Geometry(*shape)
    raw = bytearray(b"\xff" * (g.rows * g.page))
    for block in rng.sample(range(1, g.blocks), 2):
        raw[block * g.pages * g.page + g.data] = 0
    image = ref.Image(g, bytes(raw))
    ref.format_image(image)
    sequence = 1 + max(record.sequence for record in image.records if record is not None)
    bad = [block for block in range(g.blocks) if ref.is_marked(image, block)]
    rows = [row for row in range(g.rows) if image.erased[row] and row // g.pages not in bad]
    written = rng.sample(range(g.sectors), g.sectors * 4 // 5)
    numbers = written + rng.sample(written, min(len(written) // 3, len(rows) - len(written) - 8))
    for place, number in enumerate(numbers):
        kind = 2 if place >= len(written) and rng.random() < 0.2 else 1
        image.put(rows[place], ref.Record(kind, number, sequence + place, 0), rng.randbytes(g.data) if kind == 1 else bytes(g.data))
    return g, image, rows[: len(numbers)]


def turn(rng, read, g, row, bits):
    for bit in rng.sample(range(8 * g.page), bits):
        read[row * g.page + bit // 8] ^= 1 << bit % 8


def spoiled(rng, g, raw, rows, lost, each):
    """One reading: single bits wrong in some pages, several in a few, two in one that each reading has wrong, whole pages lost."""
    read = bytearray(raw)
    turn(rng, read, g, each, 2)
    for row in rng.sample(rows, max(1, len(rows) // 40)):
        for _ in range(rng.choice([1, 1, 1, 3])):
            read[row * g.page + rng.randrange(g.page)] ^= 1 << rng.randrange(8)
    for row in lost:
        read[row * g.page : row * g.page + g.page // 2] = bytes(g.page // 2)
    return read


def as_read(g, raw, number):
    """The reading as the reader gave it: most in order, some in another arrangement, some of a chip with codes, some without the end."""
    if number % 10 == 6:
        return lab.on_chip(g, bytes(raw))[0]
    if number % 20 == 18:
        return raw[: -random.Random(number).randrange(1, g.pages * g.page)]
    if number % 20 == 8:
        return bytes(raw[place] for place in arrange.put(g, range(len(raw)), {"planes": 2}))
    if number % 10 != 3:
        return raw
    told = ORDERS[number // 10 % len(ORDERS)]
    placed = bytes(raw[place] for place in arrange.put(g, range(len(raw)), told))
    return bytes(byte ^ 0xFF for byte in placed) if "inverted" in told else placed


def main(folder, dies):
    folder = Path(folder)
    (folder / "truth").mkdir(parents=True, exist_ok=True)
    for number in range(dies):
        rng, name = random.Random(number), f"die{number:03}"
        if number % 15 == 14:
            (folder / f"{name}.a.bin").write_bytes(rng.randbytes(60000))
            continue
        g, image, rows = die(rng, rng.choice(SHAPES))
        (folder / "truth" / f"{name}.img").write_bytes(b"".join(ref.sector(image, n) for n in range(g.sectors)))
        lost, each = rng.sample(rows, 3) if number % 8 == 7 else [], rng.choice(rows)
        for reading in "abc"[: rng.choice([1, 2, 3, 3])]:
            read = spoiled(rng, g, image.raw(), rows, lost, each)
            (folder / f"{name}.{reading}.bin").write_bytes(as_read(g, read, number))


if __name__ == "__main__":
    main(sys.argv[1], int(sys.argv[2]) if len(sys.argv) > 2 else 20)
