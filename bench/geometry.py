#!/usr/bin/env python3
"""Holds the geometries that `nandlab geometry` tells, as the dump stands and with codes, against the independent reference, on dumps of pseudorandom
making, of more shapes than those of lab.py; with `--time`, times it on dumps of 264 MiB and of 66 MiB beside `sha256sum`, in several arrangements.

    [LAB=..] bench/geometry.py [CASES] [SEED]
    [LAB=..] bench/geometry.py --time

LAB is the program, as of lab.py. It is counted in how many dumps the dump's own geometry comes first."""

import collections
import random
import subprocess
import sys
import tempfile
from pathlib import Path

import arrange
import arrangements
import compare
import lab
import measure
import reference as ref

# Others than those of compare.py: of sizes that many areas divide.
MORE = [(64, 128, 8, 48, 40), (64, 64, 16, 64, 300), (128, 32, 16, 20, 100), (256, 64, 8, 30, 90), (512, 128, 16, 36, 200)]


# of dumps in another arrangement: for how many one is told, and how many come back as they were
ARRANGED = collections.Counter()


def dump_for(rng):
    g = ref.Geometry(*rng.choice(compare.GEOMETRIES + MORE))
    image = ref.Image(g, b"\xff" * (g.rows * g.page))
    if rng.random() < 0.8:
        compare.tables_of(rng, image)
    if rng.random() < 0.8:
        compare.fill(rng, image)
    for _ in range(rng.choice([0, 0, 10, g.rows // 4])):
        row = rng.randrange(g.rows)
        compare.spoil(image, row, rng.randbytes(g.data), image.spare[row])
    return g, image


def has_table(image):
    """Whether each table page has a sound page, and each such page is well formed."""
    g = image.g
    rows = [row for row, record in enumerate(image.records) if record is not None and record.kind == 4]
    words = [(image.records[row].number * g.entries + i, image.data[row][4 * i : 4 * i + 4]) for row in rows for i in range(g.entries)]
    formed = all(word[0] < 3 if block < g.blocks else word == b"\xff" * 4 for block, word in words)
    return formed and {image.records[row].number for row in rows} == set(range(g.tables))


def cut_case(rng, folder, g, raw):
    """The dump without a part of its last block."""
    lacks = rng.randrange(1, g.pages * g.page)
    return arranged(folder, raw[:-lacks], raw[:-lacks] + bytes(lacks))


def arranged_case(rng, folder, g, raw):
    """The dump in another arrangement."""
    told = dict(rng.choice([order for order in arrangements.orders() if g.blocks % 2 == 0 or "planes" not in order]))
    sizes = {name: rng.choice(arrangements.AROUND) for name in rng.choice([[], ["header"], ["tail"]])}
    made = bytes(arrange.put(g, raw, told))
    made = made.translate(bytes(range(255, -1, -1))) if "inverted" in told else made
    made = rng.randbytes(sizes.get("header", 0)) + made + rng.randbytes(sizes.get("tail", 0))
    return arranged(folder, made, raw)


def arranged(folder, made, raw):
    """What is told of a dump makes pages in order of it again, to the byte where its own geometry and arrangement are told. Of how many that is so is
    counted."""
    lab.expect_fits(folder, made)
    found = None if ref.geometries(made) else arrangements.best(made)
    ARRANGED["told" if found else "none"] += 1
    if found:
        numbers, rows = ",".join(map(str, found[0][0])), found[0][0][2] * found[0][0][3]
        (folder / "dump.bin").write_bytes(made)
        assert lab.run(["arrange", numbers, "dump.bin", "out.bin", "--from", found[1]], folder) == (0, f"arranged {rows}\n", "")
        ARRANGED["own"] += (folder / "out.bin").read_bytes() == raw
    lab.clear(folder)
    return None


def case(rng, folder):
    """Whether the dump's own geometry comes first, and whether it has a whole table of blocks; none where no page is sound."""
    g, image = dump_for(rng)
    raw, page = image.raw(), g.page
    if coded := rng.random() < 0.5:
        # as on a chip, with codes and wrong bits
        raw = lab.spoiled(rng, g, raw)
        page = len(raw) // g.rows
    elif rng.random() < 0.3:
        return rng.choice([arranged_case, arranged_case, cut_case])(rng, folder, g, raw)
    if rng.random() < 0.1:
        raw = raw[: rng.randrange(len(raw))]
    want = lab.expect_fits(folder, raw)
    if not want or len(raw) != g.rows * page or all(record is None for record in image.records):
        return None
    return want[0][:2] == (coded, f"{g.data},{g.spare},{g.pages},{g.blocks}"), has_table(image)


def large_dump(path, g):
    """A table, and then three pages of four a sector's, one in eight of them with a bad seal."""
    rng = random.Random(1)
    with open(path, "wb") as out:
        for row in range(g.rows):
            body = rng.randbytes(g.data)
            made = ref.Record(1, rng.randrange(g.sectors), row + 1, 1)
            if row < g.tables:
                words = [0 if row * g.entries + i < g.blocks else ref.NONE for i in range(g.entries)]
                body = b"".join(word.to_bytes(4, "little") for word in words)
                made = ref.Record(4, row, row + 1, 0)
            spare = ref.spare_of(g, made, body)
            if row >= g.pages and row // g.pages % 4 == 3:
                body, spare = b"\xff" * g.data, b"\xff" * g.spare
            elif row >= g.pages and row % 8 == 0:
                spare = spare[:30] + bytes([spare[30] ^ 1]) + spare[31:]
            out.write(body + spare)


def timed(path):
    for words in [["sha256sum", str(path)], [lab.LAB, "geometry", str(path)]]:
        seconds, memory = measure.least(3, words)
        print(f"{Path(words[0]).name:15} {seconds:7.3f} s {memory:8} KiB")
    found = subprocess.run([lab.LAB, "geometry", str(path)], stdout=subprocess.PIPE, stderr=subprocess.STDOUT)
    print(found.stdout.decode(), end="")


def swapped(raw):
    out = bytearray(raw)
    out[0::2], out[1::2] = raw[1::2], raw[0::2]
    return bytes(out)


def spares_last(g, raw):
    pages = range(0, len(raw), g.page)
    return b"".join(raw[at : at + g.data] for at in pages) + b"".join(raw[at + g.data : at + g.page] for at in pages)


def orders_of(g, raw):
    """The dump in other arrangements, and one that nothing fits."""
    yield "inverted", raw.translate(bytes(range(255, -1, -1)))
    yield "swapped", swapped(raw)
    yield "with a header of 512 bytes", b"\0" * 512 + raw
    yield "spare areas of the die together", spares_last(g, raw)
    yield "cut by 1000 bytes", raw[:-1000]
    yield "FFh bytes alone", b"\xff" * len(raw)


def times(folder):
    path = folder / "dump.bin"
    for numbers in [(2048, 64, 64, 2048, 100000), (2048, 64, 64, 512, 20000)]:
        g = ref.Geometry(*numbers)
        large_dump(path, g)
        print(f"dump: {g.words()}, {path.stat().st_size} bytes")
        timed(path)
        for order, raw in orders_of(g, path.read_bytes()):
            path.write_bytes(raw)
            print(f"the same, {order}:")
            timed(path)
    # the last size once more, as a chip's dump with codes and a wrong bit in each page
    g = ref.Geometry(2048, 37, 64, 512, 20000)
    large_dump(path, g)
    dump, size = lab.on_chip(g, path.read_bytes())
    for row in range(g.rows):
        dump[row * size + row % size] ^= 1 << row % 8
    path.write_bytes(dump)
    print(f"dump with codes: {g.words()}, {path.stat().st_size} bytes")
    timed(path)


def main():
    with tempfile.TemporaryDirectory() as name:
        folder = Path(name)
        if sys.argv[1:] == ["--time"]:
            return times(folder)
        cases, seed = (int(x) for x in (sys.argv[1:] + ["100", "1"][len(sys.argv) - 1 :])[:2])
        told = [answer for i in range(cases) if (answer := case(random.Random(f"geometry {seed}.{i}"), folder))]
        whole = [first for first, has_whole in told if has_whole]
        print(f"{cases} dumps as the reference. The own geometry is first in {sum(first for first, _ in told)} of {len(told)} with a sound page,")
        print(f"and in {sum(whole)} of {len(whole)} with a whole table of blocks. In other arrangements: {dict(ARRANGED)}")


if __name__ == "__main__":
    main()
