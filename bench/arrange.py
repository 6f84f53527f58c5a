#!/usr/bin/env python3
"""Holds `nandlab arrange` against dumps that are put into each arrangement here: it has to give the dump back, to the byte; with `--time`, times it on
264 MiB beside `sha256sum`.

    [LAB=..] bench/arrange.py [CASES] [SEED]
    [LAB=..] bench/arrange.py --time

LAB is the program, as of lab.py."""

import collections
import random
import sys
import tempfile
from pathlib import Path

import lab
import measure
import reference as ref

# how often each word was told
TOLD = collections.Counter()


def put(g, raw, told):
    """The bytes of these pages, arranged as is told, without a header or anything behind them."""
    pages = [raw[row * g.page : (row + 1) * g.page] for row in range(g.rows)]
    if "planes" in told:
        blocks = [pages[first : first + g.pages] for first in range(0, g.rows, g.pages)]
        pages = [page for even, odd in zip(blocks[::2], blocks[1::2]) for pair in zip(even, odd) for page in pair]
    count = {"block": g.pages, "die": g.rows}.get(told.get("spares"), 1)
    made = []
    for first in range(0, g.rows, count):
        run = pages[first : first + count]
        areas = [[x for page in run for x in page[: g.data]], [x for page in run for x in page[g.data :]]]
        for area in areas[::-1] if "spare-first" in told else areas:
            made += area
    if "swapped" in told:
        made[::2], made[1::2] = made[1::2], made[::2]
    return made


def some_words(rng, g, size):
    """What some words tell, each a value or None."""
    told = {}
    if rng.random() < 0.5:
        told["header"] = rng.choice([0, 1, 7, 16, 512, rng.randrange(5000)])
    if rng.random() < 0.4:
        told["tail"] = rng.choice([0, 1, 512, rng.randrange(5000)])
    elif rng.random() < 0.3:
        told["cut"] = rng.choice([0, 1, g.page, rng.randrange(size), size])
    if rng.random() < 0.6:
        told["spares"] = rng.choice(["block", "die"])
    for flag in ["spare-first", "swapped", "inverted"]:
        if rng.random() < 0.4:
            told[flag] = None
    if g.blocks % 2 == 0 and rng.random() < 0.4:
        told["planes"] = 2
    return told


def text_of(rng, told):
    words = [name if value is None else f"{name}={value}" for name, value in told.items()]
    rng.shuffle(words)
    return ",".join(words)


def case(rng, folder):
    g, image = lab.dump_for(rng)
    raw = image.raw()
    told = some_words(rng, g, len(raw))
    TOLD.update(list(told) or ["none"])
    # where each byte of the dump stands: where it was cut off, it is a 00h byte
    places, left = put(g, range(len(raw)), told), len(raw) - told.get("cut", 0)
    want = bytearray(len(raw))
    dump = bytearray()
    for place in places[:left]:
        want[place] = raw[place]
        dump.append(raw[place] ^ 0xFF if "inverted" in told else raw[place])
    dump = rng.randbytes(told.get("header", 0)) + dump + rng.randbytes(told.get("tail", 0))
    answer = (0, f"arranged {g.rows}\n", "")
    if rng.random() < 0.1:
        wanted = len(dump)
        dump = rng.choice([dump[:-1], dump + b"\0", b""])
        if len(dump) != wanted:
            answer = (1, "", f"refused arrange 1 WrongLength wanted {wanted} found {len(dump)}\n")
    (folder / "dump.bin").write_bytes(dump)
    asked = ["--from", text_of(rng, told)] if told else []
    lab.stored(rng, folder, ["arrange", g.words(), "dump.bin", "out.bin", *asked], answer, bytes(want))


def refusals(folder):
    (folder / "dump.bin").write_bytes(b"x")
    shape = "64,32,8,32,32"
    for words, want in [
        ([shape, "dump.bin", "out.bin", "--from", ""], (2, "", "usage: bad arrangement \n")),
        ([shape, "dump.bin", "out.bin", "--from", "swap"], (2, "", "usage: bad arrangement swap\n")),
        ([shape, "dump.bin", "out.bin", "--from", "swapped,"], (2, "", "usage: bad arrangement \n")),
        ([shape, "dump.bin", "out.bin", "--from", "swapped,inverted,swapped,x"], (2, "", "usage: bad arrangement swapped\n")),
        ([shape, "dump.bin", "out.bin", "--from", "spares=page"], (2, "", "usage: bad arrangement spares=page\n")),
        ([shape, "dump.bin", "out.bin", "--from", "planes=3"], (2, "", "usage: bad arrangement planes=3\n")),
        ([shape, "dump.bin", "out.bin", "--from", "header=4294967296"], (2, "", "usage: bad arrangement header=4294967296\n")),
        ([shape, "dump.bin", "out.bin", "--from", "header=1,header=1"], (2, "", "usage: bad arrangement header=1\n")),
        ([shape, "dump.bin", "out.bin", "--from", "tail=1,cut=1"], (2, "", "usage: bad arrangement cut=1\n")),
        ([shape, "dump.bin", "out.bin", "--from", " swapped\n"], (2, "", "usage: bad arrangement  swapped\\x0a\n")),
        (["64,32,8,32", "dump.bin", "out.bin"], (2, "", "usage: bad number 64,32,8,32\n")),
        (["64,32,8,31,32", "dump.bin", "out.bin", "--from", "planes=2"], (1, "", "refused arrange 2 OddBlocks\n")),
        ([shape, "dump.bin", "out.bin", "--from", "cut=24577"], (1, "", "refused arrange 3 CutRange\n")),
        ([shape, "dump.bin", "out.bin"], (1, "", "refused arrange 1 WrongLength wanted 24576 found 1\n")),
        ([shape, "dump.bin", "./dump.bin", "--force"], (1, "", "refused out 1 IsDump\n")),
        ([shape, "none.bin", "out.bin"], lab.failed("fault read none.bin")),
        ([shape, "dump.bin", "none/out.bin"], lab.failed("fault write none/out.bin")),
        ([shape, "dump.bin"], (2, "", lab.NONE)),
    ]:
        answer = lab.run(["arrange", *words], folder)
        assert answer == want, (words, answer, want)
    assert lab.left_in(folder, "dump.bin") == {}
    lab.clear(folder)


def times(folder):
    g = ref.Geometry(2048, 64, 64, 2048, 20000)
    size = g.rows * g.page
    rng = random.Random(1)
    with open(folder / "dump.bin", "wb") as out:
        for _ in range(0, size, 1 << 20):
            out.write(rng.randbytes(1 << 20))
        out.truncate(size)
    hashed = lab.spent(["sha256sum", str(folder / "dump.bin")], folder)
    print(f"{size} bytes: sha256sum {hashed:.3f} s")
    for text in ["inverted", "spares=die", "spares=block,spare-first", "swapped", "planes=2", "spares=die,swapped,inverted,planes=2"]:
        words = [lab.LAB, "arrange", g.words(), "dump.bin", "out.bin", "--force", "--from", text]
        made = lab.spent(words, folder)
        print(f"arrange --from {text} {made:.3f} s, {made / hashed:.2f} times")
    words = [lab.LAB, "arrange", g.words(), str(folder / "dump.bin"), str(folder / "out.bin"), "--force", "--from", "spares=die"]
    print(f"{measure.run(words)[1]} KiB")


def main():
    with tempfile.TemporaryDirectory() as name:
        folder = Path(name)
        if sys.argv[1:] == ["--time"]:
            return times(folder)
        cases, seed = (int(x) for x in (sys.argv[1:] + ["300", "1"][len(sys.argv) - 1 :])[:2])
        refusals(folder)
        for i in range(cases):
            case(random.Random(f"arrange {seed}.{i}"), folder)
        every = {"none", "header", "tail", "cut", "spares", "spare-first", "swapped", "inverted", "planes"}
        assert cases < 100 or set(TOLD) == every, TOLD
        print(f"{cases} arranged dumps came back to the byte, and the refusals; told {dict(TOLD)}")


if __name__ == "__main__":
    main()
