#!/usr/bin/env python3
"""Holds nandctl against the independent reference, on images and certificates of pseudorandom making.

    [PROGRAM=..] bench/compare.py [COMMANDS] [CASES] [SEED]

COMMANDS is a list like `sector,show,format,mount,check,migrate`. Every output, refusal, exit status and written file is compared."""

import random
import struct
import subprocess
import sys
import tempfile
from collections import Counter
from pathlib import Path

import reference as ref
from program import PROGRAM

GEOMETRIES = [(64, 32, 8, 32, 32), (64, 32, 8, 24, 32), (64, 40, 4, 12, 1), (64, 39, 4, 40, 50), (128, 64, 8, 32, 70), (64, 40, 8, 32, 32)]


def run(words, folder):
    done = subprocess.run([PROGRAM, *words], cwd=folder, capture_output=True, stdin=subprocess.DEVNULL)
    return done.returncode, done.stdout, done.stderr


def expected(answer):
    """What the program has to print and answer where the reference answers this, or is refused."""
    try:
        return 0, answer().encode(), b""
    except ref.Refused as refused:
        return 1, b"", refused.line.encode()


def fresh(rng, g):
    image = ref.Image(g, b"\xff" * (g.rows * g.page))
    for block in rng.sample(range(g.blocks), rng.choice([0, 0, 1, 2, g.blocks - g.need, g.blocks - g.need + 1])):
        row = block * g.pages + rng.choice([0, g.pages - 1])
        spare = bytearray(image.spare[row])
        spare[rng.randrange(g.spare)] = 0
        spoil(image, row, image.data[row], bytes(spare))
    return image


def spoil(image, row, data, spare):
    image.data[row], image.spare[row] = data, spare
    image.records[row] = ref.record_of(data, spare)
    image.erased[row] = data + spare == b"\xff" * image.g.page


def record(rng, g, sequence):
    kind = rng.choice([1, 1, 1, 2, 3, 4]) if rng.random() < 0.4 else rng.choice([1, 1, 2])
    limit = {1: g.sectors, 2: g.sectors, 3: g.translation, 4: g.tables}[kind]
    number = limit if rng.random() < 0.01 else rng.randrange(limit)
    return ref.Record(kind, number, sequence, rng.choice([0, 0, 1, 7, ref.MOST_WEAR, ref.MOST_WEAR + 1]))


def data_for(rng, g, kind):
    if kind == 3:
        return b"".join(struct.pack("<I", rng.choice([ref.NONE, rng.randrange(g.rows)])) for _ in range(g.entries))
    return bytes([rng.randrange(256)]) * g.data


def fill(rng, image):
    """Programs blocks in order, as a device would and sometimes as it would not."""
    g = image.g
    sequence = 1 + max([x.sequence for x in image.records if x is not None], default=0)
    for block in rng.sample(range(g.blocks), rng.randrange(1, g.blocks)):
        for page in range(rng.choice([0, 1, g.pages // 2, g.pages])):
            row = block * g.pages + page
            if not image.erased[row] or rng.random() < 0.01:
                continue
            made = record(rng, g, sequence)
            if made.kind == 4 and image.newest("table", made.number) is not None and rng.random() < 0.9:
                data = image.data[image.newest("table", made.number)]
            else:
                data = data_for(rng, g, made.kind)
            image.put(row, made, data, rng.choice([None, 1]))
            sequence += 0 if rng.random() < 0.003 else rng.choice([1, 1, 1, 3])
    if rng.random() < 0.05:
        row = rng.randrange(g.rows)
        image.put(row, record(rng, g, 2**64 - rng.choice([1, 2, 3])), data_for(rng, g, 1), rng.choice([None, 1]))
    for _ in range(rng.choice([0, 0, 1, 3])):
        row = rng.randrange(g.rows)
        spare = bytearray(image.spare[row])
        spare[rng.randrange(g.spare)] ^= 1 << rng.randrange(8)
        spoil(image, row, image.data[row], bytes(spare))


def tables_of(rng, image):
    """A table as format writes it; now and then without it, or with a wrong word."""
    try:
        ref.format_image(image, rng.choice([0, 0, 0, 1, 2]))
    except ref.Refused:
        return
    if rng.random() < 0.1:
        u = rng.randrange(image.g.tables)
        row = image.newest("table", u)
        data = bytearray(image.data[row])
        data[4 * rng.randrange(image.g.entries)] = rng.choice([1, 2, 3, 255])
        image.put(row, image.records[row], bytes(data))


def spoiled_certificate(rng, g, raw):
    raw = bytearray(raw)
    kind = rng.randrange(6)
    if kind == 0:
        return bytes(raw[: rng.randrange(len(raw))])
    if kind == 1:
        return bytes(raw) + b"\0"
    if kind == 2:
        raw[rng.randrange(len(raw))] ^= 1 << rng.randrange(8)
    if kind >= 3:
        for _ in range(rng.choice([1, 1, 2])):
            at = rng.randrange(32, len(raw))
            raw[at] = rng.choice([0, 1, 2, 3, 4, 5, 255])
    return bytes(raw)


class Comparison:
    def __init__(self, folder, rng):
        self.folder, self.rng, self.compared = Path(folder), rng, 0
        self.ran = Counter()

    def count(self, how):
        """Of the migrations that ran: how they ended."""
        self.ran[how] += 1

    def same(self, want, words, files=()):
        got = run(words, self.folder)
        if got != want:
            raise SystemExit(f"{words}\n  wanted {want}\n  got    {got}\n  files in {self.folder}")
        for name, content in files:
            if (self.folder / name).read_bytes() != content:
                raise SystemExit(f"{words}: {name} differs, files in {self.folder}")
        self.compared += 1

    def sector(self, g, image):
        for n in self.rng.sample(range(g.sectors + 2), min(4, g.sectors)):
            def answer():
                return ref.sector(image, n).hex() + "\n"
            self.same(expected(answer), ["sector", g.words(), "image.bin", str(n)])

    def show(self, g, image):
        for row in self.rng.sample(range(g.rows + 1), 4):
            self.same(expected(lambda: ref.show(image, row)), ["show", g.words(), "image.bin", str(row)])

    def format(self, g, image):
        copy = ref.Image(g, image.raw())
        want = expected(lambda: f"good {ref.format_image(copy)}\n")
        (self.folder / "out.bin").write_bytes(b"before")
        stored = copy.raw() if want[0] == 0 else b"before"
        self.same(want, ["format", g.words(), "image.bin", "out.bin"], [("out.bin", stored)])

    def mount(self, g, image):
        capacity = self.rng.choice([1, 4, g.sectors, g.sectors])
        made = []

        def answer():
            raw, line = ref.mount(image, capacity)
            made.append(raw)
            return line

        want = expected(answer)
        (self.folder / "cert.bin").write_bytes(b"before")
        stored = made[0] if made else b"before"
        self.same(want, ["mount", g.words(), str(capacity), "image.bin", "cert.bin"], [("cert.bin", stored)])

    def certificate(self, g, image, capacity):
        try:
            return ref.certificate_bytes(g, capacity, ref.Shown(image))
        except (ref.Unformatted, ref.Damaged, struct.error, ValueError):
            blank = ref.Image(g, b"\xff" * (g.rows * g.page))
            ref.format_image(blank)
            return ref.certificate_bytes(g, capacity, ref.Shown(blank))

    def check(self, g, image):
        capacity = self.rng.choice([g.sectors, 4])
        raw = self.certificate(g, image, capacity)
        for spoil_it in (False, True, True):
            cert = spoiled_certificate(self.rng, g, raw) if spoil_it else raw
            (self.folder / "cert.bin").write_bytes(cert)
            asked = capacity if self.rng.random() < 0.95 else capacity + 1
            want = expected(lambda: ref.check(image, asked, ref.Certificate(cert)))
            self.same(want, ["check", g.words(), str(asked), "image.bin", "cert.bin"])

    def migrate(self, g, image):
        capacity = self.rng.choice([g.sectors, g.sectors, 4])
        raw = self.certificate(g, image, capacity)
        cert = spoiled_certificate(self.rng, g, raw) if self.rng.random() < 0.1 else raw
        (self.folder / "cert.bin").write_bytes(cert)
        stored = b"before"
        (self.folder / "out.bin").write_bytes(stored)
        try:
            stored, line, refused = ref.migrate(image, capacity, ref.Certificate(cert))
            want = (0, line.encode(), b"") if refused is None else (1, b"", refused.line.encode())
            self.count("migrated" if refused is None else refused.line.split()[3])
        except ref.Refused as early:
            want = (1, b"", early.line.encode())
        words = ["migrate", g.words(), str(capacity), "image.bin", "cert.bin", "out.bin"]
        self.same(want, words, [("out.bin", stored)])


def main():
    commands = (sys.argv[1] if len(sys.argv) > 1 else "sector").split(",")
    cases = int(sys.argv[2]) if len(sys.argv) > 2 else 200
    rng = random.Random(int(sys.argv[3]) if len(sys.argv) > 3 else 1)
    folder = tempfile.mkdtemp(prefix="compare-")
    comparison = Comparison(folder, rng)
    for _ in range(cases):
        g = ref.Geometry(*rng.choice(GEOMETRIES))
        image = fresh(rng, g)
        if "format" in commands:
            (comparison.folder / "image.bin").write_bytes(image.raw())
            comparison.format(g, image)
        tables_of(rng, image)
        fill(rng, image)
        (comparison.folder / "image.bin").write_bytes(image.raw())
        for command in commands:
            getattr(comparison, command)(g, image)
    ran = "".join(f", {how} {times}" for how, times in sorted(comparison.ran.items()))
    print(f"{comparison.compared} answers compared, all the same{ran}")


if __name__ == "__main__":
    main()
