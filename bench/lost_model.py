#!/usr/bin/env python3
"""Damages dies of `device_model.py`, and holds which sectors are told as lost to what each sector reads as.

Usage: lost_model.py [SEED]

Three shapes. Of each a device writes, trims and turns at random and is flushed: the sequence that is next then is the mark. Its pages are lost one at a time, each one that the die has, and runs
of them, as a hole of a file takes them; and it goes on unflushed, is stopped anywhere, and loses pages then. The criterion is written here from docs/DISK.md alone, and shares no code with the
crates: a sector is lost whose newest translation page, of a sequence below the mark, names a row in which its newest page does not stand, where that is older than the translation page, or where
it has none.

It ends with status 1 where a page is lost of a flushed die and a sector that reads otherwise is not told; where one is told that is not to be; or where one is told of a die that was never damaged."""

import random
import sys

import device_model as model

SHAPES = ((64, 6, 90, 200), (128, 8, 80, 230), (256, 16, 60, 300))


def lost_sectors(die, mark):
    g = die.g
    newest = die.newest()
    lost = set()
    for n in range(g.L):
        at = newest.get((model.TRANSLATION, n // g.E))
        if at is None or die.rows[at].sequence >= mark:
            continue
        named, place = die.rows[at].body[n % g.E], newest.get((model.SECTOR, n))
        if named is not None and named != place and (place is None or die.rows[place].sequence < die.rows[at].sequence):
            lost.add(n)
    return lost


def array_of(die):
    newest = die.newest()
    return [None if (row := newest.get((model.SECTOR, n))) is None or die.rows[row].kind == model.TRIM else die.rows[row].body for n in range(die.g.L)]


class Draws:
    """A device that is used at random; each write has a value of its own."""

    def __init__(self, shape, draw):
        data, pages, blocks, sectors = shape
        self.draw, self.value = draw, 0
        self.device, _ = model.formatted(model.Geometry(data, 40, pages, blocks, sectors), 24)

    def use(self, count):
        for _ in range(count):
            self.value += 1
            n = self.draw.randrange(self.device.g.L) if self.draw.randrange(2) else self.draw.randrange(20)
            what = self.draw.randrange(10)
            if what == 0:
                self.device.trim(n)
            elif what == 1:
                self.device.turn()
            elif what == 2:
                self.device.read(n)
            else:
                self.device.write(n, self.value)


class Lost:
    """The die while some of its rows are lost."""

    def __init__(self, die, rows):
        self.die, self.was = die, {row: die.rows[row] for row in rows}

    def __enter__(self):
        for row in self.was:
            self.die.rows[row] = model.TORN

    def __exit__(self, *_):
        for row, page in self.was.items():
            self.die.rows[row] = page


class Tally:
    def __init__(self):
        self.pages = self.told = self.spare = self.silent = 0

    def held(self, die, mark, before, rows):
        """Takes these rows; which sectors read otherwise and are told, told though they read the same, and read otherwise untold."""
        was = die.newest()
        with Lost(die, rows):
            told, now = lost_sectors(die, mark), array_of(die)
        hit = {key[1] for key, row in was.items() if key[0] == model.SECTOR and row in rows}
        self.pages += len(rows)
        self.told += len(told & hit)
        self.spare += len(told - hit)
        silent = {n for n in range(die.g.L) if now[n] != before[n]} - told
        self.silent += len(silent)
        return silent, told - hit


def one_shape(shape, seed, failures):
    drawn = Draws(shape, random.Random(seed))
    device = drawn.device
    die = device.die
    single, holes, stopped, later = Tally(), Tally(), 0, Tally()
    for _ in range(6):
        drawn.use(400)
        assert device.flush() == "Done"
        mark, before = device.next, array_of(die)
        if lost_sectors(die, mark):
            failures.append("told of a flushed die")
        newest = die.newest()
        for row, page in enumerate(die.rows):
            if page in (None, model.TORN):
                continue
            silent, spare = single.held(die, mark, before, {row})
            if silent:
                failures.append(f"silent {silent} row {row} {page}")
            if spare and page.kind != model.TRANSLATION:
                failures.append(f"told {spare} row {row} {page}")
        for _ in range(40):
            long = drawn.draw.choice((2, 8, 30, 80))
            first = drawn.draw.randrange(len(die.rows) - long)
            holes.held(die, mark, before, set(range(first, first + long)))
        for _ in range(60):
            drawn.use(5)
            if lost_sectors(die, mark):
                failures.append("told of a die that was stopped")
            stopped += 1
            row = drawn.draw.randrange(len(die.rows))
            if die.rows[row] not in (None, model.TORN):
                later.held(die, mark, array_of(die), {row})
    print(f"{shape}: {single.pages} pages one at a time: {single.told} sectors told, {single.spare} told that read the same, {single.silent} silent")
    print(f"  holes, {holes.pages} pages: {holes.told} told, {holes.spare} told that read the same, {holes.silent} silent")
    print(f"  stopped {stopped} times, none told; then {later.pages} pages one at a time: {later.told} told, {later.spare} that read the same, {later.silent} silent")


def main():
    seed = int(sys.argv[1]) if len(sys.argv) > 1 else 1
    failures = []
    for shape in SHAPES:
        one_shape(shape, seed, failures)
    for failure in failures[:20]:
        print("FAILED", failure)
    sys.exit(1 if failures else 0)


main()
