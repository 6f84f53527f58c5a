#!/usr/bin/env python3
"""Holds what is said of devices at which moved sectors may wait, by `device_model.py`.

    bench/share_model.py [--planted]

Scripts of commands at shares 0, 1, 3 and 15, beside the plain list of sectors, on dies with no block over: writes that hit each
translation page in turn, random ones, turns between, the failure of each program and erase, restarts with and without a flush,
stops at each change, flushes with the list full, refused memory, the last sequences. Victims are the emptiest blocks, as ever,
or the fullest that are worth it. Each bound is an assertion in `Held`; the script ends with status 1 at the first that is broken.

With --planted the rule is made wrong in ten ways, one at a time, and each has to break a bound.

Here all is held of the model. `device_expected.py` holds the engine's scripts at these shares against it."""

import copy
import random
import sys
from collections import Counter

import sectors as table
from device_model import DATA, FLOOR, MOST_STALE, NO_SEQUENCE, RESERVE, SECTOR, TORN, TRANSLATION, TURN_RESERVE, Device, Die, Geometry, Mounted, format_die

SHARES = (0, 1, 3, 15)
# bytes of data, pages a block, sectors: with more translation pages than a block has pages, and with fewer
SHAPES = ((64, 4, 40), (64, 4, 75), (128, 8, 110), (64, 8, 150), (256, 8, 200), (128, 16, 230), (256, 16, 300))
SHORT = SHAPES[2]


def up(a, b):
    return -(-a // b)


# ---- numbers


def hold_worth(pages, translation, share):
    """`vmax` is the most live pages with which a collection programs fewer pages than the block has."""
    geometry = Geometry(64, 32, pages, 12, 16 * translation)
    vmax = geometry.vmax_at(share)
    cost = lambda live: live + min(translation, up(live, share + 1))
    assert cost(vmax) < pages <= cost(vmax + 1)
    assert share == 0 or vmax >= geometry.vmax_at(share - 1)
    assert share < 2 or geometry.need_at(share) <= geometry.need_at(share - 1)
    assert share or (vmax, geometry.need_at(0)) == (geometry.vmax, geometry.need)


def hold_numbers():
    shares = [*range(20), 62, 63, 126, 127, 253, 254, 255, 4095, MOST_STALE]
    for pages in (4, 8, 16, 32, 64, 128, 256):
        for translation in (1, 2, 3, 7, 8, 15, 31, 32, 63, 64, 127, 128, 254, 255, 256, 4097, 65536):
            for share in shares:
                hold_worth(pages, translation, share)


def hold_capacity():
    """Nine tenths of all pages of each usual die are sectors at share 15."""
    for die in table.USUAL:
        _, _, pages, blocks = die
        assert 10 * table.most(die, blocks, 15) >= 9 * pages * blocks


# ---- a device that holds its bounds


def sectors_in(device, block):
    """The sectors whose newest pages are in a block."""
    g = device.g
    rows = range(block * g.P, block * g.P + device.pointer[block])
    keys = [(device.die.rows[row].key(), row) for row in rows if device.die.rows[row] not in (None, TORN)]
    return {key[1] for key, row in keys if key[0] == SECTOR and device.newest[key] == row}


def left_to_program(device):
    """The pages that are left to program before the pinned block is erased, at most; one less than a block has where none is pinned."""
    g = device.g
    if device.pinned is None:
        return g.P - 1
    touched = {number // g.E for number in sectors_in(device, device.pinned) | set(device.moved)}
    live = device.live[device.pinned]
    due = max(0, up(len(device.moved) + live - device.settled, device.share + 1))
    return live + min(len(touched), due)


class Collection:
    """What the collection of the pinned block has done so far."""

    def __init__(self, moved):
        self.moved, self.copies, self.written, self.flushing = moved, 0, [], False


class Held(Device):
    """A device that holds each bound as it goes, beside the plain list of its sectors."""

    geometry = Geometry

    def __init__(self, die, capacity, share, plain):
        super().__init__(die, capacity, share)
        self.plain, self.programs, self.collection, self.begun_good = plain, 0, None, self.good()

    # ---- a collection

    def put(self, stream, kind, number, body):
        row = super().put(stream, kind, number, body)
        self.programs += 1
        return row

    def pin(self, block):
        super().pin(block)
        assert len(self.moved) <= self.settled
        self.collection = Collection(len(self.moved))

    def step(self, flushing):
        now, programs, left, live, due = self.collection, self.programs, left_to_program(self), self.live[self.pinned], self.lowest_due()
        now.flushing |= flushing
        last = super().step(flushing)
        assert self.programs == programs + (not last)
        if live:
            now.copies += 1
        elif not last:
            now.written.append(due)
        self.hold_step(now, left, last)
        return last

    def hold_step(self, now, left, last):
        if last:
            assert len(self.moved) <= self.settled
            assert now.flushing or now.copies + len(now.written) < self.g.P
        if not now.flushing:
            assert (self.share + 1) * len(now.written) + len(self.moved) <= now.moved + now.copies
            assert len(set(now.written)) == len(now.written)
            assert last or left_to_program(self) < left
            assert last or len(self.moved) <= self.settled + self.vmax - self.live[self.pinned]

    # ---- calls

    def make_room(self, flushing, free=RESERVE):
        """With as many good blocks as are needed for that, so many are free then."""
        super().make_room(flushing, free)
        wanted = self.need - self.flush_blocks + free - RESERVE
        assert self.good() < wanted or self.free() >= free

    def make_flush_room(self):
        super().make_flush_room()
        if self.good() >= self.need and self.begun_good - self.good() <= 2:
            assert self.free() >= RESERVE

    def call(self, body):
        self.begun_good, was_read_only = self.good(), self.read_only
        pinned, collected, left = self.pinned, self.collected, left_to_program(self)
        answer = super().call(body)
        short = was_read_only or self.good() < self.need or self.begun_good - self.good() > 2
        assert short or (answer[0] != "ReadOnly" and self.free() >= FLOOR)
        assert answer[0] != "OutOfMemory" or self.share == 0
        if self.next < NO_SEQUENCE and self.free():
            self.hold_memory()
            if pinned is not None and (self.pinned, self.collected) == (pinned, collected):
                assert left_to_program(self) <= left
        return answer

    def hold_memory(self):
        """What holds between calls; of the sectors a part is looked at each time."""
        assert left_to_program(self) < self.g.P
        assert self.die.abuse == 0 and not self.marked
        passed = self.settled if self.pinned is None else self.settled + self.vmax - self.live[self.pinned]
        assert len(self.moved) <= passed
        for n in range(self.programs % 5, self.g.L, 5):
            assert self.known(n) == self.newest.get((SECTOR, n))
            assert not (n in self.cache and n in self.moved)

    def known(self, n):
        """The row of a sector as the engine finds it: by memory, else by its translation page."""
        if n in self.cache:
            return self.cache[n][0]
        if n in self.moved:
            return self.moved[n]
        at = self.newest.get((TRANSLATION, n // self.g.E))
        return None if at is None else self.die.rows[at].body[n % self.g.E]

    def write(self, n, byte):
        answer = super().write(n, byte)
        if answer == "Done":
            self.plain[n] = byte
        return answer

    def trim(self, n):
        answer = super().trim(n)
        if answer == "Done":
            self.plain[n] = 0
        return answer

    def read(self, n):
        byte = super().read(n)
        assert byte == self.plain[n]
        return byte

    def flush(self):
        answer = super().flush()
        if answer == "Done":
            assert not Mounted(self.die).stale and not self.moved
        return answer


class Harsh(Held):
    """One whose victims are as full as they may be."""

    def victim(self):
        blocks = [b for b in range(self.g.B) if self.is_closed(b) and self.live[b] <= self.vmax]
        return max(blocks, key=lambda b: (self.live[b], b)) if blocks else super().victim()


# ---- dies and scripts


def tight(geometry, shape, share, over=0):
    """The geometry of a shape that has so many blocks more than it needs, and then as many sectors as it can have."""
    data, pages, sectors = shape
    of = lambda blocks, sectors: geometry(data, 40, pages, blocks, sectors)
    blocks = 12
    while of(blocks, sectors).need_at(share) + over > blocks:
        blocks += 1
    while of(blocks, sectors + 1).need_at(share) + over <= blocks:
        sectors += 1
    return of(blocks, sectors)


def room_of(device):
    """For how many stale sectors the die of a device that was not flushed mounts."""
    return min(device.g.L, device.capacity + device.settled + device.g.P)


def filled(kind, shape, share, capacity, over=0, die_of=Die, version=2):
    """A device each of whose sectors is written once, in pages of a version."""
    g = tight(kind.geometry, shape, share, over)
    g.version = version
    die = die_of(g)
    format_die(die, (), share)
    device = kind(die, capacity, share, [0] * g.L)
    for n in range(g.L):
        assert device.write(n, n % 251) == "Done"
    g.version = 2
    return device


def break_at(device, *nths):
    """These programs and erases fail, counted from now."""
    device.die.failing = {device.die.changes + nth for nth in nths}


def in_turn(g, count):
    """Sectors that hit each translation page in turn."""
    for i in range(count):
        t = i % g.T
        yield t * g.E + i // g.T * 7 % min(g.E, g.L - t * g.E)


def drawn(g, count):
    draw = random.Random(count)
    for _ in range(count):
        yield draw.randrange(g.L)


def levelling(device, count):
    """Sectors of the fullest closed blocks: so all come to have about the same number of live pages."""
    g = device.g
    for _ in range(count):
        block = max(filter(device.is_closed, range(g.B)), key=lambda b: (device.live[b], -b))
        yield min(sectors_in(device, block), default=0)


def play(device, sectors, turns=0, flushes=0):
    """Writes, trims and reads of these sectors, so many turns after each, and a flush after so many."""
    for i, n in enumerate(sectors):
        answer = device.trim(n) if i % 11 == 7 else device.write(n, i % 251)
        device.read(n * 5 % device.g.L)
        for _ in range(turns):
            device.turn()
        if flushes and i % flushes == flushes - 1:
            device.flush()
        if answer[0] == "ReadOnly":
            return


def compare(device):
    """The array of the die, as a mount finds it, is the plain list."""
    newest = Mounted(device.die).newest
    for n, byte in enumerate(device.plain):
        row = newest.get((SECTOR, n))
        assert (0 if row is None else device.die.rows[row].body) == byte


def hold_scripts(shape, share, kind=Held):
    """Each kind of writes, with turns and without, with a small cache and a larger one."""
    for order, turns, capacity in ((in_turn, 0, 1), (in_turn, 1, 9), (in_turn, 3, 2), (drawn, 0, 9), (drawn, 1, 1), (drawn, 2, 5)):
        device = filled(kind, shape, share, capacity, over=turns)
        play(device, order(device.g, 250), turns, 90)
        compare(device)


def hold_levelled(shape, share, kind=Held):
    """The blocks are as full as each other, which leaves the least to gain."""
    device = filled(kind, shape, share, 2)
    play(device, levelling(device, 500))
    compare(device)
    assert device.flush() == "Done"


def hold_idle(shape, share, kind=Held):
    """Turns end, and leave room for a flush that collects nothing."""
    device = filled(kind, shape, share, 4, over=3)
    play(device, drawn(device.g, 150))
    changes = None
    while changes != device.die.changes:
        changes = device.die.changes
        device.turn()
    assert device.free() >= TURN_RESERVE + device.flush_blocks
    collected = device.collected
    assert device.flush() == "Done" and device.collected == collected


def hold_failures(shape, share, kind=Held):
    """Each program and erase of a script fails, and with it one that comes a little later."""
    fresh = filled(kind, shape, share, 4, over=2)
    device = copy.deepcopy(fresh)
    play(device, in_turn(device.g, 50), 1, 25)
    for nth in range(1, device.die.changes - fresh.die.changes + 1):
        device = copy.deepcopy(fresh)
        break_at(device, nth, nth + 1 + nth % 5)
        device.die.page_left = nth % 2
        play(device, in_turn(device.g, 50), 1, 25)
        compare(device)
        assert not device.read_only and device.flush() == "Done"


def fill_list(device):
    """Every second sector is cached, and these alone are written, so that no page is written back for a place in the cache,
    until as many of the others wait as may, or nearly. How many did at most."""
    hot, draw, longest = range(0, device.g.L, 2), random.Random(2), 0
    assert device.flush() == "Done"
    for n in hot:
        device.read(n)
    for i in range(3000):
        device.write(draw.choice(hot), i % 251)
        longest = max(longest, len(device.moved))
        if len(device.moved) * 10 >= device.settled * 9 > 0:
            break
    return longest


def hold_full_flushes(shape, share, kind=Held):
    """A flush with the list full, and two failures at many places of it."""
    full = filled(kind, shape, share, shape[2] * 2 // 3, over=2)
    longest = fill_list(full)
    for nth in range(1, 40, 2):
        device = copy.deepcopy(full)
        break_at(device, nth, nth + nth % 4 + 1)
        assert device.flush() == "Done"
        compare(device)
    return longest, full.settled


def hold_restarts(shape, share, kind=Held):
    """Devices that begin where another one ended, without a flush and then with one, at last at a greater share."""
    device = filled(kind, shape, share, 3)
    for life in range(12):
        play(device, drawn(device.g, 50 + life), life % 3, 0)
        stale = len(Mounted(device.die).stale)
        assert stale <= room_of(device)
        device = kind(device.die, room_of(device), share, device.plain)
        compare(device)
        if life % 2:
            assert device.flush() == "Done"
            device = kind(device.die, 3, share, device.plain)
    if share:
        greater = kind(device.die, room_of(device), share * 2 + 1, device.plain)
        play(greater, drawn(device.g, 90), 1, 40)
        compare(greater)


def hold_memory_refused(shape, share, kind=Held):
    """Memory is refused now and then: above share 0 no write answers so."""
    device = filled(kind, shape, share, 20)
    draw, refused = random.Random(share), 0
    for i, n in enumerate(drawn(device.g, 600)):
        device.refuses = draw.randrange(3) == 0
        if i % 100 == 99:
            device.flush()
            device = kind(device.die, 20, share, device.plain)
        refused += device.write(n, i % 251)[0] == "OutOfMemory"
        if i % 2:
            device.turn()
    compare(device)
    assert (refused == 0) == (share > 0)


def hold_last_sequences(shape, share, kind=Held):
    """The sequences end in each place of a script."""
    fresh = filled(kind, shape, share, 3, over=2)
    for nth in range(1, 90):
        device = copy.deepcopy(fresh)
        break_at(device, 5, 6)
        device.refuses = nth % 3 == 0
        device.next = NO_SEQUENCE - nth
        play(device, drawn(device.g, 70), 2, 30)
        compare(device)
        assert len(device.moved) <= device.settled + device.g.P and len(Mounted(device.die).stale) <= room_of(device)


def hold_migrated(shape, share, kind=Held):
    """Each page of version 1 is brought forward, between writes and turns."""
    device, found, i = filled(kind, shape, share, 5, version=1), True, 0
    while found:
        answer, found = device.migrate_one()
        assert answer == "Done"
        device.write(i * 7 % device.g.L, i % 251)
        device.turn()
        i += 1
    assert not any(device.is_due(row) for row in device.newest.values())
    compare(device)


# ---- stops


class Watched(Die):
    """A die that shows each image that a stop may leave to what watches it."""

    watch = None

    def program(self, row, page):
        torn = list(self.rows)
        torn[row] = TORN
        self.show(torn)
        passed = super().program(row, page)
        self.show(self.rows)
        return passed

    def erase(self, block):
        torn = list(self.rows)
        for nth in range(self.g.P):
            torn[block * self.g.P + nth] = (None, TORN, torn[block * self.g.P + nth])[nth % 3]
        self.show(torn)
        passed = super().erase(block)
        self.show(self.rows)
        return passed

    def show(self, rows):
        if self.watch:
            self.watch(rows)


def die_of(g, rows):
    """A die as it is after a stop: what shows as bad is bad."""
    die = Die(g)
    die.rows = list(rows)
    for b in range(g.B):
        pages = rows[b * g.P:(b + 1) * g.P]
        die.next[b] = max((nth + 1 for nth, page in enumerate(pages) if page is not None), default=0)
    die.bad = {b for b, cls in enumerate(Mounted(die).cls) if cls > 3}
    return die


class Stops:
    """Looks at what stops leave: it mounts where room is for what may be stale, with the array from before the call or after it."""

    def __init__(self, device):
        self.device, self.seen, self.stale, self.after = device, 0, 0, {}

    def __call__(self, rows):
        device, g = self.device, self.device.g
        die = die_of(g, rows)
        shown = Mounted(die)
        self.seen, self.stale = self.seen + 1, max(self.stale, len(shown.stale))
        assert len(shown.stale) <= room_of(device)
        for n, byte in enumerate(device.plain):
            row = shown.newest.get((SECTOR, n))
            assert (0 if row is None else rows[row].body) in (byte, self.after.get(n, byte))
        if self.seen % 29 == 0:
            array = [rows[shown.newest[(SECTOR, n)]].body for n in range(g.L)]
            again = type(device)(die, room_of(device), device.share, array)
            assert again.flush() == "Done"
            compare(again)


def hold_stops(shape, share, kind=Held):
    """Stops at each change, while few sectors are written, so that many others wait, and in a flush then."""
    device = filled(kind, shape, share, 4, over=1, die_of=Watched)
    play(device, drawn(device.g, 2 * device.g.L))
    device.die.watch = stops = Stops(device)
    hot = list(device.cache)
    for i in range(200):
        n = i % device.g.L if i % 25 == 24 else hot[i % len(hot)]
        stops.after = {n: i}
        device.write(n, i)
        stops.after = {}
        if i % 3 == 0:
            device.turn()
    assert device.flush() == "Done"
    return stops.stale, room_of(device)


# ---- planted


class VmaxOver(Harsh):
    def __init__(self, *words):
        super().__init__(*words)
        self.vmax += 1


class OneOver(Harsh):
    """The list is let go on past its bound by one."""

    def lowest_due(self):
        return super().lowest_due() if len(self.moved) > self.settled + 1 else None


class Fewest(Harsh):
    """The page is written back for which fewest wait."""

    def lowest_due(self):
        waiting = Counter(n // self.g.E for n in self.moved)
        return min(waiting, key=lambda t: (waiting[t], t)) if len(self.moved) > self.settled else None


class OnceOnly(Harsh):
    """One page is written back in a collection, whatever waits."""

    def lowest_due(self):
        return None if self.collection.written else super().lowest_due()


class LeavesWaiting(Harsh):
    """A flush asks what is dirty, and not what waits."""

    def lacks(self, t):
        return any(entry[1] and n // self.g.E == t for n, entry in self.cache.items())


class FlushWithoutRoom(Harsh):
    """A flush asks for no more room than a call."""

    def __init__(self, *words):
        super().__init__(*words)
        self.flush_blocks = 0


class OffTheList(Harsh):
    """The last sector of a page is taken off the list and not written."""

    def write_back(self, t):
        last = max((n for n in self.moved if n // self.g.E == t), default=None)
        self.moved.pop(last, None)
        super().write_back(t)


class CopiedTables(Harsh):
    """A live translation page of a victim is copied, and what waits for it is taken off the list all the same."""

    def bring_out(self, row, flushing):
        page = self.die.rows[row]
        self.copy(row, flushing)
        if page.kind == TRANSLATION:
            self.moved = {n: at for n, at in self.moved.items() if n // self.g.E != page.number}


class RefusedAfterwards(Harsh):
    """A write without memory answers what its write-back answers, after the sector's page is programmed."""

    def put_uncached(self, n, kind, byte):
        self.moved[n] = self.put(DATA, kind, n, byte)
        self.write_back(n // self.g.E)


class ShortGeometry(Geometry):
    def need_at(self, share):
        return super().need_at(share) - 1


class OneTooFew(Harsh):
    """A block less is said to be needed."""

    geometry = ShortGeometry


PLANTED = (VmaxOver, OneOver, Fewest, OnceOnly, LeavesWaiting, FlushWithoutRoom, OffTheList, CopiedTables, RefusedAfterwards, OneTooFew)


def is_refused(kind, share):
    """Whether the scripts break a bound of a device with a wrong rule."""
    for hold in (hold_levelled, hold_full_flushes, hold_last_sequences, hold_scripts, hold_failures):
        for shape in (SHORT, SHAPES[1], *SHAPES[5:]):
            try:
                hold(shape, share, kind)
            except AssertionError:
                return True
    return False


def hold_planted():
    for kind in PLANTED:
        refused = [share for share in SHARES[1:] if is_refused(kind, share)]
        print(f"{kind.__name__}: refused at shares {refused}", flush=True)
        assert refused


HOLDS = (hold_scripts, hold_levelled, hold_idle, hold_restarts, hold_memory_refused, hold_migrated)


def hold_share(share, kind):
    """All of it. The longest list before a flush, and the most stale sectors at a stop, of the largest shape, each with its bound."""
    for shape in SHAPES:
        for hold in HOLDS:
            hold(shape, share, kind)
        full, stale = hold_full_flushes(shape, share, kind), hold_stops(shape, share, kind)
    hold_failures(SHORT, share, kind)
    hold_last_sequences(SHORT, share, kind)
    return full, stale


def main():
    hold_numbers()
    hold_capacity()
    for share in SHARES:
        for kind in (Held, Harsh):
            (waiting, may), (stale, room) = hold_share(share, kind)
            print(f"share {share}, {kind.__name__}: no bound is broken; {waiting} of {may} wait before a flush, {stale} of {room} stale at a stop", flush=True)


if __name__ == "__main__":
    hold_planted() if "--planted" in sys.argv[1:] else main()
