"""A plain model of the device: what is programmed and erased, in which row and with which sequence.

Written from the rules of docs/ alone. It keeps no bytes: a page is its key, its sequence, the erase
count of its block when it was programmed, the version of its record, and what it tells (what a sector
holds, a list of rows, a list of blocks). `bench/device_expected.py` prints from it what the tests of
devices expect, and `bench/reference.py` has from it what `migrate` stores.

One number, the share, says how many moved sectors may wait for each translation page, in the mean. The
engine runs at share 0, of which docs/ tell; greater ones are the model's alone. `bench/share_model.py`
holds what is said of them.
"""

from collections import Counter, OrderedDict

SECTOR, TRIM, TRANSLATION, TABLE = 1, 2, 3, 4
DATA, META = 0, 1
RESERVE, TURN_RESERVE, FLOOR, MOST_WEAR = 9, 12, 5, 16777215
MOST_STALE = 65535
NO_SEQUENCE = 2**64 - 1
TORN = "torn"


class ReadOnly(Exception):
    pass


class SequenceSpent(Exception):
    pass


class OutOfMemory(Exception):
    pass


class TooStale(Exception):
    pass


class Geometry:
    def __init__(self, data, spare, pages, blocks, sectors):
        self.data, self.spare, self.P, self.B, self.L = data, spare, pages, blocks, sectors
        self.E = data // 4
        self.T = -(-sectors // self.E)
        self.U = -(-blocks // self.E)
        self.vmax, self.need = self.vmax_at(0), self.need_at(0)
        self.version = 2 if spare >= 40 else 1

    def is_share(self, share):
        """Whether no more sectors are ever stale than a cache has room for, but for its own."""
        return share * self.T + self.P <= MOST_STALE

    def vmax_at(self, share):
        """The most live pages of a block that is worth collecting: with the translation pages that fall due
        they are fewer than a block has pages."""
        return max(self.P - 1 - self.T, (self.P - 1) * (share + 1) // (share + 2))

    def flush_blocks(self, share):
        """The free blocks that a flush asks for beyond those of a call, since it collects nothing on its way."""
        return -(-self.T // self.P) + 2 if share else 0

    def need_at(self, share):
        """The good blocks that writing needs."""
        return (self.L + self.T + self.U) // (self.vmax_at(share) + 1) + 11 + self.flush_blocks(share)


class Page:
    def __init__(self, kind, number, sequence, wear, body, version=None):
        self.kind, self.number, self.sequence, self.wear, self.body = kind, number, sequence, wear, body
        self.version = version

    def key(self):
        return (SECTOR if self.kind == TRIM else self.kind, self.number)

    def __repr__(self):
        name = {1: "Sector", 2: "Trim", 3: "Translation", 4: "Table"}[self.kind]
        return f"{name} {self.number} sequence {self.sequence} wear {self.wear} {told(self.body)}"


def told(body):
    """What a page tells, shortly: the bytes of a sector, the rows of entries that are not none, the blocks
    that are bad or erased."""
    if not isinstance(body, list):
        return body
    if body and isinstance(body[0], tuple):
        return {b: row for b, row in enumerate(body) if row != (0, 0)}
    return {i: row for i, row in enumerate(body) if row is not None}


class Die:
    def __init__(self, g, marks=()):
        self.g = g
        self.rows = [None] * (g.B * g.P)
        self.bad = set(marks)
        self.next = [0] * g.B
        self.changes = 0
        self.failing = set()
        self.page_left = 0
        self.abuse = 0
        self.log = []

    def _strikes(self):
        self.changes += 1
        return self.changes in self.failing

    def program(self, row, page):
        strikes = self._strikes()
        block, nth = divmod(row, self.g.P)
        if block in self.bad or self.next[block] != nth:
            self.abuse += 1
            self.log.append(("program", row, False))
            return False
        self.log.append(("program", row, not strikes))
        if strikes:
            self.bad.add(block)
            if self.page_left:
                self.rows[row] = TORN
            return False
        self.rows[row] = page
        self.next[block] = nth + 1
        return True

    def erase(self, block):
        strikes = self._strikes()
        if block in self.bad:
            self.abuse += 1
            self.log.append(("erase", block, False))
            return False
        self.log.append(("erase", block, not strikes))
        if strikes:
            self.bad.add(block)
            if self.page_left:
                self.rows[block * self.g.P] = TORN
            return False
        for nth in range(self.g.P):
            self.rows[block * self.g.P + nth] = None
        self.next[block] = 0
        return True

    def newest(self):
        best = {}
        for row, page in enumerate(self.rows):
            if page is not None and page is not TORN:
                key = page.key()
                if key not in best or self.rows[best[key]].sequence < page.sequence:
                    best[key] = row
        return best


def format_die(die, marks=(), share=0):
    g = die.g
    classes = [1 if b in marks else 0 for b in range(g.B)]
    sequence, failures = 1, 0
    while True:
        good = [b for b in range(g.B) if classes[b] == 0]
        if failures == 3:
            raise Exception("WriteFailed")
        if len(good) < g.need_at(share):
            raise Exception(f"TooFewGood {len(good)}")
        block = good[0]
        for u in range(g.U):
            page = Page(TABLE, u, sequence, 0, [(c, 0) for c in classes])
            sequence += 1
            if not die.program(block * g.P + u, page):
                classes[block] = 2
                failures += 1
                break
        else:
            return len(good)


class Mounted:
    """What a certificate says."""

    def __init__(self, die):
        g = die.g
        self.newest = die.newest()
        sequences = [p.sequence for p in die.rows if p is not None and p is not TORN]
        self.next = max(sequences) + 1
        table = [(0, 0)] * g.B
        for u in range(g.U):
            rows = die.rows[self.newest[(4, u)]].body
            for b in range(u * g.E, min(g.B, (u + 1) * g.E)):
                table[b] = rows[b]
        self.wear, self.cls, self.pointer = [], [], []
        for b in range(g.B):
            pages = die.rows[b * g.P:(b + 1) * g.P]
            sound = [p for p in pages if p is not None and p is not TORN]
            self.wear.append(min(MOST_WEAR, max([table[b][1]] + [p.wear for p in sound])))
            gap = any(pages[i] is None and pages[i + 1] is not None for i in range(g.P - 1))
            if table[b][0] == 1:
                self.cls.append(4)
            elif table[b][0] == 2 or TORN in pages or gap:
                self.cls.append(5)
            elif not sound:
                self.cls.append(0)
            else:
                self.cls.append(3)
            self.pointer.append(0 if self.cls[b] > 3 else sum(p is not None for p in pages))
        for stream, number in ((1, DATA), (2, META)):
            best = None
            for b in range(g.B):
                if self.cls[b] == 3 and self.pointer[b] < g.P:
                    first = die.rows[b * g.P].kind
                    if (first > 2) == (number == META):
                        last = die.rows[b * g.P + self.pointer[b] - 1].sequence
                        if best is None or last > best[0]:
                            best = (last, b)
            if best:
                self.cls[best[1]] = stream
        self.live = [0] * g.B
        for row in self.newest.values():
            self.live[row // g.P] += 1
        self.good = sum(c < 4 for c in self.cls)
        self.stale = []
        for n in range(g.L):
            t = self.newest.get((3, n // g.E))
            entry = None if t is None else die.rows[t].body[n % g.E]
            if entry != self.newest.get((1, n)):
                self.stale.append(n)


class Device:
    """What `start` makes of a die. `refuses` says whether memory for an entry more of the cache is refused."""

    def __init__(self, die, capacity, share=0):
        m = Mounted(die)
        if len(m.stale) > capacity:
            raise TooStale(len(m.stale))
        assert die.g.is_share(share)
        self.die, self.g, self.capacity, self.refuses = die, die.g, capacity, False
        self.share, self.settled = share, share * die.g.T
        self.vmax, self.need, self.flush_blocks = die.g.vmax_at(share), die.g.need_at(share), die.g.flush_blocks(share)
        self.cls = [1 if c == 4 else 2 if c == 5 else 0 for c in m.cls]
        self.wear, self.pointer, self.next = list(m.wear), list(m.pointer), m.next
        self.open = [None, None]
        for b, c in enumerate(m.cls):
            if c in (1, 2):
                self.open[c - 1] = b
        self.newest = dict(m.newest)
        self.live = list(m.live)
        self.cache = OrderedDict()
        self.moved = {}
        self.marked = set()
        self.pinned = None
        for n in m.stale:
            self.cache[n] = [m.newest.get((1, n)), True]
        self.read_only = self.free() < FLOOR
        self.collected = 0

    def free(self):
        return list(zip(self.cls, self.pointer)).count((0, 0))

    def good(self):
        return self.cls.count(0)

    def is_closed(self, b):
        return self.cls[b] == 0 and self.pointer[b] > 0 and b not in self.open

    # The page is programmed in its stream; its row.
    def put(self, stream, kind, number, body):
        g = self.g
        while True:
            if self.next == NO_SEQUENCE:
                raise SequenceSpent()
            if self.open[stream] is None:
                blocks = [b for b in range(g.B) if self.cls[b] == 0 and self.pointer[b] == 0]
                if not blocks:
                    raise ReadOnly()
                self.open[stream] = min(blocks, key=lambda b: (self.wear[b], b))
            block = self.open[stream]
            row = block * g.P + self.pointer[block]
            page = Page(kind, number, self.next, self.wear[block], body, g.version)
            self.next += 1
            passed = self.die.program(row, page)
            if passed:
                self.pointer[block] += 1
                if self.pointer[block] == g.P:
                    self.open[stream] = None
                old = self.newest.get(page.key())
                if old is not None:
                    self.live[old // g.P] -= 1
                self.newest[page.key()] = row
                self.live[block] += 1
                return row
            self.cls[block] = 2
            self.open[stream] = None

    def write_back(self, t):
        g = self.g
        old = self.newest.get((3, t))
        body = [None] * g.E if old is None else list(self.die.rows[old].body)
        for n, entry in self.cache.items():
            if n // g.E == t and entry[1]:
                body[n % g.E] = entry[0]
        for n, row in self.moved.items():
            if n // g.E == t:
                body[n % g.E] = row
        body = [row if t * g.E + i < g.L else None for i, row in enumerate(body)]
        self.put(META, TRANSLATION, t, body)
        for n, entry in self.cache.items():
            if n // g.E == t:
                entry[1] = False
        self.moved = {n: r for n, r in self.moved.items() if n // g.E != t}
        self.marked.discard(t)

    def copy(self, row, flushing):
        assert len(self.moved) < self.settled + self.g.P
        page = self.die.rows[row]
        new = self.put(DATA if page.kind < 3 else META, page.kind, page.number, page.body)
        if page.kind < 3:
            if page.number in self.cache:
                entry = self.cache[page.number]
                entry[0], entry[1] = new, True
            else:
                self.moved[page.number] = new
            if flushing:
                self.marked.add(page.number // self.g.E)

    def pin(self, block):
        assert self.pinned is None and self.is_closed(block)
        self.collected += 1
        self.pinned = block

    def lowest_due(self):
        """The lowest translation page that has to be written back before the pinned block is erased: a marked one,
        and where more sectors wait than may, one that more than `share` of them wait for."""
        crowded = set()
        if len(self.moved) > self.settled:
            waiting = Counter(n // self.g.E for n in self.moved)
            crowded = {t for t, count in waiting.items() if count > self.share}
        return min(self.marked | crowded, default=None)

    def bring_out(self, row, flushing):
        """Programs a live page of the pinned block elsewhere: copied, or a translation page, where sectors may wait,
        with what waits for it."""
        if self.share and self.die.rows[row].kind == TRANSLATION:
            self.write_back(self.die.rows[row].number)
        else:
            self.copy(row, flushing)

    def step(self, flushing):
        """One step of the collection of the pinned block; whether it was the last."""
        g, block = self.g, self.pinned
        assert not (flushing and self.share)
        for row in range(block * g.P, (block + 1) * g.P):
            page = self.die.rows[row]
            if page is not None and page is not TORN and self.newest.get(page.key()) == row:
                self.bring_out(row, flushing)
                return False
        due = self.lowest_due()
        if due is not None:
            self.write_back(due)
            return False
        if self.die.erase(block):
            self.wear[block] = min(MOST_WEAR, self.wear[block] + 1)
            self.pointer[block] = 0
        else:
            self.cls[block] = 2
        self.pinned = None
        return True

    def finish(self, flushing):
        while not self.step(flushing):
            pass
        self.marked = set()

    def collect(self, block, flushing):
        self.pin(block)
        self.finish(flushing)

    def victim(self):
        blocks = [b for b in range(self.g.B) if self.is_closed(b)]
        return min(blocks, key=lambda b: (self.live[b], self.wear[b], b)) if blocks else None

    def worth(self, free):
        """The block that is worth collecting, where fewer than so many are free."""
        if self.free() >= free:
            return None
        victim = self.victim()
        return None if victim is None or self.live[victim] > self.vmax else victim

    def ask_floor(self):
        if self.free() < FLOOR:
            raise ReadOnly()

    def make_room(self, flushing, free=RESERVE):
        if self.pinned is not None and self.free() < free:
            self.finish(flushing)
        while (victim := self.worth(free)) is not None:
            self.collect(victim, flushing)
        self.ask_floor()

    def call(self, body):
        if self.read_only:
            return ("ReadOnly", self.good(), self.need, 0)
        if self.next == NO_SEQUENCE:
            return ("SequenceSpent",)
        good = self.good()
        try:
            body()
            answer = "Done"
        except ReadOnly:
            answer = ("ReadOnly", self.good(), self.need, good - self.good())
        except SequenceSpent:
            answer = ("SequenceSpent",)
        except OutOfMemory:
            answer = ("OutOfMemory",)
        self.read_only = self.free() < FLOOR
        return answer

    def make_place(self):
        """Cleans the entry that has to leave a full cache."""
        if len(self.cache) == self.capacity:
            n, (row, dirty) = next(iter(self.cache.items()))
            if dirty:
                self.write_back(n // self.g.E)

    def load(self, n, row):
        """Caches a sector, as the most recently used."""
        if len(self.cache) == self.capacity:
            self.cache.popitem(last=False)
        self.cache[n] = [row, self.moved.pop(n, None) is not None]

    def put_uncached(self, n, kind, byte):
        """A sector for which memory is refused goes on the list, and its translation page is written back at once.
        Where there is no block or no sequence for that the sector stays on the list: it is written all the same."""
        if self.share == 0 or len(self.moved) >= self.settled + self.g.P:
            raise OutOfMemory()
        self.moved[n] = self.put(DATA, kind, n, byte)
        try:
            self.write_back(n // self.g.E)
        except (ReadOnly, SequenceSpent):
            pass

    def change(self, n, kind, byte):
        def body():
            self.make_room(False)
            if n not in self.cache:
                row = self.newest.get((1, n))
                self.make_place()
                if self.refuses:
                    self.put_uncached(n, kind, byte)
                    return
                self.load(n, row)
            self.cache.move_to_end(n)
            row = self.put(DATA, kind, n, byte)
            self.cache[n] = [row, True]
        return self.call(body)

    def write(self, n, byte):
        return self.change(n, SECTOR, byte)

    def trim(self, n):
        return self.change(n, TRIM, 0)

    def read(self, n):
        row = self.newest.get((1, n))
        if n in self.cache:
            self.cache.move_to_end(n)
        elif n not in self.moved and not self.refuses:
            if len(self.cache) < self.capacity or not next(iter(self.cache.values()))[1]:
                self.load(n, row)
        return 0 if row is None else self.die.rows[row].body

    def lacks(self, t):
        return any(n // self.g.E == t for n in [n for n, e in self.cache.items() if e[1]] + list(self.moved))

    def make_flush_room(self):
        """Room for a page of a flush: where sectors may wait nothing is collected on the way."""
        if self.share:
            self.ask_floor()
        else:
            self.make_room(True)

    def flush_translations(self):
        for t in range(self.g.T):
            if self.lacks(t):
                self.make_flush_room()
                self.write_back(t)

    def write_tables(self):
        while True:
            good = self.good()
            for u in range(self.g.U):
                self.put(META, TABLE, u, list(zip(self.cls, self.wear)))
            if self.good() == good:
                break

    def flush(self):
        def body():
            if self.share:
                self.make_room(False, RESERVE + self.flush_blocks)
            self.flush_translations()
            self.make_flush_room()
            self.write_tables()
        return self.call(body)

    def rescue(self, row):
        page = self.die.rows[row]
        self.copy(row, False)
        if page.kind < 3 and page.number in self.moved:
            self.write_back(page.number // self.g.E)

    def is_due(self, row):
        """Whether it is a newest page of version 1, and no table page."""
        page = self.die.rows[row]
        return page not in (None, TORN) and page.kind != TABLE and page.version == 1 and self.newest[page.key()] == row

    def migrate_one(self):
        """What a call answers, and whether it found a page."""
        due = sorted(row for row in self.newest.values() if self.is_due(row))
        if self.g.version == 1 or not due:
            return self.call(lambda: None), False

        def body():
            self.make_room(False)
            if self.is_due(due[0]):
                self.rescue(due[0])
        return self.call(body), True

    def turn(self):
        def body():
            self.make_room(False)
            rows = [r for r in self.newest.values() if self.cls[r // self.g.P]]
            if rows:
                self.rescue(min(rows))
            elif self.pinned is not None:
                self.step(False)
            elif (victim := self.worth(TURN_RESERVE + self.flush_blocks)) is not None:
                self.pin(victim)
                self.step(False)
        return self.call(body)


def formatted(g, capacity, marks=(), failing=(), page_left=0, share=0):
    die = Die(g, marks)
    answer = format_die(die, marks, share)
    die.failing = {die.changes + n for n in failing}
    die.page_left = page_left
    die.log = []
    return Device(die, capacity, share), answer


def show(device, first=0):
    print("  next", device.next, "free", device.free(), "good", device.good(), "read-only", device.read_only)
    print("  cache", [(n, e[0], "dirty" if e[1] else "clean") for n, e in device.cache.items()])
    print("  worn", [(b, w) for b, w in enumerate(device.wear) if w], "bad", [b for b, c in enumerate(device.cls) if c])
    print("  log", device.die.log)
    for row, page in enumerate(device.die.rows):
        if page is not None and row >= first:
            print("  row", row, page)
    m = Mounted(device.die)
    print("  mounted next", m.next, "good", m.good, "stale", m.stale)
    print("  states", [(b, m.cls[b], m.pointer[b], m.live[b], m.wear[b]) for b in range(device.g.B) if m.cls[b]])
