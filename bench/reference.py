"""An independent reading of the formats, in plain Python: what each command of nandctl has to answer.

It shares no code with the crates. `compare.py` holds the program against it. Written for clearness, not for speed."""

import hashlib
import struct

import device_model as model
from hamming import put_right, turn

NONE = 0xFFFFFFFF
MOST_WEAR = 16777215
MOST_CAPACITY = 65536
KINDS = {1: "data", 2: "trim", 3: "translation", 4: "table"}
# The length of the seal by the version of the record.
SEALS = {1: 8, 2: 16}


class Refused(Exception):
    """A refusal: its area, number, name and fields."""

    def __init__(self, area, number, name, *fields):
        super().__init__(area, number, name, fields)
        self.line = " ".join(["refused", area, str(number), name] + [str(f) for f in fields]) + "\n"


def is_power_of_two(n):
    return n > 0 and n & (n - 1) == 0


class Unformatted(Exception):
    """Some table page has no sound page."""


class Damaged(Exception):
    """A newest table page has a wrong word."""


class Geometry:
    def __init__(self, data, spare, pages, blocks, sectors):
        if not (is_power_of_two(data) and 64 <= data <= 4096):
            raise Refused("geometry", 1, "DataSize")
        if not 32 <= spare <= 256:
            raise Refused("geometry", 2, "SpareSize")
        if not (is_power_of_two(pages) and 4 <= pages <= 256):
            raise Refused("geometry", 3, "PagesPerBlock")
        if not (12 <= blocks <= 4096 and blocks <= data // 4 * pages):
            raise Refused("geometry", 4, "Blocks")
        if not 1 <= sectors <= 1048576:
            raise Refused("geometry", 5, "Sectors")
        self.data, self.spare, self.pages, self.blocks, self.sectors = data, spare, pages, blocks, sectors
        self.entries = data // 4
        self.translation = -(-sectors // self.entries)
        self.tables = -(-blocks // self.entries)
        self.rows = blocks * pages
        self.page = data + spare
        self.vmax = max(pages - 1 - self.translation, (pages - 1) // 2)
        self.need = (sectors + self.translation + self.tables) // (self.vmax + 1) + 11

    def words(self):
        return ",".join(str(n) for n in (self.data, self.spare, self.pages, self.blocks, self.sectors))


class Record:
    def __init__(self, kind, number, sequence, wear):
        self.kind, self.number, self.sequence, self.wear = kind, number, sequence, wear

    def key(self):
        return {1: "sector", 2: "sector", 3: "translation", 4: "table"}[self.kind], self.number


def written_version(g):
    """The version in which a die's pages are written."""
    return 2 if g.spare >= 40 else 1


def spare_of(g, record, data, version=None):
    """The spare area of a page, in the version for the die or another one that there is room for."""
    version = version or written_version(g)
    head = b"\xff\xff" + bytes([version, record.kind])
    head += struct.pack("<IQI", record.number, record.sequence, record.wear) + b"\xff" * 4
    seal = hashlib.sha256(data + head).digest()[: SEALS[version]]
    return (head + seal).ljust(g.spare, b"\xff")


def version_of(data, spare):
    """The version in which a page is sound, or None."""
    version = spare[2]
    if version not in SEALS or (version == 2 and len(spare) < 40):
        return None
    end = 24 + SEALS[version]
    if spare[:2] != b"\xff\xff" or spare[3] not in KINDS or spare[20:24] != b"\xff" * 4:
        return None
    if spare[end:].strip(b"\xff") or spare[24:end] != hashlib.sha256(data + spare[:24]).digest()[: end - 24]:
        return None
    return version


def record_of(data, spare):
    if version_of(data, spare) is None:
        return None
    return Record(spare[3], *struct.unpack("<IQI", spare[4:20]))


class Image:
    """The pages of a raw image, and the record of each."""

    def __init__(self, g, raw):
        if len(raw) != g.rows * g.page:
            raise Refused("image", 1, "WrongLength")
        self.g = g
        self.data = [raw[r * g.page : r * g.page + g.data] for r in range(g.rows)]
        self.spare = [raw[r * g.page + g.data : (r + 1) * g.page] for r in range(g.rows)]
        self.records = [record_of(d, s) for d, s in zip(self.data, self.spare)]
        self.erased = [d + s == b"\xff" * g.page for d, s in zip(self.data, self.spare)]

    def raw(self):
        return b"".join(d + s for d, s in zip(self.data, self.spare))

    def put(self, row, record, data, version=None):
        self.data[row], self.spare[row] = data, spare_of(self.g, record, data, version)
        self.records[row], self.erased[row] = record, False

    def of_key(self, kind, number):
        return [r for r, x in enumerate(self.records) if x is not None and x.key() == (kind, number)]

    def newest(self, kind, number):
        rows = self.of_key(kind, number)
        return max(rows, key=lambda r: self.records[r].sequence) if rows else None


def named(image, block):
    """The class that the newest table has for a block: 0 good, 1 factory bad, 2 grown bad. 0 too where no page of the table is the newest."""
    u, entry = divmod(block, image.g.entries)
    rows = image.of_key("table", u)
    top = [r for r in rows if image.records[r].sequence == max(image.records[q].sequence for q in rows)]
    return image.data[top[0]][4 * entry] if len(top) == 1 else 0


def written_again(image):
    """The blocks that the newest table names grown bad, and of which each sound page has a newer page of its key. None where two pages share
    the greatest sequence of a key, or a sound page is of a key that the die has not."""
    g, top, found = image.g, {}, []
    limits = {"sector": g.sectors, "translation": g.translation, "table": g.tables}
    sound = [x for x in image.records if x is not None]
    for x in sound:
        top[x.key()] = max(top.get(x.key(), 0), x.sequence)
    shared = [x.key() for x in sound if x.sequence == top[x.key()]]
    if len(shared) != len(set(shared)) or any(x.number >= limits[x.key()[0]] for x in sound):
        return []
    for block in range(g.blocks):
        pages = [x for x in image.records[block * g.pages : (block + 1) * g.pages] if x is not None]
        if named(image, block) == 2 and all(x.sequence < top[x.key()] for x in pages):
            found.append(block)
    return found


def sector(image, n):
    if n >= image.g.sectors:
        raise Refused("sector", 1, "OutOfRange")
    rows = image.of_key("sector", n)
    if not rows:
        return bytes(image.g.data)
    greatest = max(image.records[r].sequence for r in rows)
    top = [r for r in rows if image.records[r].sequence == greatest]
    if len(top) > 1:
        raise Refused("sector", 2, "SequenceRepeated", "row", top[0], "row", top[1])
    return image.data[top[0]] if image.records[top[0]].kind == 1 else bytes(image.g.data)


def show(image, row):
    if row >= image.g.rows:
        raise Refused("image", 2, "RowRange")
    found = image.records[row]
    if found is not None:
        version = version_of(image.data[row], image.spare[row])
        told = "" if version == 1 else f" version {version}"
        return f"{KINDS[found.kind]} {found.number} sequence {found.sequence} wear {found.wear}{told}\n"
    return "erased\n" if image.erased[row] else "unsound\n"


# ---- format


def is_marked(image, block):
    g = image.g
    return any(0 in image.spare[block * g.pages + p] for p in (0, g.pages - 1))


def format_image(image, failing=0):
    """Formats in place; the first `failing` programs fail and leave their page as it was. Answers the good blocks."""
    g = image.g
    marked = [is_marked(image, b) for b in range(g.blocks)]
    good = marked.count(False)
    if good < g.need:
        raise Refused("format", 1, "TooFewGood", "good", good, "need", g.need)
    for row in range(g.rows):
        if image.records[row] is not None if marked[row // g.pages] else not image.erased[row]:
            raise Refused("format", 5, "NotFresh", "row", row)
    classes = [1 if m else 0 for m in marked]
    sequence, failures = 1, 0
    while True:
        block = classes.index(0)
        for u in range(g.tables):
            words = [classes[b] if b < g.blocks else NONE for b in range(u * g.entries, (u + 1) * g.entries)]
            record = Record(4, u, sequence, 0)
            sequence += 1
            if failing > 0:
                failing -= 1
                break
            image.put(block * g.pages + u, record, struct.pack(f"<{g.entries}I", *words))
        else:
            return classes.count(0)
        classes[block] = 2
        failures += 1
        if failures == 3:
            raise Refused("format", 4, "WriteFailed")
        if classes.count(0) < g.need:
            raise Refused("format", 1, "TooFewGood", "good", classes.count(0), "need", g.need)


# ---- what an image shows


def first_number_out_of_range(image):
    g = image.g
    limits = {"sector": g.sectors, "translation": g.translation, "table": g.tables}
    for row, x in enumerate(image.records):
        if x is not None and x.number >= limits[x.key()[0]]:
            return row
    return None


def first_repeated_sequence(image):
    seen = {}
    for row, x in enumerate(image.records):
        if x is not None:
            if x.sequence in seen:
                return seen[x.sequence], row
            seen[x.sequence] = row
    return None


def table_words(image):
    """The word that the newest table has for each block; raises what is wrong with the table."""
    g = image.g
    words = []
    rows = [image.newest("table", u) for u in range(g.tables)]
    if None in rows:
        raise Unformatted
    for u, row in enumerate(rows):
        page = struct.unpack(f"<{g.entries}I", image.data[row])
        for i, word in enumerate(page):
            inside = u * g.entries + i < g.blocks
            if word % 256 >= 3 if inside else word != NONE:
                raise Damaged(u)
        words.extend(page)
    return words[: g.blocks]


class Shown:
    """Everything that the certificate of an image says, but the capacity."""

    def __init__(self, image):
        g = image.g
        words = table_words(image)
        self.directory = [image.newest("translation", t) for t in range(g.translation)]
        self.directory += [image.newest("table", u) for u in range(g.tables)]
        self.sectors = [image.newest("sector", n) for n in range(g.sectors)]
        self.next = max(x.sequence for x in image.records if x is not None) + 1
        self.live = [0] * g.blocks
        for row in self.directory + self.sectors:
            if row is not None:
                self.live[row // g.pages] += 1
        self.blocks = [self.block(image, b, words[b]) for b in range(g.blocks)]
        self.open_the_newest(image)
        self.stale = [n for n in range(g.sectors) if self.entry(image, n) != self.sectors[n]]

    def block(self, image, b, word):
        rows = range(b * image.g.pages, (b + 1) * image.g.pages)
        erased = [image.erased[r] for r in rows]
        sound = [image.records[r] is not None for r in rows]
        gap = any(e and not all(erased[i:]) for i, e in enumerate(erased))
        broken = any(not e and not s for e, s in zip(erased, sound))
        wears = [image.records[r].wear for r in rows if image.records[r] is not None]
        wear = min(max([word >> 8] + wears), MOST_WEAR)
        if word & 255 == 1:
            return [4, 0, self.live[b], wear]
        if word & 255 == 2 or gap or broken:
            return [5, 0, self.live[b], wear]
        written = erased.count(False)
        if written == 0:
            return [0, 0, self.live[b], wear]
        return [3, written, self.live[b], wear]

    def open_the_newest(self, image):
        pages = image.g.pages
        best = {}
        for b, state in enumerate(self.blocks):
            if state[0] == 3 and 0 < state[1] < pages:
                stream = 1 if image.records[b * pages].kind in (1, 2) else 2
                last = image.records[b * pages + state[1] - 1].sequence
                if stream not in best or last > best[stream][0]:
                    best[stream] = (last, b)
        for stream, (_, b) in best.items():
            self.blocks[b][0] = stream

    def entry(self, image, n):
        row = self.directory[n // image.g.entries]
        if row is None:
            return None
        at = n % image.g.entries * 4
        word = struct.unpack("<I", image.data[row][at : at + 4])[0]
        return None if word == NONE else word

    def good(self):
        return sum(1 for state in self.blocks if state[0] < 4)


def rows_as_words(rows):
    return b"".join(struct.pack("<I", NONE if r is None else r) for r in rows)


def certificate_bytes(g, capacity, shown):
    out = b"DFTLCRT1" + struct.pack("<6I", g.data, g.spare, g.pages, g.blocks, g.sectors, capacity)
    out += struct.pack("<Q", shown.next)
    out += b"".join(struct.pack("<BHHI", *state) for state in shown.blocks)
    return out + rows_as_words(shown.directory) + rows_as_words(shown.sectors)


class Certificate:
    def __init__(self, raw):
        def refuse(number, name):
            raise Refused("certificate", number, name)

        if len(raw) < 8:
            refuse(2, "Short")
        if raw[:8] != b"DFTLCRT1":
            refuse(1, "Magic")
        if len(raw) < 40:
            refuse(2, "Short")
        *numbers, self.capacity = struct.unpack("<6I", raw[8:32])
        try:
            g = self.g = Geometry(*numbers)
        except Refused:
            refuse(4, "Limit")
        if not 1 <= self.capacity <= MOST_CAPACITY:
            refuse(4, "Limit")
        length = 40 + 9 * g.blocks + 4 * (g.translation + g.tables) + 4 * g.sectors
        if len(raw) < length:
            refuse(2, "Short")
        if len(raw) > length:
            refuse(3, "Long")
        self.next = struct.unpack("<Q", raw[32:40])[0]
        at = 40
        self.blocks = [list(struct.unpack("<BHHI", raw[at + 9 * b : at + 9 * b + 9])) for b in range(g.blocks)]
        at += 9 * g.blocks
        words = struct.unpack(f"<{(length - at) // 4}I", raw[at:])
        if any(state[0] > 5 for state in self.blocks):
            refuse(6, "ClassRange")
        if any(w != NONE and w >= g.rows for w in words):
            refuse(5, "RowRange")
        rows = [None if w == NONE else w for w in words]
        self.directory, self.sectors = rows[: g.translation + g.tables], rows[g.translation + g.tables :]


def refuse_image(image, area):
    """The refusals that the image alone decides, up to the tables."""
    row = first_number_out_of_range(image)
    if row is not None:
        raise Refused(area, 6, "NumberRange", "row", row)
    pair = first_repeated_sequence(image)
    if pair is not None:
        raise Refused(area, 2, "SequenceRepeated", "row", pair[0], "row", pair[1])
    try:
        table_words(image)
    except Unformatted:
        raise Refused(area, 13, "NotFormatted")
    except Damaged as damaged:
        raise Refused(area, 14, "TableDamaged", "page", damaged.args[0])


def refuse_stale(shown, capacity, area):
    if len(shown.stale) > capacity:
        raise Refused(area, 12, "TooStale", "stale", len(shown.stale), "capacity", capacity)


def mount(image, capacity):
    """The certificate's bytes and the line that the program prints."""
    refuse_image(image, "mount")
    shown = Shown(image)
    if shown.next > 2**64 - 1:
        raise Refused("mount", 11, "NextSequence")
    refuse_stale(shown, capacity, "mount")
    line = f"mounted next {shown.next} good {shown.good()} stale {len(shown.stale)}\n"
    return certificate_bytes(image.g, capacity, shown), line


def check(image, capacity, certificate):
    g, c = image.g, certificate
    if c.g.words() != g.words() or c.capacity != capacity:
        raise Refused("check", 1, "GeometryDiffers")
    refuse_image(image, "check")
    shown = Shown(image)
    for i, row in enumerate(shown.directory):
        if c.directory[i] != row:
            raise Refused("check", 5, "DirectoryWrong", "page", i)
    for n, row in enumerate(c.sectors):
        if row is not None and (image.records[row] is None or image.records[row].key() != ("sector", n)):
            raise Refused("check", 4, "NoSuchRecord", "sector", n, "row", row)
    for n, row in enumerate(shown.sectors):
        if c.sectors[n] != row:
            raise Refused("check", 3, "NotNewest", "sector", n, "row", row)
    for b in range(g.blocks):
        for bad in (4, 5):
            if (c.blocks[b][0] == bad) != (shown.blocks[b][0] == bad):
                raise Refused("check", 8, "BadSetWrong", "block", b)
    for place, number, name in (((0, 1), 7, "BlockState"), ((2,), 9, "LiveWrong"), ((3,), 10, "WearWrong")):
        for b in range(g.blocks):
            if any(c.blocks[b][i] != shown.blocks[b][i] for i in place):
                raise Refused("check", number, name, "block", b)
    if any(x is not None and x.sequence >= c.next for x in image.records):
        raise Refused("check", 11, "NextSequence")
    refuse_stale(shown, capacity, "check")
    return "accepted\n"


# ---- migrate


def body_of(image, row):
    """What the model has of a page: its bytes, or the rows or blocks that it tells."""
    kind, data = image.records[row].kind, image.data[row]
    words = struct.unpack(f"<{image.g.entries}I", data)
    if kind == model.TRANSLATION:
        return [None if word == NONE else word for word in words]
    if kind == model.TABLE:
        before = image.records[row].number * image.g.entries
        return [(0, 0)] * before + [(word & 255, word >> 8) for word in words]
    return data


def die_of(image):
    """The die as the model has it, with the blocks as bad that the image shows as bad."""
    g = image.g
    die = model.Die(model.Geometry(g.data, g.spare, g.pages, g.blocks, g.sectors))
    for row, x in enumerate(image.records):
        if x is not None:
            version = version_of(image.data[row], image.spare[row])
            die.rows[row] = model.Page(x.kind, x.number, x.sequence, x.wear, body_of(image, row), version)
        elif not image.erased[row]:
            die.rows[row] = model.TORN
    for b in range(g.blocks):
        die.next[b] = max([p + 1 for p in range(g.pages) if not image.erased[b * g.pages + p]], default=0)
    die.bad = {b for b, c in enumerate(model.Mounted(die).cls) if c > 3}
    return die


def data_of(g, page):
    """The data area of a page that the model programmed."""
    if page.kind == model.TRANSLATION:
        return rows_as_words(page.body)
    if page.kind == model.TABLE:
        blocks = range(page.number * g.entries, (page.number + 1) * g.entries)
        words = [page.body[b][0] + 256 * page.body[b][1] if b < g.blocks else NONE for b in blocks]
        return struct.pack(f"<{g.entries}I", *words)
    return page.body


def raw_after(image, before, die):
    """The bytes of the die after the model's run: of the pages that it did not program those that were there."""
    after = Image(image.g, image.raw())
    for row, page in enumerate(die.rows):
        if page is None:
            after.data[row], after.spare[row] = b"\xff" * image.g.data, b"\xff" * image.g.spare
        elif page is not before[row]:
            after.put(row, Record(page.kind, page.number, page.sequence, page.wear), data_of(image.g, page))
    return after.raw()


def hold_migrated(image, raw, is_done):
    """What has to hold of the image after it, whatever the model did: the array stays; once all was done every newest page has version 2, and no
    entry is stale."""
    g, after = image.g, Image(image.g, raw)
    assert all(sector(image, n) == sector(after, n) for n in range(g.sectors))
    shown = Shown(after)
    if is_done:
        newest = [row for row in shown.directory + shown.sectors if row is not None]
        assert all(version_of(after.data[row], after.spare[row]) == 2 for row in newest) and not shown.stale


def migrate(image, capacity, certificate):
    """The image's bytes after it and the line that the program prints; or after a refusal by the device those bytes and that refusal."""
    check(image, capacity, certificate)
    if image.g.spare < 40:
        raise Refused("migrate", 8, "SpareSize")
    die = die_of(image)
    before = list(die.rows)
    device = model.Device(die, capacity)
    count = 0
    answer, found = device.migrate_one()
    while answer == "Done" and found:
        count += 1
        answer, found = device.migrate_one()
    if answer == "Done":
        answer = device.flush()
    raw = raw_after(image, before, die)
    hold_migrated(image, raw, answer == "Done")
    if answer == "Done":
        return raw, f"migrated {count}\n", None
    if answer[0] == "SequenceSpent":
        return raw, "", Refused("migrate", 3, "SequenceSpent")
    return raw, "", Refused("migrate", 2, "ReadOnly", "good", answer[1], "need", answer[2], "failed", answer[3])


def looked_rows(rows):
    """Of so many rows the first sixteen of each of 256 equal parts, or all where they are at most 4096."""
    if rows <= 4096:
        return list(range(rows))
    part = rows // 256
    return [first * part + i for first in range(256) for i in range(16)]


def shapes_of(size, data, spare):
    """The geometries with such areas, and one sector, of a dump of so many bytes."""
    rows, rest = divmod(size, data + spare)
    found = []
    for pages in (2**k for k in range(2, 9)):
        try:
            if rest == 0 and rows % pages == 0:
                found.append(Geometry(data, spare, pages, rows // pages, 1))
        except Refused:
            pass
    return found


def least_of(record, body, entries):
    """The blocks and the sectors that a die has at least that has this page: words of blocks begin with a class, 0 to 2."""
    if record.kind == 4:
        return record.number * entries + sum(body[i] < 3 for i in range(0, len(body), 4)), 0
    return 0, record.number * entries + 1 if record.kind == 3 else record.number + 1


def outer_of(data, spare):
    """How many bytes a spare area of so many has with its codes: three for each 256 bytes of the data area, and three for itself."""
    return spare + 3 * (-(-data // 256) + 1)


def decoded(data, spare, page):
    """A page of a chip without its codes, put right; where a chunk is lost 00h bytes."""
    if turn(page[data : data + spare], page[data + spare :][:3]) is None:
        return bytes(data + spare)
    found, _, lost = put_right(data, spare, page)
    return bytes(data + spare) if lost else found


def fits(rows, data, spare, page_of):
    """Those of the geometries with such areas that fit so many pages, each with what is said for it."""
    page, shapes = data + spare, shapes_of(rows * (data + spare), data, spare)
    if not shapes:
        return []
    pages = [page_of(row) for row in looked_rows(rows)]
    sound = sum(record_of(p[:data], p[data:]) is not None for p in pages)
    if sound == 0:
        return []
    unsound = sum(p != b"\xff" * page for p in pages) - sound
    records = [(record_of(p[:data], p[data:]), p[:data]) for p in map(page_of, range(rows))]
    least = [least_of(record, body, data // 4) for record, body in records if record]
    blocks, sectors, found = max((b for b, _ in least), default=0), max((s for _, s in least), default=0), []
    for g in shapes:
        table = "silent" if blocks == 0 else "agrees" if blocks == g.blocks else "short" if blocks > g.blocks else "differs"
        missing = max(0, min(blocks, 4096) - g.blocks) * g.pages
        numbers = data, spare, g.pages, g.blocks, min(max(sectors, 1), 1048576)
        order = (-sound, ["agrees", "short", "silent", "differs"].index(table), missing, unsound * page, *numbers, len(pages), unsound, blocks, sectors)
        found.append((order, numbers, len(pages), sound, unsound, table, blocks, sectors))
    return found


def geometries(raw):
    """The geometries that fit a dump, best first: whether its pages stand with their codes; data, spare, pages, blocks, sectors, and what is said
    for each. With codes they are those that fit the pages put right."""
    found = []
    for data, spare in ((2**k, spare) for k in range(6, 13) for spare in range(32, 257)):
        page, whole = data + spare, data + outer_of(data, spare)
        if len(raw) % page == 0:
            plain = fits(len(raw) // page, data, spare, lambda row: raw[row * page : (row + 1) * page])
            found += [(order, False, *rest) for order, *rest in plain]
        if outer_of(data, spare) <= 256 and len(raw) % whole == 0:
            coded = fits(len(raw) // whole, data, spare, lambda row: decoded(data, spare, raw[row * whole : (row + 1) * whole]))
            found += [(order, True, *rest) for order, *rest in coded]
    return [fit[1:] for fit in sorted(found)]
