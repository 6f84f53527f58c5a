"""Dumps of pseudorandom making, intact, damaged, worn or with codes: a part of lab.py."""

import collections
import hashlib
import random
import types

import compare
import hamming
import reference as ref

PAIRED = collections.Counter()


def some_rows(rng, g):
    """Rows that are asked for, and the words that ask."""
    if rng.random() < 0.6:
        return range(g.rows), []
    first, end = sorted(rng.choices(range(g.rows + 1), k=2))
    return range(first, end), ["--rows", f"{first}..{end}"]


def break_some(rng, image):
    """Some sound pages lose their seal, by three bits of the data area or of the seal; some of them stand twice then, with other data."""
    g, rows = image.g, [r for r, x in enumerate(image.records) if x is not None]
    for row in rng.sample(rows, min(len(rows), rng.choice([0, 1, 4, 12]))):
        data, spare = bytearray(image.data[row]), bytearray(image.spare[row])
        area, first = rng.choice([(data, 0), (data, 0), (spare, 24)])
        for at in rng.sample(range(first, len(data) if area is data else 32), 3):
            area[at] ^= 1 << rng.randrange(8)
        compare.spoil(image, row, bytes(data), bytes(spare))
        if rng.random() < 0.2:
            compare.spoil(image, rng.randrange(g.rows), rng.randbytes(g.data), bytes(spare))


def some_sequence(rng, image):
    """A sequence that is asked for: mostly one that some page has, or the next."""
    if rng.random() < 0.5:
        return None
    sequences = sorted({x.sequence for x in image.records if x is not None}) or [0]
    return min(2**64 - 1, max(0, rng.choice(sequences) + rng.choice([0, 0, -1, 1])))


def other_shape(rng, g):
    """Another geometry of a dump of this size."""
    shapes = [(g.data, g.spare, g.pages * 2, g.blocks // 2, g.sectors), (g.data, g.spare, g.pages, g.blocks, max(1, g.sectors // 2))]
    shapes += [(g.data, g.spare, g.pages, g.blocks, g.sectors + 20), (g.data, g.spare, g.pages // 2, g.blocks * 2, g.sectors)]
    made = [ref.Geometry(*x) for x in shapes if x[2] in (4, 8, 16) and x[3] >= 12 and x[2] * x[3] == g.rows]
    return rng.choice(made)


def erase(rng, image, block, passed):
    """An erase of a block; one that fails leaves each page as it was, or no sound one."""
    g = image.g
    for row in range(block * g.pages, block * g.pages + g.pages):
        if passed:
            compare.spoil(image, row, b"\xff" * g.data, b"\xff" * g.spare)
        elif rng.random() < 0.5:
            compare.spoil(image, row, rng.randbytes(g.data), rng.randbytes(g.spare))


def go_on(rng, image, sequence):
    """What a device may do: programs with the next sequences, and erases of blocks with no newest page, each passed or failed."""
    g = image.g
    for _ in range(rng.choice([0, 5, 40])):
        keys = {x.key() for x in image.records if x is not None}
        live = {image.newest(*key) // g.pages for key in keys}
        dead = [b for b in range(g.blocks) if b not in live]
        free = [r for r in range(g.rows) if image.erased[r]]
        if dead and (not free or rng.random() < 0.3):
            erase(rng, image, rng.choice(dead), rng.random() < 0.8)
        elif free and sequence < 2**64:
            row = rng.choice(free)
            made = compare.record(rng, g, sequence)
            made.number %= {"sector": g.sectors, "translation": g.translation, "table": g.tables}[made.key()[0]]
            if rng.random() < 0.9:
                image.put(row, made, compare.data_for(rng, g, made.kind))
            else:
                compare.spoil(image, row, rng.randbytes(g.data), rng.randbytes(g.spare))
            sequence += rng.choice([1, 1, 1, 3])


def lose(rng, image):
    """Some pages are lost, and now and then one of an older sequence comes up."""
    g = image.g
    for _ in range(rng.choice([1, 1, 3, 10])):
        sound = [r for r, x in enumerate(image.records) if x is not None]
        if sound:
            row = rng.choice(sound)
            data, spare = rng.choice([(image.data[row], b"\xff" * g.spare), (image.data[row], rng.randbytes(g.spare)), (rng.randbytes(g.data), image.spare[row])])
            compare.spoil(image, row, data, spare)
    if sound and rng.random() < 0.3:
        made = image.records[rng.choice(sound)]
        if made is not None:
            image.put(rng.randrange(g.rows), made, compare.data_for(rng, g, made.kind))


def mountable(rng):
    """An image that mounts, and its certificate."""
    while True:
        g = ref.Geometry(*rng.choice(compare.GEOMETRIES))
        image = ref.Image(g, b"\xff" * (g.rows * g.page))
        compare.tables_of(rng, image)
        compare.fill(rng, image)
        try:
            return g, image, ref.mount(image, 65536)[0]
        except ref.Refused:
            pass


def name_grown(rng, image, block, sequence):
    """A newer table page names a block grown bad, in an erased page of another block."""
    g, u = image.g, block // image.g.entries
    row = image.newest("table", u)
    free = [r for r in range(g.rows) if image.erased[r] and r // g.pages != block]
    if row is None or not free:
        return
    data = bytearray(image.data[row])
    data[4 * (block % g.entries)] = 2
    image.put(rng.choice(free), ref.Record(4, u, sequence, 0), bytes(data))


def grow_bad(rng, image):
    """A page of a block fails, and its content is written again elsewhere, whole or all but one page; the table names the block grown bad."""
    g = image.g
    block = rng.randrange(g.blocks)
    rows = range(block * g.pages, (block + 1) * g.pages)
    sequence = 1 + max([x.sequence for x in image.records if x is not None], default=0)
    compare.spoil(image, rng.choice(rows), rng.randbytes(g.data), rng.randbytes(g.spare))
    keys = sorted({image.records[r].key() for r in rows if image.records[r] is not None})
    if keys and rng.random() < 0.4:
        keys.remove(rng.choice(keys))
    for kind, number in keys:
        free = [r for r in range(g.rows) if image.erased[r] and r not in rows]
        made = max((image.records[r] for r in rows if image.records[r] is not None and image.records[r].key() == (kind, number)), key=lambda x: x.sequence)
        if free and sequence < 2**63:
            old = image.newest(kind, number)
            image.put(rng.choice(free), ref.Record(made.kind, number, sequence, 0), image.data[old])
            sequence += 1
    if sequence < 2**63:
        name_grown(rng, image, block, sequence)


def wear_out(rng, image):
    """Some bits of some pages are turned, mostly of the data area."""
    g = image.g
    for row in rng.sample(range(g.rows), rng.choice([1, 2, 5])):
        data, spare = bytearray(image.data[row]), bytearray(image.spare[row])
        for _ in range(rng.choice([1, 2, 3])):
            area = rng.choice([data, data, data, spare])
            area[rng.randrange(len(area))] ^= 1 << rng.randrange(8)
        compare.spoil(image, row, bytes(data), bytes(spare))


def dump_for(rng):
    g = ref.Geometry(*rng.choice(compare.GEOMETRIES))
    image = compare.fresh(rng, g) if rng.random() < 0.5 else ref.Image(g, b"\xff" * (g.rows * g.page))
    if rng.random() < 0.7:
        compare.tables_of(rng, image)
    if rng.random() < 0.9:
        compare.fill(rng, image)
    for _ in range(rng.choice([0, 0, 1, 2])):
        grow_bad(rng, image)
    rows = [r for r, x in enumerate(image.records) if x is not None and x.kind == 1]
    if rows and rng.random() < 0.3:
        # two pages of one sector with one sequence
        row, other = rng.choice(rows), rng.randrange(g.rows)
        made = image.records[row]
        image.put(other, ref.Record(1, made.number, made.sequence, 0), bytes([rng.randrange(256)]) * g.data)
    if rng.random() < 0.5:
        wear_out(rng, image)
    return g, image


def mixed(rng, g, coded):
    """A dump with codes, some rows of which have pages of as many bytes without them: it may fit either way."""
    whole = ref.Geometry(g.data, len(coded) // g.rows - g.data, g.pages, g.blocks, g.sectors)
    image = ref.Image(whole, b"\xff" * (whole.rows * whole.page))
    compare.tables_of(rng, image)
    compare.fill(rng, image)
    plain, share = image.raw(), rng.random()
    pages = [(plain if rng.random() < share else coded)[row * whole.page : (row + 1) * whole.page] for row in range(g.rows)]
    return b"".join(pages)


def is_sound(g, page):
    return ref.record_of(page[: g.data], page[g.data :]) is not None


def turned(page, bit):
    return page[: bit // 8] + bytes([page[bit // 8] ^ 1 << bit % 8]) + page[bit // 8 + 1 :]


def pages_of(g, raw):
    return [raw[row * g.page : (row + 1) * g.page] for row in range(g.rows)]


def damaged(rng, g, raw):
    """The dump with some bits turned: of a page one, or two, or many. Some pages are lost, and read as erased."""
    pages = pages_of(g, raw)
    for row in rng.sample(range(g.rows), rng.choice([0, 0, 2])):
        pages[row] = b"\xff" * g.page
    for row in rng.sample(range(g.rows), rng.choice([0, 1, 3, 6])):
        for _ in range(rng.choice([1, 1, 2, 20])):
            pages[row] = turned(pages[row], rng.randrange(8 * g.page))
    return b"".join(pages)


def sealed(g, page):
    """Whether a page may be sound: its seal is the first bytes of the hash. It is asked of many pages."""
    spare = page[g.data :]
    return spare[:2] == b"\xff\xff" and hashlib.sha256(page[: g.data + 24]).digest()[:8] == spare[24:32]


def pairs_of(g, page):
    """The pairs of bits that make a page sound."""
    pairs = []
    for low in range(8 * g.page):
        once = turned(page, low)
        for high in range(low + 1, 8 * g.page):
            other = turned(once, high)
            if sealed(g, other) and is_sound(g, other):
                pairs.append((low, high))
    return pairs


def paired(g, page, row):
    """A page that one bit does not mend with the one pair of bits turned that makes it sound, and what is told of it."""
    pairs = pairs_of(g, page)
    PAIRED[min(len(pairs), 2)] += 1
    if len(pairs) == 1:
        low, high = pairs[0]
        return turned(turned(page, low), high), f"mended row {row} bits {low} {high}\n"
    return page, f"tied row {row}\n" if pairs else f"tried row {row}\n"


def on_chip(g, raw):
    """The dump of a chip with these pages and their codes, and how many bytes a page has there."""
    dump = bytearray(b"".join(b"".join(hamming.physical(page[: g.data], page[g.data :])) for page in pages_of(g, raw)))
    return dump, len(dump) // g.rows


def spoiled(rng, g, raw):
    """The dump of a chip where bits of some chunks are wrong: of most one, of some more."""
    dump, size = on_chip(g, raw)
    for row in rng.sample(range(g.rows), rng.choice([0, 1, 5, g.rows])):
        for _ in range(rng.choice([1, 1, 1, 2, 2, 3, 12])):
            dump[row * size + rng.randrange(size)] ^= 1 << rng.randrange(8)
    for row in rng.sample(range(g.rows), rng.choice([0, 0, 1])):
        dump[row * size : (row + 1) * size] = rng.choice([bytes(size), rng.randbytes(size)])
    return bytes(dump)


def with_bits(page, bits):
    number = int.from_bytes(page, "little")
    return (number ^ sum(1 << bit for bit in bits)).to_bytes(len(page), "little")


def misread(rng, g, readings):
    """The readings with some bits of some rows wrong in each, at most eighteen of a row in all, and one reading all FFh at times."""
    pages = [pages_of(g, raw) for raw in readings]
    for row in rng.sample(range(g.rows), rng.choice([0, 1, 3])):
        page, left = rng.choice(pages)[row], rng.choice([2, 3, 5, 8, 12, 16, 18])
        bits = rng.sample(range(8 * g.page), left)
        for place, reading in enumerate(pages):
            share = bits[place :: len(pages)] if rng.random() < 0.8 else bits[:1]
            reading[row] = with_bits(page, share)
        if rng.random() < 0.3:
            rng.choice(pages)[row] = b"\xff" * g.page
    return [b"".join(reading) for reading in pages]


def full_dump(path, g):
    """Each page a sector's, in random order: every page is hashed, and most are the newest when they come. Gives a certificate of it."""
    rng = random.Random(1)
    newest = [None] * g.sectors
    with open(path, "wb") as out:
        for row in range(g.rows):
            body = rng.randbytes(g.data)
            made = ref.Record(1, rng.randrange(g.sectors), row, 1)
            out.write(body + ref.spare_of(g, made, body))
            newest[made.number] = row
    shown = types.SimpleNamespace(
        next=g.rows, blocks=[[3, g.pages, 0, 1]] * g.blocks, directory=[None] * (g.translation + g.tables), sectors=newest
    )
    return ref.certificate_bytes(g, 64, shown)
