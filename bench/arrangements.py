"""How the bytes of a die stand in a dump, and the geometry and the arrangement in which a dump fits best: an independent reading, by slices."""

import reference as ref

# how many bytes a header or a tail has that is tried
AROUND = [2**k for k in range(4, 17)]


def orders():
    """Each order of the bytes, as what its words tell."""
    for spares in [None, "block", "die"]:
        for flags in range(16):
            told = {"spares": spares} if spares else {}
            told |= {name: None for i, name in enumerate(["spare-first", "swapped", "inverted"]) if flags >> i & 1}
            yield told | ({"planes": 2} if flags & 8 else {})


def words_of(told):
    """The words in the order in which `geometry` prints them."""
    names = ["header", "tail", "cut", "spares", "spare-first", "swapped", "inverted", "planes"]
    return ",".join(name if told[name] is None else f"{name}={told[name]}" for name in names if name in told)


def rank_of(told):
    """By the words in their order: without one before with it."""
    spares = [None, "block", "die"].index(told.get("spares"))
    return told.get("header", -1), told.get("tail", -1), told.get("cut", -1), spares, *(name in told for name in ["spare-first", "swapped", "inverted", "planes"])


def page_reader(g, told, raw):
    """What reads the page of a row out of the bytes of the pages, which are neither swapped nor inverted any more."""
    count = {"block": g.pages, "die": g.rows}.get(told.get("spares"), 1)

    def page_of(row):
        if "planes" in told:
            block, page = divmod(row, g.pages)
            row = block // 2 * 2 * g.pages + 2 * page + block % 2
        first, place = row - row % count, row % count
        begin, size = first * g.page, count * (g.spare if "spare-first" in told else g.data)
        body = begin + (size if "spare-first" in told else 0) + place * g.data
        spare = begin + (0 if "spare-first" in told else size) + place * g.spare
        return raw[body : body + g.data] + raw[spare : spare + g.spare]

    return page_of


def straight(told, raw):
    """The bytes of the pages, each in its pair as it was, and as the die had it."""
    raw = raw[told.get("header", 0) : len(raw) - told.get("tail", 0)]
    if "swapped" in told:
        made = bytearray(raw)
        made[: len(raw) // 2 * 2 : 2], made[1::2] = raw[1::2], raw[: len(raw) // 2 * 2 : 2]
        raw = bytes(made)
    return raw.translate(bytes(range(255, -1, -1))) if "inverted" in told else raw


def record_at(g, page):
    return ref.record_of(page[: g.data], page[g.data :])


def in_turn(g, page_of):
    """How many of the pages that are looked at are sound, and first in their block, or behind one that is not erased and has no later sequence."""
    count = 0
    for row in ref.looked_rows(g.rows):
        record = record_at(g, page_of(row))
        if record is not None and row % g.pages:
            page = page_of(row - 1)
            before = record_at(g, page)
            follows = before.sequence < record.sequence if before else page != b"\xff" * g.page
            count += follows
        elif record is not None:
            count += 1
    return count


def shows_sound(g, page_of):
    """Whether one of the first 64 pages that are looked at is sound."""
    return any(record_at(g, page_of(row)) for row in ref.looked_rows(g.rows)[:64])


def shows_more(g, page_of):
    """Whether of the first 64 pages that are looked at more are sound than neither sound nor erased."""
    pages = [page_of(row) for row in ref.looked_rows(g.rows)[:64]]
    sound = sum(record_at(g, page) is not None for page in pages)
    return sum(page != b"\xff" * g.page for page in pages) - sound < sound


def told_of(g, told, page_of):
    """What comes first, the numbers and what is said for them, and the words, of a geometry that fits in an arrangement."""
    fit = next(fit for fit in ref.fits(g.rows, g.data, g.spare, page_of) if fit[1][2] == g.pages)
    return (-in_turn(g, page_of), fit[0], rank_of(told)), fit[1:], words_of(told)


def uncut(raw):
    """What fits in each order of the bytes, with nothing around the pages, or a header or a tail."""
    for outer in [{}, *({"header": n} for n in AROUND), *({"tail": n} for n in AROUND)]:
        size = len(raw) - sum(outer.values())
        shapes = [g for data in (2**k for k in range(6, 13)) for spare in range(32, 257) if size > 0 and size % (data + spare) == 0 for g in ref.shapes_of(size, data, spare)]
        read = {}
        for order in orders() if shapes else []:
            told = outer | order
            key = "swapped" in told, "inverted" in told
            if key not in read:
                read[key] = straight(told, raw)
            for g in shapes:
                if "planes" in told and g.blocks % 2:
                    continue
                page_of = page_reader(g, told, read[key])
                if shows_sound(g, page_of):
                    yield told_of(g, told, page_of)


def may_spell(g, raw):
    """Whether a spare area of the first pages that are looked at begins as that of a sound page does."""
    starts = (row * g.page + g.data for row in ref.looked_rows(g.rows)[:64])
    return any(raw[start : start + 2] == b"\xff\xff" and raw[start + 2 : start + 3] in (b"\x01", b"\x02") for start in starts)


def cut(raw):
    """What fits in order, where a part of the last block was cut off: those bytes are 00h. Of the first pages more are sound than neither sound nor erased."""
    for data, spare, pages in ((2**k, spare, 2**n) for k in range(6, 13) for spare in range(32, 257) for n in range(2, 9)):
        block = pages * (data + spare)
        lacks = -len(raw) % block
        for g in ref.shapes_of(len(raw) + lacks, data, spare) if lacks else []:
            if g.pages == pages and may_spell(g, raw):
                told = {"cut": lacks}
                page_of = page_reader(g, told, raw + bytes(lacks))
                if shows_more(g, page_of):
                    yield told_of(g, told, page_of)


def best(raw):
    """The numbers of the geometry, what is said for it, and the words of the arrangement in which the dump fits best; or none."""
    found = [*uncut(raw), *cut(raw)]
    return min(found)[1:] if found else None


def turned(raw, numbers):
    """The same of a geometry that fits as the dump stands, with two planes in turns, where more of its pages are in their turn so; or none."""
    g, told = ref.Geometry(*numbers[:4], 1), {"planes": 2}
    if g.blocks % 2:
        return None
    stands, page_of = page_reader(g, {}, raw), page_reader(g, told, raw)
    if in_turn(g, page_of) <= in_turn(g, stands) or not shows_sound(g, page_of):
        return None
    return told_of(g, told, page_of)[1:]
