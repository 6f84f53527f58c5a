"""What nandlab has to say of a dump, by the independent reference: a part of lab.py."""

import collections
import copy
import itertools

import reference as ref
from lab_made import damaged, is_sound, pages_of, paired, turned, with_bits
from lab_told import age_text, damaged_text, history_text, legible_text, rows_age_text, says_text, tries_text, until_text

# which of the last lines some dump had, and whether one with factory marks left nothing open
SEEN = set()
# how many sectors were shown of one unsound page, of a trim, or of the first of several
SHOWN = collections.Counter()
# how many sectors `origin` marked by each sign
ORIGINS = collections.Counter()
CLASSES = ["free", "data", "mapping", "closed", "factory", "grown"]


def unsound_of(image, block):
    """How many pages of a block are neither erased nor sound."""
    rows = range(block * image.g.pages, (block + 1) * image.g.pages)
    return sum(image.records[row] is None and not image.erased[row] for row in rows)


def said_by(image, row):
    """What a page says that is neither erased nor sound: the record of a sound page with all its bytes but those of the data area and the seal,
    where the die has that sector, translation page or table page."""
    g, spare = image.g, image.spare[row]
    if image.records[row] is not None or image.erased[row] or spare[2] not in ref.SEALS or spare[3] not in ref.KINDS:
        return None
    if spare[2] == 2 and g.spare < 40:
        return None
    says = ref.Record(spare[3], *(int.from_bytes(spare[a:b], "little") for a, b in [(4, 8), (8, 16), (16, 20)]))
    made = ref.spare_of(g, says, image.data[row], spare[2])
    end = 24 + ref.SEALS[spare[2]]
    kind, number = says.key()
    limit = {"sector": g.sectors, "translation": g.translation, "table": g.tables}[kind]
    return says if made[:24] + made[end:] == spare[:24] + spare[end:] and number < limit else None


def said_lines(image, newer_alone=False):
    """What the pages say that are neither erased nor sound, or those alone that say something newer than each sound page of the same."""
    told = ""
    for row in range(image.g.rows):
        says = said_by(image, row)
        if says is not None:
            newer = all(image.records[r].sequence < says.sequence for r in image.of_key(*says.key()))
            SEEN.add("newer" if newer else "not newer")
            kind = ["sector", "trim", "translation", "table"][says.kind - 1]
            told += (says_text(row, kind, says.number, says.sequence, newer) + "\n") * (newer or not newer_alone)
    return told


def holes_of(image, block):
    """How many erased pages stand before one of their block that is not: a block is programmed in order, so they were lost."""
    first, end = block * image.g.pages, (block + 1) * image.g.pages
    last = max((row for row in range(first, end) if not image.erased[row]), default=first)
    return sum(image.erased[first:last])


def age_lines(image, last=None):
    """What the dump leaves open, by block: blocks that the table names factory bad, those that were written again, and all others. Of the array as of
    a sequence the last line says that it is."""
    blocks = range(image.g.blocks)
    factory = {block for block in blocks if ref.named(image, block) == 1}
    rewritten = set(ref.written_again(image))
    others = set(blocks) - factory - rewritten
    unsound, holes = (sum(count(image, block) for block in others) for count in [unsound_of, holes_of])
    marks, moved = (sum(unsound_of(image, block) + holes_of(image, block) for block in some) for some in [factory, rewritten])
    outside = sum(x is not None and x.key()[0] == "sector" and x.number >= image.g.sectors for x in image.records)
    named = {"factory": marks, "rewritten": moved, "holes": holes, "outside": outside}
    SEEN.update({name for name, count in named.items() if count > 0} | {"none" for _ in [0] if unsound + holes == 0 and marks > 0})
    legible = sum(said_by(image, row) is not None and row // image.g.pages in others for row in range(image.g.rows))
    claim = age_text(unsound, unsound + holes, outside, moved) if last is None else until_text(unsound, last)
    told = legible_text(legible, unsound - legible + holes) + "\n" if legible > 0 and last is None else ""
    return "".join(f"{name} {count}\n" for name, count in named.items() if count > 0) + told + claim + "\n"


def as_of(image, last):
    """The image in which just the sound pages count that have this sequence or an earlier one."""
    if last is None:
        return image
    counts = copy.copy(image)
    counts.records = [x if x is not None and x.sequence <= last else None for x in image.records]
    return counts


def damaged_rows(image, last=None):
    """Of each sector that some unsound page says, with a greater sequence than each sound page of it, the row of such a page: that of the greatest
    sequence, and of several the first. Of pages of a later sequence than `last` none counts."""
    said = {}
    for row in range(image.g.rows):
        says = said_by(image, row)
        if says is not None and says.key()[0] == "sector" and (last is None or says.sequence <= last):
            said.setdefault(says.number, []).append((says.sequence, row))
    counts, shown = as_of(image, last), {}
    for n, pages in said.items():
        top = max(sequence for sequence, _ in pages)
        rows = [row for sequence, row in pages if sequence == top]
        if all(counts.records[row].sequence < top for row in counts.of_key("sector", n)):
            shown[n] = rows[0]
            SHOWN["trim" if said_by(image, rows[0]).kind == 2 else "tied" if len(rows) > 1 else "one"] += 1
    return shown


def array_of(image, last=None, damaged=False):
    """The sectors as of a sequence, where one is said, with pages shown that are not sound where that is asked for, and the report."""
    whole, image = image, as_of(image, last)
    g, sectors, told = image.g, [], ""
    shown = damaged_rows(whole, last) if damaged else {}
    for n in range(g.sectors):
        if n in shown:
            sectors.append(whole.data[shown[n]] if said_by(whole, shown[n]).kind == 1 else bytes(g.data))
            continue
        try:
            sectors.append(ref.sector(image, n))
        except ref.Refused:
            sectors.append(bytes(g.data))
            told += f"tied sector {n}\n"
    told += damaged_text(len(shown)) + "\n" if shown else ""
    told += said_lines(whole, True) * (last is None) + age_lines(whole, last)
    return b"".join(sectors), told


def map_of(image, last=None, damaged=False):
    """The map of the array: the areas of OUT whose sectors are marked alike."""
    g, position = image.g, 0
    signs = {"found": "+", "tied": "-", "damaged": "-", "absent": "?"}
    text = "# Mapfile of an array, made by nandlab\n0x0 + 1\n"
    shown, counts = damaged_rows(image, last) if damaged else {}, as_of(image, last)
    for sign, area in itertools.groupby(signs["damaged" if n in shown else key_state(counts, "sector", n)] for n in range(g.sectors)):
        size = g.data * len(list(area))
        text += f"{position:#x} {size:#x} {sign}\n"
        position += size
    assert position == g.sectors * g.data
    return text


def key_state(image, kind, number):
    """"found", "tied" or "absent"."""
    rows = image.of_key(kind, number)
    top = max((image.records[r].sequence for r in rows), default=None)
    return ["absent", "found", "tied"][min(2, sum(image.records[r].sequence == top for r in rows))]


def is_well_formed(image, page):
    g, row = image.g, image.newest("table", page)
    words = [int.from_bytes(image.data[row][4 * i : 4 * i + 4], "little") for i in range(g.entries)]
    blocks = [page * g.entries + i for i in range(g.entries)]
    return all(w % 256 < 3 if b < g.blocks else w == ref.NONE for w, b in zip(words, blocks))


def survey_of(image, asked):
    """The lines of `survey`, where these words ask for rows."""
    g = image.g
    limits = {"sector": g.sectors, "translation": g.translation, "table": g.tables}
    sound = [x for x in image.records if x is not None]
    broken = [r for r in range(g.rows) if image.records[r] is None and not image.erased[r]]
    lines = [f"pages {name} {sum(x.kind == kind for x in sound)}" for kind, name in enumerate(["data", "trim", "translation", "table"], 1)]
    lines += [f"pages erased {sum(image.erased)}", f"pages unsound {len(broken)}"]
    outside = sum(x.number >= limits[x.key()[0]] for x in sound)
    repeated = ref.first_repeated_sequence(image)
    last = sum(x.sequence == 2**64 - 1 for x in sound)
    lines += [f"reason NumberRange pages {outside}"] * (outside > 0)
    lines += [f"reason SequenceRepeated row {repeated[0]} row {repeated[1]}"] if repeated else []
    lines += [f"reason NextSequence pages {last}"] * (last > 0)
    tables = [key_state(image, "table", u) for u in range(g.tables)]
    formed = [state == "found" and is_well_formed(image, u) for u, state in enumerate(tables)]
    for u, state in enumerate(tables):
        if state != "found":
            lines.append(f"reason NotFormatted table {u}")
        elif not formed[u]:
            lines.append(f"reason TableDamaged table {u}")
    for kind, count in limits.items():
        for n in range(count):
            state = key_state(image, kind, n)
            if state == "tied":
                lines.append(f"tied {kind} {n}")
            elif state == "absent" and kind != "sector":
                lines.append(f"missing {kind} {n}")
    shown = ref.Shown(image) if outside == 0 and repeated is None and all(formed) else None
    for b in range(g.blocks):
        unsound = sum(r // g.pages == b for r in broken)
        if shown is None:
            lines.append(f"block {b} unsound {unsound}")
        else:
            kind, pointer, live, wear = shown.blocks[b]
            lines.append(f"block {b} class {CLASSES[kind]} pointer {pointer} live {live} wear {wear} unsound {unsound}")
    text = "".join(line + "\n" for line in lines) + said_lines(image)
    if asked:
        return f"rows {asked[1]}\n" + text + rows_age_text(len(broken)) + "\n", shown
    return text + age_lines(image), shown


def mounts_as_told(image, told, shown):
    """What the reference's own mount says: it is refused for a reason that was told, and for none where none was."""
    try:
        ref.mount(image, max(1, len(shown.stale)) if shown else 65536)
        assert "reason" not in told, told
    except ref.Refused as refused:
        assert f"reason {refused.line.split()[3]}" in told, (refused.line, told)


def lost_of(image, certificate):
    """The sectors that have lost a page since the certificate was made."""
    lost = []
    for n in range(image.g.sectors):
        rows = image.of_key("sector", n)
        row = None if key_state(image, "sector", n) == "tied" else image.newest("sector", n)
        said = certificate.sectors[n]
        is_there = row == said if row is not None else said is None and not rows
        is_since = row is not None and image.records[row].sequence >= certificate.next
        if not is_there and not is_since:
            lost.append(n)
    return lost


def history_of(image, n):
    """The sound pages of a sector, newest first, and of two with one sequence that of the lower row."""
    rows = sorted(image.of_key("sector", n), key=lambda row: (-image.records[row].sequence, row))
    told = ""
    for row in rows:
        x, version = image.records[row], ref.version_of(image.data[row], image.spare[row])
        told += f"page row {row} block {row // image.g.pages} sequence {x.sequence} version {version} {'data' if x.kind == 1 else 'trim'}\n"
    broken = sum(x is None and not erased for x, erased in zip(image.records, image.erased))
    return told + history_text(len(rows), broken) + "\n", len(rows)


def mended(g, raw, rows, bits=1):
    """The dump with each page of these rows mended that one bit turned makes sound, or else erased, or two bits, and the report."""
    pages, told, tries, all_bits = pages_of(g, raw), "", 0, 8 * g.page
    for row, page in enumerate(pages):
        if row not in rows or is_sound(g, page) or page == b"\xff" * g.page:
            continue
        tests = {"mended": lambda other: is_sound(g, other), "erased": lambda other: other == b"\xff" * g.page}
        for word, test in tests.items():
            bit = next((bit for bit in range(8 * g.page) if test(turned(page, bit))), None)
            if bit is not None:
                pages[row] = turned(page, bit)
                told += f"{word} row {row} bit {bit}\n"
                tries += all_bits
                break
        else:
            if bits == 2:
                pages[row], line = paired(g, page, row)
                told += line
                tries += all_bits + all_bits * (all_bits - 1) // 2
    done = sum(line.startswith(("mended", "erased")) for line in told.splitlines())
    return b"".join(pages), told + (tries_text(tries) + "\n" if bits == 2 and tries else "") + f"mended {done}\n"


def loss_map(g, losses):
    """The map of a corrected dump: a line for each row with lost chunks, and for the rows between two."""
    text, next_row = "# Mapfile of a dump, made by nandlab\n0x0 + 1\n", 0
    for row in [*losses, g.rows]:
        if next_row < row:
            text += f"0x{next_row * g.page:x} 0x{(row - next_row) * g.page:x} +\n"
        if row < g.rows:
            text += f"0x{row * g.page:x} 0x{g.page:x} -\n"
        next_row = row + 1
    return text


def majority(pages):
    bits = [sum(page[k // 8] >> k % 8 & 1 for page in pages) for k in range(8 * len(pages[0]))]
    return sum((2 * n > len(pages)) << k for k, n in enumerate(bits)).to_bytes(len(pages[0]), "little")


def tried(g, programmed):
    """What comes of turning bits of the first of these pages in which they differ: the page, its origin, and what is told."""
    apart = [int.from_bytes(page, "little") ^ int.from_bytes(programmed[0], "little") for page in programmed]
    bits = [bit for bit in range(8 * g.page) if any(number >> bit & 1 for number in apart)]
    if not 1 <= len(bits) <= 16:
        return programmed[0], "unsound", None
    for count in range(1, len(bits) + 1):
        sound = [page for page in (with_bits(programmed[0], turns) for turns in itertools.combinations(bits, count)) if is_sound(g, page)]
        if len(sound) == 1:
            return sound[0], "turned", ("turned", f"{count} of {len(bits)}", len(bits))
        if sound:
            return programmed[0], "unsound", ("tied", f"{count} of {len(bits)}", len(bits))
    return programmed[0], "unsound", ("tried", str(len(bits)), len(bits))


def choice(g, pages):
    """What is written of a row, where it is from, and what came of the pages that were tried, if some were."""
    sound = {page for page in pages if is_sound(g, page)}
    if sound:
        return (sound.pop(), "sound", None) if len(sound) == 1 else (bytes(g.page), "differ", None)
    if len(pages) >= 3 and is_sound(g, majority(pages)):
        return majority(pages), "majority", None
    programmed = [page for page in pages if page != b"\xff" * g.page]
    return tried(g, programmed) if programmed else (pages[0], "erased", None)


def origins_of(image, readings, last):
    """The map of the array, with a sign of its own for each sector whose newest page no reading has, and how many there are."""
    g, counts, signs, position = image.g, as_of(image, last), [], 0
    for n in range(g.sectors):
        state = key_state(counts, "sector", n)
        if state == "found":
            row = counts.newest("sector", n)
            page = image.data[row] + image.spare[row]
            state = "found" if any(pages_of(g, raw)[row] == page for raw in readings) else "mended"
        signs.append({"found": "+", "mended": "*", "tied": "-", "absent": "?"}[state])
    text = "# Mapfile of an array beside its readings, made by nandlab\n0x0 + 1\n"
    for sign, area in itertools.groupby(signs):
        size = g.data * len(list(area))
        text += f"{position:#x} {size:#x} {sign}\n"
        position += size
    ORIGINS.update(signs)
    return text, signs.count("*")
