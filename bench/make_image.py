#!/usr/bin/env python3
"""Writes a raw image, independently of the crates.

    make_image.py GEOM OUT [--full] [PAGE ..]

GEOM is `data,spare,pages,blocks,sectors`. A PAGE is `row:kind:number:sequence:wear:byte`, where kind is data, trim,
translation or table, and byte (two hexadecimal digits) fills the data area. Every other page is erased; with --full it
holds instead a data page of sector `row mod sectors` with sequence `row + 1` and bytes of its own.
"""

import hashlib
import struct
import sys

KINDS = {"data": 1, "trim": 2, "translation": 3, "table": 4}


def spare_area(size, kind, number, sequence, wear, data):
    """A record: its fields, the seal over the data area and the fields, and fill bytes. It is of version 2, with a seal of 16
    bytes, where the spare area has at least 40, else of version 1, with a seal of 8."""
    version, seal_size = (2, 16) if size >= 40 else (1, 8)
    fields = b"\xff\xff" + bytes([version, kind]) + struct.pack("<IQI", number, sequence, wear) + b"\xff" * 4
    seal = hashlib.sha256(data + fields).digest()[:seal_size]
    return (fields + seal).ljust(size, b"\xff")


def filler(row, size):
    """Bytes that differ from page to page."""
    return hashlib.shake_128(struct.pack("<I", row)).digest(size)


def main(words):
    full = "--full" in words
    words = [word for word in words if word != "--full"]
    data_bytes, spare_bytes, pages, blocks, sectors = (int(n) for n in words[0].split(","))
    placed = {}
    for page in words[2:]:
        row, kind, number, sequence, wear, byte = page.split(":")
        data = bytes.fromhex(byte) * data_bytes
        placed[int(row)] = data + spare_area(spare_bytes, KINDS[kind], int(number), int(sequence), int(wear), data)
    erased = b"\xff" * (data_bytes + spare_bytes)
    with open(words[1], "wb") as out:
        for row in range(blocks * pages):
            page = placed.get(row, erased)
            if full and row not in placed:
                data = filler(row, data_bytes)
                page = data + spare_area(spare_bytes, 1, row % sectors, row + 1, 0, data)
            out.write(page)


if __name__ == "__main__":
    main(sys.argv[1:])
