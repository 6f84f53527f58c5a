#!/usr/bin/env python3
"""Writes a raw image of which every page is programmed, and its certificate, independently of the crates.

    make_mounted.py GEOM C IMAGE CERT [VERSION]

The blocks before the last few hold sectors in turn; the last few hold table page 0 over and over, the translation pages and
the table pages. No sector is stale, and no block is bad. The records are of VERSION, or of the version for the die."""

import hashlib
import struct
import sys

import reference as ref


def body_of(g, row):
    """Bytes that differ from page to page."""
    return hashlib.shake_128(struct.pack("<I", row)).digest(g.data)


def words_page(g, words):
    return struct.pack(f"<{g.entries}I", *words, *[ref.NONE] * (g.entries - len(words)))


class Layout:
    """Where everything stands, and what the certificate says of it."""

    def __init__(self, g):
        self.g = g
        meta = g.translation + g.tables
        self.first_meta = (g.blocks - -(-meta // g.pages)) * g.pages
        self.first_kept = g.rows - meta
        if self.first_meta < g.sectors:
            raise SystemExit("too few rows for the sectors")
        last = self.first_meta - 1
        self.sectors = [last - (last - n) % g.sectors for n in range(g.sectors)]
        self.directory = list(range(self.first_kept, g.rows))
        self.next = g.rows + 1
        live = [0] * g.blocks
        for row in self.sectors + self.directory:
            live[row // g.pages] += 1
        self.blocks = [[3, g.pages, live[b], 0] for b in range(g.blocks)]

    def table(self, u):
        return words_page(self.g, [0] * min(self.g.entries, self.g.blocks - u * self.g.entries))

    def translation(self, t):
        return words_page(self.g, self.sectors[t * self.g.entries : (t + 1) * self.g.entries])

    def page(self, row):
        g = self.g
        if row < self.first_meta:
            kind, number, data = 1, row % g.sectors, body_of(g, row)
        elif row < self.first_kept:
            kind, number, data = 4, 0, self.table(0)
        elif row < self.first_kept + g.translation:
            kind, number, data = 3, row - self.first_kept, self.translation(row - self.first_kept)
        else:
            u = row - self.first_kept - g.translation
            kind, number, data = 4, u, self.table(u)
        return data + ref.spare_of(g, ref.Record(kind, number, row + 1, 0), data, self.version)


def main(words):
    g = ref.Geometry(*(int(n) for n in words[0].split(",")))
    layout = Layout(g)
    layout.version = int(words[4]) if len(words) > 4 else None
    with open(words[2], "wb") as out:
        for row in range(g.rows):
            out.write(layout.page(row))
    with open(words[3], "wb") as out:
        out.write(ref.certificate_bytes(g, int(words[1]), layout))


if __name__ == "__main__":
    main(sys.argv[1:])
