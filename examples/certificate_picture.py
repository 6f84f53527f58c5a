#!/usr/bin/env python3
"""Draws a certificate: one square a block, by its class, with its live pages and its erase count.

    examples/certificate_picture.py CERT > picture.svg

It reads the certificate's bytes (docs/FORMATS.md) and nothing else, and uses Python's own library alone."""

import math
import struct
import sys

CLASSES = [
    ("free", "#e8eef4"),
    ("open, data", "#7fb2e5"),
    ("open, mapping", "#b79be0"),
    ("closed", "#5b8c5a"),
    ("factory bad", "#333333"),
    ("grown bad", "#c0392b"),
]
SIZE, GAP, MARGIN, LINE = 30, 4, 16, 18


def blocks_of(data):
    """The pages of a block, and class, live pages and erase count of each block."""
    if len(data) < 40 or data[:8] != b"DFTLCRT1":
        sys.exit("not a certificate")
    _, _, pages, blocks, _, _ = struct.unpack_from("<6I", data, 8)
    if len(data) < 40 + 9 * blocks:
        sys.exit("a certificate that is cut short")
    found = []
    for block in range(blocks):
        kind, _, live, wear = struct.unpack_from("<BHHI", data, 40 + 9 * block)
        found.append((kind, live, wear))
    return pages, found


def square(block, x, y, pages, kind, live, wear):
    """A block: the fuller of live pages, the higher its dark part; the number is its erase count."""
    name, color = CLASSES[kind]
    height = SIZE * live / pages
    dark = "#ffffff" if kind in (3, 4, 5) else "#222222"
    return [
        f'<g><title>block {block}: {name}, {live} of {pages} pages live, erased {wear} times</title>',
        f'<rect x="{x}" y="{y}" width="{SIZE}" height="{SIZE}" fill="{color}" stroke="#888" stroke-width="0.5"/>',
        f'<rect x="{x}" y="{y + SIZE - height:.1f}" width="{SIZE}" height="{height:.1f}" fill="#000" opacity="0.25"/>',
        f'<text x="{x + SIZE / 2}" y="{y + SIZE / 2 + 4}" text-anchor="middle" fill="{dark}">{wear}</text></g>',
    ]


def legend(y, found):
    """One line a class, with how many blocks have it."""
    lines = []
    for kind, (name, color) in enumerate(CLASSES):
        count = sum(1 for block in found if block[0] == kind)
        at = y + LINE * kind
        lines.append(f'<rect x="{MARGIN}" y="{at}" width="12" height="12" fill="{color}" stroke="#888" stroke-width="0.5"/>')
        lines.append(f'<text x="{MARGIN + 18}" y="{at + 10}" fill="#222222">{name}: {count}</text>')
    at = y + LINE * len(CLASSES) + 10
    lines.append(f'<text x="{MARGIN}" y="{at}" fill="#222222">number: erases · dark part: live pages</text>')
    return lines


def picture(data):
    pages, found = blocks_of(data)
    columns = max(8, math.ceil(math.sqrt(len(found) * 2)))
    rows = math.ceil(len(found) / columns)
    top = MARGIN + rows * (SIZE + GAP) + 8
    width = max(2 * MARGIN + columns * (SIZE + GAP), 260)
    height = top + LINE * (len(CLASSES) + 1) + MARGIN
    lines = [
        f'<svg xmlns="http://www.w3.org/2000/svg" width="{width}" height="{height}" font-family="sans-serif" font-size="10">',
        f'<rect width="{width}" height="{height}" fill="#ffffff"/>',
    ]
    for block, (kind, live, wear) in enumerate(found):
        x = MARGIN + block % columns * (SIZE + GAP)
        y = MARGIN + block // columns * (SIZE + GAP)
        lines += square(block, x, y, pages, kind, live, wear)
    return "\n".join(lines + legend(top, found) + ["</svg>", ""])


if __name__ == "__main__":
    if len(sys.argv) != 2:
        sys.exit(__doc__)
    with open(sys.argv[1], "rb") as file:
        sys.stdout.write(picture(file.read()))
