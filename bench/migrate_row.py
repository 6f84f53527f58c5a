#!/usr/bin/env python3
"""Brings a small die of version 1 forward by nandctl, and holds each line and each byte against the reference.

    [PROGRAM=..] bench/migrate_row.py [--print]

With --print it runs nothing, and prints the pages that `migrate_rows` of `command_tests` has as bytes."""

import struct
import subprocess
import sys
import tempfile
from pathlib import Path

import reference as ref
from program import PROGRAM

G = ref.Geometry(64, 40, 8, 32, 32)
NEXT, GOOD = 5, 32


def old_die():
    """Two table pages, sector 5 in row 8 and a trim of 7 in row 9, all of version 1."""
    image = ref.Image(G, b"\xff" * (G.rows * G.page))
    table = bytes(G.data)
    image.put(0, ref.Record(4, 0, 1, 0), table, 1)
    image.put(1, ref.Record(4, 1, 2, 0), table, 1)
    image.put(8, ref.Record(1, 5, 3, 0), b"\x11" * G.data, 1)
    image.put(9, ref.Record(2, 7, 4, 0), bytes(G.data), 1)
    return image


def new_pages():
    """What is programmed, by its row: the pages of sectors, then translation page 0, then the table."""
    rows = [ref.NONE] * G.entries
    rows[5], rows[7] = 10, 11
    pages = {10: (ref.Record(1, 5, 5, 0), b"\x11" * G.data), 11: (ref.Record(2, 7, 6, 0), bytes(G.data))}
    pages[2] = ref.Record(3, 0, 7, 0), struct.pack(f"<{G.entries}I", *rows)
    pages[3] = ref.Record(4, 0, 8, 0), bytes(G.data)
    pages[4] = ref.Record(4, 1, 9, 0), bytes(G.data)
    return pages


def renewed(image):
    after = ref.Image(G, image.raw())
    for row, (record, data) in new_pages().items():
        after.put(row, record, data, 2)
    return after


def as_text(raw):
    return "".join(f"\\x{byte:02x}" for byte in raw)


def show_pages(after):
    for first, last in ((2, 4), (10, 11)):
        pages = b"".join(after.data[row] + after.spare[row] for row in range(first, last + 1))
        print(f"rows {first} to {last}, from byte {first * G.page}:\n{as_text(pages)}")


class Folder:
    def __init__(self, path):
        self.path = Path(path)

    def hold(self, words, status, out, err=""):
        done = subprocess.run([PROGRAM, *words.split()], cwd=self.path, capture_output=True, text=True, stdin=subprocess.DEVNULL)
        if (done.returncode, done.stdout, done.stderr) != (status, out, err):
            raise SystemExit(f"{words}\n  wanted {status, out, err}\n  got {done.returncode, done.stdout, done.stderr}")


def run_row(folder, image, after):
    folder.path.joinpath("image.bin").write_bytes(image.raw())
    words = G.words()
    folder.hold(f"mount {words} 4 image.bin cert.bin", 0, f"mounted next {NEXT} good {GOOD} stale 2\n")
    folder.hold(f"migrate {words} 4 image.bin cert.bin out.bin", 0, "migrated 2\n")
    if folder.path.joinpath("out.bin").read_bytes() != after.raw():
        raise SystemExit(f"out.bin differs, files in {folder.path}")
    folder.hold(f"mount {words} 1 out.bin cert.bin", 0, f"mounted next {NEXT + 5} good {GOOD} stale 0\n")
    folder.hold(f"check {words} 1 out.bin cert.bin", 0, "accepted\n")
    for row, page in new_pages().items():
        folder.hold(f"show {words} out.bin {row}", 0, ref.show(after, row))
        altered = bytearray(after.raw())
        altered[row * G.page + G.data + 39] ^= 1
        folder.path.joinpath("altered.bin").write_bytes(altered)
        folder.hold(f"show {words} altered.bin {row}", 0, "unsound\n")


def main():
    image = old_die()
    after = renewed(image)
    certificate = ref.Certificate(ref.certificate_bytes(G, 4, ref.Shown(image)))
    assert ref.migrate(image, 4, certificate) == (after.raw(), "migrated 2\n", None)
    if "--print" in sys.argv:
        return show_pages(after)
    with tempfile.TemporaryDirectory() as folder:
        run_row(Folder(folder), image, after)
    print("the row of a die of version 1: as the reference has it")


if __name__ == "__main__":
    main()
