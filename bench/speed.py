#!/usr/bin/env python3
"""Draws bench/speed.svg from the tables of bench/SPEED.md.

    bench/speed.py            draws it
    bench/speed.py --check    says whether it is what would be drawn; status 1 if not

The left half has a bar for each row of the table with a column "Times", and a line at 1: as long as sha256sum takes. The right half has one for each
row of the table with a column "A second".
"""

import html
import re
import sys
from pathlib import Path

BENCH = Path(__file__).resolve().parent
ROW, BAR, TOP, HALF, NAMES = 22, 14, 46, 620, 330
COLOURS = {"nandctl": "#4472a8", "nandlab": "#3f8f6b", "nanddisk": "#b5762a", "nbdkit": "#888888"}


def table_with(text, column):
    """The rows of the table that has this column, each a dict by its heads."""
    for lines in re.findall(r"(?:^\|.*\n)+", text, re.MULTILINE):
        rows = [[cell.strip() for cell in line.strip().strip("|").split("|")] for line in lines.splitlines()]
        if column in rows[0]:
            return [dict(zip(rows[0], row)) for row in rows[2:]]
    raise SystemExit(f"SPEED.md has no table with a column {column}")


def colour_of(name):
    return next(colour for start, colour in COLOURS.items() if name.startswith(start))


def words(x, y, text, anchor="start", weight="normal"):
    return f'<text x="{x}" y="{y}" text-anchor="{anchor}" font-weight="{weight}">{html.escape(text)}</text>'


def panel(left, title, rows, most, mark=None):
    """One half: a title, and for each row its name, its bar and its number. `rows`: name, value, told."""
    scale = (HALF - NAMES - 80) / most
    out = [words(left + 10, 26, title, weight="bold")]
    for nth, (name, value, told) in enumerate(rows):
        y = TOP + nth * ROW
        out.append(words(left + NAMES - 8, y + 12, name, "end"))
        out.append(f'<rect x="{left + NAMES}" y="{y}" width="{value * scale:.1f}" height="{BAR}" fill="{colour_of(name)}"/>')
        # no number stands across the line
        end = max(value, mark) if mark and value < mark < value + 40 / scale else value
        out.append(words(round(left + NAMES + end * scale + 6, 1), y + 12, told))
    if mark:
        x = left + NAMES + mark * scale
        out.append(f'<line x1="{x:.1f}" y1="{TOP - 8}" x2="{x:.1f}" y2="{TOP + len(rows) * ROW}" stroke="#000" stroke-dasharray="4 3"/>')
    return out


def picture(text):
    times = [(row["Measure"], float(row["Times"]), row["Times"]) for row in table_with(text, "Times")]
    requests = [(f"{row['Server']}, {row['Requests']}", int(row["A second"].replace(",", "")), row["A second"]) for row in table_with(text, "A second")]
    high = TOP + max(len(times), len(requests)) * ROW + 16
    body = panel(0, "times sha256sum (dashed: as long as it)", times, max(value for _, value, _ in times), 1)
    body += panel(HALF, "4 KiB requests a second, by fio", requests, max(value for _, value, _ in requests))
    head = f'<svg xmlns="http://www.w3.org/2000/svg" width="{2 * HALF}" height="{high}" font-family="sans-serif" font-size="12">'
    return "\n".join([head, f'<rect width="{2 * HALF}" height="{high}" fill="#fff"/>', *body, "</svg>"]) + "\n"


def main():
    drawn = picture((BENCH / "SPEED.md").read_text(encoding="utf-8"))
    path = BENCH / "speed.svg"
    if sys.argv[1:] == ["--check"]:
        if not path.exists() or path.read_text(encoding="utf-8") != drawn:
            print("bench/speed.svg is not what bench/speed.py draws")
            return 1
        return 0
    path.write_text(drawn, encoding="utf-8")
    return 0


if __name__ == "__main__":
    sys.exit(main())
