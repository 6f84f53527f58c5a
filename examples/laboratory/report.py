#!/usr/bin/env python3
"""One page of what nandlab told of many dies: a table of all, and a picture of each.

    report.py RESULTS OUT

RESULTS holds a folder for each die, as the Snakefile beside this script makes them. The page stands alone: no other file, no script."""

import html
import sys
from pathlib import Path

COLOURS = {"free": "#e8e8e8", "data": "#8cc4f0", "mapping": "#a6dba0", "closed": "#4a86c5", "factory": "#444", "grown": "#8b1a1a", "unknown": "#cbb7e0"}
STYLE = """
body { font: 14px/1.45 sans-serif; margin: 2em auto; max-width: 76em; color: #222 }
table { border-collapse: collapse } th, td { padding: .25em .5em; border-bottom: 1px solid #ddd; text-align: right }
th:first-child, td:first-child, td.text { text-align: left } td.bad { background: #fbe3e0 }
svg { vertical-align: top } section { margin: 1.6em 0 } .key span { display: inline-block; padding: 0 .7em; margin-right: .5em }
"""


def lines(path):
    return path.read_text().splitlines() if path.exists() else []


def is_refused(told):
    return bool(told) and told[0].split()[0] in ("refused", "fault", "usage")


def counts(told):
    """The numbers of `survey`: how many pages are of each sort."""
    return {words[1]: int(words[2]) for words in map(str.split, told) if words[0] == "pages"}


def blocks(told):
    """Each block's class, or unknown, and its unsound pages."""
    found = []
    for words in map(str.split, told):
        if words[0] == "block":
            found.append((words[3] if words[2] == "class" else "unknown", int(words[-1])))
    return found


def areas(mapfile):
    """Bytes of each state in a mapfile of GNU ddrescue: finished, bad, not tried, and of a page that no reading has."""
    sums = {"+": 0, "-": 0, "?": 0, "*": 0}
    for words in map(str.split, mapfile):
        if len(words) == 3 and words[2] in sums and words[0].startswith("0x"):
            sums[words[2]] += int(words[1], 16)
    return sums


def picture(die, told, pages):
    """One square a block: its colour is the class, the red bar how many of its pages are unsound. The die's name is as HTML has it."""
    squares, side, across = [], 18, 32
    for number, (kind, unsound) in enumerate(told):
        x, y = number % across * (side + 3), number // across * (side + 3)
        tip = f"block {number}: {kind}, {unsound} pages unsound"
        squares.append(f'<rect x="{x}" y="{y}" width="{side}" height="{side}" fill="{COLOURS[kind]}"><title>{tip}</title></rect>')
        if unsound:
            high = max(3, round(side * unsound / pages))
            squares.append(f'<rect x="{x}" y="{y + side - high}" width="{side}" height="{high}" fill="#e0452b"><title>{tip}</title></rect>')
    high = -(-len(told) // across) * (side + 3)
    return f'<svg width="{across * (side + 3)}" height="{high}" role="img" aria-label="blocks of {die}">{"".join(squares)}</svg>'


class Die:
    """What was told of one die."""

    def __init__(self, place, folder):
        self.place = f"die{place}"
        self.name = html.escape(folder.name)
        shapes = lines(folder / "geometry.txt")
        self.shape = None if not shapes or is_refused(shapes) else shapes[0].split()[1]
        self.refusal = shapes[0] if is_refused(shapes) else ""
        self.first = [counts(lines(path)) for path in sorted(folder.glob("*.survey.txt"))]
        self.mended = sum(line.startswith("mended row") for path in folder.glob("*.repair.txt") for line in lines(path))
        self.merged = lines(folder / "merge.txt")
        self.survey = lines(folder / "survey.txt")
        self.array = lines(folder / "array.txt")
        self.verified = lines(folder / "verify.txt")
        self.ordered = next((lines(path)[:1] for path in sorted(folder.glob("*.order.txt"))), [])
        self.damaged = sum(int(line.split()[1].rstrip(":")) for line in lines(folder / "damaged.txt") if line.startswith("damaged "))
        self.made = areas(lines(folder / "origin.map"))["*"]
        self.areas = areas(lines(folder / "disk.map"))

    def row(self):
        if self.shape is None:
            return f'<tr><td>{self.name}</td><td class="text bad" colspan="13">{html.escape(self.refusal)}</td></tr>'
        data = int(self.shape.split(",")[0])
        before = " ".join(str(count.get("unsound", "?")) for count in self.first)
        left, marked = counts(self.survey).get("unsound", 0), sum(n for kind, n in blocks(self.survey) if kind == "factory")
        states = [self.areas[state] // data for state in "+-?"]
        reasons = sum(line.startswith("reason") for line in self.survey)
        cells = [self.shape, before, self.mended, self.turned(), self.conflicts(), left - marked, marked, *states, self.made // data, self.damaged, reasons]
        flags = [0, 0, 0, 0, self.conflicts(), left - marked, 0, 0, states[1], 0, 0, self.damaged, reasons]
        marks = ["text"] + ["bad" if flag else "" for flag in flags[1:]]
        return f'<tr><td><a href="#{self.place}">{self.name}</a></td>' + "".join(
            f'<td class="{mark}">{html.escape(str(cell))}</td>' for mark, cell in zip(marks, cells)
        ) + "</tr>"

    def turned(self):
        return sum(line.startswith("turned row") for line in self.merged)

    def conflicts(self):
        return sum(line.startswith("differ row") for line in self.merged)

    def section(self):
        if self.shape is None:
            return ""
        pages = int(self.shape.split(",")[2])
        reasons = [line for line in self.survey if line.startswith(("reason", "tied", "missing"))]
        told = self.ordered + self.merged[-1:] + reasons[:12] + self.array[-1:] + self.verified
        return f'<section id="{self.place}"><h3>{self.name}</h3>{picture(self.name, blocks(self.survey), pages)}<pre>{html.escape(chr(10).join(told))}</pre></section>'


HEADS = ["die", "shape", "unsound pages, by reading", "pages mended", "rows put together by bits", "rows in conflict", "unsound pages left", "in blocks marked bad by the factory"]
HEADS += ["sectors found", "sectors tied", "sectors without a page", "sectors of a page in no reading", "sectors that an unsound page tells", "reasons against a mount"]


def main(results, out):
    dies = [Die(place, folder) for place, folder in enumerate(sorted(Path(results).iterdir())) if folder.is_dir()]
    key = "".join(f'<span style="background:{colour};color:{"#fff" if name in ("factory", "grown", "closed") else "#222"}">{name}</span>' for name, colour in COLOURS.items())
    page = f"""<!doctype html><html lang="en"><meta charset="utf-8"><title>Dumps of {len(dies)} dies</title><style>{STYLE}</style>
<h1>Dumps of {len(dies)} dies</h1>
<p>Of each die: its shape, what its readings told, what was mended and merged, and its disk image. A sector without a page was never written, or
its page is among the unsound ones. A red cell is a thing to look at.</p>
<table><tr>{"".join(f"<th>{head}</th>" for head in HEADS)}</tr>
{chr(10).join(die.row() for die in dies)}</table>
<h2>Each die</h2>
<p class="key">One square a block, by rising number, in the colour of its class: {key} and <span style="background:#e0452b;color:#fff">unsound pages</span></p>
{chr(10).join(die.section() for die in dies)}
</html>
"""
    Path(out).write_text(page)


if __name__ == "__main__":
    main(sys.argv[1], sys.argv[2])
