#!/usr/bin/env python3
"""Looks through the pages of this repository, and changes nothing.

    bench/pages.py            looks through all of them
    bench/pages.py --words    prints how many words each has, and all together

Of README, CHANGELOG, CONTRIBUTING, docs/, bench/ and examples/: each link leads to a file that is there, and to a heading of it where it names one; no cell of a
table has more than forty words, of README fifteen; README has at most 125 lines; docs/MAP.md names each page. Prints what is not so, and answers 1 then.
"""

import functools
import re
import sys
from pathlib import Path

TOP = Path(__file__).resolve().parent.parent
PAGES = [TOP / name for name in ("README.md", "CHANGELOG.md", "CONTRIBUTING.md")] + sorted(
    path for folder in ("docs", "bench", "examples") for path in (TOP / folder).rglob("*.md"))
CODE = re.compile(r"^```.*?^```\n", re.MULTILINE | re.DOTALL)
LINK = re.compile(r"(?<!`)!?\[[^\]]*\]\(([^)\s]+)\)")
README_LINES, README_CELL, CELL = 125, 15, 40


@functools.cache
def anchors_of(path):
    """The headings of a page, as links name them."""
    found, seen = set(), {}
    for heading in re.findall(r"^#{1,6} +(.*)$", CODE.sub("", path.read_text(encoding="utf-8")), re.MULTILINE):
        name = re.sub(r"[^\w\- ]", "", re.sub(r"[`*]", "", heading).lower()).replace(" ", "-")
        count = seen.get(name, 0)
        seen[name] = count + 1
        found.add(f"{name}-{count}" if count else name)
    return found


def links_of(path):
    """What is wrong with the links of a page."""
    for link in LINK.findall(CODE.sub("", path.read_text(encoding="utf-8"))):
        if re.match(r"[a-z]+:", link):
            continue
        name, _, anchor = link.partition("#")
        other = (path.parent / name).resolve() if name else path
        if not other.exists():
            yield f"no file for {link}"
        elif anchor and anchor not in anchors_of(other):
            yield f"no heading for {link}"


def unnamed():
    """The pages that the map does not name."""
    page = TOP / "docs" / "MAP.md"
    named = {(page.parent / link.partition("#")[0]).resolve() for link in LINK.findall(page.read_text(encoding="utf-8"))}
    return [f"docs/MAP.md: no {path.relative_to(TOP)}" for path in PAGES if path not in named and path != page]


def cells_of(path, most):
    """The cells of a page's tables that are too long."""
    for row in re.findall(r"^\|.*$", CODE.sub("", path.read_text(encoding="utf-8")), re.MULTILINE):
        for cell in re.split(r"(?<!\\)\|", row.strip().strip("|")):
            count = len(cell.split())
            if count > most:
                yield f"{count} words in a cell: {' '.join(cell.split()[:8])} .."


def main():
    wrong = unnamed() if sys.argv[1:] != ["--words"] else []
    for path in PAGES:
        name = path.relative_to(TOP)
        readme = path == TOP / "README.md"
        text = path.read_text(encoding="utf-8")
        if sys.argv[1:] == ["--words"]:
            print(f"{len(text.split()):6} {name}")
            continue
        wrong += [f"{name}: {it}" for it in [*links_of(path), *cells_of(path, README_CELL if readme else CELL)]]
        if readme and len(text.splitlines()) > README_LINES:
            wrong.append(f"{name}: {len(text.splitlines())} lines")
    if sys.argv[1:] == ["--words"]:
        print(f"{sum(len(path.read_text(encoding='utf-8').split()) for path in PAGES):6} all")
    for it in wrong:
        print(it)
    return 1 if wrong else 0


if __name__ == "__main__":
    sys.exit(main())
