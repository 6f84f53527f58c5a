#!/usr/bin/env python3
"""Writes the manual pages docs/man/ from the pages of docs/ that users read; ftl(3) from include/ftl.h and its page.

    bench/manual.py            writes them
    bench/manual.py --check    says which of them are not what would be written; status 1 if any

A page of docs/ is taken section by section, and behind it the sections of FORMATS that belong to the program. What it may have is what these pages use: headings, paragraphs, lists,
tables, blocks of code, and inside a line `code`, **strong**, *emphasis* and links. A table of two columns is a list of what its first column names; of
another one each row is a line, its cells told by the heads.
"""

import re
import sys
import textwrap
from pathlib import Path

import manual_header

TOP = Path(__file__).resolve().parent.parent
# page, its one line, the page of docs/ that it is made of
PAGES = {
    "nandctl": ("check and read raw images of a NAND die", "NANDCTL.md"),
    "nandlab": ("tools for recovery laboratories, on dumps of one NAND die", "LABORATORY.md"),
    "nanddisk": ("a NAND die in a file, served as a disk by NBD", "DISK.md"),
    "ftl": ("a proved flash translation layer over a raw NAND die, for firmware in C", "FIRMWARE.md"),
}
# of a library's page, its header
HEADERS = {"ftl": "include/ftl.h"}
# sections for those who read contracts, not for users
DATE = "2026-11-27"
LEFT_OUT = {"what is proved", "how what is above is proved", "what stands", "the die over a store", "the disk over it", "the crates, from rattle"}
SEE = {"ftl": ("nanddisk", "nandlab", "pkg-config"), "nandctl": ("nandlab", "nanddisk"), "nandlab": ("nandctl", "nanddisk"), "nanddisk": ("nandctl", "nandlab")}
WIDTH = 78


def plain(text):
    """A text of roff: no character of it is a request or an escape."""
    text = text.replace("\\", "\\e").replace("-", "\\-").replace("`", "\\(ga").replace("'", "\\(aq").replace("^", "\\(ha").replace("~", "\\(ti")
    return text


def linked(found):
    """What stands for a link: a page that is a manual page by that name, any other one as it is called."""
    page = found.group(2).partition("#")[0]
    own = [f"{name}({section_of(name)})" for name, (_, source) in PAGES.items() if source == page and found.group(1) in (page, page[:-3])]
    return own[0] if own else found.group(1)


def inline(text):
    """A line of Markdown as one of roff."""
    text = re.sub(r"!?\[([^\]]*)\]\(([^)]*)\)", linked, text)
    pieces = []
    for piece in re.split(r"(`[^`]+`|\*\*[^*]+\*\*|\*[^*\s][^*]*\*)", text):
        if piece.startswith("`") and len(piece) > 1:
            pieces.append("\\fB" + plain(piece[1:-1]) + "\\fP")
        elif piece.startswith("**"):
            pieces.append("\\fB" + plain(piece[2:-2].replace("`", "")) + "\\fP")
        elif piece.startswith("*") and len(piece) > 2:
            pieces.append("\\fI" + plain(piece[1:-1].replace("`", "")) + "\\fP")
        else:
            pieces.append(plain(piece))
    return "".join(pieces)


def wrapped(text):
    """Text on lines of at most WIDTH characters, none of which a formatter takes for a request."""
    lines = textwrap.wrap(inline(text), WIDTH, break_long_words=False, break_on_hyphens=False)
    return ["\\&" + it if it[0] in ".'" else it for it in lines]


def cells_of(row):
    return [it.strip().replace("\\|", "|") for it in re.split(r"(?<!\\)\|", row.strip().strip("|"))]


def table_of(rows):
    heads, body = cells_of(rows[0]), [cells_of(it) for it in rows[2:]]
    lines = []
    for cells in body:
        told = cells[1] if len(cells) == 2 else "; ".join(f"{head}: {cell}" for head, cell in zip(heads[1:], cells[1:]) if cell)
        lines += [".TP", *wrapped(cells[0])[:1], *(wrapped(told) or ["\\&"])]
        rest = wrapped(cells[0])[1:]
        if rest:
            lines[-len(wrapped(told)) - 1] = inline(cells[0])
    return lines


def body_of(text):
    """The roff of a section's text."""
    lines, out, at = text.splitlines(), [], 0
    while at < len(lines):
        line = lines[at]
        if line.startswith("```"):
            end = next(it for it in range(at + 1, len(lines)) if lines[it].startswith("```"))
            shown = [plain(it) for it in lines[at + 1 : end]]
            out += [".PP", ".in +4n", ".nf", *["\\&" + it if it[:1] in (".", "\\") else it or "\\&" for it in shown], ".fi", ".in"]
            at = end + 1
        elif line.startswith("|"):
            end = at
            while end < len(lines) and lines[end].startswith("|"):
                end += 1
            out += table_of(lines[at:end])
            at = end
        elif re.match(r"(-|\d+\.) ", line):
            mark, rest = line.split(" ", 1)
            at += 1
            while at < len(lines) and lines[at].startswith("  ") and lines[at].strip():
                rest += " " + lines[at].strip()
                at += 1
            out += [f".IP {mark if mark != '-' else chr(92) + '(bu'} 4", *wrapped(rest)]
        elif line.strip():
            rest = line
            at += 1
            while at < len(lines) and lines[at].strip() and not re.match(r"(-|\d+\.) |\||```|#", lines[at]):
                rest += " " + lines[at].strip()
                at += 1
            out += [".PP", *wrapped(rest)]
        else:
            at += 1
    return out


def parts_of(markdown):
    """The heading, the depth and the text of each part of a page."""
    found = re.split(r"^(#{1,3}) (.*)$", markdown, flags=re.M)
    return [(len(found[it]), found[it + 1], found[it + 2]) for it in range(1, len(found), 3)]


# sections of FORMATS.md that stand behind a page's own
BEHIND = {"nandlab": ("Refusals of `nandlab`",), "nanddisk": ("Texts of `nanddisk`",)}


def behind(name):
    """The roff of the sections of FORMATS that belong to a page."""
    out = []
    for _, heading, said in parts_of((TOP / "docs/FORMATS.md").read_text()):
        if heading in BEHIND.get(name, ()):
            out += [f".SH {plain(heading.upper().replace('`', ''))}", *body_of(said)[1:]]
    return out


def synopsis_of(name, markdown):
    """The forms of the program's words: the first column of the first table of the page that has them."""
    for rows in re.findall(r"(?:^\|.*\n)+", markdown, re.M):
        forms = [it for row in rows.splitlines()[2:] for it in re.findall(r"`([^`]+)`", cells_of(row)[0]) if not it.startswith("--")]
        if forms and any(it.startswith((name, "create")) for it in forms):
            forms = [it if it.startswith(name) else f"{name} {it}" for it in forms]
            return [line for it in forms for line in (f".B {plain(it)}", ".br")][:-1]
    return []


def version():
    return re.search(r'^    "([^"]+)"$', (TOP / "crates/program_words/src/versions.rt").read_text(), re.MULTILINE).group(1)


def section_of(name):
    return 3 if name in HEADERS else 1


def head_of(name, text):
    """The roff down to where the page's own text begins."""
    about, source = PAGES[name]
    sources, kind = f"docs/{source}", "User Commands"
    if name in HEADERS:
        sources, kind = f"{HEADERS[name]} and docs/{source}", "Library Functions Manual"
    out = [f'.\\" Written by bench/manual.py from {sources}', f'.TH {name.upper()} {section_of(name)} "{DATE}" "Kothlaim {version()}" "{kind}"',
           ".SH NAME", f"{name} \\- {plain(about)}", ".SH SYNOPSIS"]
    if name not in HEADERS:
        return [*out, *synopsis_of(name, text), ".SH DESCRIPTION"]
    header = (TOP / HEADERS[name]).read_text()
    return [*out, *manual_header.synopsis(header, plain), *manual_header.sections(header, plain, wrapped, body_of), ".SH IN FIRMWARE"]


def page_of(name):
    text = (TOP / "docs" / PAGES[name][1]).read_text()
    parts = parts_of(text)
    out = head_of(name, text)
    skipped = 0
    for depth, heading, said in parts:
        if skipped and depth > skipped:
            continue
        skipped = depth if heading.lower() in LEFT_OUT else 0
        if skipped:
            continue
        if depth == 2:
            out.append(f".SH {plain(heading.upper().replace('`', ''))}")
        elif depth == 3:
            out.append(f".SS {plain(heading.replace('`', ''))}")
        body = body_of(said)
        out += body[1:] if body and body[0] == ".PP" else body
    out += behind(name)
    out += [".SH SEE ALSO", ",\n".join(f".BR {it} (1)" for it in SEE[name]).replace(",\n", " ,\n")]
    files = "Pages that end in `.md` stand in `share/doc/kothlaim`, beside `share/man`" + ("; files of `examples/c` in its folder `examples`." if name in HEADERS else ".")
    out += [".PP", *wrapped(files)]
    return "\n".join(out) + "\n"


def main():
    old = []
    for name in PAGES:
        path = TOP / "docs" / "man" / f"{name}.{section_of(name)}"
        if sys.argv[1:] == ["--check"]:
            if not path.exists() or path.read_text() != page_of(name):
                old.append(path.name)
        else:
            path.parent.mkdir(exist_ok=True)
            path.write_text(page_of(name))
    for name in old:
        print(f"docs/man/{name} is not what bench/manual.py writes")
    return 1 if old else 0


if __name__ == "__main__":
    sys.exit(main())
