#!/usr/bin/env python3
"""Writes docs/API.md: the public calls that a maker of a device uses, from page to device, with their docstrings and without contracts.

    bench/api.py            writes it
    bench/api.py --check    says whether it is what would be written; status 1 if not

Of a docstring it takes the first sentences and what tells errors: the rest stands in the source.

CRATES names the crates and, of each, the items that a maker calls. An item that a crate hands on and that is in neither list is an error, so a new
public item has to be placed. Laws compute nothing and are left out.
"""

import re
import sys
import textwrap
from pathlib import Path

TOP = Path(__file__).resolve().parent.parent
# a crate, what it is, the items that are shown, and those that crates above it use, or readers of dumps
CRATES = [
    ("page_layout", "Geometry and pages", ("Geometry", "GeometryFault", "PageSource", "SourceFault"), ()),
    ("onfi_cycles", "Bus, driver, die", ("Bus", "BusFault", "Driver", "Nand", "Outcome"), ("Status",)),
    ("mount", "Format and mount", ("format", "format_at", "FormatFault", "mount", "mount_counted", "Mounted"), ()),
    ("certificate", "Certificate", ("read_certificate", "write_certificate", "CertFault", "Certificate"), ("BlockState",)),
    ("image_check", "Checker", ("check", "check_stream", "Accepted", "Refusal"),
     ("sector", "sector_in", "SectorFault", "Scratch", "describe", "describe_blocks", "Newest", "find_stale", "first_repeated", "Survey",
      "DumpReader", "DumpFault", "Cut", "fill", "read_page", "is_at_end")),
    ("ftl_device", "Device", ("Device", "DeviceFault", "StartFault"), ()),
]
# the enums of which FORMATS says what each case means, and the call of which it has the order of refusals
IN_FORMATS = ("read_certificate", "GeometryFault", "BusFault", "FormatFault", "CertFault", "Refusal", "DeviceFault")
# calls of these types that crates make, and no maker
LEFT_OUT = {
    "Geometry": ("entries", "translation_pages", "table_pages", "vmax", "is_share", "waiting_at", "vmax_at", "flush_blocks_at", "need_at", "row", "split_row", "has_row", "has_block"),
    "Certificate": ("new", "block", "directory_row", "sector_row"),
    "Outcome": ("of_status",),
    "Device": ("into_engine",),
}
WIDTH, SENTENCES = 150, 50
LAW = re.compile(r"_laws?$")
HEAD = """# API

Written by `bench/api.py` from the sources: the public calls from page to device, each with the first words of its docstring and its errors. The
source has the rest; [TOTALITY.md](TOTALITY.md) what each refusal leaves, [FIRMWARE.md](FIRMWARE.md) the calls in their order,
[FORMATS.md](FORMATS.md) the limits of a geometry and what each fault means.
"""


# ---- reading the sources

def uncommented(text):
    return re.sub(r"^\s*//(?!/).*\n", "", text, flags=re.MULTILINE)


def clean(signature):
    """A signature on one line, without its contract."""
    text = re.sub(r"\s+", " ", re.sub(r"^\s*pub ", "", signature)).strip()
    text = re.sub(r"\( ", "(", re.sub(r",? \)", ")", text))
    return text.rstrip(" {;")


def told(lines):
    """A docstring as paragraphs, points of lists and tables of Markdown; what every call has, its source in this project, is left out."""
    text = "\n".join(re.sub(r"^\s*///? ?", "", line) for line in lines)
    text = re.sub(r"\(This\s+project(?:'s(?:\s+rules?)?)?\.\)|Source:\s+this\s+project\.| \(this\s+project\)", "", text)
    text = re.sub(r"\[(`[^`\]]+`)\]", r"\1", text)
    text = re.sub(r"# Errors\n+", "Errors: ", text)
    parts = re.split(r"\n\s*\n|\n(?=- )", text)
    return shortened([" ".join(part.split()) for part in parts if part.strip()])


def beginning(paragraph):
    """The first sentences of a paragraph, as many as have SENTENCES words together, and one at least; and of the others the one that says what is answered."""
    sentences, kept = re.split(r"(?<=\.) (?=[A-Z`])", paragraph), []
    while sentences and (not kept or len(" ".join([*kept, sentences[0]]).split()) <= SENTENCES):
        kept.append(sentences.pop(0))
    return " ".join(kept + [it for it in sentences if it.startswith("The answer is")])


def shortened(paragraphs):
    """The first sentences with their list, and when errors come: from `Errors:` on, and what begins with the name of one. What each leaves has TOTALITY."""
    kept, telling = [], True
    for nth, it in enumerate(paragraphs):
        if not it.startswith("- "):
            goes_on = telling and nth > 1 and not it.startswith(("Source:", "What they mean"))
            telling = not nth or it.startswith("Errors:") or bool(re.match(r"`[A-Z]", it)) or goes_on
        if it.startswith("|"):
            # a table is left out, and so are the words that lead to it
            kept[-1] = re.sub(r"\s*[^.]*:$", "", kept[-1])
        elif telling:
            kept.append(it if nth else beginning(it))
    return kept


def docs_before(text, at):
    """The docstring that stands right before a place, behind attributes."""
    lines = text[:at].splitlines()
    while lines and re.match(r"\s*(#\[|$)", lines[-1]) and not lines[-1].strip() == "":
        lines.pop()
    found = []
    while lines and re.match(r"\s*///", lines[-1]):
        found.insert(0, lines.pop())
    return told(found)


def body_at(text, at):
    """What stands between the braces that open at or behind a place."""
    start = text.index("{", at)
    depth = 0
    for end in range(start, len(text)):
        depth += {"{": 1, "}": -1}.get(text[end], 0)
        if not depth:
            return text[start + 1 : end]
    raise ValueError("a brace is never closed")


def calls_in(text, pattern):
    for match in re.finditer(pattern, text, re.MULTILINE):
        end = re.compile(r"\n\s*(?:requires|ensures)\b|[{;]", re.MULTILINE).search(text, match.end())
        yield clean(text[match.start() : end.start()]), docs_before(text, match.start())


def wrapped(paragraphs, indent=""):
    """Paragraphs and points of lists on lines of their own; a paragraph stands apart from what is before it."""
    lines = []
    for nth, it in enumerate(paragraphs):
        lines += [""] if nth and not it.startswith("- ") else []
        lines += textwrap.wrap(it, WIDTH, initial_indent=indent, subsequent_indent=indent + ("  " if it.startswith("- ") else ""),
                               break_long_words=False, break_on_hyphens=False)
    return lines


def entry(signature, paragraphs):
    """A call of a type, and below it what is said of it."""
    return [f"- `{signature}`" + (":" if paragraphs else ""), *wrapped(paragraphs, "  ")]


def variants_of(body):
    """The cases of an enum, each with what it says."""
    found = []
    for match in re.finditer(r"^    (\w+)(?:\s*[({][^\n]*| = \d+,|,)", body, re.MULTILINE):
        found.append((match[1], docs_before(body, match.start())))
    return found


def shown(texts, name):
    """The lines of one item."""
    for text in texts:
        kind = re.search(rf"^pub (?:const )?(fn|struct|enum|trait) {name}\b", text, re.MULTILINE)
        if kind:
            break
    else:
        raise SystemExit(f"no item {name}")
    said = docs_before(text, kind.start())
    if kind[1] == "fn":
        signature, said = next(calls_in(text, rf"^pub (?:const )?fn {name}\b"))
        if name in IN_FORMATS:
            said = [re.sub(r"Errors, of which the first of this order .*:$", "Errors: the first in the order of FORMATS.", it) for it in said if not it.startswith("- ")]
        return ["", f"### {name}", "", f"`{signature}`", "", *wrapped(said)]
    if name in IN_FORMATS:
        # what is said of the numbers behind each case has no place where the cases are left out
        said = [re.sub(r" [^.]* numbers that follow [^.]*\.", "", it) for it in said]
    lines = ["", f"### {name}", "", *wrapped(said), ""]
    if kind[1] == "enum":
        cases = variants_of(body_at(text, kind.end()))
        if name in IN_FORMATS:
            lines += wrapped(["Cases: " + ", ".join(f"`{case}`" for case, _ in cases) + "."])
        else:
            lines += wrapped([f"- `{case}`: {' '.join(paragraphs)}" for case, paragraphs in cases])
    if kind[1] == "trait":
        for call in calls_in(body_at(text, kind.end()), r"^    fn \w+"):
            lines += entry(*call)
    for other in texts:
        for block in re.finditer(rf"^impl(?:<[^\n]*>)? {name}\b[^\n]*\{{\n", other, re.MULTILINE):
            for call in calls_in(body_at(other, block.end() - 2), r"^    pub (?:const )?fn \w+"):
                if re.search(r"fn (\w+)", call[0])[1] not in LEFT_OUT.get(name, ()):
                    lines += entry(*call)
    return lines


def exported(crate):
    """The names of items that a crate hands on."""
    root = uncommented((TOP / "crates" / crate / "src/lib.rt").read_text(encoding="utf-8"))
    names = []
    for group, one in re.findall(r"^pub use (?:\w+::)+(?:\{([^}]*)\}|(\w+));", root, re.MULTILINE):
        names += [it.strip() for it in (group or one).split(",") if it.strip()]
    return [it for it in names if not LAW.search(it)]


def page():
    lines = [HEAD]
    for crate, title, names, others in CRATES:
        texts = [uncommented(path.read_text(encoding="utf-8")) for path in sorted((TOP / "crates" / crate / "src").rglob("*.rt"))]
        unplaced = [it for it in exported(crate) if it not in (*names, *others)]
        if unplaced:
            raise SystemExit(f"bench/api.py: {crate} hands on {', '.join(unplaced)}, which CRATES does not place")
        lines += [f"## {title}: `{crate}`"]
        for name in names:
            lines += shown(texts, name)
        lines.append("")
    return re.sub(r"\n{3,}", "\n\n", "\n".join(lines)).rstrip("\n") + "\n"


def main():
    path = TOP / "docs/API.md"
    if sys.argv[1:] == ["--check"]:
        if not path.exists() or path.read_text(encoding="utf-8") != page():
            print("docs/API.md is not what bench/api.py writes")
            return 1
        return 0
    path.write_text(page(), encoding="utf-8")
    return 0


if __name__ == "__main__":
    sys.exit(main())
