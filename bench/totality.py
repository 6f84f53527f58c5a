#!/usr/bin/env python3
"""Compares the public calls of the libraries with docs/TOTALITY.md.

    bench/totality.py [--list]     (--list: prints each public call of each library, and compares nothing)

A public call is a function that a library exports (`pub use` or `pub mod` of its src/lib.rt), a `pub fn` of an exported type, or a method of
an exported trait. Laws are left out: they compute nothing. So are the libraries of the tests and of laws alone.

The page names a call in the first column of a table or in a sentence of those that never refuse, or for memory alone, between backticks, in a section of its
crate: `call`, `Type::call`, `Type::{one, other}`, or after `crate::`; "methods of `Type`" are all of them. What stands in brackets names none.

It prints each public call that no section of its crate names, and each name that is no public call there, and ends with status 1 where
there is one."""

import re
import sys
from pathlib import Path

TOP = Path(__file__).resolve().parent.parent
PAGE = TOP / "docs" / "TOTALITY.md"
# libraries of which the page does not speak: those of tests, and of laws alone
OTHERS = re.compile(r"_tests$|_laws$|^test_images$|^device_fixtures$|^noisy_(chip|bus)$")
LAW = re.compile(r"_laws?$")
# the sections that are not called as the one crate that they tell of
SECTIONS = {
    "allocation": ["allocation", "budget", "promises"],
    "chips-with-wrong-bits": ["error_correction", "page_code", "corrected_nand", "coded_store"],
    "crash_recovery": ["crash_recovery", "disk_recovery", "lost_sectors", "disk_damage"],
    "sectors-as-a-disk": ["disk_server"],
    "the-block-device-as-sectors": ["disk_server"],
    "the-crates-of-nanddisk": ["disk_server", "disk_commands", "program_words"],
    "the-crates-of-nandlab": ["lab_dump", "lab_mend", "lab_correct", "lab_arrange", "lab_shapes", "lab_origin", "lab_report", "lab_commands", "lab_custody", "program_words"],
}
NAMED = re.compile(r"`([^`]+)`")
METHODS = re.compile(r"methods of `(\w+)`")
CALL = re.compile(r"^(?:[a-z_]+::)?(?:([A-Z]\w*)::)?(\w+)$")
GROUP = re.compile(r"^(?:[a-z_]+::)?([A-Z]\w*)::\{([^}]*)\}$")


# ---- what the libraries export

def modules_of(crate):
    """The file of each module of a crate, by its path."""
    found = {}

    def add(path, file, folder):
        text = re.sub(r"//[^\n]*", "", file.read_text())
        found[path] = text
        for name in re.findall(r"^(?:pub(?:\(crate\))? )?mod (\w+);", text, re.MULTILINE):
            below = folder / f"{name}.rt"
            if below.exists():
                add((*path, name), below, folder / name)

    source = TOP / "crates" / crate / "src"
    add((), source / "lib.rt", source)
    return found


def methods_of(modules, name):
    """The public methods of a type or a trait, wherever in the crate they stand."""
    found = []
    for text in modules.values():
        for body in re.findall(rf"^impl(?:<[^\n]*>)? {name}\b(?:<[^\n]*>)?[^\n]*\{{\n(.*?)^\}}", text, re.MULTILINE | re.DOTALL):
            found += re.findall(r"^    pub (?:const )?fn (\w+)", body, re.MULTILINE)
        for body in re.findall(rf"^pub trait {name}\b[^{{]*\{{\n(.*?)^\}}", text, re.MULTILINE | re.DOTALL):
            found += re.findall(r"^    fn (\w+)", body, re.MULTILINE)
    return found


def impls_of(modules, name):
    """The methods that a type has by a trait. The page may name these too."""
    found = []
    for text in modules.values():
        for body in re.findall(rf"^impl(?:<[^\n]*>)? [\w:<>, ']+ for {name}\b[^{{]*\{{\n(.*?)^\}}", text, re.MULTILINE | re.DOTALL):
            found += re.findall(r"^    fn (\w+)", body, re.MULTILINE)
    return found


def names_in(text):
    """The public functions, types and traits of a module."""
    return re.findall(r"^pub (?:const )?(?:fn|struct|enum|trait) (\w+)", text, re.MULTILINE)


def used_by(text):
    """The names that a root file hands on from its own modules."""
    found = []
    for path, group, one in re.findall(r"^pub use ((?:\w+::)+)(?:\{([^}]*)\}|(\w+));", text, re.MULTILINE):
        if re.search(rf"^(?:pub )?mod {path.split('::')[0]};", text, re.MULTILINE):
            found += [name.strip() for name in (group or one).split(",") if name.strip()]
    return found


def calls_of(crate):
    """The public calls of a library, each `call` or `Type::call`, and those that its types have by a trait."""
    modules = modules_of(crate)
    names = names_in(modules[()]) + used_by(modules[()])
    opened = [()]
    while opened:
        path = opened.pop()
        for name in re.findall(r"^pub mod (\w+);", modules[path], re.MULTILINE):
            inner = (*path, name)
            if inner in modules and name != "laws":
                names += names_in(modules[inner]) + used_by(modules[inner])
                opened.append(inner)
    found, others = set(), set()
    for name in names:
        if name[0].islower():
            if not LAW.search(name):
                found.add(name)
        else:
            found |= {f"{name}::{method}" for method in methods_of(modules, name)}
            others |= {f"{name}::{method}" for method in impls_of(modules, name)}
    return found, others


# ---- what the page names

def spoken_in(text):
    """The names between backticks of a text, each (type or None, call)."""
    found = [(kind, "*") for kind in METHODS.findall(text)]
    for name in NAMED.findall(re.sub(r"\([^)]*\)", "", text)):
        name = name.replace("\n", " ").strip()
        if group := GROUP.match(name):
            found += [(group[1], call.strip()) for call in group[2].split(",")]
        elif (call := CALL.match(name)) and not call[2][0].isupper():
            found.append((call[1], call[2]))
    return found


def sections():
    """The sections of the page: of each its name, and the texts that name calls."""
    for part in re.split(r"^## ", PAGE.read_text(), flags=re.MULTILINE)[1:]:
        title, _, body = part.partition("\n")
        texts = []
        for block in re.split(r"\n\s*\n", body):
            rows = [line for line in block.splitlines() if line.startswith("|")]
            if rows:
                texts += [row.split("|")[1] for row in rows[2:]]
            else:
                # the sentences of a paragraph that say which calls never refuse, or for memory alone
                texts += re.findall(r"(?:Never refuses?|Memory alone)\b.*?(?:\.(?=\s|$))", block, re.DOTALL)
        yield title.strip().lower().replace(" ", "-"), texts


def is_named(call, named):
    kind, _, last = call.rpartition("::")
    return (kind or None, last) in named or (kind or None, "*") in named or (None, last) in named


def is_call(name, calls):
    kind, last = name
    if last == "*":
        return any(call.startswith(f"{kind}::") for call in calls)
    return any(call.rpartition("::")[2] == last and (kind is None or call == f"{kind}::{last}") for call in calls)


def main():
    crates = [line.split(":")[0].strip() for line in (TOP / "crates.txt").read_text().splitlines() if ":" in line and not line.startswith("#")]
    libraries = [crate for crate in crates if (TOP / "crates" / crate / "src" / "lib.rt").exists() and not OTHERS.search(crate)]
    calls, others = {}, {}
    for crate in libraries:
        calls[crate], others[crate] = calls_of(crate)
    if "--list" in sys.argv[1:]:
        for crate in libraries:
            print(f"{crate}: {' '.join(sorted(calls[crate]))}")
        return 0
    named = {crate: set() for crate in libraries}
    wrong = 0
    for title, texts in sections():
        told = SECTIONS.get(title, [title])
        if any(crate not in calls for crate in told):
            continue
        names = [name for text in texts for name in spoken_in(text)]
        for crate in told:
            named[crate] |= set(names)
        known = set().union(*(calls[crate] | others[crate] for crate in told))
        names = [name for name in names if name[0] or name[1] not in crates]
        for name in sorted({name for name in names if not is_call(name, known)}, key=str):
            print(f"superfluous  {title}: {'::'.join(part for part in name if part)}")
            wrong += 1
    for crate in libraries:
        for call in sorted(calls[crate]):
            if not is_named(call, named[crate]):
                print(f"missing      {crate}: {call}")
                wrong += 1
    print(f"{sum(map(len, calls.values()))} public calls of {len(libraries)} libraries, {wrong} that differ from docs/TOTALITY.md")
    return 1 if wrong else 0


if __name__ == "__main__":
    sys.exit(main())
