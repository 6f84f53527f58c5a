#!/usr/bin/env python3
"""Tries the planted bugs of planted/CRATE, each alone, over a copy of the repository, and tells apart how each is refused.

    bench/planted.py [CRATE..]          the bugs of these crates (default: every folder of planted/)
    bench/planted.py CRATE/NAME ..      these bugs alone
    bench/planted.py --must-fail CRATE  the bugs of crates/CRATE/must-fail, by the same rules
    bench/planted.py --bends FILE CRATE [NAME..]
                                        the edits of a file, one after another; lines '# NAME' stand between them
    bench/planted.py --first PATH ..    any of these, but first this module or function of the crate is checked alone, as `laws`: what
                                        that refuses is done in seconds, and the whole check is run where it lets the bug through
    bench/planted.py --table            tries none: brings bench/planted.tsv in line with the edits that there are

A bug of planted/CRATE may stand in a crate below (`file: ../OTHER/specs/..`), which then is proved first, and is refused by a law of CRATE.
The whole check of the crate is run over what earlier checks kept (crates/*/out). Of each bug one line is printed:

    refused   an open goal, or a proof of a law or a clause that no longer holds: the first message says where
    unread    it does not compile, or a proof cites a name that is gone: it shows nothing, and has to be mended
    proves    the contracts let it through
    unfit     its texts do not stand once in the sources
    none      the check came to no verdict

The last verdict of each edit stands in bench/planted.tsv: crate, edit (`must-fail/NAME`, `bend/NAME`), verdict, by what, day, and a number of the
edit's text. An edit whose text has changed since, or that has no line, is `untried`.

Answers 1 where any is not refused. It is no part of the gate, which tries crates/CRATE/must-fail.
"""

import datetime
import hashlib
import pathlib
import re
import shutil
import subprocess
import sys
import tempfile

import edits
from edits import bends_of, pieces_of

TOP = edits.TOP
TABLE = TOP / "bench" / "planted.tsv"
PARTS = ("src", "specs", "proofs")
# a name that stands nowhere, or a text that is none of the language; in a proof a field that a bent definition lacks is none of these
NAMELESS = re.compile(
    r"not in scope|unknown (name|module|import)|no (item|module|name|definition) |cannot find|unresolved|does not (have|export|declare)|"
    r"is private|is not declared|parse error|syntax error|unexpected (token|character|end)"
)
# an answer of a goal that the bug took away, as with an exit: it shows nothing by itself
GONE = re.compile(r"Goals` has no `[^`]*` that can be named")
# what a prover says of a clause that a body doesn't meet
UNMET = re.compile(r"prove|goal|clause|requires|ensures|invariant|search|grind|omega")
MESSAGE = re.compile(r"^(?P<file>\S+?\.(?:rt|antt)):(?P<line>\d+):\d+: error: (?P<text>.*)$|^error(?:\[\w+\])?: (?P<rust>.*)$|^.*must prove: (?P<goal>.*)$")


def messages_of(said):
    """The errors of a check, each its file (or None) and its text; not those that only follow from another one."""
    found = []
    for line in said.splitlines():
        match = MESSAGE.match(line)
        if not match:
            continue
        text = match["text"] or match["rust"] or f"must prove: {match['goal']}"
        if re.search(r"declarations? that depend", text):
            continue
        found.append((match["file"], text))
    return found


def verdict_of(said):
    """How a check ended, and the message that says so."""
    verdicts = re.findall(r"^logic=(\S+)", said, re.MULTILINE)
    counts = re.findall(r"^only=(\d+) proved=(\d+)", said, re.MULTILINE)
    messages = messages_of(said)
    if not messages and re.search(r"^rt: the library \S+ did not build", said, re.MULTILINE):
        return "none", said[-160:]
    # a library that was built first has a verdict of its own
    if not messages and (counts[-1][0] == counts[-1][1] if counts else verdicts[-1:] == ["proved"]):
        return "proves", ""
    for file, text in messages:
        if NAMELESS.search(text) or ("proofs/" not in (file or "") and not UNMET.search(text)):
            return "unread", f"{file or ''} {text}"
    if not verdicts and not counts:
        return ("unread" if messages else "none"), messages[0][1] if messages else said[-160:]
    if not messages:
        return "none", said[-160:]
    unmet = [it for it in messages if not GONE.search(it[1])]
    if not unmet:
        return "unread", f"{messages[0][0] or ''} {messages[0][1]}"
    # an open goal says more than an answer whose form broke
    file, text = next((it for it in unmet if it[1].startswith("must prove")), unmet[0])
    return "refused", f"{file or ''} {text}"


def restore(room, name):
    """Puts a crate of the room back as it is in the repository; its kept work stays."""
    for part in PARTS:
        shutil.rmtree(room / "crates" / name / part, ignore_errors=True)
        source = TOP / "crates" / name / part
        if source.is_dir():
            shutil.copytree(source, room / "crates" / name / part)


def run_check(crate, *flags):
    """Checks a crate: the verdict, and the message that says so."""
    done = subprocess.run(["rt", "check", *flags], cwd=crate, capture_output=True, text=True, check=False)
    return verdict_of(done.stdout + done.stderr)


def try_edit(room, name, pairs_file, first):
    """Plants one edit in the room, checks its crate, and puts the crate back."""
    crate = room / "crates" / name
    try:
        texts = edits.texts_of(crate, pairs_file)
    except ValueError as fault:
        return "unfit", str(fault)
    for path, text in texts.items():
        path.write_text(text, encoding="utf-8")
    bent = {path.resolve().relative_to(room.resolve()).parts[1] for path in texts}
    verdict, why = "proves", ""
    if first is not None:
        verdict, why = run_check(crate, "--only", f"{name}::{first}")
    if verdict == "proves":
        verdict, why = run_check(crate)
    for other in bent | {name}:
        restore(room, other)
    return verdict, why


def wanted(words, room):
    """The edits that were asked for, by crate."""
    if words[:1] == ["--bends"]:
        found = bends_of(pathlib.Path(words[1]), room)
        return [(words[2], [path for path in found if path.stem in words[3:] or not words[3:]])]
    if words[:1] == ["--must-fail"]:
        return [(name, sorted((TOP / "crates" / name / "must-fail").glob("*.edit"))) for name in words[1:]]
    names = words or sorted(folder.name for folder in (TOP / "planted").iterdir())
    return [(name.split("/")[0], sorted((TOP / "planted").glob(name + (".edit" if "/" in name else "/*.edit")))) for name in names]


def named_edits():
    """Every edit: its crate and name, and its text."""
    found = {}
    for path in TOP.glob("planted/*/*.edit"):
        found[path.parent.name, path.stem] = path.read_text(encoding="utf-8")
    for path in TOP.glob("crates/*/must-fail/*.edit"):
        found[path.parent.parent.name, f"must-fail/{path.stem}"] = path.read_text(encoding="utf-8")
    for path in TOP.glob("bench/bends/*.txt"):
        for name, text in pieces_of(path):
            found[path.stem, f"bend/{name}"] = text
    return found


def write_table(news):
    """Writes the table anew: what this run found, what stood there of edits whose text is the same, and the others untried."""
    lines = TABLE.read_text(encoding="utf-8").splitlines()[1:] if TABLE.exists() else []
    old = {(crate, name): rest for crate, name, *rest in (line.split("\t") for line in lines)}
    rows = ["crate\tedit\tverdict\tby what\tday\ttext"]
    for (crate, name), text in sorted(named_edits().items()):
        number = hashlib.sha256(text.encode()).hexdigest()[:8]
        told = news.get((crate, name)) or old.get((crate, name), ["untried", "", "", number])[:3]
        if (crate, name) not in news and (crate, name) in old and old[crate, name][3] != number:
            told = ["untried", f"its earlier text was {told[0]}" if told[0] != "untried" else told[1], ""]
        rows.append("\t".join((crate, name, *told, number)))
    TABLE.write_text("\n".join(rows) + "\n", encoding="utf-8")


def below(names):
    """These crates, and all that they stand on."""
    # a static library has a word behind its name
    lines = (line.split(":", 1) for line in (TOP / "crates.txt").read_text(encoding="utf-8").splitlines() if ":" in line)
    uses = {name.split()[0]: rest for name, rest in lines}
    found, rest = set(), list(names)
    while rest:
        name = rest.pop()
        if name not in found and name in uses:
            found.add(name)
            rest += uses[name].split()
    return sorted(found)


def copy_crates(room, kept):
    """Copies all crates, and of these also what earlier checks kept."""
    skipped = shutil.ignore_patterns("out")
    shutil.copytree(TOP / "crates", room / "crates", ignore=skipped)
    for name in kept:
        if (TOP / "crates" / name / "out").is_dir():
            subprocess.run(["cp", "-a", TOP / "crates" / name / "out", room / "crates" / name], check=True)


def strange(words):
    """The words that are none of this script's: an option that it has not, or the name of nothing that is planted."""
    if words[:1] == ["--bends"]:
        return words[1:2] if len(words) < 3 or not pathlib.Path(words[1]).is_file() else [word for word in words[2:] if word.startswith("-")]
    if words[:1] == ["--must-fail"]:
        return [word for word in words[1:] if not (TOP / "crates" / word / "must-fail").is_dir()]
    return [word for word in words if not (TOP / "planted" / (word + (".edit" if "/" in word else ""))).exists()]


def main():
    counts, news = {}, {}
    first, words = None, sys.argv[1:]
    if words == ["--table"]:
        write_table(news)
        return 0
    if words[:1] == ["--first"]:
        first, words = words[1] if words[1:] else None, words[2:]
    if strange(words):
        print(f"not known: {' '.join(strange(words))}\n\n{__doc__.strip()}", file=sys.stderr)
        return 2
    room = pathlib.Path(tempfile.mkdtemp())
    sort = {"--bends": "bend/", "--must-fail": "must-fail/"}.get(words[0] if words else "", "")
    try:
        for file in ("crates.txt", "HANDLES"):
            shutil.copy(TOP / file, room)
        copy_crates(room, below({name for name, files in wanted(words, room)}))
        for name, files in wanted(words, room):
            if not files:
                print(f"no planted bugs of {name}", file=sys.stderr)
                return 2
            restore(room, name)
            for file in files:
                verdict, why = try_edit(room, name, file, first)
                counts[verdict] = counts.get(verdict, 0) + 1
                news[name, sort + file.stem] = [verdict, " ".join(why.split())[:160], str(datetime.date.today())]
                print(f"{verdict:8} {name}/{file.stem}  {why[:200]}", flush=True)
    finally:
        shutil.rmtree(room)
        if news:
            write_table(news)
    print(", ".join(f"{count} {verdict}" for verdict, count in sorted(counts.items())))
    return 0 if set(counts) == {"refused"} else 1


if __name__ == "__main__":
    sys.exit(main())
