#!/usr/bin/env python3
"""Holds nandlab against the independent reference, on dumps of pseudorandom making; with `--time`, times it beside `sha256sum`.

    [LAB=..] bench/lab.py [CASES] [SEED]
    [LAB=..] bench/lab.py --time

LAB is the program, or the one that `rt run` in crates/nandlab builds. The files that are written, what is printed, the refusals and the exit
status are compared, and that no file is left beside OUT. The dumps are intact, damaged, cut, or read under another geometry of the same size.
Half of the runs ask for JSON: the document is held to its form, and its objects, as lines, to the same report. Some ask for some rows alone."""

import collections
import copy
import hashlib
import json
import os
import random
import shutil
import subprocess
import sys
import tempfile
import time
from pathlib import Path

import arrangements
import compare
import hamming
import measure
import reference as ref
from lab_expected import (
    CLASSES,
    ORIGINS,
    SEEN,
    SHOWN,
    age_lines,
    array_of,
    choice,
    history_of,
    loss_map,
    lost_of,
    map_of,
    mended,
    mounts_as_told,
    origins_of,
    said_lines,
    survey_of,
)
from lab_made import (
    PAIRED,
    break_some,
    damaged,
    dump_for,
    full_dump,
    go_on,
    lose,
    misread,
    mixed,
    mountable,
    on_chip,
    other_shape,
    pages_of,
    some_rows,
    some_sequence,
    spoiled,
    turned,
)
from lab_told import KINDS, arranged_text, codes_text, lines_of, nearest_text, origin_text, tries_text

BUILT = Path(__file__).resolve().parent.parent / "crates/nandlab/out/nandlab"
LAB = str(Path(os.environ.get("LAB", BUILT)).resolve())


NONE = "usage: no such command, see nandlab --help\n"
COMMANDS = ["geometry", "survey", "array", "history", "compare", "merge", "repair", "correct", "arrange", "origin"]
FORMS = random.Random("forms")
# how many dumps fitted as they stand, with codes, or both ways
FITTED = collections.Counter()
# how many rows of merges were tried, by what came of them
TRIED = collections.Counter()
# of how many dumps two planes were told
TURNED = collections.Counter()
# how many runs of each command were told in a report
REPORTED = collections.Counter()
# how many sectors had no page, one, two, or more
FOUND = collections.Counter()


def files_of(words):
    """The files that a command reads, and those that it writes, in their order."""
    places, named = [], {}
    left = iter(words[1:])
    for word in left:
        if word in ("--rows", "--until", "--map", "--from", "--bits"):
            named[word] = next(left)
        elif not word.startswith("--"):
            places.append(word)
    if words[0] == "geometry":
        return places, []
    if words[0] in ("merge", "origin"):
        return places[2:], places[1:2]
    if words[0] == "compare":
        return places[1:], []
    wrote = places[2:] if words[0] in ("array", "repair", "correct", "arrange") else []
    return places[1:2], wrote + ([named["--map"]] if "--map" in named else [])


def verified(folder, names, changed):
    """Holds what `verify` says of the files of a report, of which one is changed or none, in both forms."""
    lines = [("differs" if name == changed else "same", name) for name in names]
    count = len([name for name in names if name == changed])
    done = subprocess.run([LAB, "verify", "told.json"], cwd=folder, capture_output=True, text=True, check=False)
    told = "".join(f"{said} {name}\n" for said, name in lines) + f"verified {len(names)} changed {count}\n"
    assert (done.returncode, done.stdout) == (min(count, 1), told), (done, told)
    document = json.loads(subprocess.run([LAB, "verify", "--json", "told.json"], cwd=folder, capture_output=True, text=True, check=False).stdout)
    assert document[1:] == [{"line": said, "name": name} for said, name in lines] + [{"changed": count, "files": len(names), "line": "verified"}], document


def reported(words, folder, answer):
    """Runs a command that is done once more, with a report: it says the same, and its report is that of hashlib."""
    words = [*words, "--report", "told.json"]
    done = subprocess.run([LAB, *words], cwd=folder, capture_output=True, stdin=subprocess.DEVNULL)
    assert (done.returncode, done.stdout, done.stderr) == answer, (words, done, answer)
    read, wrote = files_of(words[:-2])

    def notes(names):
        found = [(name, (Path(folder) / name).read_bytes()) for name in names]
        return [{"bytes": len(raw), "name": name, "sha256": hashlib.sha256(raw).hexdigest()} for name, raw in found]

    want = {"program": "nandlab", "version": "0.1.0", "words": [LAB, *words], "read": notes(read), "wrote": notes(wrote)}
    text = (Path(folder) / "told.json").read_text()
    assert json.loads(text) == want and text == json.dumps(want, sort_keys=True, separators=(",", ":"), ensure_ascii=False) + "\n", (text, want)
    verified(folder, read + wrote, None)
    last = Path(folder) / (read + wrote)[-1]
    raw = bytearray(last.read_bytes())
    raw[len(raw) // 2] ^= 1
    last.write_bytes(raw)
    verified(folder, read + wrote, last.name)
    REPORTED[words[0]] += 1


def failed(line, words="No such file or directory (os error 2)"):
    """What is answered where a file failed: its line, and behind it the system's first error."""
    return 3, "", f"{line}\nthe system's first error: {words}\n"


def run(words, folder):
    asks = words[:1] != [] and words[0] in COMMANDS and FORMS.random() < 0.5
    words = [words[0], "--json", *words[1:]] if asks else words
    if words[:1] != [] and words[0] in COMMANDS and FORMS.random() < 0.3:
        with tempfile.TemporaryDirectory() as copy:
            shutil.copytree(folder, copy, dirs_exist_ok=True, symlinks=True)
            done = subprocess.run([LAB, *words], cwd=folder, capture_output=True, stdin=subprocess.DEVNULL)
            if done.returncode == 0:
                reported(words, copy, (done.returncode, done.stdout, done.stderr))
    else:
        done = subprocess.run([LAB, *words], cwd=folder, capture_output=True, stdin=subprocess.DEVNULL)
    out = done.stdout.decode()
    if asks and done.returncode == 0:
        out = lines_of(words[0], out)
    return done.returncode, out, done.stderr.decode()


def survey_case(rng, folder):
    g, image = dump_for(rng)
    if rng.random() < 0.3:
        g = other_shape(rng, g)
        image = ref.Image(g, image.raw())
    raw = image.raw()
    cut = rng.random()
    if cut < 0.05:
        raw = raw[: rng.randrange(len(raw))]
    elif cut < 0.1:
        raw += b"\0"
    (folder / "dump.bin").write_bytes(raw)
    rows, asked = some_rows(rng, g)
    answer = run(["survey", *asked, g.words(), "dump.bin"], folder)
    if len(raw) != g.rows * g.page:
        assert answer == (1, "", "refused image 1 WrongLength\n"), (g.words(), answer)
        return
    if asked:
        pages = [page if row in rows else b"\xff" * g.page for row, page in enumerate(pages_of(g, raw))]
        image = ref.Image(g, b"".join(pages))
    told, shown = survey_of(image, asked)
    assert answer == (0, told, ""), (g.words(), answer, told)
    mounts_as_told(image, told, shown)
    assert [p.name for p in folder.iterdir()] == ["dump.bin"]


def compare_case(rng, folder):
    g, image, raw = mountable(rng)
    certificate = ref.Certificate(raw)
    go_on(rng, image, certificate.next)
    assert lost_of(image, certificate) == [], g.words()
    if rng.random() < 0.7:
        lose(rng, image)
    if rng.random() < 0.2:
        raw = compare.spoiled_certificate(rng, g, raw)
    asked = other_shape(rng, g) if rng.random() < 0.1 else g
    dump = image.raw()
    if rng.random() < 0.1:
        dump = rng.choice([dump[: rng.randrange(len(dump))], dump + b"\0"])
    (folder / "dump.bin").write_bytes(dump)
    (folder / "die.cert").write_bytes(raw)
    answer = run(["compare", asked.words(), "die.cert", "dump.bin"], folder)
    try:
        certificate = ref.Certificate(raw)
        if certificate.g.words() != asked.words():
            want = (1, "", "refused compare 1 GeometryDiffers\n")
        elif len(dump) != g.rows * g.page:
            want = (1, "", "refused image 1 WrongLength\n")
        else:
            told = "".join(f"lost sector {n}\n" for n in lost_of(image, certificate))
            want = (0, told + said_lines(image, True) + age_lines(image), "")
    except ref.Refused as refused:
        want = (1, "", refused.line)
    assert answer == want, (asked.words(), answer, want)
    (folder / "die.cert").unlink()
    assert [p.name for p in folder.iterdir()] == ["dump.bin"]


def left_in(folder, *inputs):
    """What was written: the files but for the inputs."""
    return {path.name: path.read_bytes() for path in folder.iterdir() if path.name not in inputs}


def clear(folder):
    for path in folder.iterdir():
        path.unlink()


def stored(rng, folder, words, want, out, extra=None):
    """Runs a command that writes OUT, which may stand already: what it answers, and leaves."""
    inputs = [path.name for path in folder.iterdir()]
    stood = rng.random() < 0.3
    force = rng.random() < 0.5
    if stood:
        (folder / "out.bin").write_bytes(b"stood")
    answer = run([*words, *["--force"] * force], folder)
    left = {"out.bin": b"stood"} if stood else {}
    if stood and not force:
        want = (1, "", "refused out 2 Exists\n")
    elif want[0] == 0:
        left = {"out.bin": out, **(extra or {})}
    assert answer == want, (words, answer, want)
    assert left_in(folder, *inputs) == left, (words, "a file differs")
    clear(folder)


def case(rng, folder):
    g, image = dump_for(rng)
    break_some(rng, image)
    raw = image.raw()
    cut = rng.random()
    if cut < 0.05:
        raw = raw[: rng.randrange(len(raw))]
    elif cut < 0.1:
        raw += b"\0"
    (folder / "dump.bin").write_bytes(raw)
    last, damaged = some_sequence(rng, image), rng.random() < 0.6
    words, extra = ["array", g.words(), "dump.bin", "out.bin", *([] if last is None else ["--until", str(last)]), *["--damaged"] * damaged], {}
    if rng.random() < 0.5:
        words, extra = [*words, "--map", "out.map"], {"out.map": map_of(image, last, damaged).encode()}
    out, told = array_of(image, last, damaged)
    want = (0, told, "") if len(raw) == g.rows * g.page else (1, "", "refused image 1 WrongLength\n")
    stored(rng, folder, words, want, out, extra)


def history_case(rng, folder):
    g, image = dump_for(rng)
    numbers = [x.number for x in image.records if x is not None and x.key()[0] == "sector" and x.number < g.sectors]
    n = rng.choice(numbers) if numbers and rng.random() < 0.7 else rng.randrange(g.sectors)
    for _ in range(rng.choice([0, 0, 3, 20])):
        # more pages of the sector, trims too, in either version
        made = ref.Record(rng.choice([1, 1, 2]), n, rng.choice([rng.randrange(50), rng.randrange(2**64)]), rng.randrange(9))
        version = rng.choice([1, 2]) if g.spare >= 40 else 1
        image.put(rng.randrange(g.rows), made, rng.randbytes(g.data), version)
    raw = image.raw()
    cut = rng.random() < 0.1
    if cut:
        raw = rng.choice([raw[: rng.randrange(len(raw))], raw + b"\0"])
    (folder / "dump.bin").write_bytes(raw)
    told, pages = history_of(image, n)
    FOUND[min(pages, 3)] += 1
    want = (1, "", "refused image 1 WrongLength\n") if cut else (0, told, "")
    answer = run(["history", g.words(), "dump.bin", str(n)], folder)
    assert answer == want, (g.words(), n, answer, want)
    assert left_in(folder, "dump.bin") == {}
    clear(folder)


def then_case(rng, folder):
    """A die that was not collected since: the array as of the sequence then is the array then, byte for byte."""
    g, image = dump_for(rng)
    top = max([x.sequence for x in image.records if x is not None], default=0)
    if top >= 2**63:
        return
    then, _ = array_of(image)
    for sequence in range(top + 1, top + 1 + rng.choice([1, 5, 40])):
        free = [row for row in range(g.rows) if image.records[row] is None]
        if free:
            made = compare.record(rng, g, sequence)
            image.put(rng.choice(free), made, compare.data_for(rng, g, made.kind))
    (folder / "dump.bin").write_bytes(image.raw())
    code, _, errors = run(["array", g.words(), "dump.bin", "out.bin", "--until", str(top)], folder)
    assert (code, errors) == (0, "") and (folder / "out.bin").read_bytes() == then, (g.words(), top)
    clear(folder)


def fit_line(numbers, *rest):
    shape = ",".join(map(str, numbers))
    return shape, "geometry {} looked {} sound {} unsound {} table {} blocks {} sectors {}".format(shape, *rest)


def arranged_line(raw):
    """The line of a dump that fits in another arrangement alone; empty where it fits in none."""
    found = arrangements.best(raw)
    if found is None:
        return ""
    shape, line = fit_line(*found[0])
    return line + arranged_text(shape, found[1]) + "\n"


def turned_line(raw, best):
    """The line of the best geometry, where it has no codes and more of its pages are in their turn with two planes in turns."""
    coded, numbers, *_ = best
    found = None if coded else arrangements.turned(raw, numbers)
    if found is None:
        return ""
    TURNED["planes"] += 1
    shape, line = fit_line(*found[0])
    return line + arranged_text(shape, found[1]) + "\n"


def expect_fits(folder, raw):
    """Holds `geometry` to the reference over these bytes. Of each that fits, in their order: whether it is with codes, its areas, pages and blocks,
    and its line."""
    (folder / "dump.bin").write_bytes(raw)
    found, fits = [], ref.geometries(raw)
    for coded, numbers, *rest in fits:
        shape, line = fit_line(numbers, *rest)
        found.append((coded, shape.rpartition(",")[0], line + codes_text(coded, shape) + "\n"))
    told = "".join(line for _, _, line in found) + turned_line(raw, fits[0]) if fits else arranged_line(raw)
    want = (0, told, "") if told else (1, "", f"refused geometry 6 NoneFits{nearest_text(raw)}\n")
    answer = run(["geometry", "dump.bin"], folder)
    assert answer == want, (answer, want)
    assert left_in(folder, "dump.bin") == {}
    return found


def geometry_case(rng, folder):
    g, image = dump_for(rng)
    raw = image.raw()
    if rng.random() < 0.5:
        raw = spoiled(rng, g, raw)
        if rng.random() < 0.4:
            raw = mixed(rng, g, raw)
    page = len(raw) // g.rows
    if rng.random() < 0.1:
        raw = raw[: rng.randrange(len(raw))]
    elif rng.random() < 0.3:
        # the last blocks are missing
        raw = raw[: page * g.pages * rng.randrange(g.blocks // 2, g.blocks)]
    sorts = {"coded" if coded else "plain" for coded, _, _ in expect_fits(folder, raw)}
    FITTED["+".join(sorted(sorts)) or "none"] += 1
    clear(folder)


def repair_case(rng, folder):
    g, image = dump_for(rng)
    raw = damaged(rng, g, image.raw())
    rows, asked = some_rows(rng, g)
    bits = rng.choice([1, 1, 1, 2])
    if bits == 2 or rng.random() < 0.2:
        asked = [*asked, "--bits", str(bits)]
    if bits == 2 and g.page > 110:
        # so many pages are not tried here
        bits, rows = 1, range(0)
        asked = ["--rows", "0..0", "--bits", "2"]
    out, told = mended(g, raw, rows, bits)
    want = (0, told, "")
    if want[0] == 0 and rng.random() < 0.1:
        raw, want = rng.choice([raw[:-1], raw + b"\0"]), (1, "", "refused image 1 WrongLength\n")
    (folder / "dump.bin").write_bytes(raw)
    stored(rng, folder, ["repair", g.words(), "dump.bin", "out.bin", *asked], want, out)


def correct_case(rng, folder):
    g, image = dump_for(rng)
    raw = spoiled(rng, g, image.raw())
    size = len(raw) // g.rows
    made = [hamming.put_right(g.data, g.spare, raw[row * size : (row + 1) * size]) for row in range(g.rows)]
    losses = {row: lost for row, (_, _, lost) in enumerate(made) if lost}
    told = "".join(f"lost row {row} chunks {lost}\n" for row, lost in losses.items())
    told += f"turned {sum(turned for _, turned, _ in made)} rows {sum(turned > 0 for _, turned, _ in made)} lost {len(losses)}\n"
    want, out, extra, words = (0, told, ""), b"".join(page for page, _, _ in made), {}, []
    if rng.random() < 0.5:
        words, extra = ["--map", "out.map"], {"out.map": loss_map(g, losses).encode()}
    if rng.random() < 0.1:
        raw, want = rng.choice([raw[:-1], raw + b"\0"]), (1, "", "refused image 1 WrongLength\n")
    (folder / "dump.bin").write_bytes(raw)
    stored(rng, folder, ["correct", g.words(), "dump.bin", "out.bin", *words], want, out, extra)


def merge_case(rng, folder):
    g, image = dump_for(rng)
    readings = [damaged(rng, g, image.raw()) for _ in range(rng.choice([2, 2, 3, 4]))]
    if rng.random() < 0.5:
        # another page, or an erased one, in one reading, of a row that may be unsound in the others
        place, row, data = rng.randrange(len(readings)), rng.randrange(g.rows), rng.randbytes(g.data)
        if rng.random() < 0.5:
            readings = [raw[: row * g.page] + rng.randbytes(g.page) + raw[(row + 1) * g.page :] for raw in readings]
        other = data + ref.spare_of(g, ref.Record(1, 0, 1, 0), data)
        page = rng.choice([other, b"\xff" * g.page])
        readings[place] = readings[place][: row * g.page] + page + readings[place][(row + 1) * g.page :]
    readings = misread(rng, g, readings)
    chosen = [choice(g, list(pages)) for pages in zip(*(pages_of(g, raw) for raw in readings))]
    told = "".join(f"differ row {row}\n" for row, (_, origin, _) in enumerate(chosen) if origin == "differ")
    told += "".join(f"unsound row {row}\n" for row, (_, origin, _) in enumerate(chosen) if origin == "unsound")
    trials = [(row, trial) for row, (_, _, trial) in enumerate(chosen) if trial]
    TRIED.update(word for _, (word, _, _) in trials)
    told += "".join(f"{word} row {row} bits {bits}\n" for row, (word, bits, _) in trials)
    told += tries_text(sum(2**count for _, (_, _, count) in trials)) + "\n" if trials else ""
    told += " ".join(f"{kind} {sum(origin == kind for _, origin, _ in chosen)}" for kind in KINDS) + "\n"
    want, names = (0, told, ""), [f"reading{place}.bin" for place in range(len(readings))]
    if rng.random() < 0.1:
        place = rng.randrange(len(readings))
        readings[place] = rng.choice([readings[place][:-1], readings[place] + b"\0"])
        want = (1, "", f"refused merge 1 DumpLength {names[place]}\n")
    for name, raw in zip(names, readings):
        (folder / name).write_bytes(raw)
    stored(rng, folder, ["merge", g.words(), "out.bin", *names], want, b"".join(page for page, _, _ in chosen))


def origin_case(rng, folder):
    g, image = dump_for(rng)
    break_some(rng, image)
    readings = [damaged(rng, g, image.raw()) for _ in range(rng.choice([1, 1, 2, 3]))]
    if rng.random() < 0.3:
        dump = image.raw()
    elif len(readings) == 1:
        dump = mended(g, readings[0], range(g.rows))[0]
    else:
        dump = b"".join(choice(g, list(pages))[0] for pages in zip(*(pages_of(g, raw) for raw in readings)))
    last = some_sequence(rng, image)
    out, count = origins_of(ref.Image(g, dump), readings, last)
    want, names = (0, origin_text(count) + "\n", ""), [f"reading{place}.bin" for place in range(len(readings))]
    if rng.random() < 0.1:
        place = rng.randrange(len(readings))
        readings[place] = rng.choice([readings[place][:-1], readings[place] + b"\0"])
        want = (1, "", f"refused origin 1 ReadingLength {names[place]}\n")
        if rng.random() < 0.3:
            dump, want = dump[:-1], (1, "", "refused image 1 WrongLength\n")
    for name, raw in zip(["dump.bin", *names], [dump, *readings]):
        (folder / name).write_bytes(raw)
    words = ["origin", g.words(), "out.bin", "dump.bin", *names, *([] if last is None else ["--until", str(last)])]
    stored(rng, folder, words, want, out.encode())


def refusals(folder):
    """What is refused whatever the dump."""
    (folder / "dump.bin").write_bytes(b"x")
    (folder / "stood.map").write_bytes(b"stood")
    for words, want in [
        (["array", "64,32,8,32,32", "dump.bin", "dump.bin"], (1, "", "refused out 1 IsDump\n")),
        (["array", "64,32,8,32,32", "dump.bin", "./dump.bin", "--force"], (1, "", "refused out 1 IsDump\n")),
        (["array", "64,32,8,32,32", "dump.bin", "out.bin", "--map", "./out.bin"], (1, "", "refused map 1 IsOut\n")),
        (["array", "64,32,8,32,32", "dump.bin", "out.bin", "--map", "./dump.bin", "--force"], (1, "", "refused map 2 IsDump\n")),
        (["array", "64,32,8,32,32", "dump.bin", "out.bin", "--map", "stood.map"], (1, "", "refused map 3 Exists\n")),
        (["array", "64,32,8,32,32", "dump.bin", "out.bin", "--map"], (2, "", NONE)),
        (["geometry", "dump.bin"], (1, "", "refused geometry 6 NoneFits\n")),
        (["geometry", "none.bin"], failed("fault read none.bin")),
        (["geometry", "64,32,8,32,32", "dump.bin"], (2, "", NONE)),
        (["repair", "64,32,8,32,32", "dump.bin", "./dump.bin", "--force"], (1, "", "refused out 1 IsDump\n")),
        (["repair", "64,32,8,32,32", "none.bin", "out.bin"], failed("fault read none.bin")),
        (["repair", "64,32,8,32,32", "dump.bin", "none/out.bin"], failed("fault write none/out.bin")),
        (["repair", "64,32,8,32,32", "dump.bin"], (2, "", NONE)),
        (["repair", "64,32,8,32,32", "none.bin", "dump.bin", "--rows", "9..8"], (1, "", "refused rows 1 RowRange\n")),
        (["repair", "64,32,8,32,32", "none.bin", "dump.bin", "--rows", "0..257"], (1, "", "refused rows 1 RowRange\n")),
        (["repair", "64,32,8,32,32", "none.bin", "dump.bin", "--bits", "3"], (1, "", "refused bits 1 BitRange\n")),
        (["repair", "64,32,8,32,32", "none.bin", "dump.bin", "--bits", "two"], (2, "", "usage: bad number two\n")),
        (["repair", "512,89,8,32,32", "none.bin", "dump.bin", "--bits", "2"], (1, "", "refused bits 2 PageSize\n")),
        (["repair", "64,32,8,32,32", "none.bin", "dump.bin", "--rows", "0-9"], (2, "", "usage: bad number 0-9\n")),
        (["survey", "64,32,8,32,32", "none.bin", "--rows", ".."], (2, "", "usage: bad number ..\n")),
        (["survey", "64,32,8,32,32", "none.bin", "--rows", "0..4294967296"], (2, "", "usage: bad number 0..4294967296\n")),
        (["survey", "63,32,8,32,32", "none.bin", "--rows", ".."], (1, "", "refused geometry 1 DataSize\n")),
        (["survey", "64,32,8,32,32", "none.bin", "--rows"], (2, "", NONE)),
        (["array", "64,32,8,32,32", "none.bin", "out.bin", "--rows", "0..9"], (2, "", NONE)),
        (["merge", "64,32,8,32,32", "out.bin", "dump.bin"], (2, "", NONE)),
        (["origin", "64,32,8,32,32", "out.bin", "dump.bin"], (2, "", NONE)),
        (["origin", "64,32,8,32,32", "./dump.bin", "dump.bin", "stood.map", "--force"], (1, "", "refused out 1 IsDump\n")),
        (["origin", "64,32,8,32,32", "stood.map", "dump.bin", "./stood.map", "--force"], (1, "", "refused out 1 IsDump\n")),
        (["origin", "64,32,8,32,32", "out.bin", "dump.bin", "none.bin"], failed("fault read none.bin")),
        (["merge", "64,32,8,32", "out.bin", "dump.bin", "dump.bin"], (2, "", "usage: bad number 64,32,8,32\n")),
        (["merge", "64,32,8,32,32", "dump.bin", "--force", "stood.map", "./dump.bin"], (1, "", "refused out 1 IsDump\n")),
        (["merge", "64,32,8,32,32", "stood.map", "dump.bin", "dump.bin"], (1, "", "refused out 2 Exists\n")),
        (["merge", "64,32,8,32,32", "out.bin", "dump.bin", "none.bin"], failed("fault read none.bin")),
        (["merge", "64,32,8,32,32", "out.bin", "dump.bin", "dump.bin"], (1, "", "refused merge 1 DumpLength dump.bin\n")),
        (["array", "64,32,8,32", "dump.bin", "out.bin"], (2, "", "usage: bad number 64,32,8,32\n")),
        (["array", "63,32,8,32,32", "dump.bin", "out.bin"], (1, "", "refused geometry 1 DataSize\n")),
        (["array", "64,32,8,32,32", "none.bin", "out.bin"], failed("fault read none.bin")),
        (["array", "64,32,8,32,32", "dump.bin", "none/out.bin"], failed("fault write none/out.bin")),
        (["array", "64,32,8,32,32", "dump.bin"], (2, "", NONE)),
        (["survey", "64,32,8,32", "dump.bin"], (2, "", "usage: bad number 64,32,8,32\n")),
        (["survey", "63,32,8,32,32", "dump.bin"], (1, "", "refused geometry 1 DataSize\n")),
        (["survey", "64,32,8,32,32", "none.bin"], failed("fault read none.bin")),
        (["survey", "64,32,8,32,32", "."], failed("fault read .", "Is a directory (os error 21)")),
        (["survey", "64,32,8,32,32"], (2, "", NONE)),
        (["history", "64,32,8,32", "none.bin", "x"], (2, "", "usage: bad number 64,32,8,32\n")),
        (["history", "64,32,8,32,32", "none.bin", "x"], (2, "", "usage: bad number x\n")),
        (["history", "64,32,8,32,32", "none.bin", "32"], (1, "", "refused sector 1 OutOfRange\n")),
        (["history", "64,32,8,32,32", "none.bin", "4294967296"], (2, "", "usage: bad number 4294967296\n")),
        (["history", "64,32,8,32,32", "none.bin", "31"], failed("fault read none.bin")),
        (["history", "64,32,8,32,32", "dump.bin"], (2, "", NONE)),
        (["history", "64,32,8,32,32", "dump.bin", "1", "--until", "5"], (2, "", NONE)),
        (["array", "64,32,8,32,32", "none.bin", "dump.bin", "--until", "18446744073709551616"], (2, "", "usage: bad number 18446744073709551616\n")),
        (["array", "64,32,8,32,32", "none.bin", "out.bin", "--until", ""], (2, "", "usage: bad number \n")),
        (["array", "64,32,8,32,32", "none.bin", "out.bin", "--until"], (2, "", NONE)),
        (["survey", "64,32,8,32,32", "dump.bin", "--damaged"], (2, "", NONE)),
        (["array", "64,32,8,32,32", "none.bin", "out.bin", "--damaged", "yes"], (2, "", NONE)),
        (["survey", "64,32,8,32,32", "dump.bin", "--force"], (2, "", NONE)),
        (["compare", "64,32,8,32", "die.cert", "dump.bin"], (2, "", "usage: bad number 64,32,8,32\n")),
        (["compare", "63,32,8,32,32", "die.cert", "dump.bin"], (1, "", "refused geometry 1 DataSize\n")),
        (["compare", "64,32,8,32,32", "none.cert", "dump.bin"], failed("fault read none.cert")),
        (["compare", "64,32,8,32,32", "dump.bin", "dump.bin"], (1, "", "refused certificate 2 Short\n")),
        (["compare", "64,32,8,32,32", "die.cert"], (2, "", NONE)),
        (["array", "64,32,8,32,32", "none.bin", "out.bin", "--force", "--force", "--json", "--json"], failed("fault read none.bin")),
        (["array", "64,32,8,32,32", "dump.bin", "/dev/null"], (1, "", "refused out 2 Exists\n")),
        (["array", "64,32,8,32,32", "dump.bin", "/dev/null", "--force"], (1, "", "refused out 3 NoFile\n")),
        (["array", "64,32,8,32,32", "dump.bin", "out.bin", "--map", "/dev/null", "--force"], (1, "", "refused map 4 NoFile\n")),
        (["array", "64,32,8,32,32", "dump.bin", ".", "--force"], (1, "", "refused out 3 NoFile\n")),
        (["merge", "64,32,8,32,32", "/dev/null", "dump.bin", "dump.bin", "--force"], (1, "", "refused out 3 NoFile\n")),
        (["geometry", "no\ndump\x1b[2J\x9b2J é\\\x7f"], failed("fault read no\\x0adump\\x1b[2J\\xc2\\x9b2J é\\x5c\\x7f")),
        (["survey", "64,32\r", "dump.bin"], (2, "", "usage: bad number 64,32\\x0d\n")),
        (["geometry", "dump.bin", "--report", "dump.bin"], (1, "", "refused report 1 Exists\n")),
        (["array", "64,32,8,32,32", "dump.bin", "out.bin", "--report", "./out.bin"], (1, "", "refused report 2 IsOut\n")),
        (["array", "64,32,8,32,32", "dump.bin", "out.bin", "--map", "told.json", "--report", "told.json"], (1, "", "refused report 2 IsOut\n")),
        (["survey", "64,32,8,32,32", "/dev/zero", "--report", "told.json"], (3, "", "fault read /dev/zero\n")),
        (["survey", "64,32,8,32,32", "none.bin", "--report", "told.json"], failed("fault read none.bin")),
        (["verify", "none.json"], failed("fault read none.json")),
        (["verify", "dump.bin"], (1, "", "refused verify 1 NotReport\n")),
        (["verify", "dump.bin", "--report", "told.json"], (2, "", NONE)),
        (["arrays"], (2, "", NONE)),
        ([], (2, "", NONE)),
        (["--version"], (0, "nandlab 0.1.0\n", "")),
    ]:
        answer = run(words, folder)
        assert answer == want, (words, answer, want)
    (folder / "link").symlink_to("nowhere")
    answer = run(["array", "64,32,8,32,32", "dump.bin", "link"], folder)
    assert answer == (1, "", "refused out 2 Exists\n"), answer
    answer = run(["array", "64,32,8,32,32", "dump.bin", "link", "--force"], folder)
    assert answer == (1, "", "refused out 3 NoFile\n"), answer
    (folder / "link").unlink()
    races(folder)
    assert left_in(folder, "dump.bin") == {"stood.map": b"stood"}
    clear(folder)


def races(folder):
    """Runs on one OUT at once: without `--force` one at most is told that it was done. A part that a killed run left is made anew."""
    g = ref.Geometry(64, 32, 8, 32, 32)
    (folder / "whole.bin").write_bytes(b"\xff" * (g.rows * g.page))
    part = folder / ".raced.bin.nandlab-part"
    for _ in range(5):
        part.write_bytes(b"left behind")
        runs = [subprocess.Popen([LAB, "array", g.words(), "whole.bin", "raced.bin"], cwd=folder, stdout=subprocess.DEVNULL, stderr=subprocess.PIPE) for _ in range(6)]
        told = sorted((run.wait(), run.stderr.read().decode()) for run in runs)
        assert told[0] == (0, ""), told
        told = [(status, line.partition("the system's first error: ")[0]) for status, line in told]
        assert all(one in [(1, "refused out 2 Exists\n"), (3, "fault write raced.bin\n")] for one in told[1:]), told
        assert (folder / "raced.bin").read_bytes() == bytes(g.sectors * g.data) and not part.exists()
        (folder / "raced.bin").unlink()
    (folder / "whole.bin").unlink()


def spent(words, folder):
    best = None
    for _ in range(3):
        (folder / "told.json").unlink(missing_ok=True)
        start = time.monotonic()
        subprocess.run(words, cwd=folder, check=True, capture_output=True)
        took = time.monotonic() - start
        best = took if best is None else min(best, took)
    return best


def times(folder):
    os.chdir(folder)
    g = ref.Geometry(2048, 64, 64, 2048, 80000)
    (folder / "die.cert").write_bytes(full_dump(folder / "dump.bin", g))
    size = (folder / "dump.bin").stat().st_size
    hashed = spent(["sha256sum", "dump.bin"], folder)
    print(f"{size} bytes: sha256sum {hashed:.3f} s")
    for words in [
        ["geometry", "dump.bin"],
        ["survey", g.words(), "dump.bin"],
        ["history", g.words(), "dump.bin", "7"],
        ["array", g.words(), "dump.bin", "out.bin", "--force"],
        ["array", g.words(), "dump.bin", "out.bin", "--force", "--until", str(g.rows // 2)],
        ["array", g.words(), "dump.bin", "out.bin", "--force", "--damaged"],
        ["compare", g.words(), "die.cert", "dump.bin"],
        ["merge", g.words(), "out.bin", "dump.bin", "dump.bin", "--force"],
        ["repair", g.words(), "dump.bin", "out.bin", "--force"],
        ["correct", "2048,37,64,2048,80000", "dump.bin", "out.bin", "--force"],
    ]:
        made = spent([LAB, *words], folder)
        print(f"nandlab {words[0]} {made:.3f} s, {made / hashed:.2f} times, {measure.run([LAB, *words])[1]} KiB")
    for words, names in [
        (["survey", g.words(), "dump.bin"], ["dump.bin"]),
        (["array", g.words(), "dump.bin", "out.bin", "--force", "--map", "out.map"], ["dump.bin", "out.bin", "out.map"]),
        (["merge", g.words(), "out.bin", "dump.bin", "dump.bin", "--force"], ["dump.bin", "dump.bin", "out.bin"]),
    ]:
        plain = spent([LAB, *words], folder)
        told = spent([LAB, *words, "--report", "told.json"], folder)
        print(f"nandlab {words[0]} --report {told - plain:.3f} s more, sha256sum of its files {spent(['sha256sum', *names], folder):.3f} s")
    print(f"nandlab verify {spent([LAB, 'verify', told_of(folder)], folder):.3f} s, sha256sum of its files {spent(['sha256sum', 'dump.bin'], folder):.3f} s")


def told_of(folder):
    """A report of a survey, under a name that stays."""
    subprocess.run([LAB, "survey", "2048,64,64,2048,80000", "dump.bin", "--report", "kept.json"], cwd=folder, check=True, capture_output=True)
    return "kept.json"


def main():
    with tempfile.TemporaryDirectory() as name:
        folder = Path(name)
        if sys.argv[1:] == ["--time"]:
            return times(folder)
        cases, seed = (int(x) for x in (sys.argv[1:] + ["100", "1"][len(sys.argv) - 1 :])[:2])
        refusals(folder)
        for i in range(cases):
            case(random.Random(f"{seed}.{i}"), folder)
            survey_case(random.Random(f"survey {seed}.{i}"), folder)
            history_case(random.Random(f"history {seed}.{i}"), folder)
            then_case(random.Random(f"then {seed}.{i}"), folder)
            compare_case(random.Random(f"compare {seed}.{i}"), folder)
            geometry_case(random.Random(f"geometry {seed}.{i}"), folder)
            repair_case(random.Random(f"repair {seed}.{i}"), folder)
            merge_case(random.Random(f"merge {seed}.{i}"), folder)
            correct_case(random.Random(f"correct {seed}.{i}"), folder)
            origin_case(random.Random(f"origin {seed}.{i}"), folder)
        assert cases < 100 or SEEN == {"factory", "rewritten", "holes", "outside", "none", "newer", "not newer"}, SEEN
        assert cases < 100 or set(FITTED) == {"plain", "coded", "coded+plain", "none"}, FITTED
        assert cases < 100 or set(SHOWN) == {"one", "trim", "tied"}, SHOWN
        assert cases < 100 or {"turned", "tried"} <= set(TRIED), TRIED
        assert cases < 100 or set(ORIGINS) == {"+", "*", "-", "?"}, ORIGINS
        assert cases < 100 or set(FOUND) == {0, 1, 2, 3}, FOUND
        assert cases < 100 or {0, 1} <= set(PAIRED), PAIRED
        assert cases < 100 or len(REPORTED) == 9, REPORTED
        print(f"each of the nine commands over {cases} dumps agrees with the reference, and the refusals; geometry over {dict(FITTED)}; rows tried by merge {dict(TRIED)}; reports {dict(REPORTED)}")


if __name__ == "__main__":
    main()
