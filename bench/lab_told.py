"""The lines that nandlab prints, and what an object of its JSON stands for: a part of lab.py."""

import json
import re
import struct

# the origins of the rows of a merge, as they are counted
KINDS = ["sound", "differ", "majority", "turned", "erased", "unsound"]


def line_of(told, outside, rewritten):
    """The line that an object of a document stands for, where so many pages are of sectors that the geometry has not, and so many of blocks that
    were written again."""
    kind = told.pop("line")
    if kind == "pages":
        return f"pages {told['sort']} {told['count']}"
    if kind == "reason":
        name = told.pop("reason")
        if name == "SequenceRepeated":
            return "reason {} row {} row {}".format(name, *told["rows"])
        ((of, number),) = told.items()
        return f"reason {name} {of} {number}"
    if kind in ("tied", "missing"):
        return f"{kind} {told['key']} {told['number']}"
    if kind == "block":
        names = ["block", "class", "pointer", "live", "wear", "unsound"]
        return " ".join(f"{name} {told[name]}" for name in names if name in told)
    if kind == "geometry":
        names = {"looked": "looked", "sound": "sound", "unsound": "unsound", "table": "table", "blocks": "blocks_told", "sectors": "sectors_told"}
        shape = ",".join(map(str, told["geometry"]))
        assert told.get("codes", "hamming") == "hamming", told
        line = f"geometry {shape} " + " ".join(f"{name} {told[key]}" for name, key in names.items()) + codes_text("codes" in told, shape)
        return line + arranged_text(shape, told["arrange"]) if "arrange" in told else line
    if kind == "mended" and "bits" in told:
        return f"mended row {told['row']} bits " + " ".join(map(str, told["bits"]))
    if kind in ("mended", "erased"):
        return f"{kind} row {told['row']} bit {told['bit']}"
    if kind == "rows":
        return f"rows {told['first']}..{told['end']}"
    if kind == "rows_age":
        return rows_age_text(told["unsound"])
    if kind == "repaired":
        return f"mended {told['mended']}"
    if kind == "lost_row":
        return f"lost row {told['row']} chunks {told['chunks']}"
    if kind == "corrected":
        return " ".join(f"{name} {told[name]}" for name in ["turned", "rows", "lost"])
    if kind == "arranged":
        return f"arranged {told['rows']}"
    if kind == "origin":
        return origin_text(told["mended"])
    if kind == "merged":
        return " ".join(f"{name} {told[name]}" for name in KINDS)
    if kind in ("tied_row", "tried") and "bits" not in told:
        return f"{kind.removesuffix('_row')} row {told['row']}"
    if kind in ("turned", "tied_row", "tried"):
        word = "tied" if kind == "tied_row" else kind
        return f"{word} row {told['row']} bits " + (f"{told['turned']} of " if "turned" in told else "") + str(told["bits"])
    if kind == "tries":
        assert told["seal_bits"] == 64, told
        return tries_text(told["tries"])
    if kind in ("factory", "rewritten", "holes", "outside"):
        return f"{kind} {told['pages']}"
    if kind == "until":
        return until_text(told["unsound"], told["sequence"])
    if kind == "page":
        return "page row {row} block {block} sequence {sequence} version {version} {kind}".format(**told)
    if kind == "history":
        return history_text(told["pages"], told["unsound"])
    if kind == "damaged":
        return damaged_text(told["damaged"])
    if kind == "legible":
        return legible_text(told["legible"], told["others"])
    if kind == "says":
        return says_text(told["row"], told["kind"], told["number"], told["sequence"], told["newer"])
    if kind == "age":
        return age_text(told["unsound"], told["older"], outside, rewritten)
    ((of, number),) = told.items()
    return f"{kind} {of} {number}"


def lines_of(command, text):
    """The lines that a document stands for. Its text is held to the one form that it may have."""
    document = json.loads(text)
    objects = [json.dumps(told, sort_keys=True, separators=(",", ":")) for told in document]
    assert text == "[" + ",\n".join(objects) + "\n]\n", text
    assert document[0] == {"command": command, "line": "command", "program": "nandlab"}, text
    outside, rewritten = (sum(told["pages"] for told in document[1:] if told["line"] == line) for line in ["outside", "rewritten"])
    return "".join(line_of(told, outside, rewritten) + "\n" for told in document[1:])


def codes_text(coded, shape):
    return f" codes hamming: first nandlab correct {shape} DUMP OUT" if coded else ""


def arranged_text(shape, words):
    return f" arranged: first nandlab arrange {shape} DUMP OUT --from {words}"


# a spare area of version 1 or 2 up to the end of its seal, whatever that is, at whatever byte
LEGIBLE = re.compile(rb"(?=\xff\xff(?:\x01([\x01-\x04].{16})\xff{4}.{8}|\x02([\x01-\x04].{16})\xff{4}.{16}))", re.DOTALL)

KIND_NAMES = [None, "sector", "trim", "translation", "table"]


def nearest_text(raw):
    """What came nearest in a dump that nothing fits: the first record of a table page that can be read in it, or else the first one."""
    found = [(match.start(), struct.unpack("<BIQI", match[1] or match[2])) for match in LEGIBLE.finditer(raw)]
    if not found:
        return ""
    at, (kind, number, sequence, _) = min(found, key=lambda one: (KIND_NAMES[one[1][0]] != "table", one[0]))
    return f" byte {at} says {KIND_NAMES[kind]} {number} sequence {sequence}"


def age_text(unsound, older, outside, rewritten):
    if older > 0:
        claim = f"at most {older} sectors may be older than the last write"
    else:
        claim = ("of these sectors " if outside else "") + "the array is that of every page that was programmed"
    moved = ", nor a newest one in a rewritten block" if rewritten else ""
    return f"unsound {unsound}: {claim}, if no page was lost behind the last one of its block{moved}"


def until_text(unsound, last):
    return f"unsound {unsound}: as of sequence {last}, the newest of what is still there"


def history_text(pages, unsound):
    return f"history {pages} unsound {unsound}: of what is still there, newest first"


def says_text(row, kind, number, sequence, newer):
    return f"unsound row {row} says {kind} {number} sequence {sequence} {'newer' if newer else 'not newer'}"


def damaged_text(count):
    return f"damaged {count}: so many sectors are shown as an unsound page reads, nothing sound that counts being newer"


def origin_text(count):
    return f"mended {count}: so many sectors are shown of a page that none of the readings has in its row"


def legible_text(legible, others):
    return f"legible {legible}: if what these pages say is so, at most {others} sectors may be older that are not said newer here"


def rows_age_text(unsound):
    return f"unsound {unsound}: of these rows alone, of others nothing is told"


def tries_text(tries):
    return f"tries {tries}: by a seal of 8 bytes a wrong page is taken by chance in at most {tries} of {2**64} cases"
