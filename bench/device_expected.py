#!/usr/bin/env python3
"""Prints what the tests of devices expect, by `bench/device_model.py`, and holds the stages of
`crates/device_tests/src/tests/failing/script_rows.rt` against it.

    bench/device_expected.py
"""

import re
from pathlib import Path

from device_model import Device, Die, Geometry, Mounted, format_die, formatted, show

TESTS = Path(__file__).resolve().parent.parent / "crates" / "device_tests" / "src" / "tests" / "failing"
FIRST = Geometry(64, 32, 8, 32, 32)
LEAST = Geometry(64, 32, 4, 12, 1)


def eight(device):
    device.write(7, 0x77)
    device.trim(7)
    for n in range(6):
        device.write(n, 0x10 + n)


def every_kind(device):
    device.write(0, 0x40)
    device.flush()
    device.write(16, 0x41)
    device.flush()
    for n in (1, 2, 3, 4):
        device.write(n, 0x41 + n)
    device.trim(5)
    device.trim(16)


def spread(device):
    for n in range(21):
        device.write(n, n)
        for byte in range(7):
            device.write(31, byte)
    device.write(21, 21)
    for byte in range(6):
        device.write(31, byte)
    device.flush()
    device.write(31, 78)
    device.write(31, 79)
    device.flush()


def writes(pairs):
    def steps(device):
        for n, byte in pairs:
            device.write(n, byte)
    return steps


# A name, the capacity, the changes that fail, whether they leave bytes, the steps, and the blocks collected then.
CASES = [
    ("a block is collected", 4, (), 0, eight, [(1, False)]),
    ("the erase of a collected block fails", 4, (18,), 0, eight, [(1, False)]),
    ("cached sectors are moved", 8, (), 0, writes([(n, 0x20 + n) for n in range(8)]), [(1, False)]),
    ("cached sectors are moved in a flush", 8, (), 0, writes([(n, 0x20 + n) for n in range(8)]), [(1, True)]),
    ("a block with five live pages costs seven programs", 1, (), 0,
     writes([(n, 0x30 + i) for i, n in enumerate((0, 16, 1, 17, 2, 0, 0, 0))]), [(1, False)]),
    ("every kind of page is copied", 4, (16, 21), 0, every_kind, [(0, False), (1, False)]),
    ("the least worn of two equal blocks is collected", 4, (), 0, writes([(0, i % 256) for i in range(270)]), []),
    ("a flush collects", 32, (), 0, spread, []),
    ("a bad block is rescued", 4, (3,), 1,
     lambda d: (writes([(0, 1), (1, 2), (2, 3)])(d), d.turn(), d.turn(), d.turn()), []),
    ("one failure in a flush", 4, (1,), 0, lambda d: d.flush(), []),
    ("two failures in a flush", 4, (2, 5), 0, lambda d: d.flush(), []),
    ("a write-back fails", 4, (5,), 0, writes([(0, 7), (1, 7), (2, 7), (3, 7), (16, 9)]), []),
]


def print_cases():
    for name, capacity, failing, left, steps, collects in CASES:
        device, _ = formatted(FIRST, capacity, failing=failing, page_left=left)
        steps(device)
        for block, flushing in collects:
            device.collect(block, flushing)
        print(name)
        show(device, 2)


class Script:
    """The commands of `script.rt`, with the list of sectors that they leave. Where they are hot three sectors take most writes."""

    def __init__(self, hot=False):
        self.state, self.bytes, self.hot = 20_260_101, [0] * 48, hot

    def give(self, device):
        self.state = (self.state * 6_364_136_223_846_793_005 + 1_442_695_040_888_963_407) % 2**64
        n, byte, dice = (self.state >> 33) % device.g.L, (self.state >> 40) % 256, self.state >> 59
        if self.hot:
            n = n % 3 if dice <= 23 else n
            dice = 0 if dice <= 25 else 21 if dice <= 28 else 31
        if dice <= 15:
            if device.write(n, byte) == "Done":
                self.bytes[n] = byte
        elif dice <= 19:
            if device.trim(n) == "Done":
                self.bytes[n] = 0
        elif dice == 20:
            device.flush()
        elif dice <= 23:
            device.turn()
        else:
            assert device.read(n) == self.bytes[n]

    def compare(self, device):
        for n in range(device.g.L):
            assert device.read(n) == self.bytes[n]


def numbers(text):
    return [int(word.replace("_", "")) for word in re.findall(r"[0-9_]+", text)]


def hold_script():
    text = (TESTS / "script_rows.rt").read_text()
    sizes = {name: numbers(its) for name, its in re.findall(r"const (\w+): \(u32, u32, u32, u32\) = \(([^)]*)\)", text)}
    lists = dict(re.findall(r"const (\w+): &\[Stage\] = &\[(.*?)\];", text, re.S))
    fields = r"(\w+): ((?:&\[[^\]]*\]|\w+)),|\.\.(\w+)"
    parts = {}

    def row_of(its):
        row = {}
        for field, value, rest in re.findall(fields, its):
            row = {**parts[rest], **row} if rest else {**row, field: lists.get(value, value)}
        return row

    for name, its in re.findall(r"const (\w+): Row = Row \{(.*?)\n\};", text, re.S):
        parts[name] = row_of(its)
    its = text[text.index("static ROWS"):]
    rows = [parts[name] if name else row_of(row) for row, name in re.findall(r"\n    (?:Row \{(.*?\n)    \}|(\w+)),", its, re.S)]
    stages = 0
    for row in rows:
        name, share, torn = row["sizes"], row["share"], row["torn"]
        die, script = Die(Geometry(64, *sizes[name])), Script(row["hot"] == "true")
        format_die(die, (), int(share))
        die.failing = {die.changes + nth for nth in numbers(row["failing"])}
        die.page_left = torn == "true"
        for stage in re.findall(r"Stage\((\d+, \d+, \(\d+, \d+, \d+\))\)", row["devices"]):
            capacity, *wanted = numbers(stage)
            device = Device(die, capacity, int(share))
            script.compare(device)
            for _ in range(250):
                script.give(device)
            script.compare(device)
            if not die.page_left:
                device.flush()
            found = [device.next, device.free(), device.good(), sum(device.wear)]
            assert found == wanted, (name, share, torn, capacity, found, wanted)
            assert die.abuse == 0
            stages += 1
    assert len(rows) == 15 and stages == 60
    print(f"{stages} stages of the script, as the model says")


def four_hundred(device):
    """The calls of the scripts of failures and stops. How many of them change a sector."""
    sectors, changing = [0] * 32, 0
    for i in range(400):
        if i % 16 == 15:
            device.flush()
        elif i % 16 == 14:
            device.turn()
        else:
            n, byte = (i * 5 % 32, 0) if i % 8 == 3 else (i * 11 % 32, i % 251)
            assert (device.trim(n) if i % 8 == 3 else device.write(n, byte)) == "Done"
            changing += sectors[n] != byte
            sectors[n] = byte
    return changing


def hold_stops():
    """The programs and erases at which dies stop in `stops.rt`, and by how many a sector changes."""
    device, _ = formatted(FIRST, 4)
    before = device.die.changes
    changing = four_hundred(device)
    found = [device.die.changes - before, changing]
    text = (TESTS / "stops.rt").read_text()
    wanted = [numbers(its) for its in re.findall(r"const SCRIPT_TRIED: .*?stops: (.*?changing: \d+)", text, re.S)]
    assert wanted == [found], (wanted, found)
    print(f"{found[0]} programs and erases of the four hundred calls, {found[1]} of which change a sector")


def waiting_calls(device):
    """The calls of `waiting_call` in `courses.rt`. How many of them change a sector, and how many sectors wait at most."""
    sectors, changing, most = [0] * 48, 0, 0
    for i in range(256):
        if i % 128 == 127:
            device.flush()
        elif i % 16 == 14:
            device.turn()
        else:
            n, byte = i % 3, i % 251
            if i % 4 == 1:
                n, byte = (i * 5 % 48, 0) if i % 32 == 21 else (i // 4 * 11 % 48, byte)
            assert (device.trim(n) if i % 32 == 21 else device.write(n, byte)) == "Done"
            changing += sectors[n] != byte
            sectors[n] = byte
        most = max(most, len(device.moved))
    assert [device.read(n) for n in range(48)] == sectors
    return changing, most


def hold_waiting():
    """The same of dies on which sectors wait."""
    text = (TESTS / "stops.rt").read_text()
    its = re.search(r"const APART: .*?\n\];", text, re.S).group()
    apart, whole = [numbers(row) for row in re.findall(r"each: (\d+,\s*least: Tried \{\s*stops: \d+,\s*changing: \d+)", its)]
    for share, (each, stops, least) in ((1, whole), (3, apart), (15, apart)):
        device, _ = formatted(Geometry(64, 32, 4, 34, 48), 4, share=share)
        before = device.die.changes
        changing, most = waiting_calls(device)
        found = (device.die.changes - before) // each
        assert found >= stops and (each > 1 or (found, changing) == (stops, least)), (share, found, changing)
        assert most >= min(3 * share, 4)
        print(f"share {share}: {found} programs and erases that are tried, {changing} calls that change a sector, {most} sectors that wait at most")


def sixty(failing, left):
    """Sixty calls on the least geometry, all of them done."""
    device, _ = formatted(LEAST, 1, failing=failing, page_left=left)
    byte = 0
    for i in range(60):
        if i % 16 == 15:
            answer = device.flush()
        elif i % 16 == 14:
            answer = device.turn()
        else:
            byte = 0 if i % 8 == 3 else i + 1
            answer = device.trim(0) if i % 8 == 3 else device.write(0, byte)
        assert answer == "Done" and device.read(0) == byte
    assert device.die.abuse == 0 and len(Mounted(device.die).stale) <= 5
    return device.die.changes - 1


def hold_pairs():
    changes = sixty((), 0)
    for second in range(2, changes + 1):
        for first in range(1, second):
            sixty((first, second), (first ^ second) % 2 == 0)
    print(f"every pair of {changes} changes of the least geometry: all done")


def hold_runs():
    for g, marks, count, broken in ((FIRST, range(17, 32), 5000, None), (LEAST, (), 500, None), (FIRST, range(19, 32), 5000, 2000)):
        device, good = formatted(g, 4, marks=marks)
        for i in range(count):
            if i == broken:
                device.die.failing = {device.die.changes + 1, device.die.changes + 2}
            assert device.write((i * 11) % g.L, i % 251) == "Done"
        print(f"format answers {good}, {count} writes done, next {device.next}")


if __name__ == "__main__":
    print_cases()
    hold_runs()
    hold_pairs()
    hold_script()
    hold_stops()
    hold_waiting()
