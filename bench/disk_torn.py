#!/usr/bin/python3
"""Cuts the writes of `nanddisk serve` to its file, and looks at what each cut leaves.

Usage: disk_torn.py NANDDISK [REQUESTS [SEED [LOSSES]]]
       disk_torn.py NANDDISK places [REQUESTS [SEED]]

A client sends one request after another, while `strace` notes each write of the server to the die's file and to that of its mark, each sync, and each reply. Disks have pages of 64, 512 and 4,096 bytes.
From that list files are made:

- cut: the writes up to each one, as a killed process leaves them;
- torn: the same with a part of the next one, up to a random byte;
- lost: the writes up to a sync and a random part of those up to the next one, as a host that loses power may leave them; of each a random part of its
  halves. Of the mark's writes since its sync each is there, or not, or its first bytes are.

Of each `nanddisk serve` is asked for all bytes (every one, and of the cuts each fourth). After a cut or a tear each sector is as the answered requests left it, or as the
one at hand was to. After a loss each sector is as at the last sync, or as one of the requests since left it; and a flush or a durable write that was answered before the sync has lost
nothing. With `--sync always` a lost file is as a torn one. After each the disk takes writes, and no block is bad.

With `places` each write of the die's file is cut at each of five places of its last page: after a byte, in the data, at the spare area, in the seal, and before the last byte.

With CODE=hamming in the environment the disks keep a code.

Asks for Debian's strace and python3-libnbd, which is for the system's Python."""

import json
import os
import random
import re
import signal
import subprocess
import socket
import sys
import tempfile
import time

import nbd

LINE = re.compile(r"^\d+\s+(\w+)\((.*)\)\s+=\s+(\d+)$")


class Shape:
    """A geometry, and what follows of it."""

    def __init__(self, sector, spare, pages, blocks, sectors):
        self.words = f"{sector},{spare},{pages},{blocks},{sectors}"
        self.sector, self.spare, self.size = sector, spare, sector * sectors

    def sectors(self, array):
        return [array[at : at + self.sector] for at in range(0, self.size, self.sector)]


SMALL = Shape(512, 32, 4, 44, 80)
SHAPES = (Shape(64, 32, 8, 40, 60), SMALL, Shape(4096, 128, 4, 44, 80))
# so many pages that 10,000 are programmed with no erase, and so with no sync
LARGE = Shape(64, 32, 64, 300, 2000)


def start(command):
    """A client of a server that was just started, and the server's process."""
    client = nbd.NBD()
    ours, theirs = socket.socketpair()
    server = subprocess.Popen(command, stdin=theirs, stdout=theirs, stderr=subprocess.PIPE)
    theirs.close()
    client.connect_socket(ours.detach())
    return client, server


def bytes_of(text):
    return bytes(int(pair, 16) for pair in text.split("\\x")[1:])


# A mark's file as it is made, with no mark.
NO_MARK = b"\x01" + bytes(4095) + b"\x01" + bytes(31)


def path_in(words):
    """The path of the file that a call names."""
    match = re.search(r"<((?:\\x[0-9a-f]{2})+)>", words)
    return bytes_of(match.group(1)).decode() if match else ""


class Event:
    """A write of the die's file, a sync of it, the same of the mark's file, or a reply."""

    def __init__(self, kind, offset=0, body=b""):
        self.kind, self.offset, self.body = kind, offset, body


def events_of(log):
    """What was noted, in its order. The file is written at offsets, and the replies go to standard output, each with its magic."""
    found = []
    for line in open(log, encoding="ascii"):
        match = LINE.match(line.strip())
        if not match:
            continue
        name, words, count = match.group(1), match.group(2), int(match.group(3))
        path = path_in(words)
        if name == "pwrite64":
            _, body, _, offset = words.rsplit(", ", 3) if words.count(", ") == 3 else words.split(", ")
            body = bytes_of(body.strip('"'))
            assert len(body) == count
            # (the file of a mark is made beside its place, before any mark)
            if path.endswith((".mark", ".nand")):
                found.append(Event("mark" if path.endswith(".mark") else "write", int(offset), body))
        elif name in ("fdatasync", "fsync") and path.endswith(".mark"):
            found.append(Event("marksync"))
        elif name in ("fdatasync", "fsync") and path.endswith(".nand"):
            found.append(Event("sync"))
        elif name == "write" and words.startswith("1<"):
            if bytes_of(words.split(", ")[1].strip('"'))[:4] == b"\x67\x44\x66\x98":
                found.append(Event("reply"))
    return found


# What `strace` is told to have the syncs of a server do nothing.
NO_SYNCS = ["-e", "inject=fdatasync,fsync:retval=0"]


def run(program, shape, path, log, requests, draw, words, flushes=True, syncs=True):
    """The requests that were sent, each with its place, its bytes and whether it is to last; a flush has none."""
    watch = ["strace", "-f", "-y", "-e", "trace=pwrite64,fdatasync,fsync,write", "-xx", "-s", "1000000", "-o", log]
    client, server = start([*watch, *([] if syncs else NO_SYNCS), program, "serve", *words, path])
    sent = []
    for _ in range(requests):
        what = draw.randrange(12) if flushes else 2
        if what == 0:
            client.flush()
            sent.append((0, b"", True))
            continue
        count = draw.choice((1, 1, 1, 1.5, 2))
        count = int(count * shape.sector)
        offset = draw.randrange((shape.size - count) // shape.sector + 1) * shape.sector
        lasts = flushes and draw.randrange(8) == 0
        body = bytes(count) if what == 1 else draw.randbytes(count)
        flags = nbd.CMD_FLAG_FUA if lasts else 0
        if what == 1:
            client.trim(count, offset, flags)
        else:
            client.pwrite(body, offset, flags)
        sent.append((offset, body, lasts))
    if flushes:
        client.shutdown()
        assert server.wait() == 0, server.stderr.read()
    else:
        # a reply comes before strace has noted it, and of a killed server it notes no more
        for _ in range(100):
            if sum(event.kind == "reply" for event in events_of(log)) == len(sent):
                break
            time.sleep(0.1)
        # the flush at a session's end would sync
        os.kill(child_of(server.pid), signal.SIGKILL)
        server.wait()
    server.stderr.close()
    return sent


def child_of(pid):
    """The process that `strace` watches."""
    with open(f"/proc/{pid}/task/{pid}/children", encoding="ascii") as children:
        return int(children.read().split()[0])


def array_of(program, shape, path):
    """All bytes of a disk, by a server of it."""
    client, server = start([program, "serve", path])
    found = client.pread(shape.size, 0)
    client.shutdown()
    assert server.wait() == 0, server.stderr.read()
    server.stderr.close()
    return found


def takes_writes(program, shape, path, what):
    """The disk takes a write and a flush."""
    client, server = start([program, "serve", path])
    try:
        client.pwrite(b"\x5a" * shape.sector, 0)
        client.flush()
        assert client.pread(shape.sector, 0) == b"\x5a" * shape.sector, what
    except nbd.Error as error:
        raise AssertionError(("no write is taken", what, error.errno)) from error
    client.shutdown()
    assert server.wait() == 0, server.stderr.read()
    server.stderr.close()


def bad_of(program, path):
    return json.loads(subprocess.run([program, "info", "--json", path], check=True, stdout=subprocess.PIPE).stdout)["bad"]


def after(array, request):
    offset, body, _ = request
    return array[:offset] + body + array[offset + len(body) :]


class Run:
    """What a run came to: the file before it, its events, and what each sector was after each request that changed it."""

    def __init__(self, shape, image, events, sent):
        self.shape, self.image, self.events, self.sent = shape, image, events, sent
        # of each sector the numbers of requests after which it was another, and what it was
        self.states = [[(0, bytes(shape.sector))] for _ in range(shape.size // shape.sector)]
        array = bytearray(shape.size)
        for number, (offset, body, _) in enumerate(sent, 1):
            array[offset : offset + len(body)] = body
            for sector in self.touched(offset, body):
                at = sector * shape.sector
                self.states[sector].append((number, bytes(array[at : at + shape.sector])))

    def touched(self, offset, body):
        return range(offset // self.shape.sector, -(-(offset + len(body)) // self.shape.sector)) if body else ()

    def answered(self, count):
        """How many requests were answered within so many events."""
        return sum(event.kind == "reply" for event in self.events[:count])

    def floors(self, done):
        """Of each sector the number of requests that it lasts of, where so many were answered: those up to the last flush, or its last durable change."""
        flushed = max((n for n, (_, body, _) in enumerate(self.sent[:done], 1) if not body), default=0)
        floors = [flushed] * len(self.states)
        for number, (offset, body, lasts) in enumerate(self.sent[:done], 1):
            if lasts:
                for sector in self.touched(offset, body):
                    floors[sector] = max(floors[sector], number)
        return floors

    def last_sync(self, count):
        """The number of events up to the last sync within so many."""
        for at in range(count, 0, -1):
            if self.events[at - 1].kind == "sync":
                return at
        return 0

    def image_of(self, whole, rest=()):
        image = bytearray(self.image)
        for event in self.events[:whole]:
            if event.kind == "write":
                image[event.offset : event.offset + len(event.body)] = event.body
        for offset, body in rest:
            image[offset : offset + len(body)] = body
        return bytes(image)

    def mark_of(self, whole, rest=()):
        """The mark's file after so many events, and what was written of it since."""
        mark = bytearray(NO_MARK)
        for event in self.events[:whole]:
            if event.kind == "mark":
                mark[event.offset : event.offset + len(event.body)] = event.body
        for offset, body in rest:
            mark[offset : offset + len(body)] = body
        return bytes(mark)

    def last_marksync(self, count):
        """The number of events up to the last sync of the mark's file within so many."""
        return max((at for at in range(1, count + 1) if self.events[at - 1].kind == "marksync"), default=0)

    def hold(self, found, floors, last, what):
        """Each sector is as after one of these numbers of requests, from its floor on."""
        for number, sector in enumerate(self.shape.sectors(found)):
            states = self.states[number]
            first = max(at for at, (since, _) in enumerate(states) if since <= floors[number])
            assert any(state == sector for since, state in states[first:] if since <= last), (what, number)


def look(program, shape, folder, image, mark):
    path = os.path.join(folder, "cut.nand")
    for name, content in ((path, image), (path + ".mark", mark)):
        with open(name, "wb") as file:
            file.write(content)
    found = array_of(program, shape, path)
    bad = bad_of(program, path)
    assert bad == 0, bad
    return found


def pieces(event, draw):
    """A random part of a write's halves of sectors."""
    step = 256 if len(event.body) > 256 else 48
    return [(event.offset + at, event.body[at : at + step]) for at in range(0, len(event.body), step) if draw.randrange(2)]


def cuts(program, folder, run, draw):
    """Each cut, and each tear."""
    count = 0
    sectors = len(run.states)
    for at, event in enumerate(run.events):
        if event.kind not in ("write", "mark"):
            continue
        done = run.answered(at)
        if at % 4 == 0:
            run.hold(look(program, run.shape, folder, run.image_of(at), run.mark_of(at)), [done] * sectors, done + 1, ("cut", at))
            count += 1
        part = [(event.offset, event.body[: draw.randrange(len(event.body))])]
        image = run.image_of(at, part if event.kind == "write" else ())
        mark = run.mark_of(at, part if event.kind == "mark" else ())
        run.hold(look(program, run.shape, folder, image, mark), [done] * sectors, done + 1, ("torn", at))
        count += 1
    return count


# Where the seal of a page begins in its spare area, and a byte within it.
IN_THE_SEAL = 24


def places(shape, size):
    """The five places at which a write of so many bytes is cut."""
    page = size - shape.sector - shape.spare
    return (1, page + shape.sector // 2, page + shape.sector, page + shape.sector + IN_THE_SEAL, size - 1)


def cuts_at_places(program, folder, run):
    """Each write of the die's file, cut at each place."""
    count = 0
    for at, event in enumerate(run.events):
        if event.kind != "write":
            continue
        done = run.answered(at)
        for place in places(run.shape, len(event.body)):
            found = look(program, run.shape, folder, run.image_of(at, [(event.offset, event.body[:place])]), run.mark_of(at))
            run.hold(found, [done] * len(run.states), done + 1, ("cut", at, place))
            count += 1
    return count


def losses(program, folder, run, draw, always, each):
    """Files that a host that lost power may have left, at random events. The disk takes writes after each."""
    for _ in range(each):
        at = draw.randrange(len(run.events)) + 1
        sync = run.last_sync(at)
        rest = []
        for event in run.events[sync:at]:
            if event.kind == "write":
                rest += draw.choice(([], [(event.offset, event.body)], pieces(event, draw)))
        marked, marks = run.last_marksync(at), []
        for event in run.events[marked:at]:
            if event.kind == "mark":
                marks += draw.choice(([], [(event.offset, event.body)], [(event.offset, event.body[: draw.randrange(len(event.body))])]))
        done = run.answered(at)
        floors = [done] * len(run.states) if always else run.floors(done)
        run.hold(look(program, run.shape, folder, run.image_of(sync, rest), run.mark_of(marked, marks)), floors, done + 1, ("lost", at))
        path = os.path.join(folder, "cut.nand")
        takes_writes(program, run.shape, path, ("lost", at))
        assert bad_of(program, path) == 0, ("lost", at)
    return each


def noted(program, shape, folder, requests, draw, words, **how):
    """A run over a new disk, with all its writes and replies."""
    path, log = os.path.join(folder, "disk.nand"), os.path.join(folder, "log")
    subprocess.run([program, "create", "--code", os.environ.get("CODE", "none"), "--geometry", shape.words, path], check=True, stdout=subprocess.DEVNULL)
    image = open(path, "rb").read()
    os.link(path + ".json", os.path.join(folder, "cut.nand.json"))
    sent = run(program, shape, path, log, requests, draw, words, **how)
    found = Run(shape, image, events_of(log), sent)
    assert found.image_of(len(found.events)) == open(path, "rb").read(), "the noted writes are not all"
    assert found.answered(len(found.events)) == len(sent), "the noted replies are not all"
    return found


def told(found, cut, lost):
    writes = sum(event.kind == "write" for event in found.events)
    syncs = sum(event.kind == "sync" for event in found.events)
    return f"{writes} writes, {syncs} syncs; {cut} cut or torn files, {lost} of lost power: nothing lost, no block bad"


def never_synced(program, requests, draw):
    """A server whose syncs do nothing loses what it answered, and that is seen."""
    with tempfile.TemporaryDirectory() as folder:
        found = noted(program, SMALL, folder, requests, draw, [], syncs=False)
        assert found.last_sync(len(found.events)) == 0
        for tried in range(1, 21):
            try:
                losses(program, folder, found, draw, False, 1)
            # a sector that has lost its page is read as EIO where the die tells it
            except (AssertionError, nbd.Error):
                return tried
    raise AssertionError("a server that never syncs loses nothing")


def at_places(program, requests, seed):
    draw = random.Random(seed)
    for shape in SHAPES:
        with tempfile.TemporaryDirectory() as folder:
            found = noted(program, shape, folder, requests, draw, [])
            count = cuts_at_places(program, folder, found)
            print(f"{shape.words}: each write cut at five places, {count} files: nothing lost, no block bad", flush=True)


def main():
    if len(sys.argv) < 2:
        sys.exit(__doc__)
    program = os.path.realpath(sys.argv[1])
    if sys.argv[2:3] == ["places"]:
        at_places(program, int(sys.argv[3]) if len(sys.argv) > 3 else 60, int(sys.argv[4]) if len(sys.argv) > 4 else 35)
        return
    requests = int(sys.argv[2]) if len(sys.argv) > 2 else 400
    draw = random.Random(int(sys.argv[3]) if len(sys.argv) > 3 else 35)
    each = int(sys.argv[4]) if len(sys.argv) > 4 else requests
    for shape in SHAPES:
        for words in ([], ["--sync", "always"]):
            with tempfile.TemporaryDirectory() as folder:
                found = noted(program, shape, folder, requests, draw, words)
                cut = cuts(program, folder, found, draw)
                lost = losses(program, folder, found, draw, bool(words), each)
                print(f"{shape.words} {' '.join(words) or '--sync erases'}: {told(found, cut, lost)}", flush=True)
    with tempfile.TemporaryDirectory() as folder:
        found = noted(program, LARGE, folder, 10000, draw, [], flushes=False)
        assert not any(event.kind == "write" for event in found.events[: found.last_sync(len(found.events))]), "a page was synced"
        print(f"10,000 changes with no sync: {told(found, 0, losses(program, folder, found, draw, False, 20))}", flush=True)
    print(f"a server whose syncs do nothing is seen after {never_synced(program, requests, draw)} losses")


if __name__ == "__main__":
    main()
