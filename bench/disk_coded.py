"""Turns bits in the file of a disk that keeps a code, and holds `nanddisk` to what it promises of them. PROGRAM is the program, or $PROGRAM; it wants fio,
mtools and dosfstools (mkfs.fat), nbdcopy and nbdsh of libnbd, and socat.

    disk_coded.py [rounds] [seed]

1. A disk is made with `--code hamming`, and beside it one without: each answers a FAT file system and fio with verify alike.
2. Each round turns one bit of each chunk with its code in the whole file, in codes and in erased pages too: `info` tells just as many, fio verifies what
   it wrote before, the files are as they were, and more is written.
3. Two bits are turned in a chunk of the newest page of one sector: that sector alone is EIO, all others are as they were; it is written, and read.
"""
import contextlib, json, os, random, subprocess, sys, tempfile, time

PROGRAM = os.environ.get("PROGRAM", "nanddisk")
DATA, SPARE = 4096, 128
CHUNKS = DATA // 256
OUTER = SPARE + 3 * (CHUNKS + 1)
PAGE = DATA + OUTER


def run(*words, **more):
    return subprocess.run([PROGRAM, *words], capture_output=True, **more)


def chunks():
    """Of each chunk the places of its bytes and of its code in a page."""
    all_of = []
    for k in range(CHUNKS):
        code = DATA + SPARE + 3 + 3 * k
        all_of.append(list(range(256 * k, 256 * k + 256)) + list(range(code, code + 3)))
    all_of.append(list(range(DATA, DATA + SPARE + 3)))
    return all_of


PLACES = chunks()


def turn(page, places, draw, bits):
    for place, bit in draw.sample([(p, b) for p in places for b in range(8)], bits):
        page[place] ^= 1 << bit


def turn_all(path, draw, before):
    """One bit of each chunk of each page, which `before` keeps as it was and as it is. How many that were."""
    size = os.path.getsize(path)
    assert size % PAGE == 0, (size, PAGE)
    with open(path, "r+b") as file:
        for row in range(size // PAGE):
            file.seek(row * PAGE)
            page = bytearray(file.read(PAGE))
            # the bits of the last round stand in a page until it is written anew: a second one in a chunk would lose it
            if row in before and before[row][1] == page:
                page = bytearray(before[row][0])
            right = bytes(page)
            for places in PLACES:
                place = places[draw.randrange(len(places))]
                page[place] ^= 1 << draw.randrange(8)
            before[row] = right, bytes(page)
            file.seek(row * PAGE)
            file.write(page)
    return size // PAGE * len(PLACES)


def told(path):
    done = run("info", "--json", path)
    assert done.returncode == 0, done
    return json.loads(done.stdout)


def newest_row(path, sector):
    """The row of a sector's newest page, by its record in version 2."""
    best = None
    with open(path, "rb") as file:
        for row in range(os.path.getsize(path) // PAGE):
            spare = file.read(PAGE)[DATA : DATA + SPARE]
            if spare[2:4] == b"\2\1" and int.from_bytes(spare[4:8], "little") == sector:
                sequence = int.from_bytes(spare[8:16], "little")
                if best is None or sequence > best[0]:
                    best = (sequence, row)
    return best[1]


@contextlib.contextmanager
def served(path, *more):
    """The disk on a socket, for clients one after another: its URI."""
    with tempfile.TemporaryDirectory() as folder:
        sock = f"{folder}/s"
        relay = subprocess.Popen(["socat", f"UNIX-LISTEN:{sock},fork", f"EXEC:{' '.join([PROGRAM, 'serve', *more, path])}"], stderr=subprocess.DEVNULL)
        while not os.path.exists(sock):
            pass
        yield f"nbd+unix:///?socket={sock}"
        relay.terminate()
        relay.wait()
        # a server goes on until it has flushed
        while b"in use" in run("info", path).stderr:
            time.sleep(0.02)


def fio(path, *words):
    """fio over the disk."""
    with served(path) as uri:
        done = subprocess.run(
            ["fio", "--name=job", "--ioengine=nbd", f"--uri={uri}", "--rw=randwrite", "--bs=4k", "--verify=crc32c", "--randseed=7",
             "--size=4M", "--offset=4M", "--iodepth=4", "--fsync=64", *words],
            # it leaves a file of its own where it runs
            capture_output=True, text=True, cwd=os.path.dirname(path))
    assert done.returncode == 0, done.stdout + done.stderr


def copy_in(image, path):
    with served(path) as uri:
        done = subprocess.run(["nbdcopy", "--connections=1", image, uri], capture_output=True)
    assert done.returncode == 0, done.stderr


def copy_out(path, to):
    with served(path, "--read-only") as uri:
        done = subprocess.run(["nbdcopy", "--connections=1", uri, to], capture_output=True)
    assert done.returncode == 0, done.stderr


def read_sector(path, sector):
    """The bytes of a sector, or None where it is EIO."""
    code = f"""
import sys, nbd
h.connect_command({[PROGRAM, "serve", "--read-only", path]!r})
try:
    sys.stdout.buffer.write(h.pread({DATA}, {sector * DATA}))
except nbd.Error as e:
    sys.stdout.buffer.write(b"EIO" if e.errno == "EIO" else str(e).encode())
"""
    done = subprocess.run(["nbdsh", "-c", code], capture_output=True)
    assert done.returncode == 0, done.stderr
    return None if done.stdout == b"EIO" else done.stdout


def read_all(path, sectors):
    """All sectors, those that are EIO as None."""
    code = f"""
import sys, nbd
h.connect_command({[PROGRAM, "serve", "--read-only", path]!r})
for sector in range({sectors}):
    try:
        sys.stdout.buffer.write(b"+" + h.pread({DATA}, sector * {DATA}))
    except nbd.Error as e:
        assert e.errno == "EIO", e
        sys.stdout.buffer.write(b"-" + bytes({DATA}))
"""
    done = subprocess.run(["nbdsh", "-c", code], capture_output=True)
    assert done.returncode == 0, done.stderr
    size = DATA + 1
    assert len(done.stdout) == size * sectors
    return [done.stdout[k * size + 1 : (k + 1) * size] if done.stdout[k * size] == 0x2B else None for k in range(sectors)], done.stderr


def write_sector(path, sector, byte):
    code = f"""
h.connect_command({[PROGRAM, "serve", path]!r})
h.pwrite(bytes([{byte}]) * {DATA}, {sector * DATA})
h.flush()
h.shutdown()
"""
    done = subprocess.run(["nbdsh", "-c", code], capture_output=True)
    assert done.returncode == 0, done.stderr


def fat(folder, name, number):
    """A FAT file system of 2 MiB with a file of its own: its image."""
    image, inner = f"{folder}/{name}", f"{folder}/{name}.txt"
    subprocess.run(["truncate", "-s", "2M", image], check=True)
    subprocess.run(["mkfs.fat", "-i", "01020304", image], check=True, capture_output=True)
    open(inner, "wb").write(random.Random(number).randbytes(300_000))
    subprocess.run(["mcopy", "-i", image, inner, "::/FILE.TXT"], check=True)
    return image


def main():
    rounds = int(sys.argv[1]) if len(sys.argv) > 1 else 5
    draw = random.Random(int(sys.argv[2]) if len(sys.argv) > 2 else 1)
    with tempfile.TemporaryDirectory() as folder:
        coded, plain = f"{folder}/coded", f"{folder}/plain"
        for path, more in ((coded, ["--code", "hamming"]), (plain, [])):
            done = run("create", "--size", "8M", *more, path)
            assert done.returncode == 0, done
        rows = os.path.getsize(plain) // (DATA + SPARE)
        assert os.path.getsize(coded) == rows * PAGE
        assert "code" not in told(plain) and told(coded)["code"] == "hamming"
        image = fat(folder, "first", 1)
        for path in (coded, plain):
            copy_in(image, path)
            fio(path)
        bits, before = 0, {}
        for number in range(rounds):
            turned = turn_all(coded, draw, before)
            bits += turned
            info = told(coded)
            assert (info["turned"], info["lost_pages"], info["lost"]) == (turned, 0, []), (turned, info)
            silent = run("serve", "--read-only", coded, stdin=subprocess.DEVNULL)
            assert silent.stderr.decode() == f"code hamming\nturned {turned}\nlost pages 0\n", silent.stderr
            fio(coded, "--verify_only=1")
            seen = f"{folder}/seen"
            copy_out(coded, seen)
            subprocess.run(["mcopy", "-n", "-o", "-i", seen, "::/FILE.TXT", f"{folder}/out"], check=True)
            assert open(f"{folder}/out", "rb").read() == open(f"{image}.txt", "rb").read()
            image = fat(folder, f"round{number}", number + 2)
            copy_in(image, coded)
            copy_in(image, plain)
            fio(coded)
            fio(plain)
            copy_out(plain, f"{folder}/beside")
            copy_out(coded, seen)
            # (fio writes the time of day into what it verifies, behind 4 MiB)
            assert open(seen, "rb").read(4 << 20) == open(f"{folder}/beside", "rb").read(4 << 20), "the two disks differ"
        whole, _ = read_all(coded, 2048)
        assert None not in whole
        for sector in draw.sample(range(1024), 8):
            row = newest_row(coded, sector) if any(whole[sector]) else None
            if row is None:
                continue
            with open(coded, "r+b") as file:
                file.seek(row * PAGE)
                page = bytearray(file.read(PAGE))
                turn(page, PLACES[draw.randrange(len(PLACES))], draw, 2)
                file.seek(row * PAGE)
                file.write(page)
            seen, told_on = read_all(coded, 2048)
            wrong = [k for k in range(2048) if seen[k] != whole[k]]
            assert wrong == [sector] and seen[sector] is None, (sector, wrong, told_on)
            assert f"lost sector {sector}\n".encode() in told_on and b"lost pages 1\n" in told_on, told_on
            write_sector(coded, sector, 0x5A)
            whole[sector] = bytes([0x5A]) * DATA
            seen, _ = read_all(coded, 2048)
            assert seen == whole
        print(f"{rounds} rounds: {bits} bits turned back, each in a chunk of its own; two in a chunk lose the sector of that page alone")


main()
