#!/usr/bin/env python3
"""How many bytes of memory a device takes, by its die and its cache.

    bench/device_memory.py            a table, computed
    bench/device_memory.py --check    the same, and what of it is measured: a program takes the memory of the blocks and of a full
                                      cache, and each byte that it asks of the C library is counted

A device at work: for each block 16 bytes; for each translation page and table page 4, and 1 more for each translation page; two
pages; for each page of a block 8; the cache, which asks at once for a hash table of 17 bytes a place, at most seven of eight places
to be taken, and then for a node of 32 bytes with each entry.

At a start there come: the certificate, 12 bytes a block and 4 a sector, translation page and table page; and `check` beside it, at
most 16 bytes a page and 13 a sector, translation page and table page, with counters for each block. All of that is given back."""

import os
import re
import subprocess
import sys
import tempfile
from pathlib import Path

from sectors import USUAL, most, up

TOP = Path(__file__).resolve().parent.parent
NAME = "bench_device_memory"
USES = "page_layout certificate mapping_cache allocation anyhow"
CACHES = [256, 4096, 65536]
# what `malloc` keeps beside each block that it gives out, at most
BESIDE = 16

COUNTER = r"""
#define _GNU_SOURCE
#include <dlfcn.h>
#include <errno.h>
#include <malloc.h>
#include <stdio.h>
#include <unistd.h>

static long live;

void *__libc_malloc(size_t);
void *__libc_calloc(size_t, size_t);
void *__libc_realloc(void *, size_t);
void *__libc_memalign(size_t, size_t);
void __libc_free(void *);

static void *took(void *at) { if (at) live += malloc_usable_size(at); return at; }
static void gives(void *at) { if (at) live -= malloc_usable_size(at); }

void *malloc(size_t n) { return took(__libc_malloc(n)); }
void *calloc(size_t n, size_t m) { return took(__libc_calloc(n, m)); }
void *memalign(size_t to, size_t n) { return took(__libc_memalign(to, n)); }
void *aligned_alloc(size_t to, size_t n) { return took(__libc_memalign(to, n)); }
int posix_memalign(void **at, size_t to, size_t n) { *at = took(__libc_memalign(to, n)); return *at ? 0 : ENOMEM; }
void free(void *at) { gives(at); __libc_free(at); }
void *realloc(void *at, size_t n) { gives(at); void *new = __libc_realloc(at, n); return took(new ? new : at) ? new : new; }

ssize_t write(int to, const void *from, size_t n) {
    static ssize_t (*real)(int, const void *, size_t);
    if (!real) real = dlsym(RTLD_NEXT, "write");
    char line[32];
    long now = live;
    if (to == 1) real(1, line, snprintf(line, sizeof line, "%ld ", now));
    return real(to, from, n);
}
"""


def places(capacity):
    """The places of a hash table of so many entries."""
    wanted = 4
    while wanted * 7 // 8 < capacity if wanted > 8 else wanted - 1 < capacity:
        wanted *= 2
    return wanted


def keys(data, blocks, sectors):
    entries = data // 4
    return up(sectors, entries), up(blocks, entries)


def blocks_of(blocks):
    return 16 * blocks


def mapping_of(pages, sectors, capacity):
    return 8 * pages + 32 * min(capacity, sectors) + 17 * places(capacity)


def at_work(data, spare, pages, blocks, sectors, capacity):
    translation, table = keys(data, blocks, sectors)
    rest = 5 * translation + 4 * table + 2 * (data + spare)
    return blocks_of(blocks) + mapping_of(pages, sectors, capacity) + rest


def at_start(data, spare, pages, blocks, sectors):
    total = sectors + sum(keys(data, blocks, sectors))
    return 12 * blocks + 4 * total + 16 * pages * blocks + 13 * total


def kib(count):
    return f"{up(count, 1024):,} KiB"


def rows():
    for die in USUAL:
        data, spare, pages, blocks = die
        yield data, spare, pages, blocks, most(data, pages, blocks, blocks)


def show():
    print("| Page | Pages a block | Blocks | Sectors | Cache 256 | Cache 4,096 | Cache 65,536 | More at a start |")
    print("|---|---|---|---|---|---|---|---|")
    for data, spare, pages, blocks, sectors in rows():
        takes = " | ".join(kib(at_work(data, spare, pages, blocks, sectors, capacity)) for capacity in CACHES)
        start = kib(at_start(data, spare, pages, blocks, sectors))
        print(f"| {data}+{spare} | {pages} | {blocks:,} | {sectors:,} | {takes} | {start} |")


def counted(dies):
    """What a program takes for each die: the bytes of its blocks and those of its mapping, as `malloc` counts them."""
    with tempfile.TemporaryDirectory() as folder:
        folder = Path(folder)
        crate = folder / "crates" / NAME
        subprocess.run(["cp", "-r", TOP / "crates", folder], check=True)
        (folder / "crates.txt").write_text(f"{(TOP / 'crates.txt').read_text()}{NAME}: {USES}\n")
        for it in ("src", "specs"):
            (crate / it).mkdir(parents=True)
        table = ", ".join(str(die) for die in dies)
        program = (TOP / "bench" / "device_memory_program.txt").read_text()
        program = program.replace("32); 0] = [];", f"32); {len(dies)}] = [{table}];")
        (crate / "src" / "main.rt").write_text(program)
        (crate / "specs" / "Lib.antt").write_text("")
        subprocess.run(["git", "init", "-q", folder], check=True)
        subprocess.run(["rt", "fmt"], cwd=crate, check=True, stdout=subprocess.DEVNULL)
        subprocess.run(["rt", "run"], cwd=crate, check=True, stdout=subprocess.DEVNULL)
        (folder / "counter.c").write_text(COUNTER)
        subprocess.run(["cc", "-O1", "-fPIC", "-shared", "-o", folder / "counter.so", folder / "counter.c", "-ldl"], check=True)
        ran = subprocess.run([crate / "out" / NAME], check=True, capture_output=True, text=True,
                             env={**os.environ, "LD_PRELOAD": str(folder / "counter.so")})
    told = [int(count) for count in re.findall(r"(\d+) (?:begin|blocks|mapping)", ran.stdout)]
    return [(b - a, c - b) for a, b, c in zip(told[0::3], told[1::3], told[2::3])]


def check():
    dies = [(*die, capacity) for die in rows() for capacity in CACHES]
    wrong = 0
    for die, (blocks, mapping) in zip(dies, counted(dies)):
        of_blocks, of_mapping = blocks_of(die[3]), mapping_of(die[2], die[4], die[5])
        blocks_more, mapping_more = blocks - of_blocks, mapping - of_mapping
        is_so = 0 <= blocks_more <= 4 * BESIDE and 0 <= mapping_more <= BESIDE * (die[5] + 8)
        wrong += not is_so
        print(f"{die}: blocks {blocks} of {of_blocks}, mapping {mapping} of {of_mapping}{'' if is_so else ': WRONG'}")
    print(f"{len(dies)} dies, {wrong} take other than was computed")
    return wrong == 0 and len(dies) > 0


def main():
    show()
    if sys.argv[1:] == ["--check"]:
        sys.exit(not check())
    if sys.argv[1:]:
        sys.exit(__doc__)


if __name__ == "__main__":
    main()
