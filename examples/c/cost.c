/* What the library costs: time, reads and writes of the bus, and stack, a call; what the frames are of that, and what the page's seal. The chip is the die in C in
 * the same thread, whose cycles are copies in memory: on a real chip these take longer, and nothing else does.
 *
 *     cost [DATA SPARE PAGES BLOCKS SECTORS CACHE [CODES]] */
#define _GNU_SOURCE
#include <pthread.h>
#include <stdio.h>
#include <stdlib.h>
#include <string.h>
#include <time.h>
#include <unistd.h>

#include "answer.h"
#include "bare_port.h"
#include "die.h"
#include "ftl.h"
#include "heap.h"

static struct ftl_shape shape = {2048, 64, 64, 256, 8000, 4096, 0};
static struct die die;
static struct cycles cycles;
static ftl_disk *disk;
static uint8_t data[4096];
static uint32_t seed = 1;
enum { MANY = 2000 };

static double now(void)
{
    struct timespec t;

    clock_gettime(CLOCK_PROCESS_CPUTIME_ID, &t);
    return (double)t.tv_sec + 1e-9 * (double)t.tv_nsec;
}

static uint32_t any(uint32_t below)
{
    seed = seed * 1103515245u + 12345u;
    return (seed >> 8) % below;
}

/* The page operations of the longest call of a step: a page read is two data out of a page. */
static struct work {
    unsigned long reads, programs, erases;
} longest, begun;

static void begin(void)
{
    begun.reads = die.reads;
    begun.programs = die.programs;
    begun.erases = die.erases;
}

static void end(void)
{
    struct work it = {(die.reads - begun.reads) / 2, die.programs - begun.programs, die.erases - begun.erases};

    if (it.reads + 10 * it.programs + 100 * it.erases > longest.reads + 10 * longest.programs + 100 * longest.erases)
        longest = it;
}

static void format(void) { WANT(FTL_DONE, ftl_format(disk)); }
static void start(void) { WANT(FTL_DONE, ftl_start(disk)); }
static void stop(void) { WANT(FTL_DONE, ftl_stop(disk)); }
static void flush(void) { WANT(FTL_DONE, ftl_flush(disk)); }

static void writes(void)
{
    for (int i = 0; i < MANY; i++) {
        memset(data, i, sizeof data);
        begin();
        WANT(FTL_DONE, ftl_write(disk, any(shape.sectors), data, shape.data_bytes));
        end();
    }
}

static void writes_with_turns(void)
{
    for (int i = 0; i < MANY; i++) {
        begin();
        WANT(FTL_DONE, ftl_write(disk, any(shape.sectors), data, shape.data_bytes));
        end();
        WANT(FTL_DONE, ftl_turn(disk));
    }
}

static void reads(void)
{
    for (int i = 0; i < MANY; i++)
        WANT(FTL_DONE, ftl_read(disk, any(shape.sectors), data, shape.data_bytes));
}

static void turns(void)
{
    for (int i = 0; i < MANY; i++) {
        begin();
        WANT(FTL_DONE, ftl_turn(disk));
        end();
    }
}

/* A step on a stack that was painted: how deep it went. */
static char stack[1 << 20] __attribute__((aligned(4096)));
static size_t empty_stack; /* what a thread takes with no step */

static void *run(void *step)
{
    (*(void (**)(void))step)();
    return NULL;
}

static void nothing(void)
{
}

static size_t depth_of(void (*step)(void))
{
    pthread_attr_t attr;
    pthread_t thread;
    size_t clean = 0;

    memset(stack, 0x5A, sizeof stack);
    pthread_attr_init(&attr);
    pthread_attr_setstack(&attr, stack, sizeof stack);
    if (pthread_create(&thread, &attr, run, &step))
        exit(2);
    pthread_join(thread, NULL);
    while (clean < sizeof stack && stack[clean] == 0x5A)
        clean++;
    return sizeof stack - clean - empty_stack;
}

static double measure(const char *name, void (*step)(void), int of)
{
    unsigned long calls = port_calls, programs = die.programs, erases = die.erases, pages = die.reads;
    double started = now(), took;
    size_t depth;

    memset(&longest, 0, sizeof longest);
    depth = depth_of(step);
    took = (now() - started) * 1e6 / of;
    printf("%-22s %11.1f us %9.1f reads and writes, %7.2f page reads %6.2f programs %5.2f erases, stack %5zu\n", name, took,
           (double)(port_calls - calls) / of, (double)(die.reads - pages) / 2 / of, (double)(die.programs - programs) / of,
           (double)(die.erases - erases) / of, depth);
    if (longest.programs + longest.erases)
        printf("    the longest: %lu page reads, %lu programs, %lu erases\n", longest.reads, longest.programs, longest.erases);
    return took;
}

/* One cycle as a frame, the way the library sends it. */
static void framed(char kind, uint8_t value, uint8_t *bytes, size_t count)
{
    uint8_t head[FRAME_HEAD] = {(uint8_t)kind, value, (uint8_t)count, (uint8_t)(count >> 8)}, status;

    if (write(PORT, head, sizeof head) < 0 || (kind == 'I' && write(PORT, bytes, count) < 0) || read(PORT, &status, 1) < 0)
        exit(1);
    if (kind == 'O' && read(PORT, bytes, count) < 0)
        exit(1);
}

static void cycle(int is_framed, char kind, uint8_t value, uint8_t *bytes, size_t count)
{
    if (is_framed)
        framed(kind, value, bytes, count);
    else if (kind == 'C')
        die_command(&die, value);
    else if (kind == 'A')
        die_address(&die, value);
    else if (kind == 'I')
        die_data_in(&die, bytes, count);
    else
        die_data_out(&die, bytes, count);
}

/* The cycles of a page read or of a page program, without the library, many times: ns each. */
static double page_cycles(int is_framed, int is_program)
{
    double started = now();

    cycle(is_framed, 'C', 0xFF, NULL, 0);
    for (int i = 0; i < 20000; i++) {
        cycle(is_framed, 'C', is_program ? 0x80 : 0x00, NULL, 0);
        for (int j = 0; j < 5; j++)
            cycle(is_framed, 'A', 0, NULL, 0);
        if (!is_program)
            cycle(is_framed, 'C', 0x30, NULL, 0);
        cycle(is_framed, is_program ? 'I' : 'O', 0, data, shape.data_bytes);
        cycle(is_framed, is_program ? 'I' : 'O', 0, data, shape.spare_bytes);
        if (is_program) {
            cycle(is_framed, 'C', 0x10, NULL, 0);
            cycle(is_framed, 'C', 0x70, NULL, 0);
            cycle(is_framed, 'O', 0, data, 1);
        }
    }
    return (now() - started) / 20000 * 1e9;
}

/* SHA-256 (FIPS 180-4) in plain C, to hold the library's time against. */
static const uint32_t k[64] = {
    0x428a2f98, 0x71374491, 0xb5c0fbcf, 0xe9b5dba5, 0x3956c25b, 0x59f111f1, 0x923f82a4, 0xab1c5ed5, 0xd807aa98, 0x12835b01, 0x243185be, 0x550c7dc3, 0x72be5d74,
    0x80deb1fe, 0x9bdc06a7, 0xc19bf174, 0xe49b69c1, 0xefbe4786, 0x0fc19dc6, 0x240ca1cc, 0x2de92c6f, 0x4a7484aa, 0x5cb0a9dc, 0x76f988da, 0x983e5152, 0xa831c66d,
    0xb00327c8, 0xbf597fc7, 0xc6e00bf3, 0xd5a79147, 0x06ca6351, 0x14292967, 0x27b70a85, 0x2e1b2138, 0x4d2c6dfc, 0x53380d13, 0x650a7354, 0x766a0abb, 0x81c2c92e,
    0x92722c85, 0xa2bfe8a1, 0xa81a664b, 0xc24b8b70, 0xc76c51a3, 0xd192e819, 0xd6990624, 0xf40e3585, 0x106aa070, 0x19a4c116, 0x1e376c08, 0x2748774c, 0x34b0bcb5,
    0x391c0cb3, 0x4ed8aa4a, 0x5b9cca4f, 0x682e6ff3, 0x748f82ee, 0x78a5636f, 0x84c87814, 0x8cc70208, 0x90befffa, 0xa4506ceb, 0xbef9a3f7, 0xc67178f2};

static uint32_t rotated(uint32_t x, int by)
{
    return x >> by | x << (32 - by);
}

static void sha_block(uint32_t h[8], const uint8_t *block)
{
    uint32_t w[64], s[8];

    for (int i = 0; i < 16; i++)
        w[i] = (uint32_t)block[4 * i] << 24 | (uint32_t)block[4 * i + 1] << 16 | (uint32_t)block[4 * i + 2] << 8 | block[4 * i + 3];
    for (int i = 16; i < 64; i++)
        w[i] = w[i - 16] + w[i - 7] + (rotated(w[i - 15], 7) ^ rotated(w[i - 15], 18) ^ w[i - 15] >> 3) +
               (rotated(w[i - 2], 17) ^ rotated(w[i - 2], 19) ^ w[i - 2] >> 10);
    memcpy(s, h, sizeof s);
    for (int i = 0; i < 64; i++) {
        uint32_t t = s[7] + (rotated(s[4], 6) ^ rotated(s[4], 11) ^ rotated(s[4], 25)) + ((s[4] & s[5]) ^ (~s[4] & s[6])) + k[i] + w[i];
        uint32_t u = (rotated(s[0], 2) ^ rotated(s[0], 13) ^ rotated(s[0], 22)) + ((s[0] & s[1]) ^ (s[0] & s[2]) ^ (s[1] & s[2]));
        memmove(s + 1, s, 7 * sizeof *s);
        s[4] += t;
        s[0] = t + u;
    }
    for (int i = 0; i < 8; i++)
        h[i] += s[i];
}

/* us for the seal of a page, over its data and 24 bytes of its spare area. */
static double seal(void)
{
    uint32_t h[8] = {0x6a09e667, 0xbb67ae85, 0x3c6ef372, 0xa54ff53a, 0x510e527f, 0x9b05688c, 0x1f83d9ab, 0x5be0cd19};
    uint32_t blocks = (shape.data_bytes + 24 + 9 + 63) / 64;
    double started = now();

    for (int i = 0; i < MANY; i++)
        for (uint32_t j = 0; j < blocks; j++)
            sha_block(h, data + j * 64 % (sizeof data));
    data[0] = (uint8_t)h[0];
    return (now() - started) / MANY * 1e6;
}

static void frames_cost(double write_us, double write_reads, double write_programs, double sealed)
{
    double read_framed = page_cycles(1, 0), read_direct = page_cycles(0, 0), program_framed = page_cycles(1, 1), program_direct = page_cycles(0, 1);
    double frames = ((read_framed - read_direct) * write_reads + (program_framed - program_direct) * write_programs) / 1e3;

    printf("a page's cycles: read %.0f ns as frames, %.0f direct; program %.0f ns as frames, %.0f direct\n", read_framed, read_direct, program_framed, program_direct);
    printf("SHA-256 of a page, in plain C: %.1f us\n", sealed);
    printf("of a write with collection frames are %.2f us of %.1f us: %.1f %%\n", frames, write_us, 100 * frames / write_us);
}

static void numbers(int count, char **words)
{
    uint32_t *number = &shape.data_bytes;

    for (int i = 0; i < count; i++)
        number[i] = (uint32_t)strtoul(words[i], NULL, 0);
}

int main(int count, char **words)
{
    struct ftl_sizes sizes = {0};
    unsigned long reads_before, programs_before;
    double write_us;

    if (count == 7 || count == 8)
        numbers(count - 1, words + 1);
    WANT(FTL_DONE, ftl_measure(&shape, &sizes));
    printf("%u+%u, %u pages, %u blocks, %u sectors, cache %u: at most %u bytes of memory in %u pieces\n", shape.data_bytes, shape.spare_bytes,
           shape.pages, shape.blocks, shape.sectors, shape.cache, sizes.memory_bytes, sizes.memory_blocks);
    if (die_make(&die, shape.data_bytes, sizes.chip_spare_bytes, shape.pages, shape.blocks))
        return 2;
    cycles = cycles_of_die(&die);
    port_to(&cycles);
    WANT(FTL_DONE, ftl_open(&shape, PORT, PORT, &disk));
    empty_stack = depth_of(nothing);
    measure("format", format, 1);
    measure("start, fresh", start, 1);
    measure("write, none collected", writes, MANY);
    for (uint32_t i = 0; i < 2 * shape.blocks * shape.pages / MANY; i++)
        writes(); /* until blocks are collected */
    reads_before = die.reads;
    programs_before = die.programs;
    write_us = measure("write, with collection", writes, MANY);
    reads_before = die.reads - reads_before;
    programs_before = die.programs - programs_before;
    measure("write, and a turn", writes_with_turns, MANY);
    for (uint32_t i = 0; i < shape.blocks * shape.pages / MANY; i++)
        writes_with_turns();
    measure("the same, later", writes_with_turns, MANY);
    measure("read", reads, MANY);
    measure("turn", turns, MANY);
    measure("flush", flush, 1);
    measure("stop", stop, 1);
    measure("start, in use", start, 1);
    measure("stop", stop, 1);
    printf("memory taken at most: %zu bytes in %zu pieces\n", heap_most, heap_pieces_most);
    ftl_close(disk);
    frames_cost(write_us, (double)reads_before / 2 / MANY, (double)programs_before / MANY, seal());
    die_free(&die);
    return heap_live != 0;
}
