/* Fuzzing of the exports: bytes choose shapes, calls, arguments and what the link answers. Each call answers a number of ftl.h; a read that is done over a
 * link that told the truth is as the plain list has it; all memory comes back.
 *
 *     clang -fsanitize=fuzzer,address,undefined -DFUZZER ..   libFuzzer's own loop
 *     fuzz SECONDS SEED                                       else a loop of this file's, over bytes from a seed */
#include <stdio.h>
#include <stdlib.h>
#include <string.h>
#include <time.h>

#include "world.h"

enum { DISKS = 2, FRAMES_MOST = 4000, CALLS_MOST = 60 };

struct one {
    ftl_disk *disk;
    struct ftl_shape shape;
};

static const uint8_t *input;
static size_t input_left;
static struct die die;
static struct list list;
static struct one disks[DISKS];
static int is_true; /* the link has told nothing but the truth, to one disk alone */
static unsigned long calls, answers[256], true_reads;

static uint32_t next_byte(void)
{
    if (input_left == 0)
        return 0;
    input_left--;
    return *input++;
}

static uint32_t next_word(void)
{
    uint32_t low = next_byte();

    return low | next_byte() << 8 | next_byte() << 16 | next_byte() << 24;
}

static uint32_t known(uint32_t answer)
{
    THAT(answer < 256 && strncmp(answer_name(answer), "FTL_", 4) == 0);
    answers[answer]++;
    calls++;
    return answer;
}

/* Mostly a small shape that is one, and else any. */
static struct ftl_shape next_shape(void)
{
    static const struct ftl_shape small[] = {
        {64, 40, 4, 16, 8, 3, 0}, {64, 32, 8, 32, 32, 8, 1}, {128, 64, 8, 24, 60, 2, 1}, {64, 256, 4, 12, 1, 1, 0}};
    struct ftl_shape shape = small[next_byte() % 4];
    uint32_t *number = &shape.data_bytes;

    if (next_byte() < 40)
        number[next_byte() % 7] = next_byte() < 128 ? next_byte() : next_word();
    return shape;
}

static int is_small(const struct ftl_shape *shape)
{
    return shape->data_bytes <= 128 && shape->blocks <= 32 && shape->pages <= 8 && shape->sectors <= SECTORS_MOST;
}

static void begin_frames(void)
{
    port_fresh(&die);
    port.most = FRAMES_MOST;
}

static void open_one(struct one *one)
{
    struct ftl_sizes sizes = {0};
    ftl_disk *disk = NULL;
    struct ftl_shape shape = next_shape();

    known(ftl_measure(&shape, &sizes));
    if (one->disk)
        return;
    if (known(ftl_open(next_byte() ? &shape : NULL, PORT, PORT, next_byte() ? &disk : NULL)) != FTL_DONE)
        return;
    one->disk = disk;
    one->shape = shape;
    is_true = 0;
    if (!die.array && is_small(&shape)) {
        if (die_make(&die, shape.data_bytes, sizes.chip_spare_bytes, shape.pages, shape.blocks))
            exit(2);
        die.noisy = shape.codes == 1;
        list_begin(&list, &shape);
        is_true = 1;
    }
    begin_frames();
}

static void go_wrong(void)
{
    uint32_t what = next_byte(), at = 1 + next_byte() * (1 + next_byte() % 8);

    if (what % 4 == 0 && die.array) {
        die.fail_in = at;
        return;
    }
    is_true = 0;
    if (what % 4 == 1 && die.array) {
        die.cut_in = at;
        die.cut = (enum die_cut)(what / 4 % 3);
    } else if (what % 4 == 2 && die.array) {
        die.flip_in = at;
    } else {
        port_wrong((enum wrong)(what / 4 % WRONG_LAST), at, (uint8_t)next_byte());
    }
}

/* The certificate of a disk, changed in places, in memory of just so many bytes. */
static void by_certificate(struct one *one)
{
    struct ftl_sizes sizes = {0};
    uint32_t size, asked, answer;
    uint8_t *bytes;

    if (known(ftl_get_sizes(one->disk, &sizes)) != FTL_DONE)
        return;
    size = sizes.certificate_bytes;
    asked = next_byte() < 200 ? size : next_byte() * 16;
    if (asked > 1u << 16 || !(bytes = malloc(asked + !asked)))
        return;
    memset(bytes, 0x5A, asked);
    answer = known(ftl_certify(one->disk, bytes, asked));
    for (uint32_t n = next_byte() % 4; n && asked; n--)
        bytes[next_word() % asked] ^= (uint8_t)next_byte();
    if (answer == FTL_DONE || next_byte() < 30)
        known(ftl_start_certified(one->disk, bytes, asked));
    free(bytes);
}

static uint8_t *exactly(uint32_t bytes)
{
    uint8_t *data = malloc(bytes + !bytes);

    if (!data)
        exit(2);
    memset(data, (int)next_byte(), bytes);
    return data;
}

static void read_one(struct one *one)
{
    uint32_t sector = next_byte() < 230 ? next_byte() % 64 : next_word();
    uint32_t size = next_byte() < 230 && one->disk ? one->shape.data_bytes : next_byte();
    uint8_t *data = exactly(size);
    uint32_t answer = known(ftl_read(one->disk, sector, next_byte() < 250 ? data : NULL, size));

    if (answer == FTL_DONE && is_true) {
        list_fill(&list, sector, list.version[sector]);
        THAT(memcmp(data, list.data, list.bytes) == 0);
        true_reads++;
    }
    free(data);
}

static void write_one(struct one *one)
{
    uint32_t sector = next_byte() < 230 ? next_byte() % 64 : next_word(), answer;

    if (is_true && one->disk && sector < one->shape.sectors && next_byte() < 230) {
        answer = known(next_byte() % 5 ? list_write(&list, one->disk, sector) : list_trim(&list, one->disk, sector));
        is_true = answer != FTL_DAMAGED && answer != FTL_BUS_FAULT; /* old or new: nobody knows */
    } else {
        uint32_t size = next_byte() < 230 && one->disk ? one->shape.data_bytes : next_byte();
        uint8_t *data = exactly(size);
        answer = known(ftl_write(one->disk, sector, data, size));
        is_true &= answer != FTL_DONE && answer != FTL_DAMAGED && answer != FTL_BUS_FAULT;
        free(data);
    }
}

static void one_call(void)
{
    struct one *one = &disks[next_byte() < 250 ? 0 : next_byte() % DISKS];
    struct ftl_state state = {0};
    struct ftl_shortage shortage = {0};
    struct ftl_errors errors;
    struct ftl_view view;

    is_true &= one == &disks[0];
    heap_refuse_at = next_byte() < 12 ? 1 + next_byte() % 8 : 0;
    switch (next_byte() % 18) {
    case 0: open_one(one); break;
    case 1: known(ftl_format(one->disk)); begin_frames(); break;
    case 2: case 3: known(ftl_start(one->disk)); break;
    case 4: by_certificate(one); break;
    case 5: case 6: case 17: read_one(one); break;
    case 7: case 8: case 9: case 16: write_one(one); break;
    case 10: known(next_byte() % 2 ? ftl_turn(one->disk) : ftl_flush(one->disk)); break;
    case 11: known(ftl_get_state(one->disk, &state)); known(ftl_get_shortage(one->disk, &shortage)); known(ftl_get_errors(one->disk, &errors)); known(ftl_look(one->disk, &view)); break;
    case 12: known(ftl_stop(one->disk)); break;
    case 13: if (next_byte() < 128) go_wrong(); break;
    case 14: if (next_byte() < 64) { begin_frames(); if (die.array) die_power(&die); } break;
    default: if (next_byte() < 60) { ftl_close(one->disk); one->disk = NULL; } break;
    }
    heap_refuse_at = 0;
}

int LLVMFuzzerTestOneInput(const uint8_t *bytes, size_t count);
int LLVMFuzzerTestOneInput(const uint8_t *bytes, size_t count)
{
    input = bytes;
    input_left = count;
    is_true = 0;
    memset(disks, 0, sizeof disks);
    begin_frames();
    open_one(&disks[0]);
    if (disks[0].disk && next_byte() < 200) {
        known(ftl_format(disks[0].disk));
        known(ftl_start(disks[0].disk));
    }
    for (int i = 0; i < CALLS_MOST && input_left; i++)
        one_call();
    for (int i = 0; i < DISKS; i++)
        ftl_close(disks[i].disk);
    if (die.array)
        die_free(&die);
    THAT(heap_live == 0);
    return 0;
}

#ifndef FUZZER
int main(int count, char **words)
{
    double seconds = count > 1 ? atof(words[1]) : 60;
    clock_t start = clock();
    unsigned long inputs = 0;
    static uint8_t bytes[512];

    seed = count > 2 ? (uint32_t)strtoul(words[2], NULL, 0) : 1;
    for (; (double)(clock() - start) < seconds * CLOCKS_PER_SEC; inputs++) {
        size_t size = any(sizeof bytes);
        for (size_t i = 0; i < size; i++)
            bytes[i] = (uint8_t)any(256);
        LLVMFuzzerTestOneInput(bytes, size);
    }
    printf("%lu lives, %lu calls, %lu reads beside the list. Answers:", inputs, calls, true_reads);
    for (uint32_t i = 0; i < 256; i++)
        if (answers[i])
            printf(" %s %lu", answer_name(i), answers[i]);
    puts("");
    return 0;
}
#endif
