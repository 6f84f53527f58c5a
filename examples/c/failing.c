/* Example 3. The die of example 1 with blocks that fail one after another, and with bytes that come out wrong: what a caller sees of it. Then a chip of which each read has
 * wrong bits, whose pages stand there with codes. */
#include <stdio.h>
#include <stdlib.h>
#include <string.h>

#include "answer.h"
#include "bare_port.h"
#include "die.h"
#include "ftl.h"
#include "heap.h"

enum { SECTORS = 300, BYTES = 512, FAILURES = 8 };

static const struct ftl_shape shape = {
    .data_bytes = BYTES, .spare_bytes = 64, .pages = 16, .blocks = 64, .sectors = SECTORS, .cache = 32};

/* The same chip: of its 64 spare bytes the codes take 9. */
static const struct ftl_shape coded = {
    .data_bytes = BYTES, .spare_bytes = 55, .pages = 16, .blocks = 64, .sectors = SECTORS, .cache = 32, .codes = 1};

static unsigned char memory[128 * 1024];
static struct die die;
static struct cycles cycles;
static ftl_disk *disk;
static uint8_t data[BYTES], seen[BYTES], version[SECTORS];
static uint32_t seed = 3;

static uint32_t any(uint32_t below)
{
    seed = seed * 1103515245u + 12345u;
    return (seed >> 8) % below;
}

/* A sector has bytes that tell which it is, and how often it was written. */
static void fill(uint32_t sector)
{
    memset(data, version[sector] ? (int)(sector + version[sector]) : 0, BYTES);
}

static uint32_t write_one(uint32_t sector)
{
    uint32_t answer;

    version[sector]++;
    fill(sector);
    answer = ftl_write(disk, sector, data, BYTES);
    version[sector] = (uint8_t)(version[sector] - (answer != FTL_DONE));
    return answer;
}

static void look_at_all(void)
{
    for (uint32_t sector = 0; sector < SECTORS; sector++) {
        WANT(FTL_DONE, ftl_read(disk, sector, seen, BYTES));
        fill(sector);
        THAT(memcmp(seen, data, BYTES) == 0);
    }
}

static struct ftl_state state_now(void)
{
    struct ftl_state state = {0};

    WANT(FTL_DONE, ftl_get_state(disk, &state));
    return state;
}

/* Some blocks fail. Each call is done all the same; turns move the pages out of the failed blocks. */
static void some_blocks_fail(void)
{
    for (int i = 0; i < 3000; i++) {
        if (i % (3000 / FAILURES) == 100)
            die.fail_in = 1 + (long)any(20);
        WANT(FTL_DONE, write_one(any(SECTORS)));
        if (i % 2)
            WANT(FTL_DONE, ftl_turn(disk));
    }
    look_at_all();
    printf("%u blocks failed in 3000 writes, each of which was done; every sector is as it was written\n",
           state_now().bad_blocks - 1);
    THAT(state_now().bad_blocks == 1 + FAILURES);
}

/* A byte comes out wrong: a read says so and shows nothing. Another read of the same page is right. */
static void wrong_bytes(void)
{
    unsigned damaged = 0;

    for (int i = 0; i < 500; i++) {
        uint32_t sector = any(SECTORS), answer;
        die.flip_in = 1 + (long)any(4);
        memset(seen, 0xA5, BYTES);
        answer = ftl_read(disk, sector, seen, BYTES);
        fill(sector);
        if (answer == FTL_DAMAGED) {
            THAT(seen[0] == 0xA5 && memcmp(seen, seen + 1, BYTES - 1) == 0); /* as it was before the call */
            damaged++;
        } else {
            WANT(FTL_DONE, answer);
            THAT(memcmp(seen, data, BYTES) == 0);
        }
    }
    die.flip_in = 0;
    look_at_all();
    THAT(damaged > 0);
    printf("500 reads with a bit that may turn: %u answered FTL_DAMAGED, the others were right\n", damaged);
}

/* In a write a wrong byte stops the device: it would have to build on what it read. A start is the way back, and no sector is lost. */
static void wrong_byte_in_a_write(void)
{
    uint32_t answer = FTL_DONE, sector = 0;

    while (answer == FTL_DONE) {
        die.flip_in = 1;
        sector = any(SECTORS);
        answer = write_one(sector);
    }
    WANT(FTL_DAMAGED, answer);
    WANT(FTL_DAMAGED, ftl_flush(disk));
    THAT(state_now().stopped == FTL_DAMAGED);
    die.flip_in = 0;
    WANT(FTL_DONE, ftl_stop(disk));
    WANT(FTL_DONE, ftl_start(disk));
    look_at_all();
    puts("a wrong byte in a write stopped the device; after a start every sector is as it was answered for");
}

/* Blocks fail until too few are left: changes are refused, and why is told; reads go on, after a start too. */
static void too_few_are_left(void)
{
    struct ftl_shortage shortage = {0};
    uint32_t answer = FTL_DONE;

    WANT(FTL_DONE, ftl_read(disk, 0, seen, BYTES));
    WANT(FTL_NO_SHORTAGE, ftl_get_shortage(disk, &shortage));
    while (answer == FTL_DONE) {
        die.fail_in = 40;
        for (int i = 0; i < 40 && answer == FTL_DONE; i++)
            answer = i % 4 ? write_one(any(SECTORS)) : ftl_turn(disk);
    }
    die.fail_in = 0;
    WANT(FTL_READ_ONLY, answer);
    WANT(FTL_DONE, ftl_get_shortage(disk, &shortage));
    printf("read-only with %u good blocks; the shape needs %u; %u failed in the call\n", shortage.good, shortage.need, shortage.failed);
    THAT(shortage.good < shortage.need || shortage.failed > 2);
    WANT(FTL_READ_ONLY, ftl_trim(disk, 0));
    look_at_all();
    WANT(FTL_DONE, ftl_stop(disk));
    WANT(FTL_DONE, ftl_start(disk));
    look_at_all();
    puts("every sector reads as it was answered for, before a restart and after it");
}

static struct ftl_errors errors_now(void)
{
    struct ftl_errors errors = {0};

    WANT(FTL_DONE, ftl_get_errors(disk, &errors));
    THAT(errors.most_turned <= errors.turned && errors.most_lost <= errors.lost);
    THAT(errors.most_turned_block < coded.blocks && errors.most_lost_block < coded.blocks);
    return errors;
}

/* A chip with the power on, behind the port, and a disk over it. */
static void chip_and_disk(const struct ftl_shape *of)
{
    struct ftl_sizes sizes = {0};

    WANT(FTL_DONE, ftl_measure(of, &sizes));
    THAT(sizes.chip_spare_bytes == 64);
    if (die_make(&die, of->data_bytes, sizes.chip_spare_bytes, of->pages, of->blocks))
        exit(2);
    die_mark(&die, 7);
    cycles = cycles_of_die(&die);
    port_to(&cycles);
    memset(version, 0, sizeof version);
    WANT(FTL_DONE, ftl_open(of, PORT, PORT, &disk));
}

/* Every read has wrong bits, and blocks fail: each call is done, and the bits are counted, by block. */
static void bits_are_turned_back(void)
{
    struct ftl_errors errors = {0}, later;

    die.noisy = 1;
    WANT(FTL_NOT_STARTED, ftl_get_errors(disk, &errors));
    WANT(FTL_DONE, ftl_format(disk));
    WANT(FTL_DONE, ftl_start(disk));
    errors = errors_now();
    /* the start looked at each page: one bit in each of two chunks of its data, and one beside them */
    THAT(errors.turned >= 3ull * coded.pages * coded.blocks - 3 && errors.lost <= 1);
    for (int i = 0; i < 2000; i++) {
        if (i % 500 == 100)
            die.fail_in = 1 + (long)any(20);
        WANT(FTL_DONE, write_one(any(SECTORS)));
        if (i % 2)
            WANT(FTL_DONE, ftl_turn(disk));
    }
    look_at_all();
    later = errors_now();
    THAT(later.turned > errors.turned && later.most_turned > 0);
    printf("%llu wrong bits were turned back in 2000 writes; block %u had the most, %llu; %u blocks failed\n",
           (unsigned long long)later.turned, later.most_turned_block, (unsigned long long)later.most_turned, state_now().bad_blocks - 1);
    THAT(state_now().bad_blocks == 1 + 4);
}

/* A page with two wrong bits in a chunk is lost for that read: it is said and counted, and no wrong byte is shown. */
static void a_page_is_lost(void)
{
    struct ftl_errors before = errors_now();
    unsigned damaged = 0;

    for (int i = 0; i < 300; i++) {
        uint32_t sector = any(SECTORS), answer;
        die.twice_in = 1 + (long)any(4);
        answer = ftl_read(disk, sector, seen, BYTES);
        fill(sector);
        damaged += answer == FTL_DAMAGED;
        if (answer == FTL_DONE)
            THAT(memcmp(seen, data, BYTES) == 0);
        else
            WANT(FTL_DAMAGED, answer);
    }
    die.twice_in = 0;
    THAT(damaged > 0 && errors_now().lost >= before.lost + damaged);
    look_at_all();
    printf("300 reads with a page that may be lost: %u answered FTL_DAMAGED, %llu pages lost in all\n", damaged, (unsigned long long)errors_now().lost);
}

/* The power goes in the middle of a program, and comes back. */
static void power_over_wrong_bits(void)
{
    struct ftl_view view;
    uint32_t answer = FTL_DONE, sector = 0;

    die.cut_in = 40;
    die.cut = CUT_TORN;
    while (answer == FTL_DONE)
        answer = write_one(sector = any(SECTORS));
    WANT(FTL_BUS_FAULT, answer);
    WANT(FTL_DONE, ftl_stop(disk));
    WANT(FTL_DONE, ftl_look(disk, &view));
    THAT(view.is_started == 0 && view.errors.turned == 0 && view.shape.codes == 1);
    die_power(&die);
    WANT(FTL_DONE, ftl_start(disk));
    look_at_all();
    puts("after a loss of power every sector is as it was answered for");
}

static void a_chip_with_wrong_bits(void)
{
    struct ftl_shape none = coded;

    none.codes = 2;
    WANT(FTL_CODES, ftl_open(&none, PORT, PORT, &disk));
    none.codes = 1;
    none.spare_bytes = 248;
    WANT(FTL_CODES, ftl_open(&none, PORT, PORT, &disk));
    chip_and_disk(&coded);
    bits_are_turned_back();
    a_page_is_lost();
    power_over_wrong_bits();
    ftl_close(disk);
    THAT(die.illegal == 0);
    die_free(&die);
}

int main(void)
{
    struct ftl_errors errors;

    heap_give(memory, sizeof memory);
    chip_and_disk(&shape);
    WANT(FTL_DONE, ftl_format(disk));
    WANT(FTL_DONE, ftl_start(disk));
    WANT(FTL_NO_CODES, ftl_get_errors(disk, &errors));
    some_blocks_fail();
    wrong_bytes();
    wrong_byte_in_a_write();
    too_few_are_left();
    ftl_close(disk);
    THAT(die.illegal == 0);
    die_free(&die);
    a_chip_with_wrong_bits();
    return heap_live != 0;
}
