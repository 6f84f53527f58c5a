/* 2,000 calls through the header, each beside a plain list: reads, writes, trims, flushes, turns, what the device says of itself, wrong arguments,
 * failing programs and erases, power that goes in the middle of an operation, starts with a certificate and without one. */
#include <stdio.h>
#include <stdlib.h>
#include <string.h>

#include "world.h"

enum { CALLS = 2000, FAILURES = 12 };

static struct ftl_shape shape = {
    .data_bytes = 256, .spare_bytes = 64, .pages = 16, .blocks = 64, .sectors = 300, .cache = 24};

static struct die die;
static ftl_disk *disk;
static struct list list;
static struct ftl_sizes sizes;
static uint8_t *certificate;
static unsigned reads, writes, trims, others, wrongs, restarts, cuts, failures, certified;

/* Memory of the program's own for a disk, and whether the disk lies there or in the heap. */
static uint8_t room[2048] __attribute__((aligned(16)));
static int is_in_room;

static void open_again(void)
{
    THAT(ftl_room() <= sizeof room);
    is_in_room = (int)any(2);
    if (is_in_room)
        WANT(FTL_DONE, ftl_open_at(&shape, PORT, PORT, room, &disk));
    else
        WANT(FTL_DONE, ftl_open(&shape, PORT, PORT, &disk));
}

static void close_disk(void)
{
    if (is_in_room)
        WANT(FTL_DONE, ftl_stop(disk));
    else
        ftl_close(disk);
}

static void open_disk(void)
{
    port_fresh(&die);
    open_again();
}

/* Once more from the start: by stop and start, or by another handle; by a certificate, where one is there. */
static void restart(int has_certificate)
{
    if (any(2)) {
        WANT(FTL_DONE, ftl_stop(disk));
        WANT(FTL_DONE, ftl_stop(disk));
    } else {
        close_disk();
        open_again();
    }
    WANT(FTL_NOT_STARTED, list_read(&list, disk, 0));
    if (has_certificate) {
        WANT(FTL_DONE, ftl_certify(disk, certificate, sizes.certificate_bytes));
        WANT(FTL_DONE, ftl_start_certified(disk, certificate, sizes.certificate_bytes));
        certified++;
    } else {
        WANT(FTL_DONE, ftl_start(disk));
    }
    WANT(FTL_STARTED, ftl_start(disk));
    WANT(FTL_STARTED, ftl_format(disk));
    restarts++;
}

/* The power goes in an operation that some call asks for. That call changed its sector or not; all else is as it was. */
static void power_goes(void)
{
    uint32_t sector = 0, answer = FTL_DONE, version;

    die.cut_in = 1 + (long)any(40);
    die.cut = (enum die_cut)any(3);
    while (answer == FTL_DONE) {
        sector = any(shape.sectors);
        answer = list_write(&list, disk, sector);
    }
    version = list.next - 1;
    WANT(FTL_BUS_FAULT, answer);
    WANT(FTL_BUS_FAULT, ftl_turn(disk));
    close_disk();
    die_power(&die);
    open_disk();
    WANT(FTL_DONE, ftl_start(disk));
    list_fill(&list, sector, version);
    WANT(FTL_DONE, ftl_read(disk, sector, list.seen, list.bytes));
    if (memcmp(list.seen, list.data, list.bytes) == 0)
        list.version[sector] = version;
    list_all(&list, disk);
    cuts++;
}

static void wrong_arguments(void)
{
    struct ftl_state state = {0};
    struct ftl_shortage shortage = {0};
    uint8_t byte = 0;
    ftl_disk *none = disk;

    WANT(FTL_NULL, ftl_open(NULL, PORT, PORT, &none));
    WANT(FTL_NULL, ftl_start(none));
    WANT(FTL_NULL, ftl_open_at(&shape, PORT, PORT, NULL, &none));
    WANT(FTL_NULL, ftl_open(&shape, PORT, PORT, NULL));
    WANT(FTL_NULL, ftl_read(disk, 0, NULL, list.bytes));
    WANT(FTL_NULL, ftl_read(NULL, 0, &byte, 1));
    WANT(FTL_NULL, ftl_write(disk, 0, NULL, 0));
    WANT(FTL_NULL, ftl_trim(NULL, 0));
    WANT(FTL_NULL, ftl_flush(NULL));
    WANT(FTL_NULL, ftl_turn(NULL));
    WANT(FTL_NULL, ftl_stop(NULL));
    WANT(FTL_NULL, ftl_get_state(disk, NULL));
    WANT(FTL_NULL, ftl_get_state(NULL, &state));
    WANT(FTL_NULL, ftl_get_shortage(NULL, &shortage));
    WANT(FTL_NULL, ftl_start_certified(disk, NULL, 0));
    WANT(FTL_WRONG_SIZE, ftl_read(disk, 0, &byte, 1));
    WANT(FTL_WRONG_SIZE, ftl_write(disk, 0, &byte, 0));
    WANT(FTL_OUT_OF_RANGE, ftl_write(disk, shape.sectors, list.data, list.bytes));
    WANT(FTL_OUT_OF_RANGE, ftl_read(disk, UINT32_MAX, list.seen, list.bytes));
    WANT(FTL_OUT_OF_RANGE, ftl_trim(disk, shape.sectors));
    WANT(FTL_STARTED, ftl_certify(disk, certificate, sizes.certificate_bytes));
    ftl_close(NULL);
    wrongs += 22;
}

static void looks(void)
{
    struct ftl_state state = {0};
    struct ftl_sizes now = {0};

    WANT(FTL_DONE, ftl_get_state(disk, &state));
    WANT(FTL_DONE, ftl_get_sizes(disk, &now));
    THAT(state.good_blocks + state.bad_blocks == shape.blocks && state.free_blocks <= state.good_blocks);
    THAT(state.good_blocks >= sizes.need && !state.read_only && !state.stopped);
    THAT(now.sectors == shape.sectors && now.sector_bytes == shape.data_bytes && now.need == sizes.need);
    others += 2;
}

static void one_call(unsigned nth)
{
    uint32_t sector = any(shape.sectors), kind = any(100);

    if (failures < FAILURES && nth % (CALLS / FAILURES) == 50) {
        die.fail_in = 1 + (long)any(10);
        failures++;
    }
    if (kind < 40) {
        WANT(FTL_DONE, list_write(&list, disk, sector));
        writes++;
    } else if (kind < 75) {
        WANT(FTL_DONE, list_read(&list, disk, sector));
        reads++;
    } else if (kind < 82) {
        WANT(FTL_DONE, list_trim(&list, disk, sector));
        trims++;
    } else if (kind < 92) {
        WANT(FTL_DONE, ftl_turn(disk));
        others++;
    } else if (kind < 95) {
        WANT(FTL_DONE, ftl_flush(disk));
        others++;
    } else if (kind < 97) {
        looks();
    } else if (kind < 98) {
        wrong_arguments();
    } else {
        if (any(2))
            power_goes();
        else
            restart((int)any(2));
    }
}

int main(int count, char **words)
{
    seed = count > 1 ? (uint32_t)strtoul(words[1], NULL, 0) : 1;
    port.pieces = count > 2 ? atoi(words[2]) : 0;
    shape.codes = count > 3;
    WANT(FTL_DONE, ftl_measure(&shape, &sizes));
    if (die_make(&die, shape.data_bytes, sizes.chip_spare_bytes, shape.pages, shape.blocks))
        return 2;
    die.noisy = shape.codes == 1;
    die_mark(&die, any(shape.blocks));
    die_mark(&die, any(shape.blocks));
    certificate = malloc(sizes.certificate_bytes);
    list_begin(&list, &shape);
    open_disk();
    WANT(FTL_DONE, ftl_format(disk));
    WANT(FTL_DONE, ftl_start(disk));
    for (unsigned nth = 0; reads + writes + trims + others + wrongs + restarts + cuts < CALLS; nth++)
        one_call(nth);
    list_all(&list, disk);
    close_disk();
    THAT(die.illegal == 0);
    THAT(heap_live == 0);
    THAT(heap_most <= sizes.memory_bytes && heap_pieces_most <= sizes.memory_blocks);
    printf("%u calls: %u writes, %u reads, %u trims, %u flushes, turns and looks, %u wrong arguments, %u restarts (%u by a certificate), %u cuts, %u failures: "
           "each as the plain list has it\n",
           reads + writes + trims + others + wrongs + restarts + cuts, writes, reads, trims, others, wrongs, restarts, certified, cuts, failures);
    printf("memory: at most %zu bytes in %zu pieces, of %u and %u that ftl_measure names\n", heap_most, heap_pieces_most, sizes.memory_bytes, sizes.memory_blocks);
    die_free(&die);
    free(certificate);
    return 0;
}
