/* The heap refuses each allocation in turn: the answer is FTL_OUT_OF_MEMORY, nothing leaks, nothing is changed, and the same call is done later. */
#include <stdio.h>
#include <stdlib.h>
#include <string.h>

#include "world.h"

static struct ftl_shape shape = {
    .data_bytes = 256, .spare_bytes = 64, .pages = 16, .blocks = 64, .sectors = 300, .cache = 16};

static struct die die;
static ftl_disk *disk;
static struct list list;
static struct ftl_sizes sizes;
static uint8_t *certificate;

static uint32_t open_disk(void) { return ftl_open(&shape, PORT, PORT, &disk); }
static uint32_t format(void) { return ftl_format(disk); }
static uint32_t start(void) { return ftl_start(disk); }
static uint32_t certify(void) { return ftl_certify(disk, certificate, sizes.certificate_bytes); }
static uint32_t start_certified(void) { return ftl_start_certified(disk, certificate, sizes.certificate_bytes); }

/* A call with its 1st allocation refused, and all after it; then with the 2nd; and so on, until it is done. */
static void refuse_each(const char *name, uint32_t (*call)(void))
{
    size_t live = heap_live;
    unsigned long programs = die.programs + die.erases, n;

    for (n = 1;; n++) {
        uint32_t answer;
        heap_refuse_at = n;
        answer = call();
        heap_refuse_at = 0;
        if (answer == FTL_DONE)
            break;
        WANT(FTL_OUT_OF_MEMORY, answer);
        THAT(heap_live == live);
        THAT(die.programs + die.erases == programs);
    }
    printf("%s: %lu refusals\n", name, n - 1);
    THAT(n > 1);
}

/* Calls of a device, each third of which meets a heap that has nothing. */
static void refuse_in_calls(void)
{
    unsigned refused[4] = {0}, calls[4] = {0};

    for (int i = 0; i < 20000; i++) {
        uint32_t sector = any(shape.sectors), kind = any(16), answer;
        kind = kind < 8 ? 0 : kind < 13 ? 1 : kind < 15 ? 2 : 3;
        heap_refuse_at = i % 3 == 0;
        answer = kind == 0 ? list_write(&list, disk, sector)
                 : kind == 1 ? list_read(&list, disk, sector)
                 : kind == 2 ? list_trim(&list, disk, sector)
                 : i % 20 ? ftl_turn(disk)
                          : ftl_flush(disk);
        heap_refuse_at = 0;
        calls[kind]++;
        refused[kind] += answer != FTL_DONE;
        if (answer != FTL_DONE)
            WANT(FTL_OUT_OF_MEMORY, answer);
        if (i % 500 == 0) { /* the cache is empty again */
            list_all(&list, disk);
            WANT(FTL_DONE, ftl_stop(disk));
            WANT(FTL_DONE, ftl_start(disk));
        }
    }
    list_all(&list, disk);
    printf("20000 calls, each third over an empty heap: refused %u of %u writes, %u of %u reads, %u of %u trims, %u of %u turns and flushes; "
           "each sector as the list has it\n",
           refused[0], calls[0], refused[1], calls[1], refused[2], calls[2], refused[3], calls[3]);
    THAT(refused[0] > 0);
}

/* All of it, over pages without codes or with. */
static void refuse_all(uint32_t codes)
{
    shape.codes = codes;
    WANT(FTL_DONE, ftl_measure(&shape, &sizes));
    if (die_make(&die, shape.data_bytes, sizes.chip_spare_bytes, shape.pages, shape.blocks))
        exit(2);
    die.noisy = codes == 1;
    certificate = malloc(sizes.certificate_bytes);
    port_fresh(&die);
    list_begin(&list, &shape);
    refuse_each("open", open_disk);
    refuse_each("format", format);
    refuse_each("start", start);
    refuse_in_calls();
    WANT(FTL_DONE, ftl_flush(disk));
    WANT(FTL_DONE, ftl_stop(disk));
    refuse_each("certify", certify);
    refuse_each("start by a certificate", start_certified);
    list_all(&list, disk);
    ftl_close(disk);
    THAT(heap_live == 0 && die.illegal == 0);
    free(certificate);
    die_free(&die);
}

int main(void)
{
    refuse_all(0);
    puts("the same over a chip with wrong bits, and pages with codes");
    refuse_all(1);
    return 0;
}
