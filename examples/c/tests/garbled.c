/* Something is wrong with the answer to each frame of a short script, in each way: the status, a byte, an answer that ends too early or does not come, a read
 * or a write that fails. The library answers one of its numbers, and nothing else happens. A read that is done shows bytes that were once
 * written to that sector, or zeros; and a start over a link that is well again answers a number too. Where a byte of a page is turned in a
 * disk that was started well, nothing is lost.
 *
 *     garbled [N]     each Nth frame alone */
#include <stdio.h>
#include <stdlib.h>
#include <string.h>

#include "script.h"

static const char *const names[WRONG_LAST] = {
    "nothing", "power gone before", "power gone after", "status", "byte", "byte of a page", "answer too short", "no answer", "read -1", "write 0"};

static struct die die;
static struct list before, list;
static struct picture used;
static unsigned long answers[256], cases, reads, stride = 1;

/* A number that ftl.h has. */
static uint32_t known(uint32_t answer)
{
    THAT(answer < 256 && strncmp(answer_name(answer), "FTL_", 4) == 0);
    answers[answer]++;
    return answer;
}

static void read_shown(ftl_disk *disk, uint32_t sector)
{
    int found = 0;

    memset(list.seen, 0x5A, list.bytes);
    if (known(ftl_read(disk, sector, list.seen, list.bytes)) != FTL_DONE) {
        memset(list.data, 0x5A, list.bytes);
        THAT(memcmp(list.seen, list.data, list.bytes) == 0);
        return;
    }
    reads++;
    for (uint32_t version = 0; version < list.next && !found; version++) {
        list_fill(&list, sector, version);
        found = memcmp(list.seen, list.data, list.bytes) == 0;
    }
    THAT(found);
}

/* False: the script came to its end before the frame. */
static int one(enum wrong wrong, unsigned long at, uint8_t byte)
{
    size_t live = heap_live;
    uint32_t sector, answer;
    unsigned long frames;
    ftl_disk *disk = NULL;

    picture_put(&used, &die);
    port_fresh(&die);
    port_wrong(wrong, at, byte);
    list = before;
    WANT(FTL_DONE, ftl_open(&script_shape, PORT, PORT, &disk));
    if (known(ftl_start(disk)) == FTL_DONE)
        for (unsigned nth = 0; nth < SCRIPT_CALLS; nth++) {
            known(script_call(nth, &list, disk, &sector));
            read_shown(disk, nth % script_shape.sectors);
        }
    frames = port.done;
    WANT(FTL_DONE, ftl_stop(disk));
    port_fresh(&die);
    answer = known(ftl_start(disk));
    for (sector = 0; answer == FTL_DONE && sector < script_shape.sectors; sector++)
        read_shown(disk, sector);
    ftl_close(disk);
    THAT(heap_live == live);
    cases++;
    return frames >= at;
}

/* Each sector is read, and done, as the list has it; of one also as the refused call was to leave it. */
static void read_all(ftl_disk *disk, uint32_t refused, uint32_t version)
{
    for (uint32_t sector = 0; sector < script_shape.sectors; sector++) {
        if (sector == refused) {
            WANT(FTL_DONE, ftl_read(disk, sector, list.seen, list.bytes));
            list_fill(&list, sector, version);
            if (memcmp(list.seen, list.data, list.bytes) == 0)
                continue;
        }
        WANT(FTL_DONE, list_read(&list, disk, sector));
    }
}

/* A byte of a page is turned once the disk has started. False: the script came to its end before the frame. */
static int nothing_lost(enum wrong wrong, unsigned long at, uint8_t byte)
{
    size_t live = heap_live;
    uint32_t sector, refused = UINT32_MAX, version = 0, next;
    unsigned long frames;
    ftl_disk *disk = NULL;

    picture_put(&used, &die);
    port_fresh(&die);
    list = before;
    WANT(FTL_DONE, ftl_open(&script_shape, PORT, PORT, &disk));
    WANT(FTL_DONE, ftl_start(disk));
    frames = port.done;
    port_wrong(wrong, at, byte);
    for (unsigned nth = 0; nth < SCRIPT_CALLS; nth++) {
        next = list.next;
        if (known(script_call(nth, &list, disk, &sector)) != FTL_DONE && refused == UINT32_MAX && sector != UINT32_MAX) {
            refused = sector;
            version = list.next > next ? next : 0;
        }
    }
    frames = port.done - frames;
    WANT(FTL_DONE, ftl_stop(disk));
    port_fresh(&die);
    WANT(FTL_DONE, ftl_start(disk));
    read_all(disk, refused, version);
    ftl_close(disk);
    THAT(heap_live == live);
    cases++;
    return frames >= at;
}

static void each_frame(int (*life)(enum wrong, unsigned long, uint8_t), enum wrong wrong, uint8_t byte)
{
    unsigned long at = 1;

    while (life(wrong, at, byte))
        at += stride;
    printf("%s %02Xh at %lu frames\n", names[wrong], byte, at / stride);
}

int main(int count, char **words)
{
    static const uint8_t statuses[] = {0x00, 0x03, 0xFF}, masks[] = {0x01, 0xFF};

    if (count > 1)
        stride = strtoul(words[1], NULL, 0);
    script_prepare(&die, &before);
    picture_take(&used, &die);
    for (size_t i = 0; i < sizeof statuses; i++)
        each_frame(one, STATUS_IS, statuses[i]);
    for (size_t i = 0; i < sizeof masks; i++)
        each_frame(one, BYTE_TURNED, masks[i]);
    for (size_t i = 0; i < sizeof masks; i++)
        each_frame(nothing_lost, DATA_TURNED, masks[i]);
    for (int wrong = ANSWER_SHORT; wrong < WRONG_LAST; wrong++)
        each_frame(one, (enum wrong)wrong, 0);
    printf("%lu lives, %lu reads that were done, each of bytes that were written. Answers:", cases, reads);
    for (uint32_t i = 0; i < 256; i++)
        if (answers[i])
            printf(" %s %lu", answer_name(i), answers[i]);
    puts("");
    THAT(heap_live == 0);
    picture_free(&used);
    die_free(&die);
    return 0;
}
