/* The power goes at each call of the bus of a short script, in each way: before the cycle, after it, and with its page half done. After the next start
 * each sector has what was answered for; the one of the call that was cut has that, or what the call was to give it. */
#include <stdio.h>
#include <stdlib.h>
#include <string.h>

#include "script.h"

static struct die die;
static struct list before, list;
static struct picture fresh, used;
static unsigned long starts_cut, calls_cut, changed;

static int has(ftl_disk *disk, uint32_t sector, uint32_t version)
{
    list_fill(&list, sector, version);
    WANT(FTL_DONE, ftl_read(disk, sector, list.seen, list.bytes));
    return memcmp(list.seen, list.data, list.bytes) == 0;
}

/* After the next start: the array as answered for, but for one sector that may have its next version, or zeros where it was trimmed. */
static void look(uint32_t torn, uint32_t version)
{
    ftl_disk *disk = NULL;

    port_fresh(&die);
    die_power(&die);
    WANT(FTL_DONE, ftl_open(&script_shape, PORT, PORT, &disk));
    WANT(FTL_DONE, ftl_start(disk));
    if (torn < list.sectors && !has(disk, torn, list.version[torn])) {
        THAT(has(disk, torn, version));
        list.version[torn] = version;
        changed++;
    }
    list_all(&list, disk);
    WANT(FTL_DONE, list_write(&list, disk, 1)); /* it goes on */
    WANT(FTL_DONE, ftl_turn(disk));
    list_all(&list, disk);
    THAT(die.illegal == 0);
    ftl_close(disk);
}

/* A life whose power goes at a frame. False: the script came to its end first. */
static int one(enum wrong wrong, enum die_cut cut, unsigned long at)
{
    ftl_disk *disk = NULL;
    uint32_t answer = FTL_DONE, sector = UINT32_MAX;
    unsigned nth = 0;

    picture_put(&used, &die);
    port_fresh(&die);
    list = before;
    if (wrong == NOTHING_WRONG) {
        die.cut_in = (long)at;
        die.cut = cut;
    } else {
        port_wrong(wrong, at, 0);
    }
    WANT(FTL_DONE, ftl_open(&script_shape, PORT, PORT, &disk));
    answer = ftl_start(disk);
    starts_cut += answer != FTL_DONE;
    for (; answer == FTL_DONE && nth < SCRIPT_CALLS; nth++)
        answer = script_call(nth, &list, disk, &sector);
    if (answer != FTL_DONE) {
        WANT(FTL_BUS_FAULT, answer);
        calls_cut += nth > 0;
    }
    ftl_close(disk);
    look(answer == FTL_DONE ? UINT32_MAX : sector, (nth - 1) % 12 == 3 ? 0 : list.next - 1);
    return answer != FTL_DONE;
}

/* A format whose power goes: the next one is done or sees pages that are written, and never writes over them. */
static int one_format(enum wrong wrong, unsigned long at)
{
    ftl_disk *disk = NULL;
    uint32_t answer, next;

    picture_put(&fresh, &die);
    port_fresh(&die);
    port_wrong(wrong, at, 0);
    WANT(FTL_DONE, ftl_open(&script_shape, PORT, PORT, &disk));
    answer = ftl_format(disk);
    port_fresh(&die);
    die_power(&die);
    next = ftl_format(disk);
    THAT(next == FTL_DONE || next == FTL_NOT_FRESH);
    THAT(answer == FTL_BUS_FAULT || (answer == FTL_DONE && next == FTL_NOT_FRESH));
    THAT(die.illegal == 0);
    ftl_close(disk);
    return answer != FTL_DONE;
}

int main(void)
{
    unsigned long n, cases = 0;

    if (die_make(&die, script_shape.data_bytes, script_shape.spare_bytes, script_shape.pages, script_shape.blocks))
        return 2;
    picture_take(&fresh, &die);
    for (int wrong = GONE_BEFORE; wrong <= GONE_AFTER; wrong++)
        for (n = 1; one_format((enum wrong)wrong, n); n++)
            cases++;
    printf("a format, with the power gone at each of its %lu frames\n", cases / 2);
    die_free(&die);

    script_prepare(&die, &before);
    picture_take(&used, &die);
    cases = 0;
    for (int wrong = GONE_BEFORE; wrong <= GONE_AFTER; wrong++)
        for (n = 1; one((enum wrong)wrong, CUT_BEFORE, n); n++)
            cases++;
    printf("a start and %d calls, with the power gone before and after each of their %lu frames\n", SCRIPT_CALLS, cases / 2);
    cases = 0;
    for (int cut = CUT_BEFORE; cut <= CUT_AFTER; cut++)
        for (n = 1; one(NOTHING_WRONG, (enum die_cut)cut, n); n++)
            cases++;
    printf("the same at each of their %lu programs and erases: not done, torn and done\n", cases / 3);
    printf("%lu cuts in a start, %lu in a call; of these %lu had done what the call was for. No sector is as nobody wrote it\n", starts_cut, calls_cut, changed);
    THAT(starts_cut && calls_cut && changed && heap_live == 0);
    picture_free(&fresh);
    picture_free(&used);
    die_free(&die);
    return 0;
}
