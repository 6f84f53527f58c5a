#include "life.h"

#include <stdio.h>
#include <stdlib.h>
#include <string.h>

#include "answer.h"

enum { SECTORS = 1200, BYTES = 2048 };

const struct ftl_shape life_shape = {
    .data_bytes = BYTES, .spare_bytes = 64, .pages = 64, .blocks = 64, .sectors = SECTORS, .cache = 256};

static uint8_t data[BYTES], seen[BYTES];
static uint32_t version[SECTORS]; /* how often each sector was written */

/* What the nth write of a sector writes; of the 0th: nothing was written. */
static void fill(uint32_t sector, uint32_t nth)
{
    for (uint32_t i = 0; i < BYTES; i++)
        data[i] = nth ? (uint8_t)(sector * 31 + nth * 7 + i) : 0;
}

static int is_as_written(uint32_t sector, uint32_t nth)
{
    fill(sector, nth);
    return memcmp(seen, data, BYTES) == 0;
}

/* The first time: the die is made ready, once in its life. */
static ftl_disk *begin(struct board *board)
{
    ftl_disk *disk;
    struct ftl_shape wrong = life_shape;

    wrong.pages = 60;
    WANT(FTL_PAGES_PER_BLOCK, ftl_open(&wrong, board->descriptor, board->descriptor, &disk));
    WANT(FTL_NULL, ftl_start(disk));
    WANT(FTL_DONE, ftl_open(&life_shape, board->descriptor, board->descriptor, &disk));
    WANT(FTL_NOT_STARTED, ftl_read(disk, 0, seen, BYTES));
    WANT(FTL_NOT_FORMATTED, ftl_start(disk));
    WANT(FTL_DONE, ftl_format(disk));
    WANT(FTL_NOT_FRESH, ftl_format(disk));
    WANT(FTL_DONE, ftl_start(disk));
    WANT(FTL_STARTED, ftl_start(disk));
    WANT(FTL_OUT_OF_RANGE, ftl_read(disk, SECTORS, seen, BYTES));
    WANT(FTL_WRONG_SIZE, ftl_read(disk, 0, seen, 512));
    return disk;
}

/* Each sector once, and then any, until the power goes in the middle of a program. The sector that was being written. */
static uint32_t write_until_dark(struct board *board, ftl_disk *disk)
{
    uint32_t seed = 1, sector = 0, writes = 0, answer = FTL_DONE;

    for (; answer == FTL_DONE; writes++) {
        if (writes == 4 * SECTORS) {
            board->die.cut_in = 777;
            board->die.cut = CUT_TORN;
        }
        seed = seed * 1103515245u + 12345u;
        sector = writes < SECTORS ? writes : (seed >> 8) % SECTORS;
        fill(sector, version[sector] + 1);
        answer = ftl_write(disk, sector, data, BYTES);
        version[sector] += answer == FTL_DONE;
        if (answer == FTL_DONE && writes % 3 == 0)
            answer = ftl_turn(disk); /* nothing else to do */
    }
    printf("the power goes in call %u, of sector %u: answer %u %s\n", writes, sector, answer, answer_name(answer));
    WANT(FTL_BUS_FAULT, answer);
    WANT(FTL_BUS_FAULT, ftl_read(disk, 0, seen, BYTES));
    return sector;
}

/* Each sector has what was last answered for, and the one that was being written that or what was being written. */
static void look_at_all(ftl_disk *disk, uint32_t torn)
{
    uint32_t kept = 0, new = 0;

    for (uint32_t sector = 0; sector < SECTORS; sector++) {
        WANT(FTL_DONE, ftl_read(disk, sector, seen, BYTES));
        if (is_as_written(sector, version[sector])) {
            kept++;
        } else {
            THAT(sector == torn && is_as_written(sector, version[sector] + 1));
            new++;
        }
    }
    printf("%u sectors as they were answered for, %u as in the call that was cut\n", kept, new);
}

static void end(ftl_disk *disk)
{
    WANT(FTL_DONE, ftl_trim(disk, 5));
    WANT(FTL_DONE, ftl_flush(disk));
    WANT(FTL_DONE, ftl_read(disk, 5, seen, BYTES));
    THAT(is_as_written(5, 0));
    WANT(FTL_DONE, ftl_stop(disk));
    WANT(FTL_NOT_STARTED, ftl_flush(disk));
    ftl_close(disk);
}

void life(struct board *board)
{
    ftl_disk *disk = NULL;
    uint32_t torn;

    memset(version, 0, sizeof version);
    if (die_make(&board->die, life_shape.data_bytes, life_shape.spare_bytes, life_shape.pages, life_shape.blocks))
        exit(2);
    die_mark(&board->die, 3); /* a bad block of the factory's */
    THAT(ftl_version() == FTL_VERSION);

    board->power_on(board);
    disk = begin(board);
    torn = write_until_dark(board, disk);
    ftl_close(disk);
    board->power_off(board);

    die_power(&board->die);
    board->power_on(board);
    WANT(FTL_DONE, ftl_open(&life_shape, board->descriptor, board->descriptor, &disk));
    WANT(FTL_DONE, ftl_start(disk));
    look_at_all(disk, torn);
    end(disk);
    board->power_off(board);
    THAT(board->die.illegal == 0);
    printf("%lu programs and %lu erases, none of them illegal\n", board->die.programs, board->die.erases);
    die_free(&board->die);
}
