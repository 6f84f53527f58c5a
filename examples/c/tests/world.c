#define _DEFAULT_SOURCE /* syscall */
#include "world.h"

#include <stdio.h>
#include <stdlib.h>
#include <string.h>
#include <sys/syscall.h>
#include <unistd.h>

struct port port;
uint32_t seed = 1;

uint32_t any(uint32_t below)
{
    seed = seed * 1664525u + 1013904223u;
    return (uint32_t)((uint64_t)(seed >> 4) * below >> 28);
}

void port_fresh(struct die *die)
{
    int pieces = port.pieces;

    memset(&port, 0, sizeof port);
    port.pieces = pieces;
    port.cycles = cycles_of_die(die);
    frames_begin(&port.frames, &port.cycles);
}

void port_wrong(enum wrong wrong, unsigned long at, uint8_t byte)
{
    port.wrong = wrong;
    port.at = port.done + at;
    port.byte = byte;
}

static int is_now(enum wrong wrong)
{
    return port.wrong == wrong && port.done == port.at;
}

/* An answer was just made: what is to be wrong with it. */
static void garble(void)
{
    uint8_t *answer = port.frames.room;
    size_t *left = &port.frames.left;

    if (is_now(GONE_AFTER))
        port.gone = 1;
    if (is_now(STATUS_IS)) {
        answer[0] = port.byte;
        *left = port.byte ? 1 : *left;
    }
    if (is_now(BYTE_TURNED))
        answer[port.done * 7919 % *left] ^= port.byte;
    if (is_now(DATA_TURNED) && *left > 2)
        answer[1 + port.done * 7919 % (*left - 1)] ^= port.byte;
    if (is_now(ANSWER_SHORT))
        *left -= 1;
    if (is_now(ANSWER_NONE))
        *left = 0;
}

ssize_t write(int descriptor, const void *bytes, size_t count)
{
    if (descriptor != PORT)
        return syscall(SYS_write, descriptor, bytes, count);
    if (port.pieces && count > (size_t)port.pieces)
        count = (size_t)port.pieces;
    if (port.frames.come == 0) {
        port.done++; /* a frame begins */
        port.gone |= is_now(GONE_BEFORE) || (port.most && port.done > port.most);
    }
    if (port.gone)
        return -1;
    if (is_now(WRITE_NONE))
        return 0;
    if (frames_take(&port.frames, bytes, count))
        return -1;
    if (port.frames.left)
        garble();
    return (ssize_t)count;
}

ssize_t read(int descriptor, void *bytes, size_t count)
{
    if (descriptor != PORT)
        return syscall(SYS_read, descriptor, bytes, count);
    if (port.gone || is_now(READ_FAILS))
        return -1;
    if (port.pieces && count > (size_t)port.pieces)
        count = (size_t)port.pieces;
    return (ssize_t)frames_give(&port.frames, bytes, count);
}

static size_t array_bytes(const struct die *die)
{
    return (size_t)die->blocks * die->pages * (die->data + die->spare);
}

static void *copy_of(const void *from, size_t bytes)
{
    void *to = malloc(bytes);

    if (!to)
        exit(2);
    return memcpy(to, from, bytes);
}

void picture_take(struct picture *picture, const struct die *die)
{
    picture->array = copy_of(die->array, array_bytes(die));
    picture->next = copy_of(die->next, die->blocks * sizeof *die->next);
    picture->barred = copy_of(die->barred, die->blocks);
}

void picture_put(const struct picture *picture, struct die *die)
{
    memcpy(die->array, picture->array, array_bytes(die));
    memcpy(die->next, picture->next, die->blocks * sizeof *die->next);
    memcpy(die->barred, picture->barred, die->blocks);
    die_power(die);
}

void picture_free(struct picture *picture)
{
    free(picture->array);
    free(picture->next);
    free(picture->barred);
}

void list_begin(struct list *list, const struct ftl_shape *shape)
{
    memset(list, 0, sizeof *list);
    list->sectors = shape->sectors;
    list->bytes = shape->data_bytes;
    list->next = 1;
}

void list_fill(struct list *list, uint32_t sector, uint32_t version)
{
    if (version == 0) {
        memset(list->data, 0, list->bytes);
        return;
    }
    for (uint32_t i = 0; i < list->bytes; i++)
        list->data[i] = (uint8_t)(sector * 31 + version * 7 + version / 256 + i * (version % 5));
}

uint32_t list_write(struct list *list, ftl_disk *disk, uint32_t sector)
{
    uint32_t version = list->next++, answer;

    list_fill(list, sector, version);
    answer = ftl_write(disk, sector, list->data, list->bytes);
    if (answer == FTL_DONE)
        list->version[sector] = version;
    return answer;
}

uint32_t list_trim(struct list *list, ftl_disk *disk, uint32_t sector)
{
    uint32_t answer = ftl_trim(disk, sector);

    if (answer == FTL_DONE)
        list->version[sector] = 0;
    return answer;
}

uint32_t list_read(struct list *list, ftl_disk *disk, uint32_t sector)
{
    uint32_t answer;

    memset(list->seen, 0x5A, list->bytes);
    answer = ftl_read(disk, sector, list->seen, list->bytes);
    if (answer == FTL_DONE)
        list_fill(list, sector, list->version[sector]);
    else
        memset(list->data, 0x5A, list->bytes); /* the caller's bytes are as they were */
    THAT(memcmp(list->seen, list->data, list->bytes) == 0);
    return answer;
}

void list_all(struct list *list, ftl_disk *disk)
{
    for (uint32_t sector = 0; sector < list->sectors; sector++)
        WANT(FTL_DONE, list_read(list, disk, sector));
}
