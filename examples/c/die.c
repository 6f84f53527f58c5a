#include "die.h"

#include <stdlib.h>
#include <string.h>

enum { PASSED = 0xE0, FAILED = 0xE1 }; /* not protected, ready, array ready; FAIL */

static size_t page_bytes(const struct die *die)
{
    return (size_t)die->data + die->spare;
}

static uint8_t *page_at(const struct die *die, uint32_t row)
{
    return die->array + row * page_bytes(die);
}

int die_make(struct die *die, uint32_t data, uint32_t spare, uint32_t pages, uint32_t blocks)
{
    size_t all = (size_t)blocks * pages * ((size_t)data + spare);

    memset(die, 0, sizeof *die);
    die->data = data;
    die->spare = spare;
    die->pages = pages;
    die->blocks = blocks;
    die->array = malloc(all);
    die->next = calloc(blocks, sizeof *die->next);
    die->barred = calloc(blocks, 1);
    die->page = malloc(page_bytes(die));
    if (!die->array || !die->next || !die->barred || !die->page) {
        die_free(die);
        return -1;
    }
    memset(die->array, 0xFF, all);
    die_power(die);
    return 0;
}

void die_free(struct die *die)
{
    free(die->array);
    free(die->next);
    free(die->barred);
    free(die->page);
    memset(die, 0, sizeof *die);
}

void die_mark(struct die *die, uint32_t block)
{
    page_at(die, block * die->pages)[die->data] = 0x00;
    die->barred[block] = 1;
}

void die_power(struct die *die)
{
    die->off = 0;
    die->cut_in = die->fail_in = die->flip_in = die->twice_in = 0;
    die->phase = UNRESET;
    die->output = NOTHING_OUT;
    die->status = PASSED;
}

/* Counts down to something that is to go wrong, and says whether it comes now. */
static int comes(long *in)
{
    return *in > 0 && --*in == 0;
}

/* A refusal gives up the unfinished command. */
static uint8_t refuse(struct die *die, uint8_t fault)
{
    if (die->phase != UNRESET) {
        die->phase = READY;
        die->output = NOTHING_OUT;
    }
    return fault;
}

static uint8_t take_addresses(struct die *die, uint8_t command)
{
    die->phase = TAKING;
    die->command = command;
    die->count = 0;
    return TAKEN;
}

static uint8_t put_out(struct die *die, enum die_output output)
{
    die->phase = READY;
    die->output = output;
    return TAKEN;
}

static uint8_t finish(struct die *die, uint8_t status)
{
    die->status = status;
    return put_out(die, NOTHING_OUT);
}

/* A program only clears bits. */
static void clear_bits(uint8_t *at, const uint8_t *from, size_t count)
{
    for (size_t i = 0; i < count; i++)
        at[i] &= from[i];
}

static uint8_t lose_power(struct die *die)
{
    die->off = 1;
    return DEVICE;
}

static uint8_t program(struct die *die)
{
    uint32_t block = die->row / die->pages, page = die->row % die->pages;
    uint8_t *at = page_at(die, die->row);
    int fails = comes(&die->fail_in), cut = comes(&die->cut_in);

    die->programs++;
    if (cut && die->cut == CUT_BEFORE)
        return lose_power(die);
    if (die->barred[block] || die->next[block] != page) {
        die->illegal++;
        return cut ? lose_power(die) : finish(die, FAILED);
    }
    if (fails || (cut && die->cut == CUT_TORN)) {
        clear_bits(at, die->page, die->data / 2);
        die->barred[block] |= (uint8_t)fails;
        return cut ? lose_power(die) : finish(die, FAILED);
    }
    clear_bits(at, die->page, page_bytes(die));
    die->next[block]++;
    return cut ? lose_power(die) : finish(die, PASSED);
}

static uint8_t erase(struct die *die)
{
    uint32_t block = die->row / die->pages;
    uint8_t *at = page_at(die, block * die->pages);
    int fails = comes(&die->fail_in), cut = comes(&die->cut_in);

    die->erases++;
    if (cut && die->cut == CUT_BEFORE)
        return lose_power(die);
    if (die->barred[block]) {
        die->illegal++;
        return cut ? lose_power(die) : finish(die, FAILED);
    }
    if (fails || (cut && die->cut == CUT_TORN)) {
        memset(at, 0xFF, die->data / 2);
        die->barred[block] |= (uint8_t)fails;
        return cut ? lose_power(die) : finish(die, FAILED);
    }
    memset(at, 0xFF, die->pages * page_bytes(die));
    die->next[block] = 0;
    return cut ? lose_power(die) : finish(die, PASSED);
}

static uint8_t not_due(struct die *die, uint8_t code)
{
    static const uint8_t known[] = {0x00, 0x05, 0x10, 0x30, 0x60, 0x70, 0x80, 0x85, 0x90, 0xD0, 0xE0, 0xFF};

    return refuse(die, memchr(known, code, sizeof known) ? OUT_OF_TURN : UNKNOWN_COMMAND);
}

static uint8_t command_at_ready(struct die *die, uint8_t code)
{
    switch (code) {
    case 0x00:
    case 0x60:
    case 0x80:
    case 0x90:
        return take_addresses(die, code);
    case 0x70:
        return put_out(die, STATUS_OUT);
    case 0x05:
        return die->output == PAGE_OUT ? take_addresses(die, code) : not_due(die, code);
    default:
        return not_due(die, code);
    }
}

static uint8_t command_at_confirm(struct die *die, uint8_t code)
{
    if ((die->command == 0x00 && code == 0x30) || (die->command == 0x05 && code == 0xE0))
        return put_out(die, PAGE_OUT);
    return die->command == 0x60 && code == 0xD0 ? erase(die) : not_due(die, code);
}

static uint8_t command_at_load(struct die *die, uint8_t code)
{
    if (code == 0x85)
        return take_addresses(die, code);
    return code == 0x10 ? program(die) : not_due(die, code);
}

uint8_t die_command(struct die *die, uint8_t code)
{
    if (die->off)
        return DEVICE;
    if (code == 0xFF)
        return finish(die, PASSED);
    switch (die->phase) {
    case UNRESET:
        return NO_RESET;
    case READY:
        return command_at_ready(die, code);
    case CONFIRMING:
        return command_at_confirm(die, code);
    case LOADING:
        return command_at_load(die, code);
    default:
        return not_due(die, code);
    }
}

static uint8_t identify(struct die *die, uint8_t address)
{
    if (address != 0x00 && address != 0x20)
        return refuse(die, ADDRESS_RANGE);
    memcpy(die->identity, address ? "ONFI" : "\0\0\0", 4);
    die->identity_bytes = address ? 4 : 2;
    die->identity_out = 0;
    return put_out(die, IDENTITY_OUT);
}

/* All address cycles of a command have come. */
static uint8_t addressed(struct die *die)
{
    if (die->command == 0x80)
        memset(die->page, 0xFF, page_bytes(die));
    die->phase = die->command == 0x80 || die->command == 0x85 ? LOADING : CONFIRMING;
    return TAKEN;
}

uint8_t die_address(struct die *die, uint8_t byte)
{
    unsigned columns, rows;

    if (die->off)
        return DEVICE;
    if (die->phase == UNRESET)
        return NO_RESET;
    if (die->phase != TAKING)
        return refuse(die, OUT_OF_TURN);
    if (die->command == 0x90)
        return identify(die, byte);

    columns = die->command == 0x60 ? 0 : 2;
    rows = die->command == 0x05 || die->command == 0x85 ? 0 : 3;
    die->got[die->count++] = byte;
    if (columns && die->count == columns) {
        uint32_t column = die->got[0] + 256u * die->got[1];
        if (column >= page_bytes(die))
            return refuse(die, COLUMN_RANGE);
        die->column = column;
    }
    if (die->count < columns + rows)
        return TAKEN;
    if (rows) {
        const uint8_t *at = die->got + columns;
        uint32_t row = at[0] + 256u * at[1] + 65536u * at[2];
        if (row >= die->blocks * die->pages)
            return refuse(die, ADDRESS_RANGE);
        die->row = row;
    }
    return addressed(die);
}

uint8_t die_data_in(struct die *die, const uint8_t *bytes, size_t count)
{
    if (die->off)
        return DEVICE;
    if (die->phase == UNRESET)
        return NO_RESET;
    if (die->phase != LOADING)
        return refuse(die, OUT_OF_TURN);
    if (count > page_bytes(die) - die->column)
        return refuse(die, COLUMN_RANGE);
    memcpy(die->page + die->column, bytes, count);
    die->column += (uint32_t)count;
    return TAKEN;
}

static void turn_a_bit(struct die *die, uint8_t *bytes, size_t count)
{
    die->noise = die->noise * 1664525u + 1013904223u;
    bytes[(die->noise >> 8) % count] ^= (uint8_t)(1u << (die->noise >> 28) % 8);
}

/* What a read of a chip with wrong bits puts out. */
static void add_noise(struct die *die, uint8_t *bytes, size_t count)
{
    if (die->column >= die->data) {
        turn_a_bit(die, bytes, count < 32 ? count : 32);
        return;
    }
    for (size_t at = 0; at < count; at += 256)
        turn_a_bit(die, bytes + at, count - at < 256 ? count - at : 256);
}

static uint8_t page_out(struct die *die, uint8_t *bytes, size_t count)
{
    if (count > page_bytes(die) - die->column)
        return refuse(die, COLUMN_RANGE);
    memcpy(bytes, page_at(die, die->row) + die->column, count);
    if (count && comes(&die->twice_in)) {
        bytes[0] ^= 1;
        bytes[count < 32 ? count - 1 : 31] ^= 2;
    } else if (count && die->noisy) {
        add_noise(die, bytes, count);
    }
    die->column += (uint32_t)count;
    die->reads++;
    if (count && comes(&die->flip_in))
        bytes[die->reads % count] ^= (uint8_t)(1u << die->reads % 8);
    return TAKEN;
}

static uint8_t identity_out(struct die *die, uint8_t *bytes, size_t count)
{
    if (count > die->identity_bytes - die->identity_out)
        return refuse(die, COLUMN_RANGE);
    memcpy(bytes, die->identity + die->identity_out, count);
    die->identity_out += (unsigned)count;
    return TAKEN;
}

uint8_t die_data_out(struct die *die, uint8_t *bytes, size_t count)
{
    if (die->off)
        return DEVICE;
    if (die->phase == UNRESET)
        return NO_RESET;
    if (die->phase != READY)
        return refuse(die, OUT_OF_TURN);
    switch (die->output) {
    case PAGE_OUT:
        return page_out(die, bytes, count);
    case STATUS_OUT:
        memset(bytes, die->status, count);
        return TAKEN;
    case IDENTITY_OUT:
        return identity_out(die, bytes, count);
    default:
        return refuse(die, OUT_OF_TURN);
    }
}
