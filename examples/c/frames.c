#include "frames.h"

#include <string.h>

#include "die.h"

void frames_begin(struct frames *frames, const struct cycles *cycles)
{
    frames->cycles = cycles;
    frames->come = frames->left = frames->next = 0;
}

/* The count of a frame, least significant byte first; FRAME_DATA_MOST + 1 for any that is too large. */
static size_t count_of(const uint8_t *head)
{
    uint32_t low = head[2] | (uint32_t)head[3] << 8;

    for (int i = 4; i < FRAME_HEAD; i++)
        if (head[i])
            return FRAME_DATA_MOST + 1;
    return low > FRAME_DATA_MOST ? FRAME_DATA_MOST + 1 : low;
}

/* A whole frame stands in room: its cycle is done, and its answer is put there. */
static int do_frame(struct frames *frames, size_t count)
{
    const struct cycles *cycles = frames->cycles;
    uint8_t *room = frames->room, value = room[1], status;
    size_t out = 0;

    switch (room[0]) {
    case 'C':
        status = cycles->command(cycles->chip, value);
        break;
    case 'A':
        status = cycles->address(cycles->chip, value);
        break;
    case 'I':
        status = cycles->data_in(cycles->chip, room + FRAME_HEAD, count);
        break;
    case 'O':
        status = cycles->data_out(cycles->chip, room + 1, count);
        out = status == 0 ? count : 0;
        break;
    default:
        return -1;
    }
    room[0] = status;
    frames->come = 0;
    frames->next = 0;
    frames->left = 1 + out;
    return 0;
}

int frames_take(struct frames *frames, const uint8_t *bytes, size_t count)
{
    size_t moved, whole;

    if (!frames->cycles)
        return -1;
    if (count == 0)
        return 0;
    if (frames->left || count > sizeof frames->room - frames->come)
        return -1;
    memcpy(frames->room + frames->come, bytes, count);
    frames->come += count;
    if (frames->come < FRAME_HEAD)
        return 0;
    moved = count_of(frames->room);
    if (moved > FRAME_DATA_MOST)
        return -1;
    whole = FRAME_HEAD + (frames->room[0] == 'I' ? moved : 0);
    if (frames->come > whole)
        return -1;
    return frames->come < whole ? 0 : do_frame(frames, moved);
}

size_t frames_give(struct frames *frames, uint8_t *bytes, size_t count)
{
    if (count > frames->left)
        count = frames->left;
    memcpy(bytes, frames->room + frames->next, count);
    frames->next += count;
    frames->left -= count;
    return count;
}

static uint8_t command(void *chip, uint8_t code)
{
    return die_command(chip, code);
}

static uint8_t address(void *chip, uint8_t byte)
{
    return die_address(chip, byte);
}

static uint8_t data_in(void *chip, const uint8_t *bytes, size_t count)
{
    return die_data_in(chip, bytes, count);
}

static uint8_t data_out(void *chip, uint8_t *bytes, size_t count)
{
    return die_data_out(chip, bytes, count);
}

struct cycles cycles_of_die(struct die *die)
{
    struct cycles cycles = {die, command, address, data_in, data_out};

    return cycles;
}
