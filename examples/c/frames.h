/* The die's end of the library's frames (the layout: ftl.h, "The frames"). A port hands in what the library writes and hands out what it reads;
 * the cycles go to four functions of the chip. A maker who fills in these four can take this file as it is. */
#ifndef FRAMES_H
#define FRAMES_H

#include <stddef.h>
#include <stdint.h>

enum { FRAME_HEAD = 10, FRAME_DATA_MOST = 4096 }; /* the library moves no more data in one cycle */

/* The four cycles of a chip. Each answers 0, or a refusal 1 to 6. Commands 30h, 10h, D0h and FFh answer once the chip is ready. */
struct cycles {
    void *chip;
    uint8_t (*command)(void *chip, uint8_t code);
    uint8_t (*address)(void *chip, uint8_t byte);
    uint8_t (*data_in)(void *chip, const uint8_t *bytes, size_t count);
    uint8_t (*data_out)(void *chip, uint8_t *bytes, size_t count);
};

/* One way to a chip: what has come of a frame, or what is left of its answer. */
struct frames {
    const struct cycles *cycles;
    size_t come;  /* bytes of the frame so far */
    size_t left;  /* bytes of the answer that are not read yet */
    size_t next;  /* where they begin in room */
    uint8_t room[FRAME_HEAD + FRAME_DATA_MOST];
};

/* No frame, no answer. */
void frames_begin(struct frames *frames, const struct cycles *cycles);
/* Takes bytes of a frame; with the last one its cycle is done. -1: no frame of the library, or an answer is still to be read. */
int frames_take(struct frames *frames, const uint8_t *bytes, size_t count);
/* Hands out at most so many bytes of the answer, and says how many. */
size_t frames_give(struct frames *frames, uint8_t *bytes, size_t count);

struct die;
/* The cycles of the die in C. */
struct cycles cycles_of_die(struct die *die);

#endif
