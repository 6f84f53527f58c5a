/* The life of a disk, whatever the way to its die is: writes, power that goes in the middle of a program, a second start. */
#ifndef LIFE_H
#define LIFE_H

#include "die.h"
#include "ftl.h"

struct board {
    struct die die;
    int32_t descriptor;                    /* the library's, both ways */
    void (*power_on)(struct board *board); /* the way to the die is there; then also descriptor */
    void (*power_off)(struct board *board);
};

/* The shape of the example: 8 MiB of flash, 2.3 MiB of disk. */
extern const struct ftl_shape life_shape;

/* Lives. Ends the program where something is not as it has to be. */
void life(struct board *board);

#endif
