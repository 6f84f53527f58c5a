/* Dies that are wrong on purpose, each in one rule: what protocol.c has to find. */
#ifndef WRONG_DIE_H
#define WRONG_DIE_H

#include "die.h"
#include "frames.h"

struct wrong_die {
    const char *what; /* is wrong */
    const char *rule; /* that protocol.c has to name */
};

extern const struct wrong_die wrong_dies[];
extern const unsigned wrong_die_count;

/* The cycles of a die that is wrong in this way. */
struct cycles cycles_of_wrong(struct die *die, unsigned nth);

#endif
