/* A short script over a small die, for tests that put something wrong at each frame of it. */
#ifndef SCRIPT_H
#define SCRIPT_H

#include "world.h"

extern const struct ftl_shape script_shape;
enum { SCRIPT_CALLS = 30 };

/* A die made ready, with some sectors written and flushed, and the list of them. */
void script_prepare(struct die *die, struct list *list);
/* The nth call of the script, of a device that is started. It sets `sector` to the sector that it changes; else to none, FFFFFFFFh. */
uint32_t script_call(unsigned nth, struct list *list, ftl_disk *disk, uint32_t *sector);

#endif
