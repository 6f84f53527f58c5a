/* A heap of the library's, over malloc or over memory of one's own. */
#ifndef HEAP_H
#define HEAP_H

#include <stddef.h>

extern size_t heap_live, heap_most;   /* bytes that are out, and the most that were */
extern size_t heap_pieces, heap_pieces_most;
extern unsigned long heap_asked;      /* how often memory was asked for */
extern unsigned long heap_refuse_at;  /* this one of the times from now on, and each later one, is refused; 0: none */

/* Over memory of one's own alone: where it is, and how much. */
void heap_give(void *memory, size_t size);

#endif
