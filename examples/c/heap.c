/* The library's heap over malloc. It counts, and it can be told to refuse. Alignments up to 16 are asked for, which malloc keeps. */
#include "heap.h"

#include <stdlib.h>
#include <string.h>

#include "ftl.h"

enum { BESIDE = 16 }; /* before each piece: its size */

size_t heap_live, heap_most, heap_pieces, heap_pieces_most;
unsigned long heap_asked, heap_refuse_at;
static char nothing;

static struct rattle_tried refused(void)
{
    struct rattle_tried tried = {false, &nothing};

    return tried;
}

static int refuses(void)
{
    heap_asked++;
    if (heap_refuse_at > 1)
        heap_refuse_at--;
    else if (heap_refuse_at == 1)
        return 1;
    return 0;
}

static struct rattle_tried took(unsigned char *base, size_t size)
{
    struct rattle_tried tried = {true, base + BESIDE};

    memcpy(base, &size, sizeof size);
    heap_live += size;
    heap_most = heap_live > heap_most ? heap_live : heap_most;
    heap_pieces++;
    heap_pieces_most = heap_pieces > heap_pieces_most ? heap_pieces : heap_pieces_most;
    return tried;
}

static unsigned char *gave(void *p)
{
    unsigned char *base = (unsigned char *)p - BESIDE;
    size_t size;

    memcpy(&size, base, sizeof size);
    heap_live -= size;
    heap_pieces--;
    return base;
}

struct rattle_tried rattle_alloc(size_t size, size_t align)
{
    unsigned char *base = align > 16 || refuses() ? NULL : malloc(BESIDE + size);

    return base ? took(base, size) : refused();
}

struct rattle_tried rattle_realloc(void *p, size_t kept, size_t size, size_t align)
{
    unsigned char *old = (unsigned char *)p - BESIDE, *base;
    size_t was;

    (void)kept;
    memcpy(&was, old, sizeof was);
    base = align > 16 || refuses() ? NULL : realloc(old, BESIDE + size);
    if (!base)
        return refused();
    heap_live -= was;
    heap_pieces--;
    return took(base, size);
}

void rattle_dealloc(void *p)
{
    free(gave(p));
}
