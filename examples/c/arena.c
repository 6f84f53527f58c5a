/* The library's heap in memory of one's own: pieces in the order of their addresses, the first free one that fits. */
#include <stdint.h>
#include <string.h>

#include "ftl.h"
#include "heap.h"

/* Each piece begins with this, and the next piece comes behind its bytes. Sizes are multiples of 16, and so all that is handed out is aligned to 16. */
struct piece {
    size_t size; /* bytes behind this head */
    size_t asked; /* of these; 0: the piece is free */
};
enum { HEAD = 16 };

size_t heap_live, heap_most, heap_pieces, heap_pieces_most;
unsigned long heap_asked, heap_refuse_at;
static unsigned char *first, *end;
static char nothing;

static struct piece head_at(const unsigned char *at)
{
    struct piece piece;

    memcpy(&piece, at, sizeof piece);
    return piece;
}

static void put_head(unsigned char *at, size_t size, size_t asked)
{
    struct piece piece = {size, asked};

    memcpy(at, &piece, sizeof piece);
}

void heap_give(void *memory, size_t size)
{
    uintptr_t skipped = (16 - (uintptr_t)memory % 16) % 16;

    first = (unsigned char *)memory + skipped;
    end = first + (size - skipped) / 16 * 16;
    put_head(first, (size_t)(end - first) - HEAD, 0);
}

/* Free pieces behind a free one become part of it. */
static struct piece join(unsigned char *at)
{
    struct piece piece = head_at(at);

    for (unsigned char *next = at + HEAD + piece.size; next < end; next = at + HEAD + piece.size) {
        struct piece behind = head_at(next);
        if (behind.asked)
            break;
        piece.size += HEAD + behind.size;
    }
    put_head(at, piece.size, 0);
    return piece;
}

static struct rattle_tried take(unsigned char *at, struct piece piece, size_t size, size_t asked)
{
    struct rattle_tried tried = {true, at + HEAD};

    if (piece.size >= size + HEAD) {
        put_head(at + HEAD + size, piece.size - size - HEAD, 0);
        piece.size = size;
    }
    put_head(at, piece.size, asked);
    heap_live += asked;
    heap_most = heap_live > heap_most ? heap_live : heap_most;
    heap_pieces++;
    heap_pieces_most = heap_pieces > heap_pieces_most ? heap_pieces : heap_pieces_most;
    return tried;
}

struct rattle_tried rattle_alloc(size_t size, size_t align)
{
    struct rattle_tried refused = {false, &nothing};
    size_t whole;

    size += size == 0;
    whole = (size + 15) / 16 * 16;
    heap_asked++;
    if (align > 16 || whole < size)
        return refused;
    for (unsigned char *at = first; at < end;) {
        struct piece piece = head_at(at);
        if (!piece.asked && (piece = join(at)).size >= whole)
            return take(at, piece, whole, size);
        at += HEAD + piece.size;
    }
    return refused;
}

void rattle_dealloc(void *p)
{
    unsigned char *at = (unsigned char *)p - HEAD;
    struct piece piece = head_at(at);

    heap_live -= piece.asked;
    heap_pieces--;
    put_head(at, piece.size, 0);
}

struct rattle_tried rattle_realloc(void *p, size_t kept, size_t size, size_t align)
{
    struct rattle_tried tried = rattle_alloc(size, align);

    if (tried.ok) {
        memcpy(tried.p, p, kept < size ? kept : size);
        rattle_dealloc(p);
    }
    return tried;
}
