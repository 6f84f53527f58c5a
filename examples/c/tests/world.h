/* What the tests share: a die, a port that can go wrong at any frame, a disk, and a plain list of what its sectors have. */
#ifndef WORLD_H
#define WORLD_H

#include "../answer.h"
#include "../die.h"
#include "../frames.h"
#include "../heap.h"
#include "ftl.h"

enum { PORT = 1000, SECTORS_MOST = 512, BYTES_MOST = 4096 };

/* What happens at the frame `port.at`, counted from port_fresh, and at each one after it where it says so. */
enum wrong {
    NOTHING_WRONG,
    GONE_BEFORE,   /* no power: the cycle is not done, and this call and each later one fails */
    GONE_AFTER,    /* no power: the cycle is done, and its answer is lost */
    STATUS_IS,     /* the status is port.byte */
    BYTE_TURNED,   /* one byte of the answer is combined with port.byte */
    DATA_TURNED,   /* the same, of the bytes that come out of a page; of other answers nothing is wrong */
    ANSWER_SHORT,  /* the answer ends one byte too early, and the link with it */
    ANSWER_NONE,   /* read answers 0 */
    READ_FAILS,    /* read answers -1 */
    WRITE_NONE,    /* write answers 0 */
    WRONG_LAST
};

struct port {
    struct cycles cycles;
    struct frames frames;
    enum wrong wrong;
    unsigned long at;
    uint8_t byte;
    unsigned long done; /* frames so far */
    unsigned long most; /* a frame past so many is answered by a failed link; 0: no bound */
    int gone;
    int pieces;         /* reads and writes move at most so many bytes; 0: all */
};
extern struct port port;

/* All is well with the port, and no frame has gone over it. */
void port_fresh(struct die *die);
/* Something is to go wrong at the nth frame from now. */
void port_wrong(enum wrong wrong, unsigned long at, uint8_t byte);

/* Numbers that are always the same. */
extern uint32_t seed;
uint32_t any(uint32_t below);

/* A copy of a die's pages and turns, to go back to. */
struct picture {
    uint8_t *array;
    uint16_t *next;
    uint8_t *barred;
};
void picture_take(struct picture *picture, const struct die *die);
void picture_put(const struct picture *picture, struct die *die);
void picture_free(struct picture *picture);

/* What the sectors have: by sector the number of the write; 0: zeros. */
struct list {
    uint32_t sectors, bytes;
    uint32_t version[SECTORS_MOST];
    uint32_t next; /* no write has had this number */
    uint8_t data[BYTES_MOST], seen[BYTES_MOST];
};
void list_begin(struct list *list, const struct ftl_shape *shape);
/* What a write of this number puts into a sector, in list->data. */
void list_fill(struct list *list, uint32_t sector, uint32_t version);
/* Writes the sector anew, or trims it; the list has it where it is done. */
uint32_t list_write(struct list *list, ftl_disk *disk, uint32_t sector);
uint32_t list_trim(struct list *list, ftl_disk *disk, uint32_t sector);
/* Reads a sector. A read that is done has to be as the list says. */
uint32_t list_read(struct list *list, ftl_disk *disk, uint32_t sector);
/* Each sector is read, and done. */
void list_all(struct list *list, ftl_disk *disk);

#endif
