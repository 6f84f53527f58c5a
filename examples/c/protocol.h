/* Checks a bus against the protocol of docs/FORMATS.md ("Bus cycles"), over the same `read` and `write` as the library, and tells the first answer that
 * differs. Put it to your own chip: it needs those two functions, memcpy's family and 4.1 KiB, and prints nothing itself.
 *
 * It erases and programs two blocks, which have to be good; what they hold is lost. A run erases the first some ten times, and the second once. Of each
 * other block it reads page 0, before and after. Choose the two so that their rows differ in the second row cycle alone (the second 256 / pages blocks
 * behind the first), and on a chip of more than 65536 rows run it again with two that differ in the third. */
#ifndef PROTOCOL_H
#define PROTOCOL_H

#include <stddef.h>
#include <stdint.h>

/* Which rules. */
enum {
    PROTOCOL_DRIVER = 1,  /* the cycles that the library sends, in the order that it sends them; each port has to pass these */
    PROTOCOL_CYCLES = 2,  /* the other cycles of the table: parts of pages, Change Column, Read ID, a Reset at any time */
    PROTOCOL_REFUSED = 4, /* what is refused, and by which number: what an honest bus owes beside, and no chip does by itself */
    PROTOCOL_UNRESET = 8, /* that nothing but Reset is taken first; the power has to have come just now */
    PROTOCOL_ALL = 15
};

struct protocol {
    int32_t input, output;                       /* handed to read and write */
    uint32_t data_bytes, spare_bytes, pages, blocks; /* of the chip */
    uint32_t block, other;                       /* two good blocks that may be lost */
    unsigned parts;                              /* of the enum above */
};

/* The first answer that differs. */
struct protocol_difference {
    const char *rule;    /* what is wrong, in words */
    const char *script;  /* the cycles of that rule, in the words that protocol.c explains */
    uint32_t page;       /* that :n stands for in it */
    char cycle[16];      /* at which of them */
    long byte;           /* which byte of data out differs; -1: the status */
    int wanted, got;     /* -1: no answer came */
};

/* How many rules were looked at before the first that differs, or all. Sets difference->rule to NULL where none does. */
unsigned protocol_check(const struct protocol *protocol, struct protocol_difference *difference);

#endif
