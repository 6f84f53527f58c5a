/* A NAND die in plain C, by the cycles of ONFI 1.0 as docs/FORMATS.md has them. It stands for the chip in these examples. */
#ifndef DIE_H
#define DIE_H

#include <stddef.h>
#include <stdint.h>

/* What a cycle is answered with. */
enum { TAKEN = 0, NO_RESET, UNKNOWN_COMMAND, OUT_OF_TURN, ADDRESS_RANGE, COLUMN_RANGE, DEVICE };

/* Where the power goes in an operation: before it, with its page half done, or after it. */
enum die_cut { CUT_BEFORE, CUT_TORN, CUT_AFTER };

enum die_phase { UNRESET, READY, TAKING, CONFIRMING, LOADING };
enum die_output { NOTHING_OUT, PAGE_OUT, STATUS_OUT, IDENTITY_OUT };

struct die {
    uint32_t data, spare, pages, blocks;
    uint8_t *array;       /* blocks * pages * (data + spare) bytes: what stays without power */
    uint16_t *next;       /* by block, the page that may be programmed next */
    uint8_t *barred;      /* by block, whether it is bad or has failed */
    uint8_t *page;        /* the page register */

    enum die_phase phase;
    enum die_output output;
    uint8_t command;      /* 00h, 05h, 60h, 80h, 85h or 90h: what addresses are taken for */
    uint8_t got[5];       /* address cycles so far */
    unsigned count;
    uint32_t row, column;
    uint8_t identity[4];
    unsigned identity_bytes, identity_out;
    uint8_t status;
    int off;              /* the power is gone */

    /* what is to go wrong, counted from when it is set; 0: nothing */
    long cut_in;          /* the power goes in the nth program or erase */
    enum die_cut cut;
    long fail_in;         /* the nth program or erase fails, and its block is barred */
    long flip_in;         /* the nth data out of a page has one bit turned */
    long twice_in;        /* the nth data out of a page has two bits turned in its first 32 bytes: more than the codes of a page turn back */
    int noisy;            /* each data out has a bit turned in each 256 bytes of the data area, and one in the first 32 of the spare area */
    uint32_t noise;

    unsigned long programs, erases, illegal, reads; /* asked for so far */
};

/* A new die, all FFh. -1 where there is no memory. */
int die_make(struct die *die, uint32_t data, uint32_t spare, uint32_t pages, uint32_t blocks);
void die_free(struct die *die);
/* A factory's mark: 00h in the first spare byte of the block's first page. */
void die_mark(struct die *die, uint32_t block);
/* Power comes back. What was to go wrong is forgotten; blocks that failed stay so. */
void die_power(struct die *die);

/* The four cycles. Each answers TAKEN or a refusal. */
uint8_t die_command(struct die *die, uint8_t code);
uint8_t die_address(struct die *die, uint8_t byte);
uint8_t die_data_in(struct die *die, const uint8_t *bytes, size_t count);
uint8_t die_data_out(struct die *die, uint8_t *bytes, size_t count);

#endif
