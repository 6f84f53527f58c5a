/* A proved flash translation layer over one raw NAND die, for callers in C. C99, and C++.
 *
 * Link libftl.a (`make install` calls it so; `rt lib` builds it as libftl_c.a), and define what it asks for:
 *   read, write                POSIX's, blocking; on bare metal your own. They carry frames to the die and answers back: see "Frames of a bus" in
 *                              docs/FORMATS.md. These two are your port.
 *   rattle_alloc, rattle_realloc, rattle_dealloc    the heap, at the end of this file: over malloc, or over an arena of your own.
 *   memcpy, memmove, memset, memcmp    the compiler's family.
 * Nothing else is asked for. The library has no static data, starts no thread, and never aborts or exits.
 *
 * Calls. Each answers one of the numbers below, FTL_DONE where it did what it is for. Where it answers another one, what it was to set
 * stays as it was, unless its text says otherwise. A pointer that is NULL is answered FTL_NULL before anything is done. Any other pointer has
 * to be one to what it says, aligned for it; `disk` has to be a disk that ftl_open or ftl_open_at set and that was not closed. Nothing can look at that.
 *
 * One call at a time on a handle; two handles know nothing of each other. A handle may go from one thread to another between calls. No call from a
 * signal handler or an interrupt. A read or write that a signal interrupts counts as a failed link: block signals, or set SA_RESTART.
 *
 * Units: sizes are bytes unless they say otherwise, sectors and blocks are counted from 0.
 *
 * The frames. Each bus cycle is one frame, and one frame is out at a time: the library writes all of it to `output`, then reads its answer from `input`.
 *
 *   out    byte 0      'C' (43h) a command, 'A' (41h) an address byte, 'I' (49h) data into the die, 'O' (4Fh) data out of it
 *          byte 1      the command or the address byte; 00h of 'I' and 'O'
 *          bytes 2-9   count: how many bytes are moved, least significant byte first; 0 of 'C' and 'A'
 *          then        of 'I' alone: count bytes for the die
 *   back   byte 0      the status: 0 done, 1 NoReset, 2 UnknownCommand, 3 OutOfTurn, 4 AddressRange, 5 ColumnRange, each other one: the die failed
 *          then        of 'O' with status 0 alone: count bytes from the die
 *
 * A frame or an answer may go in several calls of write and read, and a call may move a part of what it was asked for, as POSIX has it; what is
 * written of a frame before its last byte has no answer. A call that answers -1, or a read or write that answers 0, is a failed link. A port answers
 * the commands 30h, 10h, D0h and FFh once the die is ready, and with 6 where it waits in vain. The cycles are those of ONFI 1.0: see "Bus cycles"
 * in docs/FORMATS.md for the commands that a die is given and for the refusals 1 to 5, which a port need not tell from 6.
 */
#ifndef FTL_H
#define FTL_H

#include <stdbool.h>
#include <stddef.h>
#include <stdint.h>

#ifdef __cplusplus
extern "C" {
#endif

/* The version of this header: major * 65536 + minor * 256 + patch. A program is held against its library by ftl_version() == FTL_VERSION. */
#define FTL_VERSION 0x000100u

/* What calls answer. */
enum ftl_answer {
    FTL_DONE = 0,

    /* of a device that is started */
    FTL_OUT_OF_RANGE = 1,    /* there is no such sector; nothing was done */
    FTL_READ_ONLY = 2,       /* too few blocks are free to change a sector (ftl_get_shortage has the counts); reads go on */
    FTL_SEQUENCE_SPENT = 3,  /* the last of 2^64 - 1 sequence numbers is given out; reads go on */
    FTL_OUT_OF_MEMORY = 4,   /* the heap refused; no sector is changed, and the call may be made again */
    FTL_DAMAGED = 5,         /* a page is not what it should be; but after a read the device is stopped: ftl_stop, then ftl_start */
    FTL_BUS_FAULT = 6,       /* the die or the way to it failed; the device is stopped, or was not started */

    /* of any call */
    FTL_NOT_STARTED = 16,    /* no device: before ftl_start or after ftl_stop; nothing was done */
    FTL_STARTED = 17,        /* there is a device, and the call is for a disk without one; nothing was done */
    FTL_WRONG_SIZE = 18,     /* the bytes are not as many as they have to be; nothing was done */
    FTL_NULL = 19,           /* a pointer is NULL; nothing was done */
    FTL_NO_SHORTAGE = 20,    /* ftl_get_shortage: the last call was not answered FTL_READ_ONLY */
    FTL_NO_CODES = 21,       /* ftl_get_errors: the pages have no codes */

    /* of a shape: the first limit that it breaks */
    FTL_DATA_SIZE = 32,      /* data_bytes is no power of two from 64 to 4096 */
    FTL_SPARE_SIZE = 33,     /* spare_bytes is not from 32 to 256 */
    FTL_PAGES_PER_BLOCK = 34,/* pages is no power of two from 4 to 256 */
    FTL_BLOCKS = 35,         /* blocks is not from 12 to 4096, or above data_bytes / 4 * pages */
    FTL_SECTORS = 36,        /* sectors is not from 1 to 1048576 */
    FTL_CACHE = 37,          /* cache is not from 1 to 65536 */
    FTL_CODES = 38,          /* codes is neither 0 nor 1; or the spare area has no room for codes: with them it would be above 256 */

    /* of ftl_format */
    FTL_TOO_FEW_GOOD = 48,   /* fewer blocks are good than the shape needs: as the pages were read, and nothing was written; or once a program failed */
    FTL_WRITE_FAILED = 49,   /* three programs failed */
    FTL_NOT_FRESH = 50,      /* a page holds something already; nothing was written */

    /* of a start, and of ftl_certify: what the die holds has no device */
    FTL_SEQUENCE_REPEATED = 64, /* two sound pages have one sequence number */
    FTL_NUMBER_RANGE = 65,   /* a sound page is of a sector or table that this shape has not */
    FTL_NOT_FORMATTED = 66,  /* a table page is missing: ftl_format was not done, or not to its end */
    FTL_TABLE_DAMAGED = 67,  /* a table page has bytes that no table has */
    FTL_TOO_STALE = 68,      /* more sectors are stale than a cache can have; of ftl_certify: than the disk's cache has */
    FTL_NEXT_SEQUENCE = 69,  /* a sound page has the last sequence number; of a certificate: its next one is too low */

    /* of ftl_start_certified: the first thing that the certificate says otherwise than the die */
    FTL_GEOMETRY_DIFFERS = 70, /* the certificate is of another shape; the die was not read */
    FTL_NOT_NEWEST = 71,     /* the row of a sector is not that of its newest page */
    FTL_NO_SUCH_RECORD = 72, /* at the row of a sector stands no page of it */
    FTL_DIRECTORY_WRONG = 73,/* the row of a translation page or table page */
    FTL_BLOCK_STATE = 74,    /* the class or the write pointer of a block */
    FTL_BAD_SET_WRONG = 75,  /* which blocks are bad */
    FTL_LIVE_WRONG = 76,     /* how many pages of a block are newest */
    FTL_WEAR_WRONG = 77,     /* the erase count of a block */

    /* of ftl_start_certified: the bytes are no certificate; the die was not read */
    FTL_CERTIFICATE_MAGIC = 80,       /* they don't begin with DFTLCRT1 */
    FTL_CERTIFICATE_SHORT = 81,       /* they end before what their head promises */
    FTL_CERTIFICATE_LONG = 82,        /* bytes follow what their head promises */
    FTL_CERTIFICATE_LIMIT = 83,       /* the head's numbers are no shape */
    FTL_CERTIFICATE_ROW_RANGE = 84,   /* a row past the die */
    FTL_CERTIFICATE_CLASS_RANGE = 85  /* a block of no class */
};

/* What a disk is made for. */
struct ftl_shape {
    uint32_t data_bytes;  /* of a page: a power of two from 64 to 4096, and the bytes of a sector */
    uint32_t spare_bytes; /* of a page: 32 to 256 */
    uint32_t pages;       /* of a block: a power of two from 4 to 256 */
    uint32_t blocks;      /* of the die: 12 to 4096, at most data_bytes / 4 * pages */
    uint32_t sectors;     /* that the disk has: 1 to 1048576; ftl_format says whether the good blocks are enough for them */
    uint32_t cache;       /* entries of the mapping that are kept in memory: 1 to 65536 */
    uint32_t codes;       /* 0: pages read back as they were programmed. 1: reads of the chip have wrong bits, and each page stands there with codes, by which
                           * one wrong bit in each 256 bytes is turned back. spare_bytes is what the codes leave of the chip's spare area: of 2048+64
                           * bytes they take 27, so spare_bytes is 37 (chip_spare_bytes of ftl_measure is 64 then) */
};

/* What follows from a shape. */
struct ftl_sizes {
    uint32_t sector_bytes;      /* what ftl_read and ftl_write move at a time */
    uint32_t sectors;
    uint32_t need;              /* with fewer good blocks ftl_format refuses, and the disk may become read-only */
    uint32_t certificate_bytes; /* what ftl_certify writes and ftl_start_certified takes */
    uint32_t memory_bytes;      /* never more are asked of the heap and not given back, over the whole life of a disk. But the session before
                                 * may have had a larger cache, and been stopped with no flush: then ftl_start takes the larger cache once, and more
                                 * than this. Flush before such a stop, or open the disk with the larger cache once more */
    uint32_t memory_blocks;     /* in never more pieces than so: a heap that keeps h bytes beside each needs memory_blocks * h more */
    uint32_t chip_spare_bytes;  /* what a page has beside its data on the chip: spare_bytes, and the codes where there are codes */
};

/* How a device stands. */
struct ftl_state {
    uint32_t free_blocks; /* good, with all pages erased */
    uint32_t good_blocks;
    uint32_t bad_blocks;  /* from the factory, or failed since */
    uint32_t most_erases; /* of a block, as far as they are counted: at most 16777215 */
    uint32_t read_only;   /* 1 where no sector is changed any more until the next start, else 0 */
    uint32_t stopped;     /* FTL_DAMAGED or FTL_BUS_FAULT where the device was stopped by it, and answers it to each call; else 0 */
};

/* Why a change was answered FTL_READ_ONLY. */
struct ftl_shortage {
    uint32_t good;   /* blocks that were good after the call */
    uint32_t need;   /* blocks that the shape needs */
    uint32_t failed; /* blocks that failed in the call */
};

/* What was wrong with the reads of a chip whose pages have codes, since the device was started; the start's own reads are counted too. */
struct ftl_errors {
    uint64_t turned;            /* wrong bits that were turned back */
    uint64_t lost;              /* reads that gave a page which is neither erased nor sound, as one that was torn, or has more wrong bits than the codes find */
    uint64_t most_turned;       /* wrong bits of the block that has the most */
    uint64_t most_lost;         /* lost pages of the block that has the most */
    uint32_t most_turned_block; /* that block, the first of several; 0 where no bit was wrong */
    uint32_t most_lost_block;   /* that block, the first of several; 0 where no page was lost */
};

/* All that a disk tells of itself, of one moment. Where it has no device, or there is no shortage, or no codes, all that is of that is 0. */
struct ftl_view {
    struct ftl_errors errors;
    struct ftl_shape shape;   /* what it was opened with */
    uint32_t is_started;      /* 1 where it has a device, else 0 */
    struct ftl_state state;
    uint32_t is_short;        /* 1 where the last call that the device was told was answered FTL_READ_ONLY, else 0 */
    struct ftl_shortage shortage;
};

/* A disk: a shape, the way to a die, and the device while it is started. */
typedef struct ftl_disk ftl_disk;

/* What the library itself exports. A program calls the functions below these, which look for NULL first: an entry takes it for granted that no
 * pointer is NULL, and that a disk lies at a handle. */
struct ftl_handle { ftl_disk *at; };
size_t ftl_entry_room(void);
uint32_t ftl_entry_open(const struct ftl_shape *shape, int32_t input, int32_t output, struct ftl_handle *room);
uint32_t ftl_entry_measure(const struct ftl_shape *shape, struct ftl_sizes *sizes);
uint32_t ftl_entry_format(struct ftl_handle *handle);
uint32_t ftl_entry_start(struct ftl_handle *handle);
uint32_t ftl_entry_start_certified(struct ftl_handle *handle, const uint8_t *certificate, size_t size);
uint32_t ftl_entry_certify(struct ftl_handle *handle, uint8_t *certificate, size_t size);
uint32_t ftl_entry_stop(struct ftl_handle *handle);
uint32_t ftl_entry_read(struct ftl_handle *handle, uint32_t sector, uint8_t *data, size_t size);
uint32_t ftl_entry_write(struct ftl_handle *handle, uint32_t sector, const uint8_t *data, size_t size);
uint32_t ftl_entry_trim(struct ftl_handle *handle, uint32_t sector);
uint32_t ftl_entry_flush(struct ftl_handle *handle);
uint32_t ftl_entry_turn(struct ftl_handle *handle);
uint32_t ftl_entry_look(struct ftl_handle *handle, struct ftl_view *view);
uint32_t ftl_entry_version(void);

/* The heap, which you define. Alignments are powers of two, up to 16. For a size of 0 any pointer but NULL will do. Where there is no memory `ok` is false,
 * `p` is any pointer but NULL, and what was there stays: the call that asked answers FTL_OUT_OF_MEMORY. */
struct rattle_tried { bool ok; void *p; };
struct rattle_tried rattle_alloc(size_t size, size_t align);
/* As realloc: the first `kept` bytes stay. */
struct rattle_tried rattle_realloc(void *p, size_t kept, size_t size, size_t align);
void rattle_dealloc(void *p);

/* FTL_VERSION of the library that is linked. */
static inline uint32_t ftl_version(void) { return ftl_entry_version(); }

/* The bytes of a disk without its device: what ftl_open takes of the heap, or ftl_open_at of yours. */
static inline size_t ftl_room(void) { return ftl_entry_room(); }

/* Makes a disk of this shape in memory of yours, with no device yet, and sets `*disk` to it: `room` has to be ftl_room() bytes that begin at a multiple of 16. They are
 * yours again after ftl_stop. Nothing is asked of the die, and nothing of the heap. `input` and `output` are handed to read and write as their descriptors: frames
 * are written to `output`, answers are read from `input`; they may be one. Errors: of a shape. `*disk` is NULL
 * after any answer but FTL_DONE, so a call with it is answered FTL_NULL. */
static inline uint32_t ftl_open_at(const struct ftl_shape *shape, int32_t input, int32_t output, void *room, ftl_disk **disk) {
    struct ftl_handle handle;
    uint32_t answer;
    if (disk == NULL) return FTL_NULL;
    *disk = NULL;
    if (shape == NULL || room == NULL) return FTL_NULL;
    handle.at = (ftl_disk *)room;
    answer = ftl_entry_open(shape, input, output, &handle);
    if (answer == FTL_DONE) *disk = handle.at;
    return answer;
}

/* As ftl_open_at, in one piece of the heap, which is taken until ftl_close. Errors: of a shape; FTL_OUT_OF_MEMORY. `*disk` is as after that. */
static inline uint32_t ftl_open(const struct ftl_shape *shape, int32_t input, int32_t output, ftl_disk **disk) {
    struct rattle_tried room;
    uint32_t answer;
    if (disk == NULL) return FTL_NULL;
    *disk = NULL;
    if (shape == NULL) return FTL_NULL;
    room = rattle_alloc(ftl_entry_room(), 16);
    if (!room.ok) return FTL_OUT_OF_MEMORY;
    answer = ftl_open_at(shape, input, output, room.p, disk);
    if (answer != FTL_DONE) rattle_dealloc(room.p);
    return answer;
}

/* Sets `*sizes` to what follows from a shape: how much memory, above all. No disk is needed. Errors: of a shape. */
static inline uint32_t ftl_measure(const struct ftl_shape *shape, struct ftl_sizes *sizes) {
    return shape == NULL || sizes == NULL ? (uint32_t)FTL_NULL : ftl_entry_measure(shape, sizes);
}

/* Sets `*view` to all that the disk tells of itself, of one moment, started or not. Nothing is asked of the die. No other error than FTL_NULL. */
static inline uint32_t ftl_look(ftl_disk *disk, struct ftl_view *view) {
    struct ftl_handle handle;
    handle.at = disk;
    return disk == NULL || view == NULL ? (uint32_t)FTL_NULL : ftl_entry_look(&handle, view);
}

/* Sets `*sizes` to what follows from the shape that the disk was opened with, started or not. No other error than FTL_NULL. */
static inline uint32_t ftl_get_sizes(ftl_disk *disk, struct ftl_sizes *sizes) {
    struct ftl_view view;
    if (disk == NULL || sizes == NULL) return FTL_NULL;
    (void)ftl_look(disk, &view);
    return ftl_entry_measure(&view.shape, sizes);
}

/* Makes a fresh die ready, once in its life: it is reset, each page is read, bad blocks are found, and their table is written. The disk is not started
 * by it. All its memory is given back, and nothing is erased. Errors: FTL_STARTED; of ftl_format; FTL_OUT_OF_MEMORY: nothing was written; FTL_BUS_FAULT. After the last, after
 * FTL_WRITE_FAILED, and after FTL_TOO_FEW_GOOD where a program failed, pages may be written, and a next ftl_format may be answered FTL_NOT_FRESH. */
static inline uint32_t ftl_format(ftl_disk *disk) {
    struct ftl_handle handle;
    handle.at = disk;
    return disk == NULL ? (uint32_t)FTL_NULL : ftl_entry_format(&handle);
}

/* Power comes: the die is reset, each page is read, and the device is started with the array of sectors that the die holds. Where power went with more
 * sectors unflushed than the cache has entries, it starts with a larger cache first, up to 65536 entries, flushes, and begins anew; a device that takes no
 * change any more keeps the larger one. Errors: FTL_STARTED; of a start; FTL_OUT_OF_MEMORY; FTL_BUS_FAULT; where it had to flush, FTL_DAMAGED. After FTL_STARTED the device
 * goes on; after each other one the disk has none, its memory is given back, and the die holds the array that it held, but for FTL_BUS_FAULT and FTL_DAMAGED: then what it holds is told by the next start. */
static inline uint32_t ftl_start(ftl_disk *disk) {
    struct ftl_handle handle;
    handle.at = disk;
    return disk == NULL ? (uint32_t)FTL_NULL : ftl_entry_start(&handle);
}

/* As ftl_start, and the die has to hold just what this certificate says, `size` bytes that ftl_certify wrote: so what another wrote to the die between
 * is seen. Each page is read for that too; a start that reads less could promise less. It flushes nothing.
 * Errors: FTL_STARTED; FTL_WRONG_SIZE; of ftl_start_certified; of a start; FTL_OUT_OF_MEMORY; FTL_BUS_FAULT. After FTL_STARTED the device
 * goes on; after each other one the disk has none, and the die was asked for a Reset and reads alone, or for nothing. */
static inline uint32_t ftl_start_certified(ftl_disk *disk, const uint8_t *certificate, size_t size) {
    struct ftl_handle handle;
    handle.at = disk;
    return disk == NULL || certificate == NULL ? (uint32_t)FTL_NULL : ftl_entry_start_certified(&handle, certificate, size);
}

/* Writes the certificate of what the die holds, for the cache of the disk, to `certificate`: `size` has to be certificate_bytes. The die is reset, and each page is
 * read. Take it after ftl_flush and ftl_stop. Any write, trim, flush or turn after it makes it out of date.
 * Errors: FTL_STARTED; FTL_WRONG_SIZE; of a start; FTL_OUT_OF_MEMORY; FTL_BUS_FAULT. `certificate` is as it was after each. */
static inline uint32_t ftl_certify(ftl_disk *disk, uint8_t *certificate, size_t size) {
    struct ftl_handle handle;
    handle.at = disk;
    return disk == NULL || certificate == NULL ? (uint32_t)FTL_NULL : ftl_entry_certify(&handle, certificate, size);
}

/* Power goes: the device is given up with all its memory, and nothing is written. What was answered FTL_DONE lasts all the same; a flush before it keeps
 * the next start short. Of a disk with no device nothing is done. No other error than FTL_NULL. */
static inline uint32_t ftl_stop(ftl_disk *disk) {
    struct ftl_handle handle;
    handle.at = disk;
    return disk == NULL ? (uint32_t)FTL_NULL : ftl_entry_stop(&handle);
}

/* Stops a disk that ftl_open made and gives it back to the heap: it is none any more. NULL is done at once. A disk of ftl_open_at is done with after ftl_stop. */
static inline void ftl_close(ftl_disk *disk) {
    if (disk != NULL) {
        (void)ftl_stop(disk);
        rattle_dealloc(disk);
    }
}

/* Reads a sector into `data`: `size` has to be sector_bytes. A sector that was never written, or was trimmed, has 00h bytes. Nothing is programmed or erased.
 * Errors: FTL_NOT_STARTED; FTL_WRONG_SIZE; FTL_OUT_OF_RANGE; FTL_DAMAGED, which doesn't stop the device; FTL_BUS_FAULT, which does. `data` is as it
 * was after each. */
static inline uint32_t ftl_read(ftl_disk *disk, uint32_t sector, uint8_t *data, size_t size) {
    struct ftl_handle handle;
    handle.at = disk;
    return disk == NULL || data == NULL ? (uint32_t)FTL_NULL : ftl_entry_read(&handle, sector, data, size);
}

/* Writes a sector: `size` has to be sector_bytes. Once it is answered FTL_DONE it lasts, with no flush.
 * Errors: FTL_NOT_STARTED; FTL_WRONG_SIZE; FTL_OUT_OF_RANGE; FTL_READ_ONLY; FTL_SEQUENCE_SPENT; FTL_OUT_OF_MEMORY: the sector has its old bytes after each of these.
 * FTL_DAMAGED, FTL_BUS_FAULT: the device is stopped, and what the die holds of the sector is told by the next start. */
static inline uint32_t ftl_write(ftl_disk *disk, uint32_t sector, const uint8_t *data, size_t size) {
    struct ftl_handle handle;
    handle.at = disk;
    return disk == NULL || data == NULL ? (uint32_t)FTL_NULL : ftl_entry_write(&handle, sector, data, size);
}

/* Trims a sector, which then reads as 00h bytes. Errors: as ftl_write, but FTL_WRONG_SIZE. */
static inline uint32_t ftl_trim(ftl_disk *disk, uint32_t sector) {
    struct ftl_handle handle;
    handle.at = disk;
    return disk == NULL ? (uint32_t)FTL_NULL : ftl_entry_trim(&handle, sector);
}

/* Writes to the die what is known in memory alone, so that the next start is short. No sector changes, and none needs it to last.
 * Errors: FTL_NOT_STARTED; FTL_READ_ONLY; FTL_SEQUENCE_SPENT; FTL_DAMAGED and FTL_BUS_FAULT, which stop the device. */
static inline uint32_t ftl_flush(ftl_disk *disk) {
    struct ftl_handle handle;
    handle.at = disk;
    return disk == NULL ? (uint32_t)FTL_NULL : ftl_entry_flush(&handle);
}

/* An idle moment: pages are moved out of failed blocks, or a collection goes a step on, or nothing is done. No sector changes. Errors: as ftl_flush. */
static inline uint32_t ftl_turn(ftl_disk *disk) {
    struct ftl_handle handle;
    handle.at = disk;
    return disk == NULL ? (uint32_t)FTL_NULL : ftl_entry_turn(&handle);
}

/* Sets `*state` to how the device stands. Nothing is asked of the die. Errors: FTL_NOT_STARTED. */
static inline uint32_t ftl_get_state(ftl_disk *disk, struct ftl_state *state) {
    struct ftl_view view;
    if (disk == NULL || state == NULL) return FTL_NULL;
    (void)ftl_look(disk, &view);
    if (!view.is_started) return FTL_NOT_STARTED;
    *state = view.state;
    return FTL_DONE;
}

/* Sets `*shortage` to the counts of the last ftl_read, ftl_write, ftl_trim, ftl_flush or ftl_turn that the device was told, where that was answered FTL_READ_ONLY.
 * Nothing is asked of the die. Errors: FTL_NOT_STARTED; FTL_NO_SHORTAGE. */
static inline uint32_t ftl_get_shortage(ftl_disk *disk, struct ftl_shortage *shortage) {
    struct ftl_view view;
    if (disk == NULL || shortage == NULL) return FTL_NULL;
    (void)ftl_look(disk, &view);
    if (!view.is_started) return FTL_NOT_STARTED;
    if (!view.is_short) return FTL_NO_SHORTAGE;
    *shortage = view.shortage;
    return FTL_DONE;
}

/* Sets `*errors` to what was wrong with the reads of the chip since the device was started. A block of which many bits are wrong wears out. Nothing is asked of
 * the die. Errors: FTL_NOT_STARTED; FTL_NO_CODES. */
static inline uint32_t ftl_get_errors(ftl_disk *disk, struct ftl_errors *errors) {
    struct ftl_view view;
    if (disk == NULL || errors == NULL) return FTL_NULL;
    (void)ftl_look(disk, &view);
    if (!view.is_started) return FTL_NOT_STARTED;
    if (!view.shape.codes) return FTL_NO_CODES;
    *errors = view.errors;
    return FTL_DONE;
}

#ifdef __cplusplus
}
#endif
#endif
