#include "answer.h"

#include <stdio.h>
#include <stdlib.h>

#include "ftl.h"

#define NAMED(it) {it, #it}

static const struct {
    uint32_t answer;
    const char *name;
} names[] = {
    NAMED(FTL_DONE), NAMED(FTL_OUT_OF_RANGE), NAMED(FTL_READ_ONLY), NAMED(FTL_SEQUENCE_SPENT), NAMED(FTL_OUT_OF_MEMORY),
    NAMED(FTL_DAMAGED), NAMED(FTL_BUS_FAULT), NAMED(FTL_NOT_STARTED), NAMED(FTL_STARTED), NAMED(FTL_WRONG_SIZE), NAMED(FTL_NULL),
    NAMED(FTL_NO_SHORTAGE), NAMED(FTL_NO_CODES), NAMED(FTL_DATA_SIZE), NAMED(FTL_SPARE_SIZE), NAMED(FTL_PAGES_PER_BLOCK), NAMED(FTL_BLOCKS),
    NAMED(FTL_SECTORS), NAMED(FTL_CACHE), NAMED(FTL_CODES), NAMED(FTL_TOO_FEW_GOOD), NAMED(FTL_WRITE_FAILED), NAMED(FTL_NOT_FRESH),
    NAMED(FTL_SEQUENCE_REPEATED), NAMED(FTL_NUMBER_RANGE), NAMED(FTL_NOT_FORMATTED), NAMED(FTL_TABLE_DAMAGED),
    NAMED(FTL_TOO_STALE), NAMED(FTL_NEXT_SEQUENCE), NAMED(FTL_GEOMETRY_DIFFERS), NAMED(FTL_NOT_NEWEST),
    NAMED(FTL_NO_SUCH_RECORD), NAMED(FTL_DIRECTORY_WRONG), NAMED(FTL_BLOCK_STATE), NAMED(FTL_BAD_SET_WRONG),
    NAMED(FTL_LIVE_WRONG), NAMED(FTL_WEAR_WRONG), NAMED(FTL_CERTIFICATE_MAGIC), NAMED(FTL_CERTIFICATE_SHORT),
    NAMED(FTL_CERTIFICATE_LONG), NAMED(FTL_CERTIFICATE_LIMIT), NAMED(FTL_CERTIFICATE_ROW_RANGE),
    NAMED(FTL_CERTIFICATE_CLASS_RANGE),
};

const char *answer_name(uint32_t answer)
{
    for (unsigned i = 0; i < sizeof names / sizeof *names; i++)
        if (names[i].answer == answer)
            return names[i].name;
    return "no answer of ftl.h";
}

void want_at(uint32_t wanted, uint32_t got, const char *call, const char *file, int line)
{
    if (got == wanted)
        return;
    printf("%s:%d: %s answers %u %s, not %u %s\n", file, line, call, got, answer_name(got), wanted, answer_name(wanted));
    exit(1);
}

void that_at(int holds, const char *what, const char *file, int line)
{
    if (holds)
        return;
    printf("%s:%d: it does not hold that %s\n", file, line, what);
    exit(1);
}
