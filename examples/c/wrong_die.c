#include "wrong_die.h"

#include <string.h>

enum wrong {
    RESET_REFUSED, ERASE_FAILS, ERASE_KEEPS_LAST_PAGE, ERASE_TAKES_NEXT_BLOCK, PROGRAM_SAYS_FAILED, PROGRAM_NOT_READY, PROGRAM_DROPS_LAST_BYTE,
    PROGRAM_TOUCHES_NEXT_PAGE, PROGRAM_MIRRORED, BIT_STUCK, READ_SHIFTED, READ_WEARS, RESET_LOSES_PAGE, ROW_CYCLES_TURNED, ROW_HIGH_IGNORED,
    STATUS_HAS_MORE, STATUS_ONCE, READ_CHANGES_STATUS, ERASE_WANTS_PAGE_0, UNSENT_IS_ZERO, EMPTY_PROGRAM_FAILS, PROGRAM_COLUMN_IGNORED,
    DATA_IN_FROM_0, WRITE_COLUMN_CLEARS, READ_COLUMN_IGNORED, DATA_OUT_FROM_0, CHANGE_COLUMN_IGNORED, WRONG_IDENTITY, RESET_KEEPS_PROGRAM,
    RESET_KEEPS_ERASE, RESET_KEEPS_ADDRESSES, MAKER_AT_00, IDENTITY_ANYWHERE, IDENTITY_ENDLESS, COLUMN_WRAPS, ROW_WRAPS, DATA_IN_CUT, DATA_OUT_CUT,
    REFUSAL_KEEPS_COMMAND, CHANGE_COLUMN_AFTER_STATUS, ORDER_IGNORED, PROGRAMMED_TWICE, FAILURE_OUTLIVES_RESET, UNKNOWN_TAKEN, UNKNOWN_OUT_OF_TURN,
    CONFIRM_TAKEN_EARLY, STATUS_WHILE_LOADING, DATA_OUT_IDLE, ADDRESS_IDLE, UNRESET_STATUS, WRONGS
};

const struct wrong_die wrong_dies[] = {
    [RESET_REFUSED] = {"a second Reset is refused", "Reset is taken"},
    [ERASE_FAILS] = {"an erase that passed says that it failed", "an erase ends with the status that it passed"},
    [ERASE_KEEPS_LAST_PAGE] = {"an erase leaves the last page of its block", "an erase makes each page of a full block FFh"},
    [ERASE_TAKES_NEXT_BLOCK] = {"an erase takes page 0 of the next block too", "no other block is changed"},
    [PROGRAM_SAYS_FAILED] = {"a program that passed says that it failed", "a program ends with the status that it passed"},
    [PROGRAM_NOT_READY] = {"the status after a program is that of a busy chip", "a program ends with the status that it passed"},
    [PROGRAM_DROPS_LAST_BYTE] = {"the last byte of a page is not programmed", "a page reads as it was programmed"},
    [PROGRAM_TOUCHES_NEXT_PAGE] = {"a program clears a bit of the next page", "a program changes no other page of its block"},
    [PROGRAM_MIRRORED] = {"a byte's bits come out in the other order", "a page reads as it was programmed"},
    [BIT_STUCK] = {"bit 7 of column 3 of page 3 reads 0", "every bit can be 0 and can be 1"},
    [READ_SHIFTED] = {"a read begins one byte too late", "each page of an erased block reads as FFh"},
    [READ_WEARS] = {"a second read of a page has a bit turned", "a page reads so again"},
    [RESET_LOSES_PAGE] = {"a Reset undoes the last program", "what is programmed stays over a Reset"},
    [ROW_CYCLES_TURNED] = {"the row's cycles are taken in the other order", "page 0 of each block is read"},
    [ROW_HIGH_IGNORED] = {"the row's second cycle is ignored", "an erase changes no other block"},
    [STATUS_HAS_MORE] = {"the status has bit 2 set", "the status byte is E0h after success, with no other bit"},
    [STATUS_ONCE] = {"a second data out of the status is 00h", "the status is put out as often as it is asked for"},
    [READ_CHANGES_STATUS] = {"a read sets FAIL", "a read leaves the status"},
    [ERASE_WANTS_PAGE_0] = {"an erase of another page than 0 fails", "an erase takes any page of its block"},
    [UNSENT_IS_ZERO] = {"what is not sent of a page is 00h", "what is not sent of a page stays FFh"},
    [EMPTY_PROGRAM_FAILS] = {"a program with no data fails", "a program may send nothing"},
    [PROGRAM_COLUMN_IGNORED] = {"a program begins at column 0", "a program begins at its column"},
    [DATA_IN_FROM_0] = {"each data in begins at column 0", "a page reads as it was programmed"},
    [WRITE_COLUMN_CLEARS] = {"85h clears the page register", "85h moves to a column, and what came in stays"},
    [READ_COLUMN_IGNORED] = {"a read begins at column 0", "a read begins at its column"},
    [DATA_OUT_FROM_0] = {"each data out begins at column 0", "a page reads as it was programmed"},
    [CHANGE_COLUMN_IGNORED] = {"05h leaves the column", "05h and E0h move to a column"},
    [WRONG_IDENTITY] = {"Read ID gives JEDEC's letters", "Read ID at 20h gives ONFI"},
    [RESET_KEEPS_PROGRAM] = {"a Reset does an unfinished program", "Reset gives up an unfinished program"},
    [RESET_KEEPS_ERASE] = {"a Reset does an unfinished erase", "Reset gives up an unfinished erase"},
    [RESET_KEEPS_ADDRESSES] = {"a Reset leaves the address cycles", "Reset gives up unfinished addresses"},
    [MAKER_AT_00] = {"Read ID at 00h gives a maker's number", "Read ID at 00h gives 00 00"},
    [IDENTITY_ANYWHERE] = {"Read ID takes any address", "Read ID has two addresses"},
    [IDENTITY_ENDLESS] = {"an identity goes on with 00h", "an identity has no more bytes"},
    [COLUMN_WRAPS] = {"a column past the page is taken", "a column is in the page"},
    [ROW_WRAPS] = {"a row past the die is taken", "a row is in the die"},
    [DATA_IN_CUT] = {"data past the page is dropped", "data in ends with the page, and else nothing is moved"},
    [DATA_OUT_CUT] = {"data out past the page gives FFh", "data out ends with the page"},
    [REFUSAL_KEEPS_COMMAND] = {"after a refusal the program can still be confirmed", "data in ends with the page, and else nothing is moved"},
    [CHANGE_COLUMN_AFTER_STATUS] = {"05h is taken after 70h", "05h needs a page that is put out"},
    [ORDER_IGNORED] = {"a page out of its order is programmed", "a page out of its order is not programmed"},
    [PROGRAMMED_TWICE] = {"a page is programmed twice", "a page is not programmed twice"},
    [FAILURE_OUTLIVES_RESET] = {"FAIL stays over a Reset", "a Reset ends a status of failure"},
    [UNKNOWN_TAKEN] = {"the command 31h is taken", "idle"},
    [UNKNOWN_OUT_OF_TURN] = {"an unknown command is called out of turn", "05h needs a page that is put out"},
    [CONFIRM_TAKEN_EARLY] = {"30h is taken after three address cycles", "after 00h and three address cycles"},
    [STATUS_WHILE_LOADING] = {"70h is taken where data may come in", "where data may come in"},
    [DATA_OUT_IDLE] = {"an idle die puts out FFh", "a refusal gives up the unfinished command"},
    [ADDRESS_IDLE] = {"an idle die takes an address cycle", "idle"},
    [UNRESET_STATUS] = {"the status is told before the first Reset", "before the first Reset nothing else is taken"},
};
const unsigned wrong_die_count = WRONGS;

/* The one that is being tried. */
static struct {
    struct die *die;
    enum wrong wrong;
    unsigned resets, statuses, sent;
    uint32_t read_last; /* one more than the row of the last read; 0: something came between */
    int again;
    enum die_phase kept_phase;
    uint8_t kept_command;
    uint8_t last[8192]; /* the page that the last program changed, as it was */
    uint32_t last_row;
    int has_last;
} it;

static int is(enum wrong wrong)
{
    return it.wrong == wrong;
}

static uint8_t *page_of(uint32_t row)
{
    return it.die->array + (size_t)row * (it.die->data + it.die->spare);
}

static size_t page_size(void)
{
    return (size_t)it.die->data + it.die->spare;
}

static uint8_t reset(void)
{
    it.resets++;
    if (is(RESET_REFUSED) && it.resets == 2)
        return DEVICE;
    if (is(RESET_LOSES_PAGE) && it.has_last) {
        memcpy(page_of(it.last_row), it.last, page_size());
        it.has_last = 0;
    }
    if (is(RESET_KEEPS_PROGRAM) && it.die->phase == LOADING)
        die_command(it.die, 0x10);
    if (is(RESET_KEEPS_ERASE) && it.die->phase == CONFIRMING && it.die->command == 0x60)
        die_command(it.die, 0xD0);
    if (is(RESET_KEEPS_ADDRESSES) && it.die->phase == TAKING)
        return TAKEN;
    if (is(FAILURE_OUTLIVES_RESET)) {
        uint8_t status = it.die->status;
        die_command(it.die, 0xFF);
        it.die->status = status;
        return TAKEN;
    }
    return die_command(it.die, 0xFF);
}

static void before_program(void)
{
    uint32_t row = it.die->row, block = row / it.die->pages, page = row % it.die->pages;

    if (is(ORDER_IGNORED) && it.die->next[block] < page)
        it.die->next[block] = (uint16_t)page;
    if (is(PROGRAMMED_TWICE) && it.die->next[block] == page + 1)
        it.die->next[block] = (uint16_t)page;
    if (is(PROGRAM_DROPS_LAST_BYTE))
        it.die->page[page_size() - 1] = 0xFF;
    if (is(UNSENT_IS_ZERO) && it.sent < page_size())
        memset(it.die->page + it.sent, 0, page_size() - it.sent);
    memcpy(it.last, page_of(row), page_size());
    it.last_row = row;
    it.has_last = 1;
}

static uint8_t program(void)
{
    uint32_t row = it.die->row;
    uint8_t answer;

    it.read_last = 0;
    before_program();
    answer = die_command(it.die, 0x10);
    if (is(PROGRAM_SAYS_FAILED) || (is(EMPTY_PROGRAM_FAILS) && it.sent == 0))
        it.die->status = 0xE1;
    if (is(PROGRAM_NOT_READY))
        it.die->status = 0x80;
    if (is(PROGRAM_TOUCHES_NEXT_PAGE) && (row + 1) % it.die->pages)
        page_of(row + 1)[0] &= 0xFE;
    return answer;
}

static uint8_t erase(void)
{
    uint32_t row = it.die->row, first = row / it.die->pages * it.die->pages, last = first + it.die->pages - 1;
    uint8_t answer;

    it.read_last = 0;
    memcpy(it.last, page_of(last), page_size());
    answer = die_command(it.die, 0xD0);
    if (is(ERASE_FAILS) || (is(ERASE_WANTS_PAGE_0) && row != first))
        it.die->status = 0xE1;
    if (is(ERASE_KEEPS_LAST_PAGE))
        memcpy(page_of(last), it.last, page_size());
    if (is(ERASE_TAKES_NEXT_BLOCK))
        memset(page_of((first + it.die->pages) % (it.die->pages * it.die->blocks)), 0xFF, page_size());
    it.has_last = 0;
    return answer;
}

static uint8_t confirm_read(uint8_t code)
{
    uint8_t answer = die_command(it.die, code);

    it.again = it.read_last == it.die->row + 1;
    it.read_last = it.die->row + 1;
    if (is(READ_SHIFTED) && answer == TAKEN)
        it.die->column++;
    if (is(READ_COLUMN_IGNORED) && code == 0x30)
        it.die->column = 0;
    if (is(READ_CHANGES_STATUS))
        it.die->status = 0xE1;
    return answer;
}

/* A command that this die takes where it has to be refused. */
static int takes_wrongly(uint8_t code)
{
    if (is(CONFIRM_TAKEN_EARLY) && code == 0x30 && it.die->phase == TAKING && it.die->command == 0x00 && it.die->count == 3) {
        it.die->phase = READY;
        it.die->output = PAGE_OUT;
        return 1;
    }
    if (is(STATUS_WHILE_LOADING) && code == 0x70 && it.die->phase == LOADING)
        return 1;
    if (is(UNRESET_STATUS) && code == 0x70 && it.die->phase == UNRESET)
        return 1;
    if (is(CHANGE_COLUMN_AFTER_STATUS) && code == 0x05 && it.die->phase == READY && it.die->output == STATUS_OUT)
        it.die->output = PAGE_OUT;
    return is(UNKNOWN_TAKEN) && code == 0x31 && it.die->phase == READY && it.die->output != PAGE_OUT;
}

static uint8_t wrong_command(void *chip, uint8_t code)
{
    uint8_t answer;

    (void)chip;
    if (takes_wrongly(code))
        return TAKEN;
    if (code == 0xFF)
        return reset();
    if (code == 0x10 && it.die->phase == LOADING)
        return program();
    if (code == 0xD0 && it.die->phase == CONFIRMING && it.die->command == 0x60)
        return erase();
    if (it.die->phase == CONFIRMING && (code == 0x30 || code == 0xE0))
        return confirm_read(code);
    it.statuses = 0;
    it.kept_phase = it.die->phase;
    if (code == 0x80)
        it.sent = 0;
    answer = die_command(it.die, code);
    if (is(REFUSAL_KEEPS_COMMAND) && answer && it.kept_phase == LOADING)
        it.die->phase = LOADING;
    return is(UNKNOWN_OUT_OF_TURN) && answer == UNKNOWN_COMMAND ? OUT_OF_TURN : answer;
}

/* The last row cycle, as a die that has its cycles wrong takes it. */
static void turn_row(uint8_t *byte)
{
    unsigned columns = it.die->command == 0x60 ? 0 : 2;

    if (it.die->command != 0x60 && it.die->command != 0x00 && it.die->command != 0x80)
        return;
    if (it.die->count != columns + 2)
        return;
    if (is(ROW_CYCLES_TURNED)) {
        uint8_t first = it.die->got[columns];
        it.die->got[columns] = *byte;
        *byte = first;
    }
    if (is(ROW_HIGH_IGNORED))
        it.die->got[columns + 1] = 0;
    if (is(ROW_WRAPS) && it.die->got[columns] + 256u * it.die->got[columns + 1] + 65536u * *byte >= it.die->blocks * it.die->pages)
        it.die->got[columns] = it.die->got[columns + 1] = *byte = 0;
}

static uint8_t wrong_address(void *chip, uint8_t byte)
{
    uint32_t before = it.die->column;
    uint8_t answer;

    (void)chip;
    if (is(ADDRESS_IDLE) && it.die->phase == READY)
        return TAKEN;
    if (it.die->phase == TAKING) {
        turn_row(&byte);
        if (is(IDENTITY_ANYWHERE) && it.die->command == 0x90 && byte != 0x00)
            byte = 0x20;
        if (is(COLUMN_WRAPS) && it.die->command != 0x60 && it.die->command != 0x90 && it.die->count == 1 && it.die->got[0] + 256u * byte >= page_size())
            byte = 0;
    }
    answer = die_address(it.die, byte);
    if (is(CHANGE_COLUMN_IGNORED) && it.die->command == 0x05 && it.die->phase == CONFIRMING)
        it.die->column = before;
    if (it.die->phase == LOADING) {
        if (is(PROGRAM_COLUMN_IGNORED) && it.die->command == 0x80)
            it.die->column = 0;
        if (is(WRITE_COLUMN_CLEARS) && it.die->command == 0x85)
            memset(it.die->page, 0xFF, page_size());
    }
    return answer;
}

static uint8_t wrong_data_in(void *chip, const uint8_t *bytes, size_t count)
{
    size_t room = page_size() - it.die->column;

    (void)chip;
    it.kept_phase = it.die->phase;
    if (is(DATA_IN_FROM_0))
        it.die->column = 0;
    if (is(DATA_IN_CUT) && it.die->phase == LOADING && count > room)
        count = room;
    {
        uint8_t answer = die_data_in(it.die, bytes, count);
        if (answer == TAKEN)
            it.sent = it.die->column > it.sent ? it.die->column : it.sent;
        else if (is(REFUSAL_KEEPS_COMMAND) && it.kept_phase == LOADING)
            it.die->phase = LOADING;
        return answer;
    }
}

/* What has come out of a page, made wrong. */
static void spoil_page(uint8_t *bytes, size_t count, uint32_t column)
{
    if (is(PROGRAM_MIRRORED))
        for (size_t i = 0; i < count; i++) {
            uint8_t b = bytes[i], turned = 0;
            for (int bit = 0; bit < 8; bit++)
                turned = (uint8_t)(turned | ((b >> bit & 1) << (7 - bit)));
            bytes[i] = turned;
        }
    if (is(BIT_STUCK) && it.die->row % it.die->pages == 3 && it.die->next[it.die->row / it.die->pages] > 3 && column <= 3 && column + count > 3)
        bytes[3 - column] &= 0x7F;
    if (is(READ_WEARS) && column == 0 && count && it.again)
        bytes[0] ^= 1;
}

static uint8_t wrong_data_out(void *chip, uint8_t *bytes, size_t count)
{
    uint32_t column = it.die->column;
    size_t room = page_size() - column;
    int is_page = it.die->phase == READY && it.die->output == PAGE_OUT;
    uint8_t answer;

    (void)chip;
    if (is(DATA_OUT_IDLE) && it.die->phase == READY && it.die->output == NOTHING_OUT) {
        memset(bytes, 0xFF, count);
        return TAKEN;
    }
    if (is(UNRESET_STATUS) && it.die->phase == UNRESET) {
        memset(bytes, 0xE0, count);
        return TAKEN;
    }
    if (is_page && is(DATA_OUT_CUT) && count > room) {
        memset(bytes, 0xFF, count);
        return die_data_out(it.die, bytes, room);
    }
    if (is(IDENTITY_ENDLESS) && it.die->phase == READY && it.die->output == IDENTITY_OUT && count > it.die->identity_bytes - it.die->identity_out) {
        memset(bytes, 0, count);
        return TAKEN;
    }
    if (is_page && is(DATA_OUT_FROM_0))
        it.die->column = column = 0;
    answer = die_data_out(it.die, bytes, count);
    if (answer)
        return answer;
    if (is_page)
        spoil_page(bytes, count, column);
    if (it.die->output == STATUS_OUT) {
        if (is(STATUS_HAS_MORE))
            memset(bytes, it.die->status | 0x04, count);
        if (is(STATUS_ONCE) && it.statuses++)
            memset(bytes, 0x00, count);
    }
    if (it.die->output == IDENTITY_OUT && count == 4 && is(WRONG_IDENTITY))
        memcpy(bytes, "JEDE", 4);
    if (it.die->output == IDENTITY_OUT && is(MAKER_AT_00) && it.die->identity_bytes == 2)
        memset(bytes, 0x2C, count);
    return answer;
}

struct cycles cycles_of_wrong(struct die *die, unsigned nth)
{
    struct cycles cycles = {die, wrong_command, wrong_address, wrong_data_in, wrong_data_out};

    memset(&it, 0, sizeof it);
    it.die = die;
    it.wrong = (enum wrong)nth;
    return cycles;
}
