#include "protocol.h"

#include <string.h>
#include <unistd.h> /* read, write */

/* A script is a list of cycles:
 *
 *     C80       the command 80h                     A20       the address byte 20h
 *     col:N     two column cycles                   row:N     three row cycles, of page N of the first block; row2:N of the second
 *     in:N=V    N bytes in                          out:N=V   N bytes out, which have to be V; out:1~V: a status, but for bits that the library passes over
 *
 * N is a number, or D (data bytes), S (spare bytes), P (both), L (the last page of a block), R (the rows of the die, less those before the block), n (the page at
 * hand, of a script that is gone through for each), with + or - a number. V is bytes in hexadecimal, over and over, or a letter from Q on: bytes that differ from
 * column to column and letter to letter; n: and from page to page. Each cycle has to be taken; with !4 behind it its last one has to be refused with 4. */
enum how { ONCE, EACH_PAGE };

struct rule {
    unsigned part;
    enum how how;
    const char *name, *script;
};

#define ERASE "C60 row:0 CD0 C70 out:1~E0 "
#define ERASE2 "C60 row2:0 CD0 C70 out:1~E0 "
#define READ(page) "C00 col:0 row:" page " C30 "
#define PAGE(page, value) READ(page) "out:D=" value " out:S=" value " "
#define PROGRAM(page, value) "C80 col:0 row:" page " in:D=" value " in:S=" value " C10 C70 out:1~E0 "
#define PASSED "C10 C70 out:1~E0 "
#define FAILS "C10 C70 out:1=E1 "

static const struct rule rules[] = {
    {PROTOCOL_DRIVER, ONCE, "an erase ends with the status that it passed", "CFF " ERASE},
    {PROTOCOL_DRIVER, EACH_PAGE, "each page of an erased block reads as FFh", PAGE("n", "FF")},
    {PROTOCOL_DRIVER, ONCE, "a program ends with the status that it passed", "C80 col:0 row:0 in:D=Q in:S=Q " PASSED},
    {PROTOCOL_DRIVER, ONCE, "a page reads as it was programmed", PAGE("0", "Q")},
    {PROTOCOL_DRIVER, ONCE, "a page reads so again", PAGE("0", "Q") PAGE("0", "Q")},
    {PROTOCOL_DRIVER, ONCE, "a program changes no other page of its block", PAGE("1", "FF") PAGE("L", "FF") PROGRAM("1", "T") PAGE("0", "Q") PAGE("1", "T") PAGE("2", "FF")},
    {PROTOCOL_DRIVER, ONCE, "every bit can be 0 and can be 1", PROGRAM("2", "55") PAGE("2", "55") PROGRAM("3", "AA") PAGE("3", "AA") ERASE PROGRAM("0", "00") PAGE("0", "00") PROGRAM("1", "FF") PAGE("1", "FF")},
    {PROTOCOL_DRIVER, ONCE, "an erase makes a programmed block FFh", ERASE PAGE("0", "FF") PAGE("1", "FF")},
    {PROTOCOL_DRIVER, EACH_PAGE, "the pages of a block are programmed in order", PROGRAM("n", "n")},
    {PROTOCOL_DRIVER, EACH_PAGE, "each page of a full block reads as it was programmed", PAGE("n", "n")},
    {PROTOCOL_DRIVER, ONCE, "an erase changes no other block", ERASE2},
    {PROTOCOL_DRIVER, EACH_PAGE, "an erase changes no other block", PAGE("n", "n")},
    {PROTOCOL_DRIVER, ONCE, "a program changes no other block", "C80 col:0 row2:0 in:D=U in:S=U " PASSED "C00 col:0 row2:0 C30 out:D=U out:S=U " PAGE("0", "n")},
    {PROTOCOL_DRIVER, ONCE, "what is programmed stays when the other block is erased", "C80 col:0 row2:1 in:D=V in:S=V " PASSED ERASE "C00 col:0 row2:0 C30 out:D=U out:S=U C00 col:0 row2:1 C30 out:D=V out:S=V"},
    {PROTOCOL_DRIVER, EACH_PAGE, "an erase makes each page of a full block FFh", PAGE("n", "FF")},
    {PROTOCOL_DRIVER, ONCE, "what is programmed stays over a Reset", PROGRAM("0", "W") "CFF " PAGE("0", "W") PAGE("1", "FF")},

    {PROTOCOL_CYCLES, ONCE, "the status byte is E0h after success, with no other bit", "CFF C70 out:1=E0 " "C60 row:0 CD0 C70 out:1=E0 C80 col:0 row:0 in:1=Q C10 C70 out:1=E0"},
    {PROTOCOL_CYCLES, ONCE, "the status is put out as often as it is asked for", "C70 out:1=E0 out:3=E0 out:1=E0"},
    {PROTOCOL_CYCLES, ONCE, "a read leaves the status", READ("0") "C70 out:1=E0"},
    {PROTOCOL_CYCLES, ONCE, "an erase takes any page of its block", ERASE PROGRAM("0", "Q") PROGRAM("1", "T") "C60 row:L CD0 C70 out:1~E0 " PAGE("0", "FF") PAGE("1", "FF") PROGRAM("0", "Q")},
    {PROTOCOL_CYCLES, ONCE, "what is not sent of a page stays FFh", ERASE "C80 col:0 row:0 in:4=Q " PASSED READ("0") "out:4=Q out:D-4=FF out:S=FF"},
    {PROTOCOL_CYCLES, ONCE, "a program may send nothing", "C80 col:0 row:1 " PASSED PAGE("1", "FF") PROGRAM("2", "Q")},
    {PROTOCOL_CYCLES, ONCE, "a program begins at its column", "C80 col:7 row:3 in:3=Q " PASSED READ("3") "out:7=FF out:3=Q out:D-10=FF out:S=FF"},
    {PROTOCOL_CYCLES, ONCE, "data in goes on where it ended", ERASE "C80 col:0 row:0 in:1=Q in:5=Q in:D-6=Q in:S=Q " PASSED PAGE("0", "Q")},
    {PROTOCOL_CYCLES, ONCE, "85h moves to a column, and what came in stays", "C80 col:0 row:1 in:4=Q C85 col:D in:S=Q C85 col:9 in:2=Q " PASSED READ("1") "out:4=Q out:5=FF out:2=Q out:D-11=FF out:S=Q"},
    {PROTOCOL_CYCLES, ONCE, "a read begins at its column", PROGRAM("2", "T") "C00 col:5 row:2 C30 out:3=T C00 col:D row:2 C30 out:S=T C00 col:P-1 row:2 C30 out:1=T"},
    {PROTOCOL_CYCLES, ONCE, "data out goes on where it ended", READ("2") "out:1=T out:5=T out:D-6=T out:S=T"},
    {PROTOCOL_CYCLES, ONCE, "05h and E0h move to a column", READ("2") "out:2=T C05 col:D CE0 out:3=T C05 col:0 CE0 out:4=T C05 col:1 CE0 C05 col:9 CE0 out:4=T"},
    {PROTOCOL_CYCLES, ONCE, "Read ID at 20h gives ONFI", "C90 A20 out:4=4F4E4649 C90 A20 out:1=4F out:1=4E out:2=4649"},
    {PROTOCOL_CYCLES, ONCE, "Reset gives up an unfinished program", ERASE "C80 col:0 row:0 in:9=Q CFF C70 out:1=E0 " PAGE("0", "FF") PROGRAM("0", "T")},
    {PROTOCOL_CYCLES, ONCE, "Reset gives up an unfinished erase", "C60 row:0 CFF C70 out:1=E0 " PAGE("0", "T")},
    {PROTOCOL_CYCLES, ONCE, "Reset gives up unfinished addresses", "C00 A00 CFF C80 A00 A00 A00 CFF C90 CFF C60 A00 CFF " PAGE("0", "T")},

    {PROTOCOL_REFUSED, ONCE, "a block is erased and a page programmed", "CFF " ERASE PROGRAM("0", "T")},
    {PROTOCOL_REFUSED, ONCE, "Read ID at 00h gives 00 00", "C90 A00 out:2=00"},
    {PROTOCOL_REFUSED, ONCE, "Read ID has two addresses", "C90 A01!4 C90 A21!4 C90 A40!4 C90 AFF!4"},
    {PROTOCOL_REFUSED, ONCE, "an identity has no more bytes", "C90 A20 out:5=00!5 C90 A20 out:4=4F4E4649 out:1=00!5 C90 A00 out:3=00!5"},
    {PROTOCOL_REFUSED, ONCE, "a column is in the page", "C00 col:P!5 C00 col:65535!5 C80 col:P!5 C80 col:0 row:1 C85 col:P!5 " READ("0") "C05 col:P!5"},
    {PROTOCOL_REFUSED, ONCE, "a row is in the die", "C00 col:0 row:R!4 C80 col:0 row:R!4 C60 row:R!4 C00 col:0 row:R+65536!4"},
    {PROTOCOL_REFUSED, ONCE, "data in ends with the page, and else nothing is moved", "C80 col:P-1 row:1 in:2=Q!5 C10!3 C80 col:D row:1 in:S+1=Q!5 " PAGE("1", "FF")},
    {PROTOCOL_REFUSED, ONCE, "data out ends with the page", "C00 col:P-1 row:0 C30 out:2=00!5 C00 col:D row:0 C30 out:S+1=00!5 " READ("0") "out:D=T out:S=T out:1=00!5"},
    {PROTOCOL_REFUSED, ONCE, "a refusal gives up the unfinished command", "C80 col:0 row:1 in:4=Q C30!3 C10!3 C80 col:0 row:1 A00!3 in:1=Q!3 C60 row:0 C10!3 CD0!3 " READ("0") "C10!3 out:1=00!3 " PAGE("0", "T") PAGE("1", "FF")},
    {PROTOCOL_REFUSED, ONCE, "05h needs a page that is put out", READ("0") "C70 C05!3 C05!3 C90 A20 C05!3 " READ("0") "C05 col:0 CE0 out:1=T C31!2 C05!3"},
    {PROTOCOL_REFUSED, ONCE, "a page out of its order is not programmed", "C80 col:0 row:3 in:D=Q " FAILS PAGE("3", "FF") PAGE("1", "FF") PROGRAM("1", "U") PAGE("1", "U")},
    {PROTOCOL_REFUSED, ONCE, "a page is not programmed twice", "C80 col:0 row:1 in:D=00 " FAILS PAGE("1", "U") PROGRAM("2", "V") PAGE("2", "V")},
    {PROTOCOL_REFUSED, ONCE, "a Reset ends a status of failure", "C80 col:0 row:1 in:D=00 " FAILS "C70 out:1=E1 CFF C70 out:1=E0"},
};

/* Where a chip stands, how to come there from a Reset, and which cycles it takes then: codes, and A, I, O. */
struct phase {
    const char *name, *script, *due;
};

static const struct phase phases[] = {
    {"idle", "CFF", "00 60 70 80 90"},
    {"idle after a refusal", "CFF C31!2", "00 60 70 80 90"},
    {"after 00h", "CFF C00", "A"},
    {"after 00h and one address cycle", "CFF C00 A00", "A"},
    {"after 00h and two address cycles", "CFF C00 col:0", "A"},
    {"after 00h and three address cycles", "CFF C00 col:0 A00", "A"},
    {"after 00h and four address cycles", "CFF C00 col:0 A00 A00", "A"},
    {"where 30h is due", "CFF C00 col:0 row:0", "30"},
    {"while a page is put out", "CFF C00 col:0 row:0 C30", "00 05 60 70 80 90 O"},
    {"while a page is put out in part", "CFF C00 col:0 row:0 C30 out:1=T", "00 05 60 70 80 90 O"},
    {"after 05h", "CFF C00 col:0 row:0 C30 C05", "A"},
    {"after 05h and one address cycle", "CFF C00 col:0 row:0 C30 C05 A00", "A"},
    {"where E0h is due", "CFF C00 col:0 row:0 C30 C05 col:0", "E0"},
    {"after E0h", "CFF C00 col:0 row:0 C30 C05 col:0 CE0", "00 05 60 70 80 90 O"},
    {"after 60h", "CFF C60", "A"},
    {"after 60h and two address cycles", "CFF C60 A00 A00", "A"},
    {"where D0h is due", "CFF C60 row:0", "D0"},
    {"after 80h", "CFF C80", "A"},
    {"after 80h and one address cycle", "CFF C80 A00", "A"},
    {"after 80h and four address cycles", "CFF C80 col:0 A00 A00", "A"},
    {"where data may come in", "CFF C80 col:0 row:0", "10 85 I"},
    {"after data came in", "CFF C80 col:0 row:0 in:2=Q", "10 85 I"},
    {"after 85h", "CFF C80 col:0 row:0 C85", "A"},
    {"after 85h and one address cycle", "CFF C80 col:0 row:0 C85 A00", "A"},
    {"after 85h and its address cycles", "CFF C80 col:0 row:0 C85 col:0", "10 85 I"},
    {"while the status is put out", "CFF C70", "00 60 70 80 90 O"},
    {"while the status is put out after a page", "CFF C00 col:0 row:0 C30 C70 out:1=E0", "00 60 70 80 90 O"},
    {"after 90h", "CFF C90", "A"},
    {"while an identity is put out", "CFF C90 A20", "00 60 70 80 90 O"},
};

static const char known[] = "00 05 10 30 60 70 80 85 90 D0 E0 FF";

enum { CHUNK = 4096, ANSWERED = 0, NO_ANSWER = -1 };

struct check {
    const struct protocol *protocol;
    struct protocol_difference *difference;
    uint32_t column, page;
};

/* What is moved. */
static uint8_t buffer[CHUNK];

/* All bytes go, or all come. */
static int all_out(int descriptor, const uint8_t *bytes, size_t count)
{
    while (count > 0) {
        ssize_t n = write(descriptor, bytes, count);
        if (n <= 0)
            return -1;
        bytes += n;
        count -= (size_t)n;
    }
    return 0;
}

static int all_in(int descriptor, uint8_t *bytes, size_t count)
{
    while (count > 0) {
        ssize_t n = read(descriptor, bytes, count);
        if (n <= 0)
            return -1;
        bytes += n;
        count -= (size_t)n;
    }
    return 0;
}

/* One frame and its answer: the status, or NO_ANSWER. Data stand in buffer. */
static int frame(const struct protocol *protocol, char kind, uint8_t value, uint32_t count)
{
    uint8_t head[10] = {(uint8_t)kind, value, (uint8_t)count, (uint8_t)(count >> 8)}, status;

    if (all_out(protocol->output, head, sizeof head) || (kind == 'I' && all_out(protocol->output, buffer, count)))
        return NO_ANSWER;
    if (all_in(protocol->input, &status, 1))
        return NO_ANSWER;
    if (kind == 'O' && status == 0 && all_in(protocol->input, buffer, count))
        return NO_ANSWER;
    return status;
}

/* The cycle differs. Always 0. */
static int differs(struct check *check, long byte, int wanted, int got)
{
    check->difference->byte = byte;
    check->difference->wanted = wanted;
    check->difference->got = got;
    check->difference->page = check->page;
    return 0;
}

static int is_answered(struct check *check, int wanted, int got)
{
    return got == wanted || differs(check, -1, wanted, got);
}

static int digit(char c)
{
    return c >= '0' && c <= '9' ? c - '0' : c >= 'A' && c <= 'F' ? c - 'A' + 10 : -1;
}

static uint8_t hex(const char *at)
{
    return (uint8_t)(digit(at[0]) * 16 + digit(at[1]));
}

static uint32_t decimal(const char **at)
{
    uint32_t n = 0;

    while (**at >= '0' && **at <= '9')
        n = n * 10 + (uint32_t)(*(*at)++ - '0');
    return n;
}

/* A number of a script, as the text above has it. */
static uint32_t number(const struct check *check, const char **at)
{
    const struct protocol *it = check->protocol;
    uint32_t n;
    char sign;

    switch (**at) {
    case 'D': n = it->data_bytes; break;
    case 'S': n = it->spare_bytes; break;
    case 'P': n = it->data_bytes + it->spare_bytes; break;
    case 'L': n = it->pages - 1; break;
    case 'R': n = (it->blocks - it->block) * it->pages; break;
    case 'n': n = check->page; break;
    default: return decimal(at);
    }
    sign = *++*at;
    if (sign != '+' && sign != '-')
        return n;
    ++*at;
    return sign == '+' ? n + decimal(at) : n - decimal(at);
}

/* The byte of a value at a column. */
static uint8_t value_at(const struct check *check, const char *value, uint32_t column, uint32_t i)
{
    uint32_t mixed, digits = 0;

    while (digit(value[digits]) >= 0)
        digits++;
    if (digits)
        return hex(value + i * 2 % digits);
    mixed = column * 2654435761u + (uint32_t)value[0] * 2246822519u + (value[0] == 'n' ? check->page * 3266489917u : 0);
    mixed = (mixed ^ mixed >> 15) * 2246822519u;
    return (uint8_t)(mixed >> 24);
}

/* So many address cycles of a number; the last one is answered so. */
static int addresses(struct check *check, uint32_t n, int cycles, int wanted)
{
    for (int i = 0; i < cycles; i++)
        if (!is_answered(check, i + 1 < cycles ? ANSWERED : wanted, frame(check->protocol, 'A', (uint8_t)(n >> 8 * i), 0)))
            return 0;
    return 1;
}

static int data_in(struct check *check, uint32_t count, const char *value, int wanted)
{
    for (uint32_t i = 0; i < count; i++)
        buffer[i] = value_at(check, value, check->column + i, i);
    check->column += count;
    return is_answered(check, wanted, frame(check->protocol, 'I', 0, count));
}

static int data_out(struct check *check, uint32_t count, const char *value, int wanted, uint8_t mask)
{
    uint32_t column = check->column;

    memset(buffer, 0x3C, count);
    if (!is_answered(check, wanted, frame(check->protocol, 'O', 0, count)))
        return 0;
    check->column += count;
    for (uint32_t i = 0; wanted == ANSWERED && i < count; i++) {
        uint8_t should = value_at(check, value, column + i, i);
        if ((buffer[i] ^ should) & mask)
            return differs(check, (long)i, should, buffer[i]);
    }
    return 1;
}

/* What a cycle has to be answered with: the number behind its '!', or that it is taken. */
static int wanted_of(const char *cycle, size_t length)
{
    const char *mark = memchr(cycle, '!', length);

    return mark ? mark[1] - '0' : ANSWERED;
}

/* One cycle of a script. */
static int cycle_goes(struct check *check, const char *cycle, size_t length)
{
    const struct protocol *it = check->protocol;
    int wanted = wanted_of(cycle, length), second = strncmp(cycle, "row2", 4) == 0;
    const char *at = memchr(cycle, ':', length);
    uint32_t n;

    if (length >= sizeof check->difference->cycle)
        length = sizeof check->difference->cycle - 1;
    memcpy(check->difference->cycle, cycle, length);
    check->difference->cycle[length] = 0;
    if (!at)
        return is_answered(check, wanted, frame(it, cycle[0], hex(cycle + 1), 0));
    at++;
    n = number(check, &at);
    switch (cycle[0]) {
    case 'c':
        if (!addresses(check, n, 2, wanted))
            return 0;
        check->column = n;
        return 1;
    case 'r':
        n += (second ? it->other : it->block) * it->pages;
        return addresses(check, n, 3, wanted);
    case 'i':
        return data_in(check, n, at + 1, wanted);
    default:
        return data_out(check, n, at + 1, wanted, *at == '~' ? 0xE1 : 0xFF);
    }
}

static int script_goes(struct check *check, const char *script)
{
    while (*script) {
        size_t length = strcspn(script, " ");
        if (length && !cycle_goes(check, script, length))
            return 0;
        script += length;
        script += strspn(script, " ");
    }
    return 1;
}

static int rule_goes(struct check *check, const struct rule *rule)
{
    uint32_t pages = rule->how == EACH_PAGE ? check->protocol->pages : 1;

    check->difference->rule = rule->name;
    check->difference->script = rule->script;
    for (check->page = 0; check->page < pages; check->page++)
        if (!script_goes(check, rule->script))
            return 0;
    return 1;
}

/* Whether a list of codes has this one. */
static int has(const char *codes, const char *code)
{
    for (; *codes; codes += strcspn(codes, " "), codes += strspn(codes, " "))
        if (strncmp(codes, code, strlen(code)) == 0)
            return 1;
    return 0;
}

/* A chip stands somewhere: one cycle more, which is due or refused. Then it is idle, if it was refused. */
static int meets(struct check *check, const struct phase *phase, const char *cycle, int wanted)
{
    char more[24];
    size_t length = strlen(cycle);

    memcpy(more, cycle, length);
    more[length] = '!';
    more[length + 1] = (char)('0' + wanted);
    more[length + 2] = 0;
    if (!wanted)
        more[length] = 0;
    if (!script_goes(check, phase->script) || !script_goes(check, more))
        return 0;
    return !wanted || script_goes(check, "C70 out:1=E0");
}

static int phase_goes(struct check *check, const struct phase *phase)
{
    static const char digits[] = "0123456789ABCDEF";

    check->difference->rule = phase->name;
    check->difference->script = phase->script;
    for (int code = 0; code < 256; code++) {
        char cycle[4] = {'C', digits[code >> 4], digits[code & 15], 0};
        int due = code == 0xFF || has(phase->due, cycle + 1);
        if (due && (code == 0x10 || code == 0xD0))
            continue; /* it would be done */
        if (!meets(check, phase, cycle, due ? 0 : has(known, cycle + 1) ? 3 : 2))
            return 0;
    }
    if (!has(phase->due, "A") && !meets(check, phase, "A00", 3))
        return 0;
    if (!has(phase->due, "I") && !meets(check, phase, "in:1=Q", 3))
        return 0;
    if (!has(phase->due, "O") && !meets(check, phase, "out:1=00", 3))
        return 0;
    return script_goes(check, "CFF");
}

static const struct rule unreset = {PROTOCOL_UNRESET, ONCE, "before the first Reset nothing else is taken",
    "C00!1 C60!1 C70!1 C80!1 C90!1 C10!1 C31!1 A00!1 in:1=Q!1 out:1=00!1 C70!1 CFF C70 out:1~E0"};
static const struct rule first = {PROTOCOL_ALL, ONCE, "Reset is taken", "CFF CFF"};

/* A number of page 0 of each block but the two: FNV-1a, 64 bits. */
static int others_go(struct check *check, uint64_t *hash)
{
    const struct protocol *it = check->protocol;

    check->difference->rule = "page 0 of each block is read";
    check->difference->script = "CFF " READ("0") "out:D, of each other block, before all else and at the end";
    *hash = 14695981039346656037u;
    if (!script_goes(check, "CFF"))
        return 0;
    for (uint32_t block = 0; block < it->blocks; block++) {
        if (block == it->block || block == it->other)
            continue;
        if (!script_goes(check, "C00 col:0") || !addresses(check, block * it->pages, 3, ANSWERED) || !script_goes(check, "C30"))
            return 0;
        if (!is_answered(check, ANSWERED, frame(it, 'O', 0, it->data_bytes)))
            return 0;
        for (uint32_t i = 0; i < it->data_bytes; i++)
            *hash = (*hash ^ buffer[i]) * 1099511628211u;
    }
    return 1;
}

static const struct rule last = {PROTOCOL_ALL, ONCE, "both blocks are erased at the end", "CFF " ERASE ERASE2};

/* The rules of the parts that are asked for. */
static int rules_go(struct check *check, unsigned *done)
{
    unsigned parts = check->protocol->parts;

    for (size_t i = 0; i < sizeof rules / sizeof *rules; i++)
        if (parts & rules[i].part) {
            if (!rule_goes(check, &rules[i]))
                return 0;
            ++*done;
        }
    for (size_t i = 0; parts & PROTOCOL_REFUSED && i < sizeof phases / sizeof *phases; i++, ++*done)
        if (!phase_goes(check, &phases[i]))
            return 0;
    return 1;
}

unsigned protocol_check(const struct protocol *protocol, struct protocol_difference *difference)
{
    struct check check = {protocol, difference, 0, 0};
    uint64_t before = 0, after = 0;
    unsigned done = 0;

    memset(difference, 0, sizeof *difference);
    if (protocol->parts & PROTOCOL_UNRESET && !rule_goes(&check, &unreset))
        return done;
    if (!rule_goes(&check, &first) || !others_go(&check, &before) || !rules_go(&check, &done) || !rule_goes(&check, &last) ||
        !others_go(&check, &after))
        return done;
    if (before != after) {
        difference->rule = "no other block is changed";
        return done;
    }
    difference->rule = NULL;
    return done + 3 + (protocol->parts & PROTOCOL_UNRESET ? 1 : 0);
}
