/* protocol.c, tried: the die in C keeps every rule, and each die that is wrong on purpose is found, by the rule that it breaks. */
#include <stdio.h>
#include <string.h>

#include "bare_port.h"
#include "die.h"
#include "protocol.h"
#include "wrong_die.h"

static struct die die;
static struct cycles cycles;

/* A new die each time, in which every block but two holds something. Rows go past one cycle. */
static int new_die(void)
{
    if (die.array)
        die_free(&die);
    if (die_make(&die, 512, 32, 8, 40))
        return -1;
    for (uint32_t block = 0; block < 40; block++)
        if (block != 2 && block != 34)
            memset(die.array + (size_t)block * 8 * 544, (int)block, 544);
    return 0;
}

static void print(const struct protocol_difference *it)
{
    printf("    the first answer that differs: \"%s\"\n    at %s ", it->rule, it->cycle);
    if (it->wanted == it->got)
        printf("the pages are not what they were before");
    else if (it->got < 0)
        printf("(no answer came)");
    else if (it->byte >= 0)
        printf("byte %ld is %02Xh, and not %02Xh", it->byte, (unsigned)it->got, (unsigned)it->wanted);
    else
        printf("the status is %d, and not %d", it->got, it->wanted);
    printf("; n is %u in: %s\n", (unsigned)it->page, it->script);
}

static int right_die(struct protocol protocol)
{
    struct protocol_difference difference;
    unsigned rules;

    if (new_die())
        return 2;
    cycles = cycles_of_die(&die);
    port_to(&cycles);
    rules = protocol_check(&protocol, &difference);
    if (difference.rule) {
        puts("the die in C:");
        print(&difference);
        return 1;
    }
    printf("the die in C keeps all %u rules, in %lu reads and writes, %lu erases and %lu programs\n", rules, port_calls, die.erases, die.programs);
    return 0;
}

static int wrong_die(struct protocol protocol, unsigned nth, int says)
{
    struct protocol_difference difference;

    if (new_die())
        return 2;
    cycles = cycles_of_wrong(&die, nth);
    port_to(&cycles);
    protocol_check(&protocol, &difference);
    if (!difference.rule || strcmp(difference.rule, wrong_dies[nth].rule)) {
        printf("%s: not found as \"%s\"\n", wrong_dies[nth].what, wrong_dies[nth].rule);
        if (difference.rule)
            print(&difference);
        return 1;
    }
    if (says) {
        printf("%s:\n", wrong_dies[nth].what);
        print(&difference);
    }
    return 0;
}

int main(int count, char **words)
{
    struct protocol protocol = {PORT, PORT, 512, 32, 8, 40, 2, 34, PROTOCOL_ALL};
    int wrong = right_die(protocol), says = count > 1 && strcmp(words[1], "--all") == 0;

    for (unsigned nth = 0; nth < wrong_die_count; nth++)
        wrong |= wrong_die(protocol, nth, says || nth == 7);
    if (!wrong)
        printf("each of %u wrong dies was found by the rule that it breaks\n", wrong_die_count);
    port_to(NULL);
    die_free(&die);
    return wrong;
}
