/* Example 1. The library over a `read` and a `write` of the program's own, as on bare metal: no descriptor, no thread, no malloc. Frames go to a die
 * in plain C in the same thread, and memory is an array. */
#include <stdio.h>

#include "bare_port.h"
#include "heap.h"
#include "life.h"

/* For the library: what ftl_measure says of life_shape, and room for pieces that grow by a copy. */
static unsigned char memory[256 * 1024];
static struct cycles cycles;

static void power_on(struct board *board)
{
    cycles = cycles_of_die(&board->die);
    port_to(&cycles);
}

static void power_off(struct board *board)
{
    (void)board;
    port_to(NULL);
}

int main(void)
{
    static struct board board = {.descriptor = PORT, .power_on = power_on, .power_off = power_off};
    struct ftl_sizes sizes = {0};

    heap_give(memory, sizeof memory);
    if (ftl_measure(&life_shape, &sizes) == FTL_DONE)
        printf("memory: at most %u bytes in %u pieces\n", sizes.memory_bytes, sizes.memory_blocks);
    life(&board);
    printf("memory taken at most: %zu bytes in %zu pieces; left over: %zu\n", heap_most, heap_pieces_most, heap_live);
    return heap_live != 0;
}
