/* Example 2. The same die behind a socket pair: the chip's end stands in a thread of its own, as it would behind a serial reader. */
#define _GNU_SOURCE
#include <pthread.h>
#include <stdio.h>
#include <stdlib.h>
#include <sys/socket.h>
#include <unistd.h>

#include "heap.h"
#include "life.h"
#include "socket_port.h"

static int ends[2]; /* the library's, the chip's */
static pthread_t thread;
static struct cycles cycles;

static void *serve(void *nothing)
{
    (void)nothing;
    socket_serve(&cycles, ends[1]);
    shutdown(ends[1], SHUT_RDWR); /* whoever waits for an answer is told */
    return NULL;
}

static void power_on(struct board *board)
{
    cycles = cycles_of_die(&board->die);
    if (socketpair(AF_UNIX, SOCK_STREAM, 0, ends) || pthread_create(&thread, NULL, serve, NULL))
        exit(2);
    board->descriptor = ends[0];
}

static void power_off(struct board *board)
{
    (void)board;
    shutdown(ends[0], SHUT_RDWR);
    pthread_join(thread, NULL);
    close(ends[0]);
    close(ends[1]);
}

int main(void)
{
    static struct board board = {.power_on = power_on, .power_off = power_off};

    life(&board);
    printf("memory left over: %zu bytes\n", heap_live);
    return heap_live != 0;
}
