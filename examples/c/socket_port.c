#include "socket_port.h"

#include <unistd.h>

/* Everything that is left of an answer goes out. */
static int answer(struct frames *frames, int descriptor)
{
    uint8_t bytes[512];
    size_t count;

    while ((count = frames_give(frames, bytes, sizeof bytes)) > 0)
        for (size_t sent = 0; sent < count;) {
            ssize_t n = write(descriptor, bytes + sent, count - sent);
            if (n <= 0)
                return -1;
            sent += (size_t)n;
        }
    return 0;
}

void socket_serve(const struct cycles *cycles, int descriptor)
{
    struct frames frames;
    uint8_t bytes[512];
    ssize_t n;

    frames_begin(&frames, cycles);
    while ((n = read(descriptor, bytes, sizeof bytes)) > 0)
        if (frames_take(&frames, bytes, (size_t)n) || answer(&frames, descriptor))
            return;
}
