#define _DEFAULT_SOURCE /* syscall */
#include "bare_port.h"

#include <sys/types.h>

static struct frames frames;
unsigned long port_calls;

void port_to(const struct cycles *cycles)
{
    frames_begin(&frames, cycles);
}

/* On Linux every other descriptor is the system's still; on bare metal there is no other. */
#ifdef __linux__
#include <sys/syscall.h>
#include <unistd.h>
#define OTHERS(call) \
    if (descriptor != PORT) \
        return syscall(call, descriptor, bytes, count)
#else
#define OTHERS(call) (void)descriptor
ssize_t read(int, void *, size_t);
ssize_t write(int, const void *, size_t);
#endif

ssize_t write(int descriptor, const void *bytes, size_t count)
{
    OTHERS(SYS_write);
    port_calls++;
    return frames_take(&frames, bytes, count) ? -1 : (ssize_t)count;
}

ssize_t read(int descriptor, void *bytes, size_t count)
{
    OTHERS(SYS_read);
    port_calls++;
    return (ssize_t)frames_give(&frames, bytes, count);
}
