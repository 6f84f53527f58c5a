/* The port over a descriptor: the chip's end stands in a thread, or in a program, of its own. */
#ifndef SOCKET_PORT_H
#define SOCKET_PORT_H

#include "frames.h"

/* Serves frames that come on a descriptor, until it ends or what comes is no frame. */
void socket_serve(const struct cycles *cycles, int descriptor);

#endif
