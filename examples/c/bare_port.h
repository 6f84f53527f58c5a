/* The port as on bare metal: the program has `read` and `write` of its own, and frames go to the chip in the same thread. */
#ifndef BARE_PORT_H
#define BARE_PORT_H

#include "frames.h"

enum { PORT = 1000 }; /* what the library is given as its descriptor */

/* The chip behind the port; NULL: none, and each call fails. */
void port_to(const struct cycles *cycles);

extern unsigned long port_calls; /* of read and write, so far */

#endif
