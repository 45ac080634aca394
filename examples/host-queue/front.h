/* What a host of netback's queue and its guest share: pages in a memfd, and two event channels. */
#ifndef FRONT_H
#define FRONT_H

#include "guest.h"

/* The frames, and whose they are. */
enum { HOST_DOMAIN = 0, GUEST_DOMAIN = 5, OTHER_DOMAIN = 6 };
enum { TX_RING, RX_RING, TABLE, DATA, OTHERS = 48, FRAMES = 64, PAGE = 4096 };
enum { PORT = 7 };

struct channel {
	int kick;      /* an eventfd: from the guest */
	int interrupt; /* an eventfd: to the guest */
};

/* A guest that sends that many packets; returns how many of them were answered wrongly. */
unsigned run_front(uint8_t *memory, struct channel channel, enum guest_behaviour behaviour, unsigned packets, unsigned seed);

#endif
