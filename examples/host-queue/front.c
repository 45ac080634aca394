/* The guest of guest.h over the host's memory and event channels. */
#include "front.h"

#include <poll.h>
#include <stdlib.h>
#include <unistd.h>

/* How long an event of the host's may take: many times what it takes while others use all processors. */
enum { MILLISECONDS = 60000 };

static void kick(void *held)
{
	const struct channel *channel = held;
	uint64_t one = 1;
	if (write(channel->kick, &one, sizeof one) != sizeof one)
		abort();
}

static bool awaits(void *held)
{
	const struct channel *channel = held;
	struct pollfd on = { channel->interrupt, POLLIN, 0 };
	uint64_t count;
	return poll(&on, 1, MILLISECONDS) == 1 && read(channel->interrupt, &count, sizeof count) == sizeof count;
}

unsigned run_front(uint8_t *memory, struct channel channel, enum guest_behaviour behaviour, unsigned packets, unsigned seed)
{
	const struct guest guest = { memory, TX_RING, RX_RING, TABLE, DATA, HOST_DOMAIN, &channel, kick, awaits };
	return guest_run(&guest, behaviour, packets, seed);
}
