/* Passes the first hundred packets: a counter is read, and then added to. */
#include "../../headers.h"
#include "../../xdp.h"

extern char hits[];	/* a map of four counters */
static unsigned long long *(*map_lookup)(void *map, const void *key) = (void *)1;

__attribute__((section("xdp"), used))
int f(struct xdp_md *ctx)
{
	unsigned int key = 0;
	unsigned long long *counter = map_lookup(hits, &key);

	if (!counter || *counter >= 100)
		return XDP_DROP;
	*counter += 1;
	return XDP_PASS;
}
