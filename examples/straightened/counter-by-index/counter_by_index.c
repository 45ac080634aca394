/* Counts packets by their queue in one value: a number that isn't constant is added to a map value's address. */
#include "../../headers.h"
#include "../../xdp.h"

extern char hits[];	/* a map of four counters */
static unsigned long long *(*map_lookup)(void *map, const void *key) = (void *)1;

__attribute__((section("xdp"), used))
int f(struct xdp_md *ctx)
{
	unsigned int key = 0;
	unsigned long long *counters = map_lookup(hits, &key);

	if (counters)
		__sync_fetch_and_add(&counters[ctx->rx_queue_index & 3], 1);
	return XDP_PASS;
}
