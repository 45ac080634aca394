/* The same with a key of four bytes. */
#include "../../headers.h"
#include "../../xdp.h"

extern char hits[];	/* a map of four counters */
static unsigned long long *(*map_lookup)(void *map, const void *key) = (void *)1;

__attribute__((section("xdp"), used))
int f(struct xdp_md *ctx)
{
	void *data = (void *)(long)ctx->data;
	void *data_end = (void *)(long)ctx->data_end;
	struct ethhdr *eth = data;
	unsigned int key;
	unsigned long long *counter;

	if ((void *)(eth + 1) > data_end)
		return XDP_DROP;
	key = (unsigned char)eth->h_proto;
	counter = map_lookup(hits, &key);
	if (counter)
		__sync_fetch_and_add(counter, 1);
	return XDP_PASS;
}
