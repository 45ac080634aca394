/* Drops packets whose first 32 bytes after the header hold a zero: a loop that clang keeps as a loop. */
#include "../../headers.h"
#include "../../xdp.h"

__attribute__((section("xdp"), used))
int f(struct xdp_md *ctx)
{
	void *data = (void *)(long)ctx->data;
	void *data_end = (void *)(long)ctx->data_end;
	unsigned char *p = data + sizeof(struct ethhdr);

	if ((void *)(p + 32) > data_end)
		return XDP_PASS;
#pragma nounroll
	for (int i = 0; i < 32; i++)
		if (!p[i])
			return XDP_DROP;
	return XDP_PASS;
}
