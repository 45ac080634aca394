/* Looks at a byte whose place depends on the first one: nine ways meet, each with another address. */
#include "../../headers.h"
#include "../../xdp.h"

#define WAY(kind, skip) case kind: p += skip; asm volatile("" : "+r"(p)); break

__attribute__((section("xdp"), used))
int f(struct xdp_md *ctx)
{
	void *data = (void *)(long)ctx->data;
	void *data_end = (void *)(long)ctx->data_end;
	unsigned char *p = data;

	if ((void *)(p + 64) > data_end)
		return XDP_DROP;
	switch (*p) {
	WAY(1, 3);
	WAY(2, 5);
	WAY(3, 9);
	WAY(4, 14);
	WAY(5, 20);
	WAY(6, 27);
	WAY(7, 35);
	WAY(8, 44);
	}
	return *p ? XDP_PASS : XDP_DROP;
}
