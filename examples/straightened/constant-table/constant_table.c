/* Passes the queues of a list, and counts the others: constants in memory, and a global. */
#include "../../headers.h"
#include "../../xdp.h"

static const unsigned char listed[8] = { 1, 0, 0, 1, 1, 1, 0, 2 };
unsigned long long others;

__attribute__((section("xdp"), used))
int f(struct xdp_md *ctx)
{
	if (listed[ctx->rx_queue_index & 7])
		return XDP_PASS;
	others++;
	return XDP_DROP;
}
