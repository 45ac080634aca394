/* Passes packets whose queue is listed: an array on the stack, and a number that isn't constant as its index. */
#include "../../headers.h"
#include "../../xdp.h"

__attribute__((section("xdp"), used))
int f(struct xdp_md *ctx)
{
	volatile unsigned char listed[4];

	listed[0] = 1;
	listed[1] = 0;
	listed[2] = 0;
	listed[3] = 1;
	return listed[ctx->rx_queue_index & 3] ? XDP_PASS : XDP_DROP;
}
