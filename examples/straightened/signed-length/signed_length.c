/* Drops UDP to port 53: the header's length is kept in an int, whose sign clang extends by a signed shift. */
#include "../../headers.h"
#include "../../xdp.h"

__attribute__((section("xdp"), used))
int f(struct xdp_md *ctx)
{
	void *data = (void *)(long)ctx->data;
	void *data_end = (void *)(long)ctx->data_end;
	struct ethhdr *eth = data;
	struct iphdr *ip = (void *)(eth + 1);
	unsigned char *udp;
	int length;

	if ((void *)(ip + 1) > data_end)
		return XDP_PASS;
	length = *(int *)ip;
	if (length < 20 || length > 60)
		return XDP_PASS;
	udp = (unsigned char *)ip + length;
	if ((void *)(udp + 8) > data_end)
		return XDP_PASS;
	return udp[3] == 53 ? XDP_DROP : XDP_PASS;
}
