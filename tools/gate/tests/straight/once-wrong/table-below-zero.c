/* A table of numbers below 0, two of which rise as their places do. */
#include <linux/bpf.h>
#include <bpf/bpf_helpers.h>
static const int steps[4] = {-8, -4, 9, 1};
SEC("xdp") int f(struct xdp_md *ctx)
{
	unsigned char *p = (void *)(long)ctx->data;
	if (p + 14 > (unsigned char *)(long)ctx->data_end)
		return XDP_ABORTED;
	return steps[p[0] & 3] + 8 > p[1] ? XDP_PASS : XDP_DROP;
}
