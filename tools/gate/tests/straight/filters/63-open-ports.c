/* Passes what goes to an open port, by a bitmap of the first 1,024. */
#include <linux/bpf.h>
#include <bpf/bpf_helpers.h>

const volatile __u64 open[16] = {1ULL << 22, 1ULL << 16, [6] = 1ULL << 59, [15] = 1ULL << 63};

SEC("xdp")
int f(struct xdp_md *ctx)
{
	__u8 *p = (void *)(long)ctx->data;

	if (p + 38 > (__u8 *)(long)ctx->data_end)
		return XDP_DROP;
	__u16 port = p[36] << 8 | p[37];

	if (port < 1024)
		return open[port >> 6] & (1ULL << (port & 63)) ? XDP_PASS : XDP_DROP;
	return XDP_DROP;
}
