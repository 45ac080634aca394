/* Drops GTP with more than four extension headers, or one that is cut. */
#include <linux/bpf.h>
#include <bpf/bpf_helpers.h>

SEC("xdp") int gtp(struct xdp_md *ctx)
{
	__u8 *p = (void *)(long)ctx->data, *end = (void *)(long)ctx->data_end;
	__u8 next;

	if (p + 54 > end || p[12] != 8 || p[13] || p[14] != 0x45 || p[23] != 17 || (p[36] << 8 | p[37]) != 2152)
		return XDP_PASS;
	next = p[42] & 4 ? p[53] : 0;
	p += 54;
	for (int i = 0; i < 4 && next; i++) {
		if (p + 1 > end || !*p)
			return XDP_DROP;
		p += 4 * *p;
		if (p > end)
			return XDP_DROP;
		next = p[-1];
	}
	return next ? XDP_DROP : XDP_PASS;
}
