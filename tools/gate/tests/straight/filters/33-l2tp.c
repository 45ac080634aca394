/* L2TP: the session's number after optional fields; drops session 0 in data messages. */
#include <linux/bpf.h>
#include <bpf/bpf_helpers.h>

SEC("xdp") int l2tp(struct xdp_md *ctx)
{
	__u8 *p = (void *)(long)ctx->data, *end = (void *)(long)ctx->data_end;
	if (p + 48 > end || p[12] != 8 || p[13] || p[14] != 0x45 || p[23] != 17)
		return XDP_PASS;
	if ((p[36] << 8 | p[37]) != 1701)
		return XDP_PASS;
	p += 42;
	__u8 flags = p[0];
	if ((p[1] & 15) != 2)
		return XDP_DROP;
	if (flags & 0x80)
		return flags & 0x48 ? XDP_PASS : XDP_DROP;
	p += 2;
	if (flags & 0x40)
		p += 2;
	if (p + 4 > end)
		return XDP_DROP;
	__u16 session = p[2] << 8 | p[3];
	if (!session)
		return XDP_DROP;
	p += 4;
	if (flags & 0x08)
		p += 4;
	if (flags & 0x02) {
		if (p + 2 > end)
			return XDP_DROP;
		p += 2 + (p[0] << 8 | p[1]);
	}
	if (p + 1 > end)
		return XDP_DROP;
	return *p == 0xff ? XDP_DROP : XDP_PASS;
}
