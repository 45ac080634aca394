/* Four bytes are added to atomically, and all eight of the number are read: what is carried isn't in those above. */
#include <linux/bpf.h>
#include <bpf/bpf_helpers.h>
static __u64 sum;
SEC("xdp") int f(struct xdp_md *ctx)
{
	__u8 *p = (void *)(long)ctx->data;
	if (p + 14 > (__u8 *)(long)ctx->data_end) return XDP_ABORTED;
	__sync_fetch_and_add((__u32 *)&sum, (__u32)p[0] << 24);
	return sum >> 32 ? XDP_DROP : XDP_PASS;
}
