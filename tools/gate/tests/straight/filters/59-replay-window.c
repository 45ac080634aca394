/* ESP: a window of 64 sequence numbers for each of 128 buckets of SPIs, as in RFC 4303's appendix. */
#include <linux/bpf.h>
#include <linux/if_ether.h>
#include <linux/in.h>
#include <linux/ip.h>
#include <bpf/bpf_endian.h>
#include <bpf/bpf_helpers.h>

struct window {
	__u64 top, bits;
};
struct {
	__uint(type, BPF_MAP_TYPE_ARRAY);
	__uint(max_entries, 128);
	__type(key, __u32);
	__type(value, struct window);
} windows SEC(".maps");
SEC("xdp") int esp_replay(struct xdp_md *ctx)
{
	void *data = (void *)(long)ctx->data, *data_end = (void *)(long)ctx->data_end;
	struct ethhdr *eth = data;
	struct iphdr *ip = (void *)(eth + 1);
	if ((void *)(ip + 1) > data_end || eth->h_proto != bpf_htons(ETH_P_IP) || ip->protocol != IPPROTO_ESP)
		return XDP_PASS;
	__be32 *esp = (void *)ip + ip->ihl * 4;
	if ((void *)(esp + 2) > data_end)
		return XDP_DROP;
	__u32 key = bpf_ntohl(esp[0]) % 128;
	__u64 seq = bpf_ntohl(esp[1]);
	struct window *w = bpf_map_lookup_elem(&windows, &key);
	if (!w || seq == 0)
		return XDP_DROP;
	if (seq > w->top) {
		__u64 shift = seq - w->top;
		w->bits = shift < 64 ? w->bits << shift | 1 : 1;
		w->top = seq;
		return XDP_PASS;
	}
	__u64 behind = w->top - seq;
	if (behind >= 64)
		return XDP_DROP;
	if (w->bits & 1ULL << behind)
		return XDP_DROP;
	w->bits |= 1ULL << behind;
	return XDP_PASS;
}
