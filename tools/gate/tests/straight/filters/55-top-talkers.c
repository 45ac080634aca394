/* The space-saving list of four sources with their counts: a new one takes the place of the least. */
#include <linux/bpf.h>
#include <linux/if_ether.h>
#include <linux/ip.h>
#include <bpf/bpf_endian.h>
#include <bpf/bpf_helpers.h>

struct talker {
	__u64 addr, count;
};
struct {
	__uint(type, BPF_MAP_TYPE_ARRAY);
	__uint(max_entries, 4);
	__type(key, __u32);
	__type(value, struct talker);
} top SEC(".maps");
SEC("xdp") int talkers(struct xdp_md *ctx)
{
	void *data = (void *)(long)ctx->data, *data_end = (void *)(long)ctx->data_end;
	struct ethhdr *eth = data;
	struct iphdr *ip = (void *)(eth + 1);
	if ((void *)(ip + 1) > data_end || eth->h_proto != bpf_htons(ETH_P_IP))
		return XDP_PASS;
	__u32 least = 0;
	__u64 least_count = ~0ULL;
	for (__u32 i = 0; i < 4; i++) {
		__u32 key = i;
		struct talker *t = bpf_map_lookup_elem(&top, &key);
		if (!t)
			return XDP_ABORTED;
		if (t->addr == ip->saddr) {
			t->count++;
			return t->count > 4 ? XDP_DROP : XDP_PASS;
		}
		if (t->count < least_count) {
			least_count = t->count;
			least = i;
		}
	}
	struct talker *t = bpf_map_lookup_elem(&top, &least);
	if (!t)
		return XDP_ABORTED;
	t->addr = ip->saddr;
	t->count++;
	return XDP_PASS;
}
