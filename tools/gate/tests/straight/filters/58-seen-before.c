/* HSR: frames that were seen before are dropped, by a window of 64 sequence numbers for 128 sources. */
#include <linux/bpf.h>
#include <linux/if_ether.h>
#include <bpf/bpf_endian.h>
#include <bpf/bpf_helpers.h>

struct hsr {
	__be16 path_size, sequence, proto;
};
struct seen {
	__u64 newest, mask;
};
struct {
	__uint(type, BPF_MAP_TYPE_ARRAY);
	__uint(max_entries, 128);
	__type(key, __u32);
	__type(value, struct seen);
} sources SEC(".maps");
SEC("xdp") int hsr(struct xdp_md *ctx)
{
	void *data = (void *)(long)ctx->data, *data_end = (void *)(long)ctx->data_end;
	struct ethhdr *eth = data;
	struct hsr *h = (void *)(eth + 1);
	if ((void *)(h + 1) > data_end || eth->h_proto != bpf_htons(0x892f))
		return XDP_PASS;
	if ((bpf_ntohs(h->path_size) & 0xfff) > data_end - (void *)h)
		return XDP_DROP;
	__u32 key = (eth->h_source[4] << 8 | eth->h_source[5]) & 127;
	struct seen *s = bpf_map_lookup_elem(&sources, &key);
	if (!s)
		return XDP_ABORTED;
	__u16 seq = bpf_ntohs(h->sequence);
	__s16 ahead = seq - (__u16)s->newest;
	if (s->mask == 0 || ahead > 0) {
		__u64 mask = s->mask && ahead < 64 ? s->mask << ahead : 0;
		s->mask = mask | 1;
		s->newest = seq;
		return XDP_PASS;
	}
	if (ahead <= -64)
		return XDP_DROP;
	__u64 bit = 1ULL << -ahead;
	if (s->mask & bit)
		return XDP_DROP;
	s->mask |= bit;
	return XDP_PASS;
}
