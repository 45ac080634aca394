/* A limit by time: from each of 256 buckets of IPv4 sources four packets at once, and then four a second. The host gives the time. */
#include "../../headers.h"
#include "../../xdp.h"

enum { BUCKETS = 256, SECOND = 1000000000, EACH = SECOND / 4 }; /* the latter two are nanoseconds */

struct {
	__uint(type, BPF_MAP_TYPE_ARRAY);
	__uint(max_entries, BUCKETS);
	__type(key, __u32);
	__type(value, __u64);
} due SEC(".maps");

SEC("xdp")
int limit_by_second(struct xdp_md *ctx)
{
	void *data = (void *)(long)ctx->data, *data_end = (void *)(long)ctx->data_end;
	struct ethhdr *eth = data;
	struct iphdr *ip = (void *)(eth + 1);
	__u64 now = bpf_ktime_get_ns(), next, *end;
	__u32 key;

	if ((void *)(ip + 1) > data_end || eth->h_proto != bpf_htons(ETH_P_IP))
		return XDP_PASS;
	key = (ip->saddr ^ ip->saddr >> 16) * 0x45d9f3b >> 24;
	end = bpf_map_lookup_elem(&due, &key);
	if (!end)
		return XDP_DROP;
	/* each packet takes its part of a second, behind those that passed before: how far that leads is the burst */
	next = *end > now ? *end : now;
	if (next - now > SECOND - EACH)
		return XDP_DROP;
	*end = next + EACH;
	return XDP_PASS;
}
