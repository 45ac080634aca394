/* State by address: each IPv4 source has a budget of 32 packets of UDP to port 53 for each 64 that it sends of other kinds, and 32 to begin
 * with. Sources whose addresses fall into the same one of 256 buckets share it. */
#include "../../headers.h"
#include "../../xdp.h"

enum { BUCKETS = 256, BEGIN = 32, OTHERS = 2 };

struct bucket {
	__u64 others, asked;
};

struct {
	__uint(type, BPF_MAP_TYPE_ARRAY);
	__uint(max_entries, BUCKETS);
	__type(key, __u32);
	__type(value, struct bucket);
} sources SEC(".maps");

/* A number below BUCKETS, of which each bit depends on several of the address. */
static __always_inline __u32 bucket_of(__u32 address)
{
	address ^= address >> 16;
	address *= 0x45d9f3b;
	return address >> 24;
}

static __always_inline int asks_a_name(struct iphdr *ip, void *data_end)
{
	struct udphdr *udp = (void *)ip + sizeof(*ip);

	if (ip->protocol != IPPROTO_UDP || ip->ihl != 5 || (void *)(udp + 1) > data_end)
		return 0;
	return udp->dest == bpf_htons(53);
}

SEC("xdp")
int budget_by_source(struct xdp_md *ctx)
{
	void *data = (void *)(long)ctx->data, *data_end = (void *)(long)ctx->data_end;
	struct ethhdr *eth = data;
	struct iphdr *ip = (void *)(eth + 1);
	struct bucket *bucket;
	__u32 key;

	if ((void *)(ip + 1) > data_end || eth->h_proto != bpf_htons(ETH_P_IP))
		return XDP_PASS;
	key = bucket_of(ip->saddr);
	bucket = bpf_map_lookup_elem(&sources, &key);
	if (!bucket)
		return XDP_DROP;
	if (!asks_a_name(ip, data_end)) {
		bucket->others += 1;
		return XDP_PASS;
	}
	if (bucket->asked * OTHERS >= bucket->others + BEGIN * OTHERS)
		return XDP_DROP;
	bucket->asked += 1;
	return XDP_PASS;
}
