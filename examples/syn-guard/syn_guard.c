/* Drops TCP's first packets (SYN without ACK) but to ports 22 and 443, and counts what it lets in and what it drops. */
#include "../headers.h"
#include "../xdp.h"

enum { LET_IN, DROPPED, COUNTS };

struct {
	__uint(type, BPF_MAP_TYPE_ARRAY);
	__uint(max_entries, COUNTS);
	__type(key, __u32);
	__type(value, __u64);
} syns SEC(".maps");

static __always_inline int counted(__u32 key, int action)
{
	__u64 *count = bpf_map_lookup_elem(&syns, &key);

	if (count)
		__sync_fetch_and_add(count, 1);
	return action;
}

SEC("xdp")
int syn_guard(struct xdp_md *ctx)
{
	void *data = (void *)(long)ctx->data;
	void *data_end = (void *)(long)ctx->data_end;
	struct ethhdr *eth = data;
	struct iphdr *ip = (void *)(eth + 1);
	struct tcphdr *tcp;
	unsigned long length;

	if ((void *)(ip + 1) > data_end)
		return XDP_PASS;
	if (eth->h_proto != bpf_htons(ETH_P_IP) || ip->protocol != IPPROTO_TCP)
		return XDP_PASS;
	length = ip->ihl * 4;
	if (length < sizeof(*ip))
		return XDP_DROP;
	tcp = (void *)ip + length;
	if ((void *)(tcp + 1) > data_end)
		return XDP_DROP;
	if (!tcp->syn || tcp->ack)
		return XDP_PASS;
	if (tcp->dest == bpf_htons(22) || tcp->dest == bpf_htons(443))
		return counted(LET_IN, XDP_PASS);
	return counted(DROPPED, XDP_DROP);
}
