/* Counts IGMP by kind; lets reports and leaves through, and drops queries: a guest is no querier. */
#include <linux/bpf.h>
#include <linux/if_ether.h>
#include <linux/igmp.h>
#include <linux/in.h>
#include <linux/ip.h>
#include <bpf/bpf_endian.h>
#include <bpf/bpf_helpers.h>

enum { QUERY, REPORT, LEAVE, OTHER, KINDS };

struct {
	__uint(type, BPF_MAP_TYPE_ARRAY);
	__uint(max_entries, KINDS);
	__type(key, __u32);
	__type(value, __u64);
} kinds SEC(".maps");

static __always_inline void count(__u32 kind)
{
	__u64 *value = bpf_map_lookup_elem(&kinds, &kind);

	if (value)
		__sync_fetch_and_add(value, 1);
}

SEC("xdp")
int igmp_snoop(struct xdp_md *ctx)
{
	void *data_end = (void *)(long)ctx->data_end;
	void *data = (void *)(long)ctx->data;
	struct ethhdr *eth = data;
	struct iphdr *ip = (void *)(eth + 1);
	struct igmphdr *igmp;

	if ((void *)(ip + 1) > data_end)
		return XDP_PASS;
	if (eth->h_proto != bpf_htons(ETH_P_IP) || ip->protocol != IPPROTO_IGMP)
		return XDP_PASS;
	igmp = (void *)ip + ip->ihl * 4;
	if ((void *)(igmp + 1) > data_end) {
		count(OTHER);
		return XDP_DROP;
	}
	switch (igmp->type) {
	case IGMP_HOST_MEMBERSHIP_QUERY:
		count(QUERY);
		return XDP_DROP;
	case IGMP_HOST_MEMBERSHIP_REPORT:
	case IGMPV2_HOST_MEMBERSHIP_REPORT:
	case IGMPV3_HOST_MEMBERSHIP_REPORT:
		count(REPORT);
		return XDP_PASS;
	case IGMP_HOST_LEAVE_MESSAGE:
		count(LEAVE);
		return XDP_PASS;
	}
	count(OTHER);
	return XDP_DROP;
}

char _license[] SEC("license") = "GPL";
